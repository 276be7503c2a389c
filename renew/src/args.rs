//! The program's options.

use std::ffi::{OsStr, OsString};
use std::path::PathBuf;

/// What the bytes are.
#[derive(Debug, Clone, Copy, PartialEq, Eq, Default)]
pub enum Content {
    /// A table alone.
    #[default]
    Table,
    /// A program's input: the table's length, the table, a question.
    Input,
}

#[derive(Debug, Clone, PartialEq, Eq, Default)]
pub struct Args {
    pub content: Content,
    /// Whether a table that both forms accept is an older one.
    pub is_older: bool,
    /// The file that is read; standard input where there is none.
    pub from: Option<PathBuf>,
    /// The file that is written; standard output where there is none.
    pub to: Option<PathBuf>,
    /// Whether the usage is printed, and nothing else done.
    pub is_help: bool,
}

impl Args {
    /// The options in turn, each with its value. The error says what is wrong.
    pub fn read(words: impl IntoIterator<Item = OsString>) -> Result<Args, String> {
        let (mut args, mut seen, mut words) = (Args::default(), Vec::new(), words.into_iter());
        while let Some(option) = words.next() {
            if seen.contains(&option) {
                return Err(format!("the option {} stands twice", option.to_string_lossy()));
            }
            args.set(&option, &mut words)?;
            seen.push(option);
        }
        Ok(args)
    }

    /// Takes an option, and its value from the words behind it.
    fn set(&mut self, option: &OsStr, behind: &mut impl Iterator<Item = OsString>) -> Result<(), String> {
        let mut value =
            || behind.next().ok_or_else(|| format!("the option {} without a value", option.to_string_lossy()));
        match option.to_str() {
            Some("--help") => self.is_help = true,
            Some("--older") => self.is_older = true,
            Some("--from") => self.from = Some(value()?.into()),
            Some("--to") => self.to = Some(value()?.into()),
            Some("--content") => self.content = content(&value()?)?,
            _ => return Err(format!("unknown option {}", option.to_string_lossy())),
        }
        Ok(())
    }
}

fn content(word: &OsStr) -> Result<Content, String> {
    match word.to_str() {
        Some("table") => Ok(Content::Table),
        Some("input") => Ok(Content::Input),
        _ => Err(format!("{} is neither table nor input", word.to_string_lossy())),
    }
}
