//! The program's words.

use std::ffi::{OsStr, OsString};
use std::path::PathBuf;

#[derive(Debug, Clone, PartialEq, Eq, Default)]
pub struct Args {
    /// The table without the function, and the one with it.
    pub old: PathBuf,
    pub new: PathBuf,
    /// Files and folders of questions.
    pub questions: Vec<PathBuf>,
    /// A file with the names of more; `-` is standard input.
    pub names: Option<PathBuf>,
    /// What is a program's input: the table's length, the table, a question.
    pub input: Input,
    /// Whether the usage is printed, and nothing else done.
    pub is_help: bool,
}

/// Which files are a program's input.
#[derive(Debug, Clone, Copy, PartialEq, Eq, Default)]
pub struct Input {
    pub tables: bool,
    pub questions: bool,
}

impl Args {
    /// Options may stand anywhere; behind `--` there are none. The error says what is wrong.
    pub fn read(words: impl IntoIterator<Item = OsString>) -> Result<Args, String> {
        let (mut args, mut files, mut seen) = (Args::default(), Vec::new(), Vec::new());
        let mut words = words.into_iter();
        while let Some(word) = words.next() {
            if word == "--" {
                files.extend(words.by_ref());
            } else if word.len() == 1 || !word.as_encoded_bytes().starts_with(b"-") {
                files.push(word);
            } else if seen.contains(&word) {
                return Err(format!("the option {} stands twice", word.to_string_lossy()));
            } else {
                args.set(&word, &mut words)?;
                seen.push(word);
            }
        }
        if !args.is_help {
            args.take(files)?;
        }
        Ok(args)
    }

    /// Takes an option, and its value from the words behind it.
    fn set(&mut self, option: &OsStr, behind: &mut impl Iterator<Item = OsString>) -> Result<(), String> {
        let mut value =
            || behind.next().ok_or_else(|| format!("the option {} without a value", option.to_string_lossy()));
        match option.to_str() {
            Some("--help") => self.is_help = true,
            Some("--names") => self.names = Some(value()?.into()),
            Some("--input") => self.input = input(&value()?)?,
            _ => return Err(format!("unknown option {}", option.to_string_lossy())),
        }
        Ok(())
    }

    /// The words that are no options.
    fn take(&mut self, files: Vec<OsString>) -> Result<(), String> {
        let mut files = files.into_iter().map(PathBuf::from);
        let (Some(old), Some(new)) = (files.next(), files.next()) else {
            return Err(String::from("two tables are needed"));
        };
        (self.old, self.new, self.questions) = (old, new, files.collect());
        if self.questions.is_empty() && self.names.is_none() {
            return Err(String::from("no question"));
        }
        Ok(())
    }
}

fn input(word: &OsStr) -> Result<Input, String> {
    match word.to_str() {
        Some("all") => Ok(Input { tables: true, questions: true }),
        Some("tables") => Ok(Input { tables: true, questions: false }),
        Some("questions") => Ok(Input { tables: false, questions: true }),
        _ => Err(format!("{} is none of all, tables and questions", word.to_string_lossy())),
    }
}
