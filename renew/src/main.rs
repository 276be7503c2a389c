//! Writes a table of the older form anew, with 65,535 in both interface places of each class record.
//!
//! renew [--content table|input] [--older] [--from FILE] [--to FILE]
//!
//! What is read is a table alone, or with `--content input` a program's input, whose question stays as it is. Without
//! `--from` it is read from standard input, without `--to` it is written to standard output. One that was refused in the
//! older form is no older table: nothing is written then, and standard error says which record it is, at which byte, and
//! why. Nor is one written that both forms accept, unless `--older` says that it is an older one. Standard error also says
//! where a table has no class record, so that it stays as it is, and where the new one passes 60,000 bytes; both are
//! written.
//!
//! Exit status: 0 written; 1 no older table, one of both forms, a cut input, one whose length field has no room for the new
//! table, or nothing on standard input; 2 wrong options; 3 a file that cannot be read or written.

use renew::args::{Args, Content};
use renew::file::write_file;
use renew::{renew, renew_input, renew_older, renew_older_input, NotRenewed, Renewed, RenewedInput};
use std::io::{Read, Write};
use std::path::PathBuf;

const USAGE: &str = "usage: renew [--content table|input] [--older] [--from FILE] [--to FILE]\n";

const NOT_RENEWED: i32 = 1;
const WRONG_OPTIONS: i32 = 2;
const NO_FILE: i32 = 3;

/// Says it on standard error, which may be closed or full.
fn say(message: &str) {
    let _ = writeln!(std::io::stderr(), "renew: {message}");
}

fn stop(message: &str, status: i32) -> ! {
    say(message);
    std::process::exit(status)
}

fn read(from: &Option<PathBuf>) -> std::io::Result<Vec<u8>> {
    if let Some(file) = from {
        return std::fs::read(file);
    }
    let mut bytes = Vec::new();
    std::io::stdin().read_to_end(&mut bytes)?;
    Ok(bytes)
}

fn write(to: &Option<PathBuf>, bytes: &[u8]) -> std::io::Result<()> {
    if let Some(file) = to {
        return write_file(file, bytes);
    }
    let mut out = std::io::stdout();
    out.write_all(bytes)?;
    out.flush()
}

/// What is written, and its table.
fn renewed(bytes: &[u8], content: Content, is_older: bool) -> Result<(Vec<u8>, Renewed), NotRenewed> {
    let alone = |table: Renewed| (table.table.clone(), table);
    let with_question = |new: RenewedInput| (new.input, new.table);
    match (content, is_older) {
        (Content::Table, false) => renew(bytes).map(alone),
        (Content::Table, true) => renew_older(bytes).map(alone).map_err(NotRenewed::NotOlder),
        (Content::Input, false) => renew_input(bytes).map(with_question),
        (Content::Input, true) => renew_older_input(bytes).map(with_question),
    }
}

/// Why the bytes are not written anew, and what may help.
fn refusal(why: &NotRenewed, bytes: &[u8], args: &Args) -> String {
    let other = if args.content == Content::Table { Content::Input } else { Content::Table };
    let hint = match (why, renewed(bytes, other, args.is_older)) {
        (NotRenewed::BothForms, _) => "; with --older it is taken for an older one",
        (_, Ok(_)) if other == Content::Input => "; as a program's input (--content input) it would be written anew",
        (_, Ok(_)) => "; as a table alone (--content table) it would be written anew",
        _ => "",
    };
    let counted = match (why, args.content) {
        (NotRenewed::NotOlder(_), Content::Input) => "the input's table, which begins behind 2 bytes, is ",
        _ => "",
    };
    format!("{counted}{why}{hint}")
}

/// What is said of a table that was written.
fn remark(table: &Renewed) -> Option<String> {
    if table.is_too_long() {
        let length = table.table.len();
        return Some(format!("the new table has {length} bytes, over 60,000: the judge will refuse it with number 1"));
    }
    (table.classes == 0).then(|| String::from("no class record: the table is as it was"))
}

fn main() {
    let args = Args::read(std::env::args_os().skip(1));
    let args = args.unwrap_or_else(|message| stop(format!("{message}\n{USAGE}").trim_end(), WRONG_OPTIONS));
    let not_written = |error| stop(&format!("writing: {error}"), NO_FILE);
    if args.is_help {
        write(&None, USAGE.as_bytes()).unwrap_or_else(not_written);
        return;
    }
    let bytes = read(&args.from).unwrap_or_else(|error| stop(&format!("reading: {error}"), NO_FILE));
    if bytes.is_empty() && args.from.is_none() {
        stop("nothing on standard input; a table without a byte is taken from a file (--from)", NOT_RENEWED);
    }
    let new = renewed(&bytes, args.content, args.is_older);
    let (new, table) = new.unwrap_or_else(|why| stop(&refusal(&why, &bytes, &args), NOT_RENEWED));
    write(&args.to, &new).unwrap_or_else(not_written);
    if let Some(said) = remark(&table) {
        say(&said);
    }
}
