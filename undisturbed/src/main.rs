//! Asks whether the function that a new table has more can change what scripts get: document 02's order 7.
//!
//! undisturbed [--input all|tables|questions] [--names FILE] OLD NEW [QUESTION..]
//!
//! OLD and NEW are tables; a QUESTION is a question, or a folder of them, and `--names` a list of more, `-` for
//! standard input. With `--input` such files are a program's input: the table's length, the table, a question.
//!
//! Standard output has a line on the tables, one or more on each question, and a last one with counts. Standard error
//! has what could not be asked, and every five seconds how far it is.
//!
//! Exit status: 0 the condition holds for each question, or it is refused; 1 it fails for one; 2 wrong usage, tables of
//! which the order promises nothing, a file that cannot be read or is known to be no question, or output that cannot be
//! written.

use std::io::Write;
use std::time::Duration;
use undisturbed::args::Args;
use undisturbed::{run, Ended, To};

const USAGE: &str = "usage: undisturbed [--input all|tables|questions] [--names FILE] OLD NEW [QUESTION..]\n";

const FAILS: i32 = 1;
const NOT_ASKED: i32 = 2;

const EVERY: Duration = Duration::from_secs(5);

/// Says it on standard error, which may be closed or full.
fn say(message: &str) {
    let _ = writeln!(std::io::stderr(), "undisturbed: {message}");
}

fn stop(message: &str) -> ! {
    say(message);
    std::process::exit(NOT_ASKED)
}

fn main() {
    let args = Args::read(std::env::args_os().skip(1));
    let args = args.unwrap_or_else(|message| stop(format!("{message}\n{USAGE}").trim_end()));
    let mut out = std::io::stdout().lock();
    let ended = match args.is_help {
        true => out.write_all(USAGE.as_bytes()).and_then(|()| out.flush()).map(|()| Ended::Holds),
        false => run(&args, To { out: &mut out, say: &mut say, every: EVERY }),
    };
    match ended.unwrap_or_else(|error| stop(&format!("writing: {error}"))) {
        Ended::Holds => {}
        Ended::Fails => std::process::exit(FAILS),
        Ended::NotAsked => std::process::exit(NOT_ASKED),
    }
}
