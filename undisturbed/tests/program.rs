//! The program: its files, what it prints and says, exit status.

mod common;

use common::process::*;
use common::*;
use reading::bytes::*;
use reading::join_input;
use std::ffi::OsStr;
use std::io::{BufWriter, Write};
use std::os::unix::ffi::OsStrExt;
use std::os::unix::fs::symlink;
use std::process::Command;
use std::time::Duration;
use undisturbed::args::Args;
use undisturbed::{run, Ended as How, To};

const USAGE: &str = "usage: undisturbed [--input all|tables|questions] [--names FILE] OLD NEW [QUESTION..]\n";
const MORE: &str =
    "the new table has one function more: record 6 (counted from 0), function words, behind 1 other of its list";
const MALFORMED: &str =
    "refused: 8, over 16,384 bytes, malformed, cut, or bytes behind the tree; the answer is the same \
                         under both tables";

/// A folder with the tables `old` and `new` and with questions.
fn folder(name: &str) -> Folder {
    let folder = Folder::new(name);
    let [old, new] = two_tables();
    folder.file("old", &old);
    folder.file("new", &new);
    folder.file("int", &words(&[INT]));
    folder.file("leaf", &question(&leaf(&[INT])));
    folder.file("none", &[]);
    folder.file("string", &words(&[STRING]));
    folder
}

/// The program in a folder.
fn run_in<S: AsRef<OsStr>>(folder: &Folder, args: &[S], input: &[u8]) -> (Option<i32>, String, String) {
    let (status, out, said) =
        ended(Command::new(env!("CARGO_BIN_EXE_undisturbed")).args(args).current_dir(&folder.0), input);
    (status, String::from_utf8(out).expect("text"), said)
}

/// What it prints of these lines on questions.
fn printed(lines: &[&str], summary: &str) -> String {
    [&[MORE], lines, &[summary]].concat().iter().map(|line| format!("{line}\n")).collect()
}

fn said(lines: &[&str]) -> String {
    lines.iter().map(|line| format!("undisturbed: {line}\n")).collect()
}

const INT_LINE: &str = "int: undisturbed (1 call reads the list)";
const STRING_LINES: [&str; 2] = [
    "string: node 0: call of words: no usable function of the old table matches",
    "string: the answers differ: 0 0 1 00 1/17 1 1 under the old table, 0 0 1 15 1/18 0 0 under the new one",
];

#[test]
fn the_condition_holds_for_each() {
    let folder = folder("holds");
    let lines = [INT_LINE, "leaf: undisturbed (no call reads the list)", &format!("none: {MALFORMED}")];
    let summary =
        "3 questions: 2 undisturbed, 1 refused, 0 where the condition fails (0 with another answer); what is \
                   refused may be no question";
    let expected = (Some(0), printed(&lines, summary), String::new());
    assert_eq!(run_in(&folder, &["old", "new", "int", "leaf", "none"], &[]), expected);
}

/// Questions that begin as an input of an empty table, or of none, would.
#[test]
fn a_refused_question_that_is_no_input() {
    let folder = folder("refused");
    for (name, current) in [("empty", 0), ("none", 3)] {
        folder.file(name, &question_in(current, reading::name::NONE, false, &call(44, &[])));
    }
    let undefined = "refused: 10, undefined id; the answer is the same under both tables";
    let lines = [format!("empty: {undefined}"), format!("none: {undefined}")];
    let summary =
        "2 questions: 0 undisturbed, 2 refused, 0 where the condition fails (0 with another answer); what is \
                   refused may be no question";
    let expected = (Some(0), printed(&[&lines[0], &lines[1]], summary), String::new());
    assert_eq!(run_in(&folder, &["old", "new", "empty", "none"], &[]), expected);
}

#[test]
fn the_condition_fails_for_one() {
    let folder = folder("fails");
    let lines = [INT_LINE, STRING_LINES[0], STRING_LINES[1], INT_LINE];
    let summary = "3 questions: 2 undisturbed, 0 refused, 1 where the condition fails (1 with another answer)";
    let expected = (Some(1), printed(&lines, summary), String::new());
    assert_eq!(run_in(&folder, &["old", "new", "int", "string", "int"], &[]), expected);
    // The condition fails, and the answers are equal.
    let summary = "1 question: 0 undisturbed, 0 refused, 1 where the condition fails (0 with another answer)";
    let [old, new] = [2, 3].map(|count| {
        let lists = [INT, LONG, CHAR].map(|ty| own(INT, GAP, ty));
        library(reading::name::NONE, &lists[..count]).bytes()
    });
    folder.file("old", &old);
    folder.file("new", &new);
    let (status, out, said) = run_in(&folder, &["old", "new", "string"], &[]);
    assert_eq!((status, said), (Some(1), String::new()));
    assert!(out.ends_with(&format!("string: the answers are equal all the same\n{summary}\n")), "{out}");
}

/// One question that is not asked has the status 2, whatever the others say.
#[test]
fn a_question_that_cannot_be_read() {
    let folder = folder("unread");
    let missing = "missing: reading: No such file or directory (os error 2)";
    let summary =
        "1 question: 1 undisturbed, 0 refused, 0 where the condition fails (0 with another answer); 1 not asked";
    let expected = (Some(2), printed(&[INT_LINE], summary), said(&[missing]));
    assert_eq!(run_in(&folder, &["old", "new", "missing", "int"], &[]), expected);
    let (status, out, _) = run_in(&folder, &["old", "new", "string", "missing", "missing"], &[]);
    assert_eq!(status, Some(2));
    assert!(out.ends_with("1 where the condition fails (1 with another answer); 2 not asked\n"), "{out}");
}

#[test]
fn tables_that_cannot_be_read_or_promise_nothing() {
    let folder = folder("tables");
    let stops = |args: &[&str], what: &str| {
        assert_eq!(run_in(&folder, args, &[]), (Some(2), String::new(), said(&[what])), "{args:?}");
    };
    let missing = "reading: No such file or directory (os error 2)";
    stops(&["missing", "new", "int"], &format!("the old table: missing: {missing}"));
    stops(&["old", "missing", "int"], &format!("the new table: missing: {missing}"));
    let not_one_more =
        "nothing is promised of these tables: the new one is not the old one with one record more: the old one has";
    stops(&["old", "old", "int"], &format!("{not_one_more} 6 records, the new one 6; all of them alike"));
    let exchanged = "the old one has more: record 6, function words (counted from 0); perhaps the two are exchanged";
    stops(&["new", "old", "int"], &format!("{not_one_more} 7 records, the new one 6; {exchanged}"));
    let refused = "table is refused: record 0 at byte 0 (counted from 0): 2, malformed or cut record";
    stops(&["int", "new", "int"], &format!("the old {refused}"));
    stops(&["old", "int", "int"], &format!("the new {refused}"));
}

/// The same tables and questions as a program's inputs.
fn inputs(folder: &Folder) {
    let [old, new] = two_tables();
    let input = |name: &str, table: &[u8], question: &[u8]| {
        folder.file(name, &join_input(table, question).expect("room for the table"));
    };
    input("old.bin", &old, &words(&[INT]));
    input("new.bin", &new, &words(&[STRING]));
    input("other.bin", &library(PAGE, &[]).bytes(), &words(&[INT]));
}

#[test]
fn inputs_of_the_judge() {
    let folder = folder("inputs");
    inputs(&folder);
    let summary = "2 questions: 1 undisturbed, 0 refused, 1 where the condition fails (1 with another answer)";
    let both = [INT_LINE, STRING_LINES[0], STRING_LINES[1]];
    let in_inputs = both.map(|line| line.replace("int:", "old.bin:").replace("string:", "new.bin:"));
    let in_inputs = (Some(1), printed(&in_inputs.each_ref().map(String::as_str), summary), String::new());
    assert_eq!(run_in(&folder, &["--input", "all", "old.bin", "new.bin", "old.bin", "new.bin"], &[]), in_inputs);
    assert_eq!(run_in(&folder, &["old", "new", "old.bin", "new.bin", "--input", "questions"], &[]), in_inputs);
    let alone = (Some(1), printed(&both, summary), String::new());
    assert_eq!(run_in(&folder, &["--input", "tables", "old.bin", "new.bin", "int", "string"], &[]), alone);
}

const NONE_ASKED: &str =
    "0 questions: 0 undisturbed, 0 refused, 0 where the condition fails (0 with another answer); 1 not asked";

/// A table with these names and a class.
fn class_with(names: &[&str]) -> Bytes {
    let mut table = Table::with_names(names);
    table.class(40, reading::name::NONE, reading::name::NONE, true);
    table.bytes()
}

/// A question is asked whose input has a table with the first of the old table's names, in their order.
#[test]
fn inputs_with_another_table() {
    let folder = folder("another");
    for (name, names) in [("all", &["words", "gap", "depth", "Page"][..]), ("first", &["words"]), ("none", &[])] {
        let table = if names.is_empty() { vec![] } else { class_with(names) };
        folder.file(name, &join_input(&table, &words(&[INT])).expect("room for the table"));
    }
    let lines = ["all", "first", "none"].map(|name| INT_LINE.replace("int", name));
    let summary = "3 questions: 3 undisturbed, 0 refused, 0 where the condition fails (0 with another answer)";
    let expected = (Some(0), printed(&lines.each_ref().map(String::as_str), summary), String::new());
    let args = ["--input", "questions", "old", "new", "all", "first", "none"];
    assert_eq!(run_in(&folder, &args, &[]), expected);
}

#[test]
fn inputs_with_other_names() {
    let folder = folder("others");
    let [old, _] = two_tables();
    let older = older(&old).expect("no interface");
    let differ = |place: usize, own: &str, old: &str| {
        format!(
            "its ids mean other names: record {place} (counted from 0) is {own} in its table and {old} in the old one"
        )
    };
    for (table, what) in [
        (class_with(&["gap", "words"]), differ(0, "name gap", "name words")),
        (class_with(&["words", "gap", "Page"]), differ(2, "name Page", "name depth")),
        (class_with(&["words", "gap", "depth", "Page", "more"]), differ(4, "name more", "class Page")),
        (
            vec![9],
            String::from("its table is refused: record 0 at byte 0 (counted from 0): 2, malformed or cut record"),
        ),
        (
            older,
            String::from(
                "its table is refused: record 4 at byte 104 (counted from 0): 2, malformed or cut record; it is a \
                 table of before order 6, which renew/ writes anew",
            ),
        ),
    ] {
        folder.file("q", &join_input(&table, &words(&[INT])).expect("room for the table"));
        let expected = (Some(2), printed(&[], NONE_ASKED), said(&[&format!("q: {what}")]));
        assert_eq!(run_in(&folder, &["--input", "questions", "old", "new", "q"], &[]), expected);
    }
}

/// What was said of a table is not said of the next.
#[test]
fn inputs_with_tables_in_turn() {
    let folder = folder("turn");
    inputs(&folder);
    for (name, names) in [("bad", ["gap", "words"]), ("good", ["words", "gap"])] {
        folder.file(name, &join_input(&class_with(&names), &words(&[INT])).expect("room for the table"));
    }
    let (asked, not_asked) = (["good", "old.bin", "good"], "its ids mean other names: record 0 (counted from 0) is");
    let lines = asked.map(|name| INT_LINE.replace("int", name));
    let summary = "3 questions: 3 undisturbed, 0 refused, 0 where the condition fails (0 with another answer)";
    let expected = printed(&lines.each_ref().map(String::as_str), &format!("{summary}; 3 not asked"));
    let args = ["--input", "questions", "old", "new", "bad", "good", "bad", "old.bin", "bad", "good"];
    let (status, out, said) = run_in(&folder, &args, &[]);
    assert_eq!((status, out), (Some(2), expected));
    assert_eq!(said.matches(&format!("undisturbed: bad: {not_asked}")).count(), 3, "{said}");
}

/// No file is taken for what it is not.
#[test]
fn the_other_content() {
    let folder = folder("content");
    inputs(&folder);
    let older = older(&library(PAGE, &[]).bytes()).expect("no interface");
    folder.file("older", &older);
    folder.file("older.bin", &join_input(&older, &words(&[INT])).expect("room for the table"));
    folder.file("table", &library(PAGE, &[]).bytes());
    folder.file("cut.bin", &[200, 0, 1]);
    // As an input it would have no table, and a question that is refused.
    folder.file("empty", &question_in(0, reading::name::NONE, false, &leaf(&[INT])));
    let (is_input, is_table) = ("no question, but a program's input (--input questions)", "no question, but a table");
    let is_question = "no program's input, but a question alone (without --input questions)";
    let cut = "the bytes end before the table does";
    for (input, file, what) in [
        (false, "old.bin", is_input),
        (false, "other.bin", is_input),
        (false, "older.bin", is_input),
        (false, "old", is_table),
        (false, "new", is_table),
        (false, "table", is_table),
        (false, "older", is_table),
        (true, "old", is_table),
        (true, "older", is_table),
        (true, "int", is_question),
        (true, "empty", is_question),
        (true, "cut.bin", cut),
        (true, "none", cut),
    ] {
        let args = [if input { &["--input", "questions"][..] } else { &[] }, &["old", "new", file]].concat();
        let expected = (Some(2), printed(&[], NONE_ASKED), said(&[&format!("{file}: {what}")]));
        assert_eq!(run_in(&folder, &args, &[]), expected, "{args:?}");
    }
}

#[test]
fn tables_that_are_the_other_content() {
    let folder = folder("kinds");
    inputs(&folder);
    folder.file("cut.bin", &[200, 0, 1]);
    folder.file("older.bin", &join_input(&older(&two_tables()[0]).expect("no interface"), &[]).expect("room"));
    let malformed = "table is refused: record 0 at byte 0 (counted from 0): 2, malformed or cut record";
    let hint = "this is a program's input (--input tables)";
    let (cut, alone) = ("the bytes end before the table does", "this is a table alone (without --input)");
    for (args, what) in [
        (&["old.bin", "new", "int"][..], format!("the old {malformed}; {hint}")),
        (&["old", "new.bin", "int"], format!("the new {malformed}; {hint}")),
        (&["older.bin", "new", "int"], format!("the old {malformed}; {hint}")),
        (&["old", "cut.bin", "int"], format!("the new {malformed}")),
        (&["--input", "tables", "old", "new.bin", "int"], format!("the old table: old: {cut}; {alone}")),
        (&["--input", "tables", "none", "new.bin", "int"], format!("the old table: none: {cut}")),
        (&["--input", "all", "old.bin", "cut.bin", "int"], format!("the new table: cut.bin: {cut}")),
    ] {
        assert_eq!(run_in(&folder, args, &[]), (Some(2), String::new(), said(&[&what])), "{args:?}");
    }
}

#[test]
fn a_folder_of_questions() {
    let folder = folder("folder");
    let sub = folder.0.join("q");
    std::fs::create_dir_all(sub.join("b/deep")).unwrap();
    std::fs::create_dir(sub.join("empty")).unwrap();
    for name in ["c", "a", "b/deep/z", "b/y"] {
        std::fs::write(sub.join(name), words(&[INT])).unwrap();
    }
    symlink("../int", sub.join("link")).unwrap();
    let lines = ["q/a", "q/b/deep/z", "q/b/y", "q/c", "q/link"].map(|name| INT_LINE.replace("int", name));
    let lines = lines.each_ref().map(String::as_str);
    let summary = "5 questions: 5 undisturbed, 0 refused, 0 where the condition fails (0 with another answer)";
    assert_eq!(run_in(&folder, &["old", "new", "q"], &[]), (Some(0), printed(&lines, summary), String::new()));
    // A link to a folder, one to nothing, and what is neither a file nor a folder.
    symlink("..", sub.join("up")).unwrap();
    symlink("nowhere", sub.join("d")).unwrap();
    assert!(Command::new("mkfifo").arg(sub.join("pipe")).status().unwrap().success());
    let not_asked = said(&[
        "q/d: reading: No such file or directory (os error 2)",
        "q/pipe: neither a file nor a folder",
        "q/up: a link to a folder, which is not followed",
    ]);
    let summary = format!("{summary}; 3 not asked");
    assert_eq!(run_in(&folder, &["old", "new", "q"], &[]), (Some(2), printed(&lines, &summary), not_asked));
    let expected = (Some(2), printed(&[], NONE_ASKED), said(&["q/empty: no file in this folder"]));
    assert_eq!(run_in(&folder, &["old", "new", "q/empty"], &[]), expected);
}

#[test]
fn a_list_of_names() {
    let folder = folder("names");
    std::fs::create_dir(folder.0.join("q")).unwrap();
    std::fs::write(folder.0.join("q/two\nlines"), words(&[INT])).unwrap();
    let [two, leaf] =
        ["\"q/two\\nlines\": undisturbed (1 call reads the list)", "leaf: undisturbed (no call reads the list)"];
    let holds = |count: usize, lines: &[&str]| {
        let summary = format!("{count} undisturbed, 0 refused, 0 where the condition fails (0 with another answer)");
        let questions = if count == 1 { "1 question" } else { &format!("{count} questions") };
        (Some(0), printed(lines, &format!("{questions}: {summary}")), String::new())
    };
    let args = ["--names", "-", "old", "new"];
    assert_eq!(run_in(&folder, &args, b"int\nleaf\n"), holds(2, &[INT_LINE, leaf]));
    assert_eq!(run_in(&folder, &args, b"int\nleaf"), holds(2, &[INT_LINE, leaf]));
    assert_eq!(run_in(&folder, &args, b"q\n"), holds(1, &[two]));
    assert_eq!(run_in(&folder, &args, b"q/two\nlines\0int\0"), holds(2, &[two, INT_LINE]));
    assert_eq!(run_in(&folder, &args, b"int\0leaf"), holds(2, &[INT_LINE, leaf]));
    // From a file, behind what the words name.
    folder.file("list", b"int\n");
    assert_eq!(run_in(&folder, &["old", "--names", "list", "new", "leaf"], &[]), holds(2, &[leaf, INT_LINE]));
}

/// A name that is none is one question not asked, and the others are asked.
#[test]
fn a_name_that_is_none() {
    let folder = folder("nameless");
    folder.file(OsStr::from_bytes(b"q\xff"), &words(&[INT]));
    let args = ["--names", "-", "old", "new"];
    let none = |names: &[u8], lines: &[&str], summary: &str, what: &str| {
        assert_eq!(run_in(&folder, &args, names), (Some(2), printed(lines, summary), said(&[what])), "{names:?}");
    };
    let one = NONE_ASKED.replace("0 questions: 0", "1 question: 1");
    none(b"\n", &[], NONE_ASKED, "the list -: name 1 is empty");
    none(b"\nint\n", &[INT_LINE], &one, "the list -: name 1 is empty");
    none(b"int\n\n", &[INT_LINE], &one, "the list -: name 2 is empty");
    none(b"int\0\0", &[INT_LINE], &one, "the list -: name 2 is empty");
    none(b"gone\nint\n", &[INT_LINE], &one, "gone: reading: No such file or directory (os error 2)");
    // Bytes that are no text.
    let line = INT_LINE.replace("int", "\"q\\xFF\"");
    let summary = "2 questions: 2 undisturbed, 0 refused, 0 where the condition fails (0 with another answer)";
    let expected = (Some(0), printed(&[&line, INT_LINE], summary), String::new());
    assert_eq!(run_in(&folder, &args, b"q\xff\nint\n"), expected);
}

/// Nothing is asked.
#[test]
fn a_list_that_is_none() {
    let folder = folder("listless");
    let stops = |list: &str, names: &[u8], what: &str| {
        let args = ["--names", list, "old", "new", "int"];
        assert_eq!(run_in(&folder, &args, names), (Some(2), String::new(), said(&[what])), "{list}");
    };
    stops("missing", b"", "the list missing cannot be read: No such file or directory (os error 2)");
    stops("-", b"", "the list - has no name");
    stops("none", b"", "the list none has no name");
}

/// Names that are no text, and names that look like options.
#[test]
fn files_of_any_name() {
    let folder = folder("any");
    let odd = OsStr::from_bytes(b"old \xff");
    folder.file(OsStr::from_bytes(b"q\xff"), &words(&[INT]));
    folder.file(odd, &two_tables()[0]);
    folder.file("--input", &words(&[INT]));
    folder.file("-", &words(&[INT]));
    let args =
        [odd, OsStr::new("new"), OsStr::new("-"), OsStr::new("--"), OsStr::from_bytes(b"q\xff"), OsStr::new("--input")];
    let lines = ["-", "\"q\\xFF\"", "--input"].map(|name| INT_LINE.replace("int", name));
    let summary = "3 questions: 3 undisturbed, 0 refused, 0 where the condition fails (0 with another answer)";
    let lines = lines.each_ref().map(String::as_str);
    assert_eq!(run_in(&folder, &args, &[]), (Some(0), printed(&lines, summary), String::new()));
}

#[test]
fn wrong_usage() {
    let folder = folder("usage");
    for (args, what) in [
        (&[][..], "two tables are needed"),
        (&["old"], "two tables are needed"),
        (&["old", "new"], "no question"),
        (&["--names", "list", "old"], "two tables are needed"),
        (&["old", "new", "int", "--names"], "the option --names without a value"),
        (&["--input", "table", "old", "new", "int"], "table is none of all, tables and questions"),
        (&["-i", "old", "new", "int"], "unknown option -i"),
        (&["--input", "all", "old", "new", "int", "--input", "all"], "the option --input stands twice"),
    ] {
        let expected = (Some(2), String::new(), format!("undisturbed: {what}\n{USAGE}"));
        assert_eq!(run_in(&folder, args, &[]), expected, "{args:?}");
    }
    assert_eq!(run_in(&folder, &["--help"], &[]), (Some(0), String::from(USAGE), String::new()));
}

/// /dev/full takes no byte.
#[test]
fn output_that_is_full() {
    let folder = folder("full");
    let shell = |line: &str| {
        let program = env!("CARGO_BIN_EXE_undisturbed");
        ended(Command::new("sh").args(["-c", line, program]).current_dir(&folder.0), &[])
    };
    for line in ["\"$0\" old new int > /dev/full", "\"$0\" --help > /dev/full"] {
        let (status, _, said) = shell(line);
        assert_eq!(status, Some(2), "{line}");
        assert!(said.starts_with("undisturbed: writing: "), "{said}");
    }
    assert_eq!(shell("\"$0\" old new missing 2> /dev/full").0, Some(2));
    assert_eq!(shell("\"$0\" old new int 2> /dev/full").0, Some(0));
}

/// A run on these questions: what is printed to a writer, and what is said beside it.
fn run_to(folder: &Folder, questions: &[&str], out: &mut dyn Write, every: Duration) -> (How, Vec<String>) {
    let path = |name: &&str| folder.0.join(name).into_os_string();
    let args = Args::read([&["old", "new"], questions].concat().iter().map(path)).expect("the words are right");
    let mut told = Vec::new();
    let mut say = |message: &str| told.push(message.to_string());
    let how = run(&args, To { out, say: &mut say, every }).expect("all is printed");
    (how, told)
}

/// Takes its time with the line on the tables.
#[derive(Default)]
struct Slow {
    bytes: Vec<u8>,
}

const WHILE: Duration = Duration::from_millis(1_000);

impl Write for Slow {
    fn write(&mut self, bytes: &[u8]) -> std::io::Result<usize> {
        if self.bytes.is_empty() {
            std::thread::sleep(WHILE + Duration::from_millis(100));
        }
        self.bytes.write(bytes)
    }

    fn flush(&mut self) -> std::io::Result<()> {
        Ok(())
    }
}

#[test]
fn a_long_run_says_how_far_it_is() {
    let folder = folder("progress");
    let questions = ["int", "string", "leaf"];
    // Before each question, as no time has to go by.
    let mut out = BufWriter::new(Vec::new());
    let (how, told) = run_to(&folder, &questions, &mut out, Duration::ZERO);
    assert_eq!((how, told.len()), (How::Fails, 3));
    assert!(told[2].starts_with("2 of 3 questions, ") && told[2].ends_with(" s"), "{told:?}");
    assert!(out.get_ref().ends_with(b"(1 with another answer)\n"));
    assert_eq!(run_to(&folder, &questions, &mut out, Duration::from_secs(3_600)), (How::Fails, vec![]));
}

/// Once in so long, and not from then on before each question.
#[test]
fn a_long_run_says_it_once_in_so_long() {
    let folder = folder("slow");
    let (how, told) = run_to(&folder, &["missing", "int", "leaf", "int"], &mut Slow::default(), WHILE);
    assert_eq!((how, told.len()), (How::NotAsked, 2), "{told:?}");
    assert!(told[0].starts_with("0 of 4 questions, "), "{told:?}");
}
