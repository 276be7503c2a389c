//! The program: files, standard input and output, exit status, what it says.

mod common;

use common::process::*;
use common::*;
use std::ffi::OsStr;
use std::fs::{File, Permissions};
use std::os::unix::ffi::OsStrExt;
use std::os::unix::fs::{symlink, PermissionsExt};
use std::path::{Path, PathBuf};
use std::process::Command;

const USAGE: &str = "usage: renew [--content table|input] [--older] [--from FILE] [--to FILE]\n";
const PROGRAM: &str = env!("CARGO_BIN_EXE_renew");

fn run<S: AsRef<OsStr>>(args: &[S], input: &[u8]) -> Ended {
    ended(Command::new(PROGRAM).args(args), input)
}

fn run_alone(input: &[u8]) -> Ended {
    run::<&str>(&[], input)
}

/// The program from one file to another.
fn run_files(from: &Path, to: &Path) -> Ended {
    run(&[OsStr::new("--from"), from.as_os_str(), OsStr::new("--to"), to.as_os_str()], &[])
}

/// A shell's line, in which `$0` is the program and `$1` a file.
fn shell(line: &str, file: &Path) -> Ended {
    ended(Command::new("sh").args(["-c", line, PROGRAM]).arg(file), &[])
}

fn bytes(path: &Path) -> Vec<u8> {
    std::fs::read(path).expect("a file")
}

fn mode(path: &Path) -> u32 {
    std::fs::metadata(path).expect("a file").permissions().mode() & 0o7777
}

fn older() -> Vec<u8> {
    [names(2), older_class(40, 41, NONE, true), other_records()].concat()
}

fn new() -> Vec<u8> {
    [names(2), class(40, [41, NONE, NONE], NONE, true), other_records()].concat()
}

fn input(table: &[u8]) -> Vec<u8> {
    reading::join_input(table, &[1, 2, 3]).expect("room for the table")
}

fn written(bytes: Vec<u8>) -> Ended {
    (Some(0), bytes, String::new())
}

fn stopped(status: i32, said: &str) -> Ended {
    (Some(status), vec![], format!("renew: {said}\n"))
}

#[test]
fn a_table_from_standard_input() {
    assert_eq!(run_alone(&older()), written(new()));
    assert_eq!(run(&["--content", "table"], &older()), written(new()));
}

#[test]
fn an_input_from_standard_input() {
    let args = ["--content", "input"];
    assert_eq!(run(&args, &input(&older())), written(input(&new())));
    assert_eq!(run(&args, &input(&older())[..20]), stopped(1, "no input: the bytes end before the table does"));
}

/// A table without class records is written as it is; what was asked for is not there.
#[test]
fn a_table_without_a_class_record() {
    let folder = Folder::new("without");
    let remark = String::from("renew: no class record: the table is as it was\n");
    let table = [names(2), other_records()].concat();
    assert_eq!(run_alone(&table), (Some(0), table.clone(), remark.clone()));
    assert_eq!(run(&["--content", "input"], &input(&table)), (Some(0), input(&table), remark.clone()));
    assert_eq!(run(&["--content", "input"], &input(&[])), (Some(0), input(&[]), remark.clone()));
    let (from, to) = (folder.file("from", &[]), folder.file("to", b"before"));
    assert_eq!(run_files(&from, &to), (Some(0), vec![], remark));
    assert!(bytes(&to).is_empty());
}

/// A program that failed before this one in a pipe has written nothing.
#[test]
fn nothing_on_standard_input() {
    let folder = Folder::new("nothing");
    let kept = folder.file("kept", b"before");
    let stop = stopped(1, "nothing on standard input; a table without a byte is taken from a file (--from)");
    assert_eq!(run(&[OsStr::new("--to"), kept.as_os_str()], &[]), stop);
    assert_eq!(bytes(&kept), b"before");
    assert_eq!(run_alone(&[]), stop);
    assert_eq!(run(&["--content", "input"], &[]), stop);
}

#[test]
fn files() {
    let folder = Folder::new("files");
    let (from, to) = (folder.file("from", &older()), folder.file("to", b"before"));
    assert_eq!(run_files(&from, &to), written(vec![]));
    assert_eq!((bytes(&from), bytes(&to)), (older(), new()));
    // One file for both.
    assert_eq!(run_files(&from, &from), written(vec![]));
    assert_eq!(bytes(&from), new());
    // What was written is refused, and both files stay.
    assert_eq!(
        run_files(&from, &to),
        stopped(
            1,
            "no table of the older form: record 2 at byte 52 (counted from 0): 2, malformed or cut record; it has \
             today's form already"
        )
    );
    assert_eq!((bytes(&from), bytes(&to)), (new(), new()));
    // A new file, and nothing else beside them.
    assert_eq!(run_files(&folder.file("from", &older()), &folder.0.join("new")), written(vec![]));
    assert_eq!((bytes(&folder.0.join("new")), folder.count()), (new(), 3));
}

/// Names that are no text.
#[test]
fn files_of_any_name() {
    let folder = Folder::new("names");
    let from = folder.file(OsStr::from_bytes(b"older \xff\xfe"), &older());
    let to = folder.0.join(OsStr::from_bytes(b"new \xff\n"));
    assert_eq!(run_files(&from, &to), written(vec![]));
    assert_eq!(bytes(&to), new());
    let (status, out, said) = run(&[OsStr::from_bytes(b"--\xff")], &[]);
    assert_eq!((status, out), (Some(2), vec![]));
    assert_eq!(said, format!("renew: unknown option --\u{fffd}\n{USAGE}"));
}

#[test]
fn a_file_keeps_its_permissions_and_a_link_its_file() {
    let folder = Folder::new("permissions");
    for permissions in [0o600, 0o640, 0o755] {
        let file = folder.file("table", &older());
        std::fs::set_permissions(&file, Permissions::from_mode(permissions)).unwrap();
        assert_eq!(run_files(&file, &file), written(vec![]));
        assert_eq!((bytes(&file), mode(&file)), (new(), permissions));
    }
    let (file, link) = (folder.file("table", &older()), folder.0.join("link"));
    symlink("table", &link).unwrap();
    assert_eq!(run_files(&link, &link), written(vec![]));
    assert_eq!((bytes(&file), std::fs::read_link(&link).unwrap()), (new(), PathBuf::from("table")));
    assert_eq!(folder.count(), 2);
}

/// A file may have one block of 512 or 1,024 bytes, and the new table has more: the old one stays whole, alone in its folder.
#[test]
fn a_write_that_fails_leaves_the_old_file() {
    let folder = Folder::new("full");
    let older = [names(100), older_class(40, NONE, NONE, true)].concat();
    let file = folder.file("table", &older);
    let (status, out, said) = shell("trap '' XFSZ; ulimit -f 1; exec \"$0\" --from \"$1\" --to \"$1\"", &file);
    assert_eq!((status, out), (Some(3), vec![]));
    assert!(said.starts_with("renew: writing: "), "{said}");
    assert!(bytes(&file) == older);
    assert_eq!(folder.count(), 1);
    // The same where the signal ends the program.
    assert_ne!(shell("ulimit -f 1; exec \"$0\" --from \"$1\" --to \"$1\"", &file).0, Some(0));
    assert!(bytes(&file) == older);
}

/// /dev/full takes no byte.
#[test]
fn standard_output_that_is_full() {
    let folder = Folder::new("output");
    for older in [older_class(6, NONE, NONE, true), older(), [names(400), older_class(6, NONE, NONE, true)].concat()] {
        let table = folder.file("table", &older);
        is_not_written("\"$0\" < \"$1\" > /dev/full", &table);
        is_not_written("\"$0\" --from \"$1\" --to /dev/full", &table);
    }
    is_not_written("\"$0\" --help > /dev/full", &folder.0);
}

fn is_not_written(line: &str, file: &Path) {
    let (status, out, said) = shell(line, file);
    assert_eq!((status, out), (Some(3), vec![]), "{line}");
    assert!(said.starts_with("renew: writing: "), "{line}: {said}");
}

/// What it says has no place; what it does stands.
#[test]
fn standard_error_that_is_full() {
    let folder = Folder::new("error");
    assert_eq!(shell("\"$0\" --from \"$1\" --to \"$1.new\" 2> /dev/full", &folder.file("table", &names(1))).0, Some(0));
    assert_eq!(bytes(&folder.0.join("table.new")), names(1));
    assert_eq!(shell("\"$0\" --older-than 2> /dev/full", &folder.0).0, Some(2));
}

/// A device is written to, not replaced.
#[test]
fn a_device_stays() {
    let folder = Folder::new("device");
    let table = folder.file("table", &older());
    assert_eq!(run_files(&table, Path::new("/dev/stdout")), written(new()));
    assert_eq!(run_files(&table, Path::new("/dev/null")), written(vec![]));
    assert!(!std::fs::metadata("/dev/null").unwrap().is_file());
}

#[test]
fn a_refused_table_writes_nothing() {
    let place = format!("record 9 at byte {} (counted from 0)", older().len());
    let fault = format!("no table of the older form: {place}: 2, malformed or cut record");
    let table = [older(), vec![9]].concat();
    assert_eq!(run_alone(&table), stopped(1, &fault));
    let counted = "the input's table, which begins behind 2 bytes, is ";
    assert_eq!(run(&["--content", "input"], &input(&table)), stopped(1, &format!("{counted}{fault}")));
}

#[test]
fn a_table_of_both_forms() {
    let folder = Folder::new("both");
    let stop = stopped(
        1,
        "a table of both forms: it can be an older one and one of today; with --older it is taken for an older one",
    );
    let file = folder.file("table", &both_forms());
    assert_eq!(run_files(&file, &file), stop);
    assert!(bytes(&file) == both_forms());
    assert_eq!(run(&["--content", "input"], &input(&both_forms())), stop);
    let anew = renew::renew_older(&both_forms()).unwrap().table;
    assert_eq!(run(&["--older"], &both_forms()), written(anew.clone()));
    assert_eq!(run(&["--older", "--content", "input"], &input(&both_forms())), written(input(&anew)));
    // What is no older table is none with the option either.
    let said = run(&["--older"], &new()).2;
    assert!(said.ends_with(": 2, malformed or cut record; it has today's form already\n"), "{said}");
    assert_eq!(run(&["--older"], &older()), written(new()));
}

/// An input where a table is expected, and the other way.
#[test]
fn the_other_content_gets_a_hint() {
    let (status, out, said) = run_alone(&input(&older()));
    assert_eq!((status, out), (Some(1), vec![]));
    assert!(said.ends_with("record; as a program's input (--content input) it would be written anew\n"), "{said}");
    let hint = "; as a table alone (--content table) it would be written anew\n";
    for table in [older(), [names(20), other_records()].concat(), older_class(6, NONE, NONE, true)] {
        let (status, out, said) = run(&["--content", "input"], &table);
        assert_eq!((status, out), (Some(1), vec![]));
        assert!(said.ends_with(hint), "{said}");
    }
    let neither = run(&["--content", "input"], &new()).2;
    assert!(!neither.contains("--content"), "{neither}");
}

/// 60,000 bytes: it is written, and standard error says what the judge will do.
#[test]
fn a_table_that_passes_60000_bytes() {
    let function = |nullables: usize| [&[4, 255, 255, 6, 0, 0, 0, 0][..], &vec![12; nullables], &[0]].concat();
    let older = [older_class(6, NONE, NONE, true), function(23).repeat(1_874), function(15)].concat();
    assert_eq!(older.len(), 60_000);
    let remark = "renew: the new table has 60004 bytes, over 60,000: the judge will refuse it with number 1\n";
    let (status, out, said) = run_alone(&older);
    assert_eq!((status, out.len(), said.as_str()), (Some(0), 60_004, remark));
    let (status, out, said) = run(&["--content", "input"], &input(&older));
    assert_eq!((status, out.len(), said.as_str()), (Some(0), 2 + 60_004 + 3, remark));
}

#[test]
fn wrong_options() {
    for (args, what) in [
        (&["--from"][..], "the option --from without a value"),
        (&["--older", "--to"], "the option --to without a value"),
        (&["--content", "answer"], "answer is neither table nor input"),
        (&["--out", "x"], "unknown option --out"),
        (&["older.bin", "new.bin"], "unknown option older.bin"),
        (&["--from", "a", "--from", "b"], "the option --from stands twice"),
        (&["--to", "a", "--older", "--to", "a"], "the option --to stands twice"),
        (&["--content", "table", "--content", "input"], "the option --content stands twice"),
        (&["--older", "--older"], "the option --older stands twice"),
    ] {
        assert_eq!(run(args, &older()), (Some(2), vec![], format!("renew: {what}\n{USAGE}")));
    }
}

#[test]
fn help() {
    assert_eq!(run(&["--help"], &[]), written(USAGE.as_bytes().to_vec()));
    assert_eq!(run(&["--older", "--help"], &[]), written(USAGE.as_bytes().to_vec()));
}

#[test]
fn files_that_are_not_there() {
    let folder = Folder::new("missing");
    let missing = folder.0.join("none/file");
    let (status, out, said) = run(&[OsStr::new("--from"), missing.as_os_str()], &[]);
    assert_eq!((status, out), (Some(3), vec![]));
    assert!(said.starts_with("renew: reading: "), "{said}");
    for to in [missing.as_path(), Path::new(""), &folder.0] {
        let (status, out, said) = run(&[OsStr::new("--to"), to.as_os_str()], &older());
        assert_eq!((status, out), (Some(3), vec![]), "{}", to.display());
        assert!(said.starts_with("renew: writing: "), "{said}");
    }
    assert_eq!(folder.count(), 0);
}

/// The file's own permissions count, though another file takes its place. Who may write everything does not see them.
#[test]
fn a_file_that_may_not_be_written() {
    let folder = Folder::new("protected");
    let file = folder.file("table", &older());
    std::fs::set_permissions(&file, Permissions::from_mode(0o400)).unwrap();
    let may_write = File::options().write(true).open(&file).is_ok();
    let expected = if may_write { (Some(0), new()) } else { (Some(3), older()) };
    assert_eq!((run_files(&file, &file).0, bytes(&file)), expected);
}
