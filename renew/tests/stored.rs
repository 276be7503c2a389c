//! The answers that were stored before order 6 (`older/answers.txt`), and its samples: each table is written anew, and the
//! second reading gives the old answer, of both forms.

use reading::answer::{print_answer, split_input, BUFFER};
use reading::gen::Profile;
use reading::hex::unhex;
use reading::words::table::ClassForm;
use reading::words::{lent, printed, said, said_of};
use reading::Said;
use renew::{renew, renew_input, NotRenewed};
use std::collections::HashMap;
use std::path::{Path, PathBuf};

struct Stored {
    name: String,
    table: Vec<u8>,
    question: Vec<u8>,
    /// What the program printed.
    printed: String,
}

/// The cases of a file of stored answers.
fn stored(path: &Path) -> Vec<Stored> {
    let text = std::fs::read_to_string(path).unwrap_or_else(|e| panic!("{}: {e}", path.display()));
    let case = |line: &str| {
        let parts: Vec<&str> = line.splitn(4, ' ').collect();
        let bytes = |i: usize| unhex(parts[i]).expect("hex");
        let printed = parts[3].replace('/', "\n") + "\n";
        Stored { name: parts[0].to_string(), table: bytes(1), question: bytes(2), printed }
    };
    text.lines().filter(|line| !line.starts_with('#')).map(case).collect()
}

fn folder(name: &str) -> PathBuf {
    Path::new(env!("CARGO_MANIFEST_DIR")).join(name)
}

fn older() -> Vec<Stored> {
    stored(&folder("tests/older/answers.txt"))
}

/// What the program prints of what is said.
fn print(said: &Said) -> String {
    let mut buffer = vec![0; BUFFER];
    let answer = lent::answer(said, &mut buffer);
    print_answer(&answer, &buffer)
}

fn number(printed: &str) -> u8 {
    printed.split(' ').next().expect("a number").parse().expect("a number")
}

#[test]
fn each_stored_table_anew_gives_its_old_answer() {
    let (mut refused, mut written, mut with_classes) = ([0; 8], 0, 0);
    let cases = older();
    for case in &cases {
        assert_eq!(print(&said_of(&case.table, &case.question, ClassForm::Older)), case.printed, "{}", case.name);
        match renew(&case.table) {
            Err(NotRenewed::NotOlder(why)) => {
                assert_eq!(why.number, number(&case.printed), "{}", case.name);
                refused[why.number as usize] += 1;
            }
            Err(why) => panic!("{}: {why}", case.name),
            Ok(renewed) => {
                assert!(!(1..=7).contains(&number(&case.printed)), "{}", case.name);
                assert_eq!(printed(&renewed.table, &case.question), case.printed, "{}", case.name);
                written += 1;
                with_classes += (renewed.classes > 0) as usize;
            }
        }
    }
    println!("{} cases: refused {refused:?}, written {written}, {with_classes} of them with classes", cases.len());
    assert_eq!((cases.len(), refused[1..].iter().sum::<usize>() + written), (6_827, 6_827));
    assert!(refused[2..].iter().all(|count| *count > 0) && with_classes > 1_000);
}

/// Each sample of before, whose bytes the text form wrote, is by this program what the text form writes today.
#[test]
fn each_sample_anew_is_the_one_of_today() {
    let mut count = 0;
    for entry in std::fs::read_dir(folder("tests/older")).expect("a folder") {
        let path = entry.expect("a file").path();
        if path.extension().is_some_and(|e| e == "bin") {
            let (before, name) = (std::fs::read(&path).expect("a sample"), path.file_name().expect("a name"));
            let now = std::fs::read(folder("../samples").join(name)).expect("a sample of today");
            let renewed = renew_input(&before).expect("an older table");
            assert!(renewed.input == now, "{}", path.display());
            assert_ne!(before, now);
            let ((older, question), (new, same)) = (split_input(&before), split_input(&now));
            assert_eq!(question, same);
            assert_eq!(said_of(older, question, ClassForm::Older), said(new, question), "{}", path.display());
            count += 1;
        }
    }
    assert_eq!(count, 22);
}

/// Each case of before that was written by hand is stored today with the same question and answer: under its table anew, or, if
/// that was refused, with the same number. A generated case whose input is that of before anew has its old answer.
#[test]
fn the_stored_cases_of_today_are_those_of_before_anew() {
    let cases = stored(&folder("../samples/answers.txt"));
    let now: HashMap<&str, &Stored> = cases.iter().map(|case| (case.name.as_str(), case)).collect();
    let (mut written, mut refused, mut generated) = (0, 0, 0);
    for case in older() {
        let by_hand = Profile::by_name(case.name.split('.').next().expect("a part")).is_none();
        let today = now.get(case.name.as_str()).filter(|new| new.question == case.question);
        let today = match renew(&case.table) {
            Ok(renewed) => today.filter(|new| new.table == renewed.table),
            Err(_) => today.filter(|_| by_hand),
        };
        let Some(new) = today else {
            assert!(!by_hand, "{} is not there", case.name);
            continue;
        };
        assert_eq!(new.printed, case.printed, "{}", case.name);
        generated += !by_hand as usize;
        refused += (1..=7).contains(&number(&case.printed)) as usize;
        written += (by_hand && !(1..=7).contains(&number(&case.printed))) as usize;
    }
    println!("by hand: {written} written anew, {refused} refused; generated: {generated}");
    assert_eq!((written, refused), (1_730, 817));
    assert!(generated > 2_000);
}
