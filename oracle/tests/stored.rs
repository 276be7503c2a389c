//! The stored answers are what the oracle says today.

use oracle::in_domain;
use oracle::sample::{files, replayed, BINARY, BY_RUST, BY_WORDS, REPLAYED, TEXT};
use reading::hex::{hex, unhex};
use std::collections::{BTreeSet, HashSet};
use std::path::PathBuf;
use std::sync::OnceLock;

/// The text and the binary form as they are made today.
fn made() -> &'static (String, Vec<u8>) {
    static MADE: OnceLock<(String, Vec<u8>)> = OnceLock::new();
    MADE.get_or_init(files)
}

fn place(file: &str) -> PathBuf {
    PathBuf::from(env!("CARGO_MANIFEST_DIR")).join("..").join(file)
}

#[test]
fn the_stored_files_are_what_the_oracle_says() {
    let (text, binary) = made();
    let stored_text = std::fs::read_to_string(place(TEXT)).expect(TEXT);
    for (i, (line, now)) in stored_text.lines().zip(text.lines()).enumerate() {
        assert_eq!(line, now, "line {} (made anew by: cargo run --release --bin samples)", i + 1);
    }
    assert!(stored_text == *text, "the text has another length");
    assert!(std::fs::read(place(BINARY)).expect(BINARY) == *binary);
    assert_eq!(std::fs::read_to_string(place(REPLAYED)).expect(REPLAYED), replayed(text));
    assert!(text.len() + binary.len() < 4_500_000);
}

#[test]
fn there_are_at_least_3000_cases_and_each_has_its_own_name() {
    let all: Vec<&str> = made().0.lines().filter(|l| !l.starts_with('#')).collect();
    let names: HashSet<&str> = all.iter().filter_map(|l| l.split(' ').next()).collect();
    assert!(all.len() >= 3_000 && names.len() == all.len());
    assert!(names.iter().all(|n| n.bytes().all(|c| c.is_ascii_graphic())));
    let marked = names.iter().filter(|n| n.contains(".marked.")).count();
    // One per mark of document 01.
    assert_eq!(marked, 13);
}

/// The cases of a part of the text: name, table, question.
fn cases(part: &'static str) -> Vec<(&'static str, Vec<u8>, Vec<u8>)> {
    let bytes = |field: Option<&str>| field.and_then(unhex).expect("bytes in hex");
    let case = |line: &'static str| {
        let mut fields = line.split(' ');
        (fields.next().expect("a name"), bytes(fields.next()), bytes(fields.next()))
    };
    part.lines().filter(|l| !l.starts_with('#')).map(case).collect()
}

/// The file says whose answer each is: the Rust's inside its domain, the second reading's outside.
#[test]
fn the_second_part_is_what_is_outside_the_rusts_domain() {
    let (head, rest) = made().0.split_once(BY_RUST).expect("the line that begins the first part");
    let (by_rust, by_words) = rest.split_once(BY_WORDS).expect("the line that begins the second part");
    assert!(cases(head).is_empty());
    let (by_rust, by_words) = (cases(by_rust), cases(by_words));
    for (name, table, question) in &by_rust {
        assert!(in_domain(table, question), "{}", name);
    }
    for (name, table, question) in &by_words {
        assert!(!in_domain(table, question), "{}", name);
    }
    let of = |cases: &[(&str, Vec<u8>, Vec<u8>)], front: &str| cases.iter().filter(|c| c.0.starts_with(front)).count();
    for (front, least) in [
        ("order2.", 1),
        ("order3.", 200),
        ("order4.", 30),
        ("order5.", 500),
        ("order6.", 40),
        ("arguments.", 80),
        ("own-parameters.", 10),
        ("arrays.", 100),
        ("array-sizes.", 100),
        ("names.", 100),
        ("classes.", 60),
        ("below.", 40),
        ("calls.", 15),
        ("outside.", 30),
    ] {
        assert!(of(&by_rust, front) >= least, "{}{}", front, of(&by_rust, front));
    }
    for (front, least) in [
        ("order2.", 200),
        ("order4.", 120),
        ("order5.", 350),
        ("order6.", 200),
        ("interfaces.", 150),
        ("arguments.", 60),
        ("own-parameters.", 60),
        ("arrays.", 60),
        ("array-sizes.", 50),
        ("classes.", 60),
        ("below.", 40),
        ("calls.", 200),
        ("outside.", 20),
    ] {
        assert!(of(&by_words, front) >= least, "{}{}", front, of(&by_words, front));
    }
}

/// Number 13 is drawn by no input.
#[test]
fn each_number_from_0_to_12_is_drawn_by_some_case() {
    let number = |line: &str| line.split(' ').nth(3).and_then(|n| n.parse::<u8>().ok());
    let drawn: BTreeSet<u8> = made().0.lines().filter(|l| !l.starts_with('#')).filter_map(number).collect();
    assert_eq!(drawn, (0..=12).collect());
}

#[test]
fn each_line_reads_back() {
    let (text, binary) = made();
    let mut at = 0;
    let mut part = || {
        let len = u16::from_le_bytes([binary[at], binary[at + 1]]) as usize;
        at += 2 + len;
        binary[at - len..at].to_vec()
    };
    for line in text.lines().filter(|l| !l.starts_with('#')) {
        let fields: Vec<&str> = line.splitn(4, ' ').collect();
        assert_eq!(unhex(fields[1]), Some(part()));
        assert_eq!(unhex(fields[2]), Some(part()));
        assert_eq!(fields[3].replace('/', "\n") + "\n", String::from_utf8(part()).expect("printed text"));
    }
    assert_eq!(at, binary.len());
}

#[test]
fn hex_has_runs() {
    for bytes in
        [vec![], vec![1, 2, 3], vec![0; 60_001], [1, 2].repeat(300), [vec![7], vec![0; 23], vec![9; 2]].concat()]
    {
        assert_eq!(unhex(&hex(&bytes)), Some(bytes));
    }
    assert_eq!(hex(&[0; 60_001]), "00*60001");
    assert_eq!(hex(&[vec![255, 1], vec![0; 23], vec![5]].concat()), "ff01.00*23.05");
    assert_eq!(unhex("0"), None);
    assert_eq!(unhex("zz"), None);
}
