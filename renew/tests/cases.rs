//! Generated cases before and after: a short run of what the program `cases` does, and wrong tools, each of which it finds.

use reading::gen::mixed;
use reading::words::table::{check_of, record_lengths, ClassForm};
use renew::cases::{run, Counts, Tool};
use renew::{renew_older, NotOlder, Renewed};
use std::process::Command;

#[test]
fn generated_tables_keep_their_answers() {
    let counts = run(6, 0, 40_000, |_| {}).unwrap_or_else(|what| panic!("{what}"));
    println!("{counts:?}");
    assert_eq!(counts.refused.iter().sum::<u64>() + counts.with_classes + counts.without_classes, 40_000);
    assert!(counts.refused[1..].iter().all(|count| *count > 10) && counts.too_long > 0);
    assert!(counts.with_classes > 20_000 && counts.judged > 20_000 && counts.passed > 5_000);
    assert!(counts.not_alike < 400);
}

/// `renew_older`, and then one change of the new table.
fn anew(table: &[u8], change: impl Fn(&mut Renewed)) -> Result<Renewed, NotOlder> {
    let mut renewed = renew_older(table)?;
    change(&mut renewed);
    Ok(renewed)
}

/// A change at the first class.
fn changed(table: &[u8], change: impl Fn(&mut [u8])) -> Result<Renewed, NotOlder> {
    let class = 26 * table.chunks(26).take_while(|record| record[0] == 1).count();
    anew(table, |renewed| {
        if renewed.classes > 0 {
            change(&mut renewed.table[class..class + 12]);
        }
    })
}

/// What the older table is refused for does not count.
fn accepts_all(table: &[u8]) -> Result<Renewed, NotOlder> {
    renew_older(table).or_else(|_| Ok(Renewed { table: table.to_vec(), classes: 0 }))
}

fn refuses_today(table: &[u8]) -> Result<Renewed, NotOlder> {
    match check_of(table, ClassForm::Now) {
        Ok(_) => renew_older(table),
        Err(fault) => Err(NotOlder { number: fault.number, place: None, is_of_today: false }),
    }
}

/// Each class but the first keeps its 8 bytes.
fn first_class_alone(table: &[u8]) -> Result<Renewed, NotOlder> {
    let renewed = renew_older(table)?;
    let front = 26 * table.chunks(26).take_while(|record| record[0] == 1).count() + 8;
    if renewed.classes < 2 {
        return Ok(renewed);
    }
    Ok(Renewed { table: [&renewed.table[..front + 4], &table[front..]].concat(), classes: 1 })
}

fn without_last_record(table: &[u8]) -> Result<Renewed, NotOlder> {
    anew(table, |renewed| {
        let last = record_lengths(&renewed.table).last().copied().unwrap_or(0);
        renewed.table.truncate(renewed.table.len() - last);
    })
}

/// Each byte behind 60,000 is another one.
fn garbage_past_60000(table: &[u8]) -> Result<Renewed, NotOlder> {
    anew(table, |renewed| renewed.table.iter_mut().skip(60_000).for_each(|byte| *byte ^= 255))
}

fn another_number(table: &[u8]) -> Result<Renewed, NotOlder> {
    renew_older(table).map_err(|why| NotOlder { number: if why.number == 6 { 4 } else { why.number }, ..why })
}

#[test]
fn wrong_tools_are_found() {
    let tools: [(&str, Tool); 13] = [
        ("a first interface", |table| changed(table, |class| class[5..7].fill(0))),
        ("a second interface", |table| changed(table, |class| class[7..9].fill(0))),
        ("the superclass as an interface, too", |table| changed(table, |class| class.copy_within(3..5, 5))),
        ("interfaces before the superclass", |table| changed(table, |class| class[3..9].rotate_left(2))),
        ("interfaces behind the package", |table| changed(table, |class| class[5..11].rotate_right(2))),
        ("another package", |table| changed(table, |class| class[9..11].fill(0))),
        ("out of `types`", |table| changed(table, |class| class[11] = 0)),
        ("nothing is refused", accepts_all),
        ("today's form is taken", refuses_today),
        ("the first class alone", first_class_alone),
        ("without the last record", without_last_record),
        ("garbage past 60,000 bytes", garbage_past_60000),
        ("another number", another_number),
    ];
    for (what, tool) in tools {
        let mut counts = Counts::default();
        let found = (0..40_000).find(|index| counts.add(&mixed(6, *index), tool).is_err());
        println!("{what}: {found:?}");
        assert!(found.is_some(), "{what}");
    }
}

#[test]
fn the_program_cases_says_how_it_is_called() {
    let run = |words: &[&str]| {
        let done = Command::new(env!("CARGO_BIN_EXE_cases")).args(words).output().expect("the program ends");
        let text = |bytes| String::from_utf8(bytes).expect("text");
        (done.status.code(), text(done.stdout), text(done.stderr))
    };
    let usage = String::from("usage: cases [COUNT [SEED]]\n");
    for words in [&["many"][..], &["-1"], &["10", "one"], &["10", "1", "1"], &["--seed", "1"], &[""]] {
        assert_eq!(run(words), (Some(2), String::new(), usage.clone()), "{words:?}");
    }
    assert_eq!(run(&["--help"]), (Some(0), usage, String::new()));
    let (status, out, said) = run(&["100", "7"]);
    assert_eq!((status, said), (Some(0), String::new()));
    assert!(out.starts_with("cases: seed 7, ") && out.contains("no difference: Counts { cases: 100, "), "{out}");
}
