//! What is no table of the older form: which record it is, at which byte, and why.

mod common;

use common::*;
use reading::words::table::{check_of, ClassForm};
use renew::{renew, renew_input, renew_older, renew_older_input, NotOlder, NotRenewed, Place};

fn refused(table: &[u8]) -> NotOlder {
    let why = renew_older(table).expect_err("no table of the older form");
    assert_eq!(renew(table), Err(NotRenewed::NotOlder(why.clone())));
    why
}

/// A table whose record `record`, which begins at `byte`, is the first that the older form refuses, with this number.
fn refuses(table: &[u8], number: u8, record: usize, byte: usize) {
    let expected = NotOlder { number, place: Some(Place { record, byte }), is_of_today: false };
    assert_eq!(refused(table), expected, "{table:02x?}");
}

/// Each fault as the first record, and behind two names and a class.
#[test]
fn each_number_says_where() {
    let endless = [&[5, 6, 0, 22, 0][..], &[12; 192], &[0]].concat();
    let two_of_a_name = [4, 255, 255, 6, 0, 0, 0, 2, 0, 22, 0, 0, 0, 22, 0, 0, 0];
    let faults: Vec<(u8, Vec<u8>)> = vec![
        (2, vec![9]),
        (2, vec![0, 0]),
        (2, older_class(6, NONE, NONE, true)[..7].to_vec()),
        (2, [&older_class(6, NONE, NONE, true)[..7], &[2]].concat()),
        (2, vec![3, 6, 0, 0, 8]),
        (2, vec![5, 6, 0, 22, 0, 23]),
        (4, older_class(6, 42, NONE, true)),
        (4, older_class(6, NONE, 42, true)),
        (4, older_class(NONE, NONE, NONE, true)),
        (4, vec![5, 255, 255, 22, 0, 0]),
        (5, two_of_a_name.to_vec()),
        (6, older_class(6, 6, NONE, true)),
        (6, [older_class(6, 8, NONE, true), older_class(8, NONE, NONE, true)].concat()),
        (7, vec![5, 6, 0, 22, 0, 15, 21]),
        (7, endless),
    ];
    let front = [name("a"), name("b"), older_class(7, NONE, 40, false)].concat();
    for (number, fault) in faults {
        refuses(&fault, number, 0, 0);
        refuses(&[front.clone(), fault].concat(), number, 3, 60);
    }
}

#[test]
fn a_kind_that_falls_and_a_key_that_stands_twice() {
    let class = older_class(6, NONE, NONE, true);
    refuses(&[class.clone(), name("a")].concat(), 3, 1, 8);
    refuses(&[other_records(), class.clone()].concat(), 3, 6, other_records().len());
    refuses(&[class.clone(), older_class(7, 6, NONE, true), class].concat(), 5, 2, 16);
    refuses(&[name("a"), name("b"), name("a")].concat(), 5, 2, 52);
    refuses(&name("Pair"), 5, 0, 0);
}

/// Over 60,000 bytes it is no table at all, whatever stands in them.
#[test]
fn a_table_that_is_too_long_has_no_place() {
    for table in [vec![0; 60_001], names(2_400)] {
        assert_eq!(refused(&table), NotOlder { number: 1, place: None, is_of_today: false });
    }
    refuses(&vec![0; 60_000], 2, 0, 0);
}

/// The first faulty record counts, and of its faults the lowest number.
#[test]
fn the_first_fault_counts() {
    let undefined = older_class(40, NONE, NONE, true);
    refuses(&[undefined.clone(), vec![9]].concat(), 4, 0, 0);
    refuses(&[vec![7, 255, 255, 6, 0], undefined].concat(), 3, 1, 5);
}

/// A class of today's form is no record of the older one: the ids of the interfaces stand where package and flag are expected.
#[test]
fn a_table_with_interfaces_is_refused() {
    let tables = [
        (class(6, [NONE; 3], NONE, true), 2),
        (class(6, [7, 8, 9], NONE, false), 2),
        (class(6, [NONE, 8, 1], 0, false), 2),
        ([class(6, [NONE; 3], NONE, true), class(7, [6, 6, NONE], NONE, true), other_records()].concat(), 2),
    ];
    for (table, number) in tables {
        refuses_today(&table, number, 0);
        refuses_today(&table, number, 3);
    }
}

/// A table of today's form behind so many names.
fn refuses_today(table: &[u8], number: u8, count: usize) {
    let table = [&names(count)[..], table].concat();
    assert_eq!(check_of(&table, ClassForm::Now), Ok(40 + count));
    let why = refused(&table);
    assert_eq!((why.number, why.is_of_today), (number, true), "{table:02x?}");
}

/// A table written anew is not written anew once more.
#[test]
fn what_was_renewed_is_refused() {
    for classes in 1..30 {
        let older: Vec<u8> = (0..classes).flat_map(|i| older_class(i, i.wrapping_sub(1), NONE, i % 2 == 0)).collect();
        let renewed = renew(&[older, other_records()].concat()).unwrap();
        assert!(refused(&renewed.table).is_of_today);
    }
}

/// 40 + 473 names, then three classes of 8 bytes that are two classes of 12 as well.
#[test]
fn a_table_of_both_forms_is_refused_unless_it_is_said_to_be_older() {
    let table = both_forms();
    for form in [ClassForm::Older, ClassForm::Now] {
        assert_eq!(check_of(&table, form), Ok(513), "{form:?}");
    }
    assert_eq!(renew(&table), Err(NotRenewed::BothForms));
    let new = [
        names(473),
        class(40, [NONE; 3], NONE, false),
        class(41, [512, NONE, NONE], 42, false),
        class(43, [NONE; 3], NONE, false),
    ];
    assert_eq!(renew_older(&table).unwrap().table, new.concat());

    let input = reading::join_input(&table, &[7]).unwrap();
    assert_eq!(renew_input(&input), Err(NotRenewed::BothForms));
    assert_eq!(renew_older_input(&input).unwrap().input, reading::join_input(&new.concat(), &[7]).unwrap());
}

/// Without a class record a table has both forms, and is the same in both.
#[test]
fn a_table_without_classes_is_not_refused() {
    for table in [vec![], names(3), other_records(), [names(3), other_records()].concat()] {
        assert_eq!(renew(&table).map(|new| (new.table, new.classes)), Ok((table, 0)));
    }
}

#[test]
fn the_words() {
    let words: Vec<String> = (1..=7)
        .map(|number| NotOlder { number, place: Some(Place { record: 3, byte: 60 }), is_of_today: false }.to_string())
        .collect();
    let front = "no table of the older form: record 3 at byte 60 (counted from 0): ";
    let of_document_01 = [
        "1, over 60,000 bytes",
        "2, malformed or cut record",
        "3, kind falls",
        "4, undefined id",
        "5, key repeated",
        "6, a superclass with a record, but not an earlier one",
        "7, Error in a type, or no end within 192 bytes",
    ];
    assert_eq!(words, of_document_01.map(|words| format!("{front}{words}")));
    assert_eq!(refused(&vec![0; 60_001]).to_string(), "no table of the older form: 1, over 60,000 bytes");
    assert_eq!(
        refused(&class(6, [NONE; 3], NONE, true)).to_string(),
        "no table of the older form: record 0 at byte 0 (counted from 0): 2, malformed or cut record; it has today's form \
         already"
    );
}

#[test]
fn an_input_that_is_cut_or_has_no_older_table() {
    for input in [&[][..], &[8], &[8, 0], &[8, 0, 2, 6, 0, 255, 255, 255, 255]] {
        assert_eq!(renew_input(input), Err(NotRenewed::Cut));
    }
    let why = refused(&[9]);
    assert_eq!(renew_input(&[1, 0, 9, 255]), Err(NotRenewed::NotOlder(why.clone())));
    assert_eq!(NotRenewed::NotOlder(why.clone()).to_string(), why.to_string());
}
