//! What is written anew: 65,535 in both interface places of each class record, and every other byte as it was.

mod common;

use common::*;
use reading::words::table::{check_of, ClassForm, LIMIT};
use reading::words::{said, table::table_number};
use reading::Said;
use renew::{renew, renew_input, NotRenewed};

const LEAF: [u8; 7] = [255, 255, 255, 255, 0, 0, 0];

#[test]
fn each_class_record_gets_no_interfaces() {
    let older =
        [older_class(6, NONE, NONE, true), older_class(7, 6, 0, false), older_class(8, 39, NONE, true)].concat();
    let new =
        [class(6, [NONE; 3], NONE, true), class(7, [6, NONE, NONE], 0, false), class(8, [39, NONE, NONE], NONE, true)]
            .concat();
    let renewed = renew(&older).unwrap();
    assert_eq!((renewed.table, renewed.classes), (new, 3));
}

#[test]
fn the_other_records_stay() {
    let front = names(3);
    let older = [front.clone(), older_class(6, 41, 42, true), other_records()].concat();
    let new = [front.clone(), class(6, [41, NONE, NONE], 42, true), other_records()].concat();
    assert_eq!(renew(&older).unwrap().table, new);
    assert_eq!(table_number(&new), 0);
    for table in [vec![], front.clone(), other_records(), [front, other_records()].concat()] {
        let renewed = renew(&table).unwrap();
        assert_eq!((renewed.table, renewed.classes), (table, 0));
    }
}

/// Records that look like a class within others.
#[test]
fn only_records_are_classes() {
    let field = [5, 6, 0, 22, 0, 19, 2, 2, 2, 2];
    let older = [&older_class(514, NONE, 514, false)[..], &field].concat();
    let older = [names(500), older].concat();
    let new = [names(500), class(514, [NONE; 3], 514, false), field.to_vec()].concat();
    assert_eq!(renew(&older).unwrap().table, new);
}

/// 60,000 bytes with `classes` classes; the rest are names and, to fill it up, functions of 9 and more bytes.
fn full(classes: usize, bytes: usize) -> Vec<u8> {
    let count = classes.saturating_sub(40);
    let records = (0..classes as u16).flat_map(|i| older_class(i, if i > 0 { i - 1 } else { NONE }, NONE, true));
    let mut table: Vec<u8> = names(count).into_iter().chain(records).collect();
    let function = |nullables: usize| [&[4, 255, 255, 6, 0, 0, 0, 0][..], &vec![12; nullables], &[0]].concat();
    while table.len() + 18 <= bytes {
        table.extend(function((bytes - table.len() - 18).min(180)));
    }
    let last = bytes - table.len() - 9;
    table.extend(function(last));
    assert_eq!((table.len(), check_of(&table, ClassForm::Older)), (bytes, Ok(40 + count)));
    table
}

/// A table of 60,000 bytes anew, and the one that is still taken: 4 bytes more for each class.
#[test]
fn past_60000_bytes_it_is_written_and_drawn_number_1() {
    for classes in [1, 2, 39, 40, 300, 1_500] {
        let renewed = renew(&full(classes, LIMIT)).unwrap();
        assert_eq!((renewed.table.len(), renewed.classes), (LIMIT + 4 * classes, classes));
        assert!(renewed.is_too_long());
        assert_eq!(said(&renewed.table, &LEAF), Said::Refused(1));

        let longest = renew(&full(classes, LIMIT - 4 * classes)).unwrap();
        assert_eq!(longest.table.len(), LIMIT);
        assert!(!longest.is_too_long());
        assert_eq!(table_number(&longest.table), 0);

        let longer = renew(&full(classes, LIMIT - 4 * classes + 1)).unwrap();
        assert!(longer.is_too_long());
        assert_eq!(said(&longer.table, &LEAF), Said::Refused(1));
    }
    let without = renew(&full(0, LIMIT)).unwrap();
    assert!(!without.is_too_long());
    assert_eq!((without.table.len(), table_number(&without.table)), (LIMIT, 0));
}

/// As many classes as 60,000 bytes have room for, each with a name of its own: 40 built-in names, and 1,755 of the table.
#[test]
fn as_many_classes_as_there_can_be() {
    let older = full(1_795, LIMIT);
    const { assert!(26 * 1_756 + 8 * 1_796 > LIMIT) };
    let renewed = renew(&older).unwrap();
    assert_eq!(renewed.table.len(), LIMIT + 4 * 1_795);
    let input = reading::join_input(&older, &LEAF).unwrap();
    assert_eq!(renew_input(&input), Err(NotRenewed::Length(67_180)));
}

#[test]
fn an_input_keeps_its_question() {
    let (older, new) = (older_class(6, NONE, NONE, true), class(6, [NONE; 3], NONE, true));
    for question in [vec![], LEAF.to_vec(), vec![7; 20_000]] {
        let renewed = renew_input(&reading::join_input(&older, &question).unwrap()).unwrap();
        assert_eq!(renewed.input, reading::join_input(&new, &question).unwrap());
        assert!(!renewed.table.is_too_long());
    }
    assert_eq!(renew_input(&[0, 0]).unwrap().input, [0, 0]);
}

/// The new table has 65,535 bytes, the most that an input has room for; then one more.
#[test]
fn an_input_has_room_for_65535_bytes() {
    let input = |bytes: usize| reading::join_input(&full(1_400, bytes), &LEAF).unwrap();
    let longest = renew_input(&input(65_535 - 4 * 1_400)).unwrap();
    assert_eq!((longest.input.len(), longest.table.is_too_long()), (2 + 65_535 + LEAF.len(), true));
    assert_eq!(renew_input(&input(65_536 - 4 * 1_400)), Err(NotRenewed::Length(65_536)));
}
