//! Document 02, order 5: "runs beside the Rust leave kind 22 out", wherever a type may have one.

use oracle::answer::{Outside, Run};
use oracle::domain::outside_before;
use oracle::{in_domain, printed_by, Source};
use reading::bytes::*;
use reading::gen::{self, Profile};
use reading::name::NONE;
use reading::places::with_sizes;
use reading::words::refusal;

const LEAST: u64 = 1 << 32;

/// The number of `size`, a built-in name: the byte of kind 22.
const TWENTY_TWO: u16 = 22;

/// What may stand around a type, itself among it.
const AROUND: [fn(&[u8]) -> Bytes; 11] = [
    |x| x.to_vec(),
    nullable,
    pointer,
    list,
    |x| array(Some(3), x),
    |x| map(x, &[INT]),
    |x| map(&[INT], x),
    |x| function(&[x], &[INT]),
    |x| function(&[&[INT], x, &[INT]], &[INT]),
    |x| function(&[&[INT]], x),
    |x| nullables(181, x),
];

/// A table and a question with a type in each place where one may stand: a result, each parameter, a field, each leaf,
/// visited or not.
fn places(ty: &[u8]) -> Vec<(Bytes, Bytes)> {
    let int = leaf(&[INT]);
    let plain = question(&int);
    let mut tables = [Table::new(), Table::new(), Table::new(), Table::new()];
    tables[0].function(0, 1, 0, true, ty, &[]);
    tables[1].plain(0, &[INT], &[(0, 0, ty.to_vec()), (1, VARARG, vec![INT])]);
    tables[2].plain(0, &[INT], &[(0, 0, vec![INT]), (1, DEFAULT, ty.to_vec())]);
    tables[3].field(0, 1, &[STRING]);
    tables[3].field(0, 2, ty);
    let in_tables = tables.iter().map(|table| (table.bytes(), plain.clone()));
    // Without a list the arguments of a call stay unvisited.
    let trees = [
        leaf(ty),
        binary(EQ, &int, &leaf(ty)),
        unary(MINUS, &leaf(ty)),
        member(TWENTY_TWO, &leaf(ty)),
        call(0, &[int.clone(), named_arg(1, &leaf(ty))]),
        method(0, &leaf(ty), &[int.clone()]),
        method(0, &int, &[int.clone(), leaf(ty)]),
    ];
    let in_questions = trees.iter().map(|tree| (Vec::new(), question(tree)));
    in_tables.chain(in_questions).collect()
}

#[test]
fn a_kind_22_in_any_type_is_outside() {
    let mut asked = 0;
    for size in [LEAST, LEAST + 1, u64::MAX] {
        for around in AROUND {
            for (table, question) in places(&around(&array(Some(size), &[INT]))) {
                assert_eq!(refusal(&table, &question), 0, "{:?} {:?}", table, question);
                assert_eq!(Run::inside(&table, &question).err(), Some(Outside::LargeArray));
                assert!(!in_domain(&table, &question));
                assert_eq!(printed_by(&table, &question).0, Source::Words);
                asked += 1;
            }
        }
    }
    assert_eq!(asked, 3 * 11 * 11);
}

/// Sizes, ids, numbers and counts are no kinds.
#[test]
fn a_byte_22_that_is_no_kind_is_inside() {
    let twos = u32::from_le_bytes([22; 4]);
    for ty in [
        array(Some(22), &[INT]),
        array(Some(twos as u64), &[INT]),
        array(Some(22 << 24), &[INT]),
        named(TWENTY_TWO),
        type_var(twos),
        module(TWENTY_TWO),
        map(&named(TWENTY_TWO), &array(Some(twos as u64), &module(TWENTY_TWO))),
        function(&[&named(TWENTY_TWO), &type_var(twos)], &[INT]),
    ] {
        for (table, question) in places(&ty) {
            assert_eq!(refusal(&table, &question), 0, "{:?} {:?}", table, question);
            assert!(table.contains(&22) || question.contains(&22));
            assert_eq!(outside_before(&table, &question), None, "{:?} {:?}", table, question);
        }
    }
    let mut table = Table::new();
    table.visibility(TWENTY_TWO, TWENTY_TWO, 0);
    table.suspend(NONE, TWENTY_TWO);
    let asked = question_in(TWENTY_TWO, TWENTY_TWO, false, &binary(AS, &leaf(&[INT]), &call(TWENTY_TWO, &[])));
    assert_eq!(outside_before(&table.bytes(), &asked), None);
}

#[test]
fn a_superclass_is_asked_for_first() {
    let mut table = Table::new();
    table.class(0, 1, NONE, true);
    table.field(0, 1, &array(Some(LEAST), &[INT]));
    assert_eq!(outside_before(&table.bytes(), &question(&leaf(&[INT]))), Some(Outside::Superclass));
    let flat = without_parents(&table.bytes());
    assert_eq!(outside_before(&flat, &question(&leaf(&[INT]))), Some(Outside::LargeArray));
}

/// A refused input is compared as ever, with a kind 22 or without.
#[test]
fn refused_inputs_are_inside() {
    for ty in [
        array_body(22, 0, &LEAST.to_le_bytes(), &[INT]),
        array_body(22, 1, &(LEAST - 1).to_le_bytes(), &[INT]),
        array(Some(LEAST), &named(40)),
        nullables(182, &array(Some(LEAST), &[INT])),
        vec![22],
        vec![23],
    ] {
        for (table, question) in places(&ty) {
            assert!(refusal(&table, &question) > 0 && in_domain(&table, &question), "{:?} {:?}", table, question);
        }
    }
}

/// Of generated cases without superclasses those are outside that have a kind 22, and no case without a byte 22 is.
#[test]
fn generated_cases_are_outside_only_where_a_22_stands() {
    let mut seen = [0, 0];
    for profile in [Profile::Rich, Profile::Boundary, Profile::Damaged, Profile::Typed, Profile::Arrays] {
        for index in 0..4_000 {
            let case = gen::case(profile, 11, index);
            let (table, question) = (without_parents(&case.table), &case.question);
            if refusal(&table, question) != 0 {
                continue;
            }
            let somewhere = table.contains(&22) || question.contains(&22);
            let outside = outside_before(&table, question).is_some();
            assert!(somewhere || !outside, "{} {}", profile.name(), index);
            // With smaller sizes it is inside: nothing else was a reason.
            let (smaller, asked) = with_sizes(&table, question, &|size| size.map(|size| size & 0xffff_ffff));
            assert_eq!(outside_before(&smaller, &asked), None);
            assert_eq!((smaller, asked) != (table, question.clone()), outside, "{} {}", profile.name(), index);
            seen[outside as usize] += 1;
        }
    }
    assert!(seen[0] > 8_000 && seen[1] > 1_000, "{:?}", seen);
}
