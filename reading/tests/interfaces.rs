//! The sweep `interfaces` and the profile `classes` (document 02, order 6): what is answered is found here without the words'
//! own lookups.

use reading::answer::Said;
use reading::bytes::*;
use reading::gen::{case, mixed, Case, Profile};
use reading::name::NONE;
use reading::words::{refusal, said};
use std::collections::{HashMap, HashSet};

/// Three classes in the order of their records, and a name without one.
const CLASSES: [u16; 4] = [41, 42, 40, 43];

const HIERARCHIES: u64 = 4 * 27 * 64;

/// Where the parts of the sweep begin.
const GUARDED: u64 = 5 * HIERARCHIES;
const OPERATORS: u64 = GUARDED + 4 * HIERARCHIES;
const COMPARISONS: u64 = OPERATORS + 4 * HIERARCHIES;
const WRAPPED: u64 = COMPARISONS + HIERARCHIES;
const TOWERS: u64 = WRAPPED + 18 * 18 * 8 + 11 * 11 * 3;
const RECORDS: u64 = TOWERS + 2 * 2 * 3 * 61;
const CUTS: u64 = RECORDS + 8 * 8 * 8 * 3 * 2 * 5;

fn sweep(from: u64, to: u64) -> impl Iterator<Item = Case> {
    (from..to).map(|index| case(Profile::Interfaces, 1, index))
}

fn count() -> u64 {
    Profile::Interfaces.count().expect("a sweep") as u64
}

/// Per class of a table the classes that are above it: by the first parents alone, or by all three.
fn above(table: &[u8], parents_taken: usize) -> HashMap<u16, HashSet<u16>> {
    let mut above: HashMap<u16, HashSet<u16>> = HashMap::new();
    // A parent that has a record has an earlier one, so what is above it is there.
    for class in class_places(table) {
        let mut own = HashSet::new();
        for parent in parents(table, class).into_iter().take(parents_taken).filter(|parent| *parent != NONE) {
            own.insert(parent);
            own.extend(above.get(&parent).into_iter().flatten());
        }
        above.insert(u16::from_le_bytes([table[class + 1], table[class + 2]]), own);
    }
    above
}

fn is_above(above: &HashMap<u16, HashSet<u16>>, class: u16, other: u16) -> bool {
    above.get(&class).is_some_and(|all| all.contains(&other))
}

/// How many diagnostics of each kind a case has.
fn kinds(case: &Case) -> HashMap<u8, usize> {
    let Said::Judged { diagnostics, .. } = said(&case.table, &case.question) else { panic!("refused: {:?}", case) };
    let mut kinds = HashMap::new();
    diagnostics.iter().for_each(|d| *kinds.entry(d.kind).or_default() += 1);
    kinds
}

fn only(kind: u8, count: usize) -> HashMap<u8, usize> {
    (count > 0).then_some((kind, count)).into_iter().collect()
}

/// The counts that `interfaces.rs` makes of its parts. The same bytes stand in two places seldom.
#[test]
fn the_sweep_has_as_many_cases_as_its_parts_say() {
    assert_eq!(count(), CUTS + 3 * 4 * 12 * 2);
    let distinct: HashSet<(Bytes, Bytes)> = sweep(0, count()).map(|case| (case.table, case.question)).collect();
    println!("interfaces: {} cases, {} distinct", count(), distinct.len());
    assert!(distinct.len() as u64 + 1_000 > count());
}

/// Every hierarchy: whoever is not reached is reported as a mismatch, and nobody else.
#[test]
fn a_class_goes_to_the_classes_that_are_above_it() {
    let (mut reached, mut not) = (0, 0);
    for case in sweep(0, GUARDED) {
        let above = above(&case.table, 3);
        let pairs = CLASSES.iter().flat_map(|a| CLASSES.iter().map(move |b| (*a, *b))).filter(|(a, b)| a != b);
        let missed = pairs.filter(|(a, b)| !is_above(&above, *a, *b)).count();
        assert_eq!(kinds(&case), only(17, missed), "{:?}", case);
        reached += 12 - missed;
        not += missed;
    }
    assert!(reached > 100_000 && not > 200_000, "{} {}", reached, not);
}

/// Protected methods and fields are open to the class itself and to those below it by superclasses.
#[test]
fn protected_access_goes_by_superclasses_alone() {
    let mut by_interface = 0;
    for case in sweep(GUARDED, OPERATORS) {
        let current = u16::from_le_bytes([case.question[0], case.question[1]]);
        let (climbed, all) = (above(&case.table, 1), above(&case.table, 3));
        let closed: Vec<&u16> =
            CLASSES.iter().filter(|owner| current != **owner && !is_above(&climbed, current, **owner)).collect();
        assert_eq!(kinds(&case), only(20, 2 * closed.len()), "{:?}", case);
        by_interface += closed.iter().filter(|owner| is_above(&all, current, ***owner)).count();
    }
    assert!(by_interface > 10_000, "{}", by_interface);
}

/// The class whose operator set has plus is found from itself and from those below it by superclasses.
#[test]
fn operator_methods_go_by_superclasses_alone() {
    let mut by_interface = 0;
    for case in sweep(OPERATORS, COMPARISONS) {
        let behind = class_places(&case.table).last().expect("a class") + CLASS;
        // Kind 3, class and mask: 5 bytes each.
        let sets = case.table[behind..].chunks(5).take(4);
        let holder = sets.filter(|set| set[3] == 1).map(|set| u16::from_le_bytes([set[1], set[2]])).next();
        let holder = holder.expect("a set with plus");
        let (climbed, all) = (above(&case.table, 1), above(&case.table, 3));
        let without: Vec<&u16> =
            CLASSES.iter().filter(|class| **class != holder && !is_above(&climbed, **class, holder)).collect();
        let reports = kinds(&case);
        assert_eq!(reports.get(&2).copied().unwrap_or(0), without.len(), "{:?}", case);
        by_interface += without.iter().filter(|class| is_above(&all, ***class, holder)).count();
    }
    assert!(by_interface > 10_000, "{}", by_interface);
}

/// Two classes compare where one is above the other.
#[test]
fn comparisons_go_both_ways() {
    for case in sweep(COMPARISONS, WRAPPED) {
        let above = above(&case.table, 3);
        let pairs = CLASSES.iter().flat_map(|a| CLASSES.iter().map(move |b| (*a, *b))).filter(|(a, b)| a != b);
        let unrelated = pairs.filter(|(a, b)| !is_above(&above, *a, *b) && !is_above(&above, *b, *a)).count();
        assert_eq!(kinds(&case), only(4, unrelated), "{:?}", case);
    }
}

#[test]
fn towers_are_climbed_to_their_tops() {
    let (mut clean, mut reported) = (0, 0);
    for case in sweep(TOWERS, RECORDS) {
        // The argument's class is the question's last id, the parameter's the table's.
        let last = |bytes: &[u8]| u16::from_le_bytes([bytes[bytes.len() - 2], bytes[bytes.len() - 1]]);
        let (from, to) = (last(&case.question), last(&case.table));
        let goes = from == to || is_above(&above(&case.table, 3), from, to);
        assert_eq!(kinds(&case), only(17, !goes as usize), "{:?}", case);
        clean += goes as usize;
        reported += !goes as usize;
    }
    assert!(clean > 200 && reported > 200, "{} {}", clean, reported);
}

/// The number of a class record by its fields and by what stands behind it. It is the third: 41 and 42 stand before it, 43
/// behind it or nowhere, 44 nowhere, and 45 is no name.
fn number(parents: [u16; 3], package: u16, flag: u8, behind: usize) -> u8 {
    let undefined = |id: &u16| *id != NONE && *id >= 45;
    let late = |parent: &u16| *parent == 40 || (*parent == 43 && (1..=3).contains(&behind));
    if flag > 1 {
        2
    } else if parents.iter().any(undefined) || undefined(&package) {
        4
    } else if parents.iter().any(late) {
        6
    } else {
        [0, 0, 5, 3, 2][behind]
    }
}

#[test]
fn every_class_record_draws_its_number() {
    let mut drawn = [0; 12];
    for (at, case) in sweep(RECORDS, CUTS).enumerate() {
        let class = class_places(&case.table).into_iter().nth(2).expect("a third class");
        let (flag, behind) = (case.table[class + CLASS - 1], at / (512 * 3 * 2));
        let package = u16::from_le_bytes([case.table[class + 9], case.table[class + 10]]);
        let expected = number(parents(&case.table, class), package, flag, behind);
        assert_eq!(refusal(&case.table, &case.question), expected, "{:?}", case);
        drawn[expected as usize] += 1;
    }
    println!("interfaces: numbers 0 to 11 are drawn {:?} times by class records", drawn);
    assert!([0, 2, 4, 6].iter().all(|n| drawn[*n] >= 300) && [3, 5].iter().all(|n| drawn[*n] >= 100));
}

#[test]
fn cut_records_are_malformed() {
    let mut drawn = [0; 12];
    for case in sweep(CUTS, count()) {
        drawn[refusal(&case.table, &case.question) as usize] += 1;
    }
    println!("interfaces: numbers 0 to 11 are drawn {:?} times by cut class records", drawn);
    assert!(drawn[0] >= 6 && drawn[2] >= 200);
}

/// Of the profile's cases with an interface a tenth at least is answered otherwise without.
#[test]
fn interfaces_decide_in_the_profile() {
    let (mut with, mut decided, mut without_superclass) = (0, 0, 0);
    for index in 0..20_000 {
        let case = case(Profile::Classes, 1, index);
        let fewer = without_interfaces(&case.table);
        if fewer == case.table || refusal(&case.table, &case.question) != 0 {
            continue;
        }
        with += 1;
        decided += (said(&case.table, &case.question) != said(&fewer, &case.question)) as u64;
        without_superclass += (without_parents(&case.table) == fewer) as u64;
    }
    println!(
        "classes: {} cases with an interface, {} decided by it; {} without superclasses",
        with, decided, without_superclass
    );
    assert!(with > 4_000 && decided * 10 > with && without_superclass > 100);
}

/// Wherever classes occur by the way, some have an interface.
#[test]
fn interfaces_occur_in_every_profile_that_has_superclasses() {
    let mut seen: HashMap<u64, u64> = HashMap::new();
    for index in 0..15 * 400 {
        let table = mixed(3, index).table;
        *seen.entry(index % 15).or_default() += (without_interfaces(&table) != table) as u64;
    }
    let least = [(0, 20), (1, 20), (3, 20), (4, 20), (5, 20), (6, 10), (7, 5), (10, 20), (11, 10), (12, 80), (14, 10)];
    assert!(least.iter().all(|(place, count)| seen[place] >= *count), "{:?}", seen);
}
