//! Document 02, orders 2 and 6, over many tables of classes: who is reached is found here without any search. With order 5's
//! Arrays of both kinds.

use reading::bytes::*;
use reading::name::NONE;
use reading::rng::Rng;
use reading::words::access::is_subclass;
use reading::words::assign::can_assign_to;
use reading::words::symbols::Symbols;
use reading::words::table::table_number;

/// Ids that serve as classes: list names, other built-in names, and the table's own from 40 on.
const CLASSES: usize = 24;

fn class(place: usize) -> u16 {
    if place < 6 {
        place as u16
    } else {
        34 + place as u16
    }
}

/// A table of classes, and per place the places of its superclass and interfaces. Some have no record, some no parent.
fn family(rng: &mut Rng) -> (Bytes, Vec<[Option<usize>; 3]>) {
    let mut table = Table::new();
    for place in 6..CLASSES {
        table.name(&format!("C{}", place));
    }
    let mut places: Vec<usize> = (0..CLASSES).collect();
    for i in (1..CLASSES).rev() {
        places.swap(i, rng.below(i + 1));
    }
    let recorded = rng.below(CLASSES + 1);
    let near = rng.chance(50);
    let interfaces = *rng.pick(&[0, 10, 60]);
    let mut parents = vec![[None; 3]; CLASSES];
    for i in 0..recorded {
        // An earlier record, a name without one, or none.
        let mut one = |chance: usize| match rng.below(8) {
            _ if !rng.chance(chance) => None,
            0 => None,
            1 if recorded < CLASSES => Some(places[recorded + rng.below(CLASSES - recorded)]),
            _ if i == 0 => None,
            _ => Some(places[if near { i - 1 } else { rng.below(i) }]),
        };
        let three = [100, interfaces, interfaces].map(&mut one);
        parents[places[i]] = three;
        let ids = three.map(|parent| parent.map_or(NONE, class));
        table.class_below(class(places[i]), ids, NONE, rng.chance(50));
    }
    (table.bytes(), parents)
}

/// Per pair of places whether the second is reached from the first: the least relation that has every parent and is closed.
fn reached(parents: &[[Option<usize>; 3]]) -> Vec<Vec<bool>> {
    let mut reached: Vec<Vec<bool>> =
        parents.iter().map(|own| (0..CLASSES).map(|place| own.contains(&Some(place))).collect()).collect();
    for through in 0..CLASSES {
        for a in 0..CLASSES {
            for b in 0..CLASSES {
                reached[a][b] |= reached[a][through] && reached[through][b];
            }
        }
    }
    reached
}

/// The same by superclasses alone.
fn climbed(parents: &[[Option<usize>; 3]]) -> Vec<Vec<bool>> {
    reached(&parents.iter().map(|own| [own[0], None, None]).collect::<Vec<_>>())
}

type Wrap = fn(&[u8]) -> Bytes;

/// The least size of kind 22.
const LARGE: u64 = 1 << 32;

/// Pairs of wrappings between which assignability asks itself for what they hold.
const ASKED: [(Wrap, Wrap); 13] = [
    (|x| x.to_vec(), |x| x.to_vec()),
    (|x| array(None, x), |x| array(Some(7), x)),
    (list, |x| array(None, x)),
    (list, |x| array(Some(LARGE), x)),
    (|x| array(None, x), |x| array(Some(LARGE), x)),
    (|x| array(Some(LARGE), x), |x| array(Some(7), x)),
    (|x| array(Some(LARGE), x), |x| array(Some(LARGE + 1), x)),
    (|x| nullable(&list(&array(Some(LARGE), x))), |x| array(Some(LARGE), &nullable(&array(None, x)))),
    (|x| nullable(x), |x| x.to_vec()),
    (|x| x.to_vec(), |x| nullable(x)),
    (|x| nullable(&array(None, x)), |x| nullable(&array(None, &nullable(x)))),
    (|x| list(&list(x)), |x| array(None, &array(None, x))),
    (|x| nullables(3, x), |x| nullables(2, x)),
];

/// Wrappings that are compared whole.
const WHOLE: [Wrap; 7] = [
    pointer,
    |x| map(x, x),
    |x| function(&[], x),
    |x| function(&[x], &[INT]),
    |x| array(None, &pointer(x)),
    |x| array(Some(LARGE), &pointer(x)),
    |x| pointer(&array(Some(LARGE), x)),
];

#[test]
fn a_class_assigns_to_itself_and_to_the_classes_that_are_reached() {
    let (mut yes, mut no, mut steps, mut by_interface) = (0, 0, 0, 0);
    for index in 0..200 {
        let (table, parents) = family(&mut Rng::new(1, 0, index));
        assert_eq!(table_number(&table), 0);
        let symbols = Symbols::of(&table);
        let (met, climbed) = (reached(&parents), climbed(&parents));
        for a in 0..CLASSES {
            for b in 0..CLASSES {
                let (from, to) = (named(class(a)), named(class(b)));
                let list_names = (1..=3).contains(&a) && (1..=3).contains(&b);
                let goes = a == b || met[a][b] || list_names;
                for (left, right) in ASKED {
                    assert_eq!(can_assign_to(&symbols, &left(&from), &right(&to)), goes, "{} {} {}", index, a, b);
                }
                for wrap in WHOLE {
                    assert_eq!(can_assign_to(&symbols, &wrap(&from), &wrap(&to)), a == b, "{} {} {}", index, a, b);
                }
                yes += (met[a][b]) as usize;
                no += (!goes) as usize;
                by_interface += (met[a][b] && !climbed[a][b]) as usize;
                assert_eq!(is_subclass(&symbols, class(a), class(b)), climbed[a][b]);
                steps += (met[a][b] && !parents[a].contains(&Some(b))) as usize;
            }
        }
    }
    println!(
        "assign: {} reached, {} of them by more than a step, {} by an interface; {} not",
        yes, steps, by_interface, no
    );
    assert!(yes > 6_000 && no > 50_000 && steps > 3_000 && by_interface > 1_500);
}

/// A class below a list name takes part in no rule of the list names.
#[test]
fn a_list_and_an_array_go_to_and_from_the_list_names_alone() {
    let (mut below, mut names) = (0, 0);
    for index in 0..200 {
        let (table, parents) = family(&mut Rng::new(2, 0, index));
        let symbols = Symbols::of(&table);
        let met = reached(&parents);
        for place in 0..CLASSES {
            let ty = named(class(place));
            let is_name = (1..=3).contains(&place);
            assert_eq!(can_assign_to(&symbols, &ty, &list(&[INT])), is_name);
            assert_eq!(can_assign_to(&symbols, &list(&[INT]), &ty), is_name);
            for size in [None, Some(7), Some(LARGE), Some(u64::MAX)] {
                assert_eq!(can_assign_to(&symbols, &ty, &array(size, &[INT])), place == 2 || place == 3);
                assert!(!can_assign_to(&symbols, &array(size, &[INT]), &ty));
            }
            below += (!is_name && (1..=3).any(|name| met[place][name])) as usize;
            names += is_name as usize;
        }
    }
    assert!(below > 500 && names == 600, "{} {}", below, names);
}
