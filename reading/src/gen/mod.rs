//! Generated cases: the same bytes on every machine for a seed, a profile and an index.

pub mod arguments;
pub mod array_sizes;
pub mod arrays;
pub mod boundary;
pub mod classes;
pub mod damage;
pub mod interfaces;
pub mod load;
pub mod model;
pub mod names;
pub mod own_parameters;
mod place;
pub mod sweep;
pub mod typed;
pub mod undisturbed;

use crate::bytes::{without_parents, Bytes};
use crate::places::with_sizes;
use crate::rng::Rng;

/// A table, a question, and the length of the diagnostics buffer to lend.
#[derive(Debug, Clone, PartialEq, Eq)]
pub struct Case {
    pub table: Bytes,
    pub question: Bytes,
    pub buffer: usize,
}

#[derive(Debug, Clone, Copy, PartialEq, Eq)]
pub enum Profile {
    /// Accepted tables with accepted questions of every node kind.
    Rich,
    /// Calls: everything that decides overloads.
    Calls,
    /// Argument counts, unknown names, mismatches and ties of every size.
    Wide,
    /// Members and method calls of every base.
    Members,
    /// Operator sets along superclasses.
    Operators,
    /// Bases whose `name()` spells an owner.
    Outside,
    /// Damaged copies of accepted cases.
    Damaged,
    /// Sizes and counts at their limits.
    Boundary,
    /// Random bytes.
    Random,
    /// Every table and every question of up to 2 bytes, and every tree of up to 2 bytes.
    Short,
    /// Every one-node question of the type list and of each name.
    OneNode,
    /// Every operator with every pair of the type list.
    Pairs,
    /// Every unary operator, and every built-in member name, with each of the type list.
    Singles,
    /// Every pair of the type list through a call with one parameter.
    Assign,
    /// Every single-byte change of a few inputs.
    Flips,
    /// Long trees built for a wanted type, most of which pass.
    Typed,
    /// Questions of the test load, without a table and under generated ones.
    Load,
    /// Chains, trees and towers of classes, half of them without superclasses and interfaces.
    Classes,
    /// Every wrapping of a class where every wrapping of another is expected.
    Below,
    /// Every id at both ends of what the names before it define; every fault of a name among names.
    Names,
    /// Calls of several arguments over lists of overloads, half of them with one unnamed argument at most.
    Arguments,
    /// Lists of up to two overloads of up to two parameters, with up to three arguments.
    OwnParameters,
    /// Arrays of both kinds in every place, whole and broken; half of the cases with sizes below 2^32 alone.
    Arrays,
    /// Sizes at their limits where every other is expected; flags, cuts, and bodies around the 192nd byte.
    ArraySizes,
    /// Hierarchies of a few classes and everything that is asked of them, towers, and every class record of a few values.
    Interfaces,
}

pub const PROFILES: [(Profile, &str); 25] = [
    (Profile::Rich, "rich"),
    (Profile::Calls, "calls"),
    (Profile::Wide, "wide"),
    (Profile::Members, "members"),
    (Profile::Operators, "operators"),
    (Profile::Outside, "outside"),
    (Profile::Damaged, "damaged"),
    (Profile::Boundary, "boundary"),
    (Profile::Random, "random"),
    (Profile::Short, "short"),
    (Profile::OneNode, "one-node"),
    (Profile::Pairs, "pairs"),
    (Profile::Singles, "singles"),
    (Profile::Assign, "assign"),
    (Profile::Flips, "flips"),
    (Profile::Typed, "typed"),
    (Profile::Load, "load"),
    (Profile::Classes, "classes"),
    (Profile::Below, "below"),
    (Profile::Names, "names"),
    (Profile::Arguments, "arguments"),
    (Profile::OwnParameters, "own-parameters"),
    (Profile::Arrays, "arrays"),
    (Profile::ArraySizes, "array-sizes"),
    (Profile::Interfaces, "interfaces"),
];

impl Profile {
    pub fn by_name(name: &str) -> Option<Profile> {
        PROFILES.iter().find(|(_, n)| *n == name).map(|(p, _)| *p)
    }

    pub fn name(self) -> &'static str {
        PROFILES[self as usize].1
    }

    /// How many cases a sweep has; none for a profile without an end.
    pub fn count(self) -> Option<usize> {
        match self {
            Profile::Short => Some(sweep::short_count()),
            Profile::OneNode => Some(sweep::one_node_count()),
            Profile::Pairs => Some(sweep::pairs_count()),
            Profile::Singles => Some(sweep::singles_count()),
            Profile::Assign => Some(sweep::assign_count()),
            Profile::Flips => Some(sweep::flips_count()),
            Profile::Below => Some(sweep::below_count()),
            Profile::Names => Some(names::names_count()),
            Profile::OwnParameters => Some(own_parameters::own_parameters_count()),
            Profile::ArraySizes => Some(array_sizes::array_sizes_count()),
            Profile::Interfaces => Some(interfaces::interfaces_count()),
            _ => None,
        }
    }
}

/// A buffer length: mostly the program's, else one at a limit.
fn buffer_length(rng: &mut Rng) -> usize {
    if rng.chance(70) {
        return 65_535;
    }
    match rng.below(8) {
        0 => 0,
        1 => 4,
        2 => 5,
        3 => 9,
        4 => 10,
        5 => 65_534,
        _ => rng.below(120),
    }
}

/// The case of a profile; an index behind a sweep's end starts it again.
pub fn case(profile: Profile, seed: u64, index: u64) -> Case {
    let mut rng = Rng::new(seed, profile as u64, index);
    let at = profile.count().map_or(0, |n| (index % n as u64) as usize);
    let (table, question) = match profile {
        Profile::Rich => model::rich(&mut rng),
        Profile::Calls => model::calls(&mut rng),
        Profile::Wide => model::wide(&mut rng),
        Profile::Members => model::members(&mut rng),
        Profile::Operators => model::operators(&mut rng),
        Profile::Outside => model::outside(&mut rng),
        Profile::Damaged => damage::damaged(&mut rng),
        Profile::Boundary => boundary::boundary(&mut rng, index),
        Profile::Random => damage::random(&mut rng),
        Profile::Short => sweep::short(at),
        Profile::OneNode => sweep::one_node(at),
        Profile::Pairs => sweep::pairs(at),
        Profile::Singles => sweep::singles(at),
        Profile::Assign => sweep::assign(at),
        Profile::Flips => sweep::flips(at),
        Profile::Typed => typed::typed(&mut rng),
        Profile::Load => load::load(&mut rng, index),
        Profile::Classes => classes::classes(&mut rng, index),
        Profile::Below => sweep::below(at),
        Profile::Names => names::names(at),
        Profile::Arguments => arguments::arguments(&mut rng, index),
        Profile::OwnParameters => own_parameters::own_parameters(at),
        Profile::Arrays => arrays::arrays(&mut rng, index),
        Profile::ArraySizes => array_sizes::array_sizes(at),
        Profile::Interfaces => interfaces::interfaces(at),
    };
    Case { table, question, buffer: buffer_length(&mut rng) }
}

/// Every size of an Array raised to one of kind 22, so that equal types are equal still.
fn raised(size: Option<u64>) -> Option<u64> {
    size.map(|size| arrays::LEAST | size)
}

/// The profiles without an end, mixed. In every other round those that have superclasses and interfaces by the way have none,
/// so that the Rust is a yardstick of the same shapes. In every other of the rounds with them, where the Rust mostly is none,
/// their Arrays with a size are large.
pub fn mixed(seed: u64, index: u64) -> Case {
    const TURN: [(Profile, bool); 15] = [
        (Profile::Rich, true),
        (Profile::Calls, true),
        (Profile::Wide, false),
        (Profile::Members, true),
        (Profile::Operators, true),
        (Profile::Calls, true),
        (Profile::Damaged, false),
        (Profile::Boundary, false),
        (Profile::Random, false),
        (Profile::Outside, false),
        (Profile::Typed, true),
        (Profile::Load, true),
        (Profile::Classes, false),
        (Profile::Arguments, false),
        (Profile::Arrays, false),
    ];
    let round = index / TURN.len() as u64;
    let (profile, by_the_way) = TURN[(index % TURN.len() as u64) as usize];
    let mut case = case(profile, seed, round);
    match round % 4 {
        _ if !by_the_way => {}
        0 => (case.table, case.question) = with_sizes(&case.table, &case.question, &raised),
        2 => {}
        _ => case.table = without_parents(&case.table),
    }
    case
}
