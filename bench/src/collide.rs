//! Keys chosen against the index of a table (crates/index/specs/Inside/Bucket.antt; a name's hash:
//! crates/record/specs/Inside/NameHash.antt): they share a bucket, and names also the
//! first digits by which a search in the bucket's tree goes one of eight ways.

use reading::rng::Rng;
use std::collections::BTreeMap;
use std::sync::OnceLock;

const NAME: usize = 24;
/// A table of more than 16,384 bytes has so many buckets of names, and of other keys, and of lists. The numbers for shorter
/// ones divide these.
const TREES: usize = 8192;
const LISTS: usize = 1024;
/// In so many first digits all names of `deep_names` agree.
pub const SAME: usize = 6;
/// The most names that a table has room for.
const MOST: usize = 2307;

/// What each eight bytes of a name, as a number, are multiplied by for its hash.
const FACTORS: [u64; 3] = [15_837_372_998_040_177_803, 15_377_906_377_925_924_563, 17_415_691_914_075_052_159];

/// The 64 bits that the hash of a name is taken from. What each letter adds to them depends on no other letter.
fn sum(name: &[u8; NAME]) -> u64 {
    let words = name.chunks_exact(8).map(|w| u64::from_le_bytes([w[0], w[1], w[2], w[3], w[4], w[5], w[6], w[7]]));
    words.zip(FACTORS).fold(0, |sum, (word, factor)| word.wrapping_mul(factor).wrapping_add(sum))
}

/// The upper 16 of these bits, and the upper 8 once more.
fn hash(name: &[u8; NAME]) -> usize {
    let sum = sum(name);
    ((sum >> 48) + (sum >> 56)) as usize % 65_536
}

/// The 64 bits that digits 1 to 20 of a name are taken from.
fn digest(name: &[u8; NAME]) -> u64 {
    let words = name.chunks_exact(4).map(|w| u32::from_le_bytes([w[0], w[1], w[2], w[3]]));
    words.cycle().take(15).fold(11_400_714_819_323_198_485, round)
}

fn round(s: u64, word: u32) -> u64 {
    let half = 1 << 32;
    let low = s % half;
    let p = (s / half + word as u64) % half * (low / 2 * 2 + 1);
    (p / half + low) % half * half + p % half
}

/// Which of eight ways a search for a name goes behind so many records.
fn digit(name: &[u8; NAME], behind: usize) -> u64 {
    match behind {
        0 => hash(name) as u64 / 8192 % 8,
        1..=20 => digest(name) >> (3 * behind) & 7,
        _ => name[behind % NAME] as u64 >> (behind / NAME % 3 * 3) & 7,
    }
}

fn has_bucket(name: &[u8; NAME], bucket: usize) -> bool {
    hash(name) % TREES == bucket
}

fn spelled(name: &[u8; NAME]) -> String {
    name.iter().map(|byte| *byte as char).collect()
}

/// So many names of bucket 0, otherwise random.
pub fn bucket_names(count: usize) -> Vec<String> {
    let letters: Vec<u8> = (b'A'..=b'Z').chain(b'a'..=b'z').collect();
    let mut rng = Rng::new(1, 2, 3);
    let names = std::iter::repeat_with(|| [0; NAME].map(|_| *rng.pick(&letters)));
    names.filter(|name| has_bucket(name, 0)).take(count).map(|name| spelled(&name)).collect()
}

/// So many names of bucket 0 whose first digits are 0. They are searched for once.
pub fn deep_names(count: usize) -> Vec<String> {
    static FOUND: OnceLock<Vec<String>> = OnceLock::new();
    let names = FOUND.get_or_init(|| Deep::new().search(MOST));
    assert!(count <= names.len(), "more names than a table has room for");
    names[..count].to_vec()
}

/// What the search for such names uses.
struct Deep {
    letters: Vec<u8>,
    /// All last three letters, sorted by what they add to the sum of a name.
    ends: Vec<(u64, [u8; 3])>,
}

impl Deep {
    /// A name has bucket 0 and digit 0 where its sum is below this: its upper 16 bits are 0.
    const BOUND: u64 = 1 << 48;

    fn new() -> Deep {
        let letters: Vec<u8> = (33..=126).filter(|letter| *letter != b'.').collect();
        let mut ends = Vec::new();
        for a in &letters {
            let with_a = letters.iter().flat_map(|b| letters.iter().map(move |c| [*a, *b, *c]));
            ends.extend(with_a.map(|end| (sum(&ended([0; NAME], end)), end)));
        }
        ends.sort_unstable();
        Deep { letters, ends }
    }

    /// The other digits come by trial: each takes eight times as many names.
    fn search(&self, count: usize) -> Vec<String> {
        let mut rng = Rng::new(1, 2, 4);
        let names = std::iter::repeat_with(|| self.names(&mut rng)).flatten();
        let deep = names.filter(|name| (1..SAME).all(|behind| digit(name, behind) == 0));
        deep.take(count).map(|name| spelled(&name)).collect()
    }

    /// The names of bucket 0 and digit 0 with the same random letters but for the last three.
    fn names(&self, rng: &mut Rng) -> impl Iterator<Item = [u8; NAME]> + '_ {
        let name = ended([0; NAME].map(|_| *rng.pick(&self.letters)), [0; 3]);
        let ends = self.ends_from(sum(&name));
        ends.map(move |end| ended(name, end))
    }

    /// The ends that take a sum below the bound. Sorted by what they add, the sums modulo 2^64 rise from the first end that
    /// carries past 2^64 to the last one, and go on rising from the first end.
    fn ends_from(&self, base: u64) -> impl Iterator<Item = [u8; 3]> + '_ {
        let first = self.ends.partition_point(|(more, _)| *more < base.wrapping_neg());
        let ends = self.ends[first..].iter().chain(&self.ends);
        ends.take_while(move |(more, _)| base.wrapping_add(*more) < Deep::BOUND).map(|(_, end)| *end)
    }
}

/// The name with these last three letters.
fn ended(mut name: [u8; NAME], end: [u8; 3]) -> [u8; NAME] {
    name[NAME - 3..].copy_from_slice(&end);
    name
}

fn number(owner: u16, name: u16) -> usize {
    owner.wrapping_mul(509).wrapping_add(name) as usize
}

/// How many buckets of names, and of other keys, a table of so many bytes has.
fn trees(bytes: usize) -> usize {
    match bytes {
        0..=2048 => 256,
        2049..=16_384 => 2048,
        _ => TREES,
    }
}

/// Pairs of ids below this, from the fullest bucket on that a table of so many bytes has.
pub fn pairs(ids: u16, bytes: usize) -> Vec<(u16, u16)> {
    let trees = trees(bytes);
    let mut buckets: BTreeMap<usize, Vec<(u16, u16)>> = BTreeMap::new();
    for owner in 0..ids {
        for name in 0..ids {
            buckets.entry(number(owner, name) % trees).or_default().push((owner, name));
        }
    }
    let mut fullest: Vec<_> = buckets.into_values().collect();
    fullest.sort_by_key(|pairs| usize::MAX - pairs.len());
    fullest.into_iter().flatten().collect()
}

/// Every other pair of ids below this that has the bucket of lists of a pair.
pub fn listed_with(owner: u16, name: u16, ids: u16) -> Vec<(u16, u16)> {
    let all = (0..ids).flat_map(|owner| (0..ids).map(move |name| (owner, name)));
    let bucket = number(owner, name) % LISTS;
    all.filter(|pair| number(pair.0, pair.1) % LISTS == bucket && *pair != (owner, name)).collect()
}

#[cfg(test)]
mod tests {
    use super::*;
    use reading::name::BUILT_IN;
    use std::collections::BTreeSet;

    fn name(spelled: &str) -> [u8; NAME] {
        spelled.as_bytes().try_into().expect("a name of 24 letters")
    }

    /// A round by the halves of 32 bits.
    fn round_by_halves(s: u64, word: u32) -> u64 {
        let (high, low) = ((s >> 32) as u32, s as u32);
        let p = u128::from(high.wrapping_add(word)) * u128::from(low | 1);
        u64::from(((p >> 32) as u32).wrapping_add(low)) << 32 | u64::from(p as u32)
    }

    #[test]
    fn digits_are_those_of_the_definition() {
        let one = name("abcdefghijklmnopqrstuvwx");
        let words = [*b"abcd", *b"efgh", *b"ijkl", *b"mnop", *b"qrst", *b"uvwx"].map(u32::from_le_bytes);
        let by_halves = (0..15).fold(0x9e37_79b9_7f4a_7c15, |s, k| round_by_halves(s, words[k % 6]));
        assert_eq!(digest(&one), by_halves);
        assert_eq!((hash(&one), digest(&one)), (21_807, 0xc96a_804d_95c2_6dcd));
        let found = [0, 1, 20, 21, 23, 24, 47, 48, 71, 72].map(|behind| digit(&one, behind));
        assert_eq!(found, [2, 1, 4, 6, 0, 4, 7, 1, 1, 1]);
    }

    #[test]
    fn names_have_the_bucket_and_the_digits_that_are_said() {
        assert!(bucket_names(100).iter().all(|spelled| hash(&name(spelled)) % TREES == 0));
        let deep = deep_names(MOST);
        assert!(deep.iter().all(|spelled| hash(&name(spelled)) % TREES == 0));
        assert!(deep.iter().all(|spelled| (0..SAME).all(|behind| digit(&name(spelled), behind) == 0)));
        assert!((0..8).all(|way| deep.iter().any(|spelled| digit(&name(spelled), SAME) == way)));
    }

    #[test]
    fn deep_names_are_distinct_and_well_formed() {
        let deep = deep_names(MOST);
        assert_eq!(deep.iter().collect::<BTreeSet<_>>().len(), MOST);
        assert!(deep.iter().flat_map(|spelled| spelled.bytes()).all(|byte| (33..=126).contains(&byte) && byte != 46));
        assert!(deep.iter().all(|spelled| spelled.len() == NAME && !BUILT_IN.contains(&spelled.as_str())));
        assert_eq!(deep_names(72), deep[..72]);
    }

    #[test]
    fn pairs_have_few_buckets() {
        for (ids, bytes, most) in
            [(76, 1875, 8), (184, 7500, 11), (328, 15_000, 7), (617, 30_000, 16), (1193, 60_000, 9)]
        {
            let few: BTreeSet<_> =
                pairs(ids, bytes).iter().take(bytes / 43).map(|(o, n)| number(*o, *n) % trees(bytes)).collect();
            assert!(few.len() <= most, "{bytes} bytes: {} buckets", few.len());
        }
        assert!(listed_with(65_535, 40, 1193).iter().all(|(o, n)| number(*o, *n) % LISTS == 555));
    }
}
