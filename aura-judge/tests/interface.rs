//! What this crate declares, held against what the linked library does: sizes, every field, an answer of each number,
//! an answer slice of every length, loads of every node count, and all lent bytes.

use aura_judge::raw::{self, field, Fields, ANSWER_SIZE, DIAGNOSTIC_SIZE, LOAD_LONGEST, TOO_SHORT};
use aura_judge::{judge, load, Answer, Diagnostic, DiagnosticKind, Doer, Refusal, Type, BUILT_IN};

const NO_HEADER: [u8; 5] = [0xff, 0xff, 0xff, 0xff, 0];
const FILL: u8 = 0xa5;

/// A question with no current type, no package, not in suspend.
fn question(tree: &[u8]) -> Vec<u8> {
    [&NO_HEADER, tree].concat()
}

fn name(name: &str) -> Vec<u8> {
    let mut record = vec![1, name.len() as u8];
    record.extend_from_slice(name.as_bytes());
    record.resize(26, 0);
    record
}

const NONE: u16 = 65_535;

/// A class with its superclass and its two interfaces, without a package.
fn class(name: u16, parents: [u16; 3]) -> Vec<u8> {
    let ids = [&[name], &parents[..], &[NONE]].concat();
    [2].into_iter().chain(ids.into_iter().flat_map(u16::to_le_bytes)).chain([0]).collect()
}

/// For each number that an input can draw: table, question, length of the diagnostics buffer. Number 13 is drawn by none.
fn refused() -> Vec<(u8, Vec<u8>, Vec<u8>, usize)> {
    let int = question(&[0, 0]);
    let mut nodes = question(&[]);
    nodes.extend([2, 0].repeat(64));
    nodes.extend([0, 0]);
    let mut endless = question(&[0]);
    endless.extend([12; 192]);
    let mut wide = vec![5, 0, 0, 1, 0];
    wide.extend([12; 192]);
    wide.push(0);
    vec![
        (1, vec![0; 60_001], int.clone(), 20),
        (2, vec![9], int.clone(), 20),
        (3, [class(0, [NONE; 3]), name("Page")].concat(), int.clone(), 20),
        (4, class(40, [NONE; 3]), int.clone(), 20),
        (4, class(0, [NONE, NONE, 40]), int.clone(), 20),
        (5, [name("Page"), name("Page")].concat(), int.clone(), 20),
        (5, name("Pair"), int.clone(), 20),
        (6, [class(0, [1, NONE, NONE]), class(1, [NONE; 3])].concat(), int.clone(), 20),
        (6, [class(0, [NONE, 1, NONE]), class(1, [NONE; 3])].concat(), int.clone(), 20),
        (6, class(0, [NONE, NONE, 0]), int.clone(), 20),
        (7, vec![5, 0, 0, 1, 0, 21], int.clone(), 20),
        (7, wide, int.clone(), 20),
        (8, vec![], vec![], 20),
        (8, vec![], question(&[0, 0, 0]), 20),
        (9, vec![], nodes, 20),
        (10, vec![], question(&[0, 17, 40, 0]), 20),
        (11, vec![], endless, 20),
        (12, vec![], question(&[2, 6, 0, 0]), 4),
    ]
}

/// The raw call on slices that hold something before.
fn call(table: &[u8], question: &[u8], diagnostics_len: usize, answer_len: usize) -> (u8, Vec<u8>, Vec<u8>) {
    let mut diagnostics = vec![FILL; diagnostics_len];
    let mut answer = vec![FILL; answer_len];
    let number = raw::judge(table, question, &mut diagnostics, &mut answer);
    (number, diagnostics, answer)
}

/// An answer's bytes, written here.
fn answer_bytes(number: u8, pass: u8, ty: &[u8], count: u64) -> Vec<u8> {
    let mut bytes = vec![number, pass];
    bytes.extend((ty.len() as u16).to_le_bytes());
    bytes.extend(count.to_le_bytes());
    bytes.extend(ty);
    bytes.resize(268, 0);
    bytes
}

#[test]
fn sizes() {
    assert_eq!(raw::answer_size(), 268);
    assert_eq!(raw::answer_size(), ANSWER_SIZE);
    assert_eq!(DIAGNOSTIC_SIZE, 5);
    let fields =
        [field::NUMBER..field::NUMBER + 1, field::PASS..field::PASS + 1, field::LEN, field::COUNT, field::TYPE];
    let mut at = 0;
    for field in fields {
        assert_eq!(field.start, at, "fields follow each other without a gap");
        at = field.end;
    }
    assert_eq!(at, ANSWER_SIZE);
}

#[test]
fn every_field_of_a_judged_answer() {
    // A passed type of three bytes, whose bytes differ.
    let (number, diagnostics, answer) = call(&name("Page"), &question(&[0, 17, 40, 0]), 20, ANSWER_SIZE);
    assert_eq!(number, 0);
    assert_eq!(answer, answer_bytes(0, 1, &[17, 40, 0], 0));
    assert_eq!(diagnostics, [0; 20]);

    // A type of 192 bytes, the longest that a leaf has.
    let (_, _, answer) = call(&[], &question(&[&[0][..], &[12; 191], &[0]].concat()), 0, ANSWER_SIZE);
    assert_eq!(answer, answer_bytes(0, 1, &[&[12; 191][..], &[0]].concat(), 0));

    // Two diagnostics with numbers, at a node above 0: `!(Int && Int)`.
    let (_, diagnostics, answer) = call(&[], &question(&[2, 1, 1, 11, 0, 0, 0, 0]), 12, ANSWER_SIZE);
    assert_eq!(answer, answer_bytes(0, 0, &[6], 2));
    assert_eq!(diagnostics, [6, 1, 0, 1, 0, 6, 1, 0, 2, 0, 0, 0]);
    let array: &[u8; ANSWER_SIZE] = answer.as_slice().try_into().unwrap();
    let fields = Fields::of(array);
    assert_eq!((fields.number, fields.pass, fields.len, fields.count), (0, 0, 1, 2));
    assert_eq!((fields.ty[0], fields.ty[1..].iter().any(|&byte| byte != 0)), (6, false));
}

#[test]
fn an_answer_of_each_number() {
    let mut met = [false; 14];
    for (number, table, question, room) in refused() {
        met[number as usize] = true;
        let (returned, diagnostics, answer) = call(&table, &question, room, ANSWER_SIZE);
        assert_eq!(returned, number);
        assert_eq!(answer, answer_bytes(number, 0, &[], 0), "number {number}");
        assert_eq!(diagnostics, vec![0; room]);

        let mut buffer = vec![FILL; room];
        let safe = judge(&table, &question, &mut buffer);
        assert_eq!(safe.number(), number);
        assert_eq!(safe.refusal().map(Refusal::number), Some(number));
        assert!(!safe.passed());
        assert_eq!(safe.ty(), None);
        assert_eq!(safe.diagnostics().len(), 0);
    }
    assert_eq!(met[1..=12], [true; 12]);
    assert_eq!(judge(&[], &question(&[0, 0]), &mut []).number(), 0);
}

#[test]
fn an_answer_slice_of_every_length() {
    let asked = question(&[2, 6, 0, 0]);
    for len in 0..ANSWER_SIZE {
        let (number, diagnostics, answer) = call(&[], &asked, 7, len);
        assert_eq!(number, TOO_SHORT);
        assert_eq!(answer, vec![0; len]);
        assert_eq!(diagnostics, [0; 7]);
    }
    for len in [ANSWER_SIZE, ANSWER_SIZE + 1, ANSWER_SIZE + 500] {
        let (number, diagnostics, answer) = call(&[], &asked, 7, len);
        assert_eq!(number, 0);
        let mut expected = answer_bytes(0, 0, &[21], 1);
        expected.resize(len, 0);
        assert_eq!(answer, expected);
        assert_eq!(diagnostics, [13, 0, 0, 0, 0, 0, 0]);
    }
    // A faulty table is not looked at where there is no room.
    assert_eq!(call(&[9], &asked, 7, 267).0, TOO_SHORT);
}

#[test]
fn a_diagnostics_buffer_of_every_length() {
    let asked = question(&[2, 6, 0, 0]);
    for len in 0..40 {
        let (number, diagnostics, answer) = call(&[], &asked, len, ANSWER_SIZE);
        let mut expected = vec![0; len];
        if len < 5 {
            assert_eq!((number, answer), (12, answer_bytes(12, 0, &[], 0)));
        } else {
            assert_eq!((number, answer), (0, answer_bytes(0, 0, &[21], 1)));
            expected[0] = 13;
        }
        assert_eq!(diagnostics, expected);
    }
}

/// Each is a key of every table (number 5), and id 40 is the first that a table has to define (number 10).
#[test]
fn the_library_has_just_the_built_in_names() {
    for (spelled, id) in BUILT_IN.into_iter().zip(0..) {
        assert_eq!(judge(&name(spelled), &question(&[0, 0]), &mut []).number(), 5, "{spelled}");
        assert_eq!(judge(&[], &question(&[0, 17, id, 0]), &mut []).ty(), Some(&Type::Named(id.into())));
    }
    assert_eq!(judge(&[], &question(&[0, 17, 40, 0]), &mut []).number(), 10);
}

/// The stored cases: table, question, what the program prints, each behind its length in 2 bytes.
fn stored() -> Vec<[Vec<u8>; 3]> {
    let bytes = std::fs::read(concat!(env!("CARGO_MANIFEST_DIR"), "/../crates/replay/stdin")).unwrap();
    let (mut cases, mut rest) = (Vec::new(), bytes.as_slice());
    while !rest.is_empty() {
        cases.push([(); 3].map(|()| {
            let (len, behind) = rest.split_first_chunk().unwrap();
            let (part, behind) = behind.split_at(u16::from_le_bytes(*len) as usize);
            rest = behind;
            part.to_vec()
        }));
    }
    cases
}

/// What the program prints of an answer as Rust values.
fn print(answer: &Answer) -> String {
    let ty = answer.ty().map(Type::to_bytes).unwrap_or_default();
    let hex: String = ty.iter().map(|byte| format!("{byte:02x}")).collect();
    let hex = if ty.is_empty() { "-".to_string() } else { hex };
    let diagnostics: Vec<Diagnostic> = answer.diagnostics().collect();
    let mut out = format!("{} {} {} {} {}\n", answer.number(), answer.passed() as u8, ty.len(), hex, diagnostics.len());
    for d in diagnostics {
        out += &format!("{} {} {}\n", d.kind.number(), d.node, d.number);
    }
    out
}

#[test]
fn the_stored_answers() {
    let cases = stored();
    assert!(cases.len() > 3000);
    let mut kinds = [0; 24];
    for [table, question, printed] in &cases {
        let mut buffer = vec![FILL; 4000];
        let answer = judge(table, question, &mut buffer);
        assert_eq!(print(&answer).as_bytes(), printed, "{table:02x?} {question:02x?}");
        answer.diagnostics().for_each(|d| kinds[d.kind.number() as usize] += 1);
        let used = 5 * answer.diagnostics().len();
        assert!(buffer[used..].iter().all(|&byte| byte == 0), "zeros behind the diagnostics");
    }
    assert!(kinds[1..].iter().all(|&count| count > 0), "a kind of diagnostic is not among them: {kinds:?}");
}

/// The raw call on a slice and a length that hold something before.
fn write_load(start: u32, nodes: usize, room: usize) -> (u8, usize, Vec<u8>) {
    let (mut out, mut len) = (vec![FILL; room], usize::MAX);
    let number = raw::load(start, nodes, &mut out, &mut len);
    (number, len, out)
}

/// Start number 2^32 − 1 draws 15445, 12311, 8835, 41343, 47029: a binary, its operator 6, leaves of the kinds 3 and 1.
#[test]
fn a_load_in_a_buffer_of_every_length() {
    let written = [&NO_HEADER[..], &[1, 6, 0, 3, 0, 1]].concat();
    for room in 0..40 {
        let mut expected = vec![0; room];
        if room < 11 {
            assert_eq!(write_load(u32::MAX, 3, room), (15, 0, expected));
        } else {
            expected[..11].copy_from_slice(&written);
            assert_eq!(write_load(u32::MAX, 3, room), (0, 11, expected));
        }
        let mut out = vec![FILL; room];
        let safe = load(u32::MAX, 3, &mut out);
        assert_eq!(safe, if room < 11 { Err(Refusal::OutputBufferTooShort) } else { Ok(&written[..]) });
    }
}

#[test]
fn a_load_of_every_node_count() {
    for nodes in 1..=64 {
        let mut out = [FILL; LOAD_LONGEST];
        let written = load(1, nodes, &mut out).unwrap();
        assert_eq!((written.len(), &written[..5]), (5 + 2 * nodes, &NO_HEADER[..]));
        assert_eq!(judge(&[], written, &mut [0; 640]).number(), 0, "{nodes} nodes");
    }
    assert_eq!(load(1, 64, &mut [0; LOAD_LONGEST - 1]), Err(Refusal::OutputBufferTooShort));
    for nodes in [0, 65, 66, usize::MAX / 2 + 1, usize::MAX] {
        for room in [0, 3, 200] {
            assert_eq!(write_load(1, nodes, room), (14, 0, vec![0; room]));
            assert_eq!(load(1, nodes, &mut vec![FILL; room]), Err(Refusal::NodeCount));
        }
    }
}

#[test]
fn refusals_by_number() {
    for (i, refusal) in Refusal::ALL.into_iter().enumerate() {
        assert_eq!(refusal.number() as usize, i + 1);
        assert_eq!(Refusal::from_number(refusal.number()), Some(refusal));
    }
    assert_eq!((Refusal::from_number(0), Refusal::from_number(16)), (None, None));
    let others = [Doer::Caller, Doer::Judge, Doer::Caller, Doer::Caller];
    let by = [&[Doer::TableWriter; 7][..], &[Doer::ScriptAuthor; 4], &others].concat();
    assert_eq!(Refusal::ALL.map(Refusal::by).to_vec(), by);
}

#[test]
fn diagnostic_kinds_by_number() {
    for (i, kind) in DiagnosticKind::ALL.into_iter().enumerate() {
        assert_eq!(kind.number() as usize, i + 1);
        assert_eq!(DiagnosticKind::from_number(kind.number()), Some(kind));
        assert_eq!(kind.is_warning(), kind.number() == 4);
    }
    assert_eq!((DiagnosticKind::from_number(0), DiagnosticKind::from_number(24)), (None, None));
    let bytes = [19, 2, 1, 4, 3];
    assert_eq!(Diagnostic::from_bytes(bytes), Some(Diagnostic { kind: DiagnosticKind::Tie, node: 258, number: 772 }));
}
