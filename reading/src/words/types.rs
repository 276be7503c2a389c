//! "One byte of kind, a body whose length the kind fixes, then child types. Numbers are low byte first.
//! Kinds follow enum `Ty` from 0 (Int) to 21 (Error)." Document 02, order 5: "Type kind 22 is an Array".

pub const INT: u8 = 0;
pub const LONG: u8 = 1;
pub const SHORT: u8 = 2;
pub const BYTE: u8 = 3;
pub const FLOAT: u8 = 4;
pub const DOUBLE: u8 = 5;
pub const BOOLEAN: u8 = 6;
pub const CHAR: u8 = 7;
pub const STRING: u8 = 8;
pub const ANY: u8 = 9;
pub const NOTHING: u8 = 10;
pub const UNIT: u8 = 11;
pub const NULLABLE: u8 = 12;
pub const POINTER: u8 = 13;
pub const ARRAY: u8 = 14;
pub const LIST: u8 = 15;
pub const MAP: u8 = 16;
pub const NAMED: u8 = 17;
pub const FUNCTION: u8 = 18;
pub const TYPE_VAR: u8 = 19;
pub const MODULE: u8 = 20;
pub const ERROR: u8 = 21;
/// A large Array.
pub const LARGE_ARRAY: u8 = 22;

/// Document 02, order 5: "All Array rules cover both kinds".
pub fn is_array(kind: u8) -> bool {
    matches!(kind, ARRAY | LARGE_ARRAY)
}

/// "A type in a table or leaf has at most 192 bytes: 191 Nullable over Int is taken, 192 is refused."
pub const LIMIT: usize = 192;

/// A number of 2 bytes, "low byte first".
pub fn two_bytes(bytes: &[u8], at: usize) -> u16 {
    u16::from_le_bytes([bytes[at], bytes[at + 1]])
}

/// "Bodies: Array 14 a 1-byte flag and 4-byte size ..; Named 17 and Module 20 a 2-byte name id; TypeVar 19
/// four bytes; Function 18 a count of parameters to 16". Of kind 22 "a flag of 1 and an 8-byte size".
pub fn body_length(kind: u8) -> usize {
    match kind {
        ARRAY => 1 + 4,
        LARGE_ARRAY => 1 + 8,
        NAMED | MODULE => 2,
        FUNCTION => 1,
        TYPE_VAR => 4,
        _ => 0,
    }
}

/// A size of 4 or of 8 bytes.
fn size(bytes: &[u8]) -> u64 {
    bytes.iter().rev().fold(0, |size, byte| size << 8 | *byte as u64)
}

/// Whether the body of an Array is well formed. Of kind 14: "(flag 0 needs size 0, flag 1 means a size)". Of kind 22, "a
/// flag of 1 and an 8-byte size of at least 2^32"; "with a smaller size or another flag" it "counts as malformed".
fn is_array_body(kind: u8, body: &[u8]) -> bool {
    let (flag, size) = (body[0], size(&body[1..]));
    match kind {
        ARRAY => flag == 1 || (flag == 0 && size == 0),
        _ => flag == 1 && size >= 1 << 32,
    }
}

/// How many child types stand behind a body; none where the body is malformed. "children are those and the result"; "Map
/// has two children; Nullable, Pointer, Array and List one; the others have no body and no child".
fn child_count(kind: u8, body: &[u8]) -> Option<usize> {
    match kind {
        FUNCTION if body[0] > 16 => None,
        FUNCTION => Some(body[0] as usize + 1),
        MAP => Some(2),
        NULLABLE | POINTER | LIST => Some(1),
        _ if is_array(kind) => is_array_body(kind, body).then_some(1),
        _ => Some(0),
    }
}

#[derive(Debug, Clone, Copy, PartialEq, Eq)]
pub enum End {
    /// The type is there, with this length.
    Whole(usize),
    Malformed,
    /// "A type broken off by the end of the bytes before its 192nd byte is cut".
    Cut,
    /// "no end within 192 bytes".
    Endless,
}

#[derive(Debug, Clone, PartialEq, Eq)]
pub struct TypeRead {
    pub end: End,
    /// The name ids in what was examined.
    pub ids: Vec<u16>,
    /// Whether Error was seen in what was examined.
    pub error: bool,
}

/// Reads the type at the start of `bytes`. "In a type without end only kinds and bodies wholly inside its
/// first 192 bytes are examined, and nothing behind them is read."
pub fn read_type(bytes: &[u8]) -> TypeRead {
    let window = &bytes[..bytes.len().min(LIMIT)];
    let mut read =
        TypeRead { end: if bytes.len() < LIMIT { End::Cut } else { End::Endless }, ids: Vec::new(), error: false };
    let mut at = 0;
    let mut missing = 1;
    while missing > 0 {
        let Some(&kind) = window.get(at) else { return read };
        if kind > LARGE_ARRAY {
            read.end = End::Malformed;
            return read;
        }
        read.error |= kind == ERROR;
        let Some(body) = window.get(at + 1..at + 1 + body_length(kind)) else { return read };
        let Some(children) = child_count(kind, body) else {
            read.end = End::Malformed;
            return read;
        };
        if matches!(kind, NAMED | MODULE) {
            read.ids.push(two_bytes(body, 0));
        }
        at += 1 + body.len();
        missing = missing - 1 + children;
    }
    read.end = End::Whole(at);
    read
}

/// The type that stands at the start of `bytes`, where one does whole.
pub fn first(bytes: &[u8]) -> &[u8] {
    match read_type(bytes).end {
        End::Whole(len) => &bytes[..len],
        end => panic!("no whole type: {:?}", end),
    }
}

// Parts of a whole type.

/// What a Nullable, Pointer, Array or List holds: it ends where the type does.
pub fn inner(ty: &[u8]) -> &[u8] {
    &ty[1 + body_length(ty[0])..]
}

/// The name id of a Named or Module.
pub fn id(ty: &[u8]) -> u16 {
    two_bytes(ty, 1)
}

/// The name id of a Named type; none for any other.
pub fn named_id(ty: &[u8]) -> Option<u16> {
    (ty[0] == NAMED).then(|| id(ty))
}

/// `non_null`: "one Nullable taken off".
pub fn non_null(ty: &[u8]) -> &[u8] {
    if ty[0] == NULLABLE {
        inner(ty)
    } else {
        ty
    }
}

/// `is_numeric`.
pub fn is_numeric(ty: &[u8]) -> bool {
    matches!(ty[0], INT | LONG | SHORT | BYTE | FLOAT | DOUBLE)
}

/// `is_integer`.
pub fn is_integer(ty: &[u8]) -> bool {
    matches!(ty[0], INT | LONG | SHORT | BYTE)
}

/// The type of a name.
pub fn named(id: u16) -> Vec<u8> {
    [&[NAMED][..], &id.to_le_bytes()].concat()
}
