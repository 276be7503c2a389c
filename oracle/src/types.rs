//! Types as bytes, and as the Rust has them.

use crate::rust::Ty;

/// The type at the start of `bytes`, without any check, and its length.
pub fn decode(bytes: &[u8], names: &[String]) -> (Ty, usize) {
    let id = |at: usize| names[u16::from_le_bytes([bytes[at], bytes[at + 1]]) as usize].clone();
    let child = |at: usize| {
        let (ty, len) = decode(&bytes[at..], names);
        (Box::new(ty), at + len)
    };
    match bytes[0] {
        0 => (Ty::Int, 1),
        1 => (Ty::Long, 1),
        2 => (Ty::Short, 1),
        3 => (Ty::Byte, 1),
        4 => (Ty::Float, 1),
        5 => (Ty::Double, 1),
        6 => (Ty::Boolean, 1),
        7 => (Ty::Char, 1),
        8 => (Ty::String, 1),
        9 => (Ty::Any, 1),
        10 => (Ty::Nothing, 1),
        11 => (Ty::Unit, 1),
        12 => {
            let (inner, end) = child(1);
            (Ty::Nullable(inner), end)
        }
        13 => {
            let (inner, end) = child(1);
            (Ty::Pointer(inner), end)
        }
        14 => {
            let size = u32::from_le_bytes([bytes[2], bytes[3], bytes[4], bytes[5]]) as usize;
            let (inner, end) = child(6);
            (Ty::Array { inner, size: if bytes[1] == 1 { Some(size) } else { None } }, end)
        }
        15 => {
            let (inner, end) = child(1);
            (Ty::List(inner), end)
        }
        16 => {
            let (key, middle) = child(1);
            let (value, end) = child(middle);
            (Ty::Map(key, value), end)
        }
        17 => (Ty::Named(id(1)), 3),
        18 => {
            let mut params = Vec::new();
            let mut at = 2;
            for _ in 0..bytes[1] {
                let (param, end) = child(at);
                params.push(*param);
                at = end;
            }
            let (ret, end) = child(at);
            (Ty::Function { params, ret }, end)
        }
        19 => (Ty::TypeVar(u32::from_le_bytes([bytes[1], bytes[2], bytes[3], bytes[4]])), 5),
        20 => (Ty::Module(id(1)), 3),
        21 => (Ty::Error, 1),
        kind => panic!("{} is no kind that the Rust is asked with", kind),
    }
}

/// The bytes of a type; `id` gives a name's number.
pub fn encode(ty: &Ty, id: &dyn Fn(&str) -> u16, out: &mut Vec<u8>) {
    let simple = |kind: u8, out: &mut Vec<u8>| out.push(kind);
    match ty {
        Ty::Int => simple(0, out),
        Ty::Long => simple(1, out),
        Ty::Short => simple(2, out),
        Ty::Byte => simple(3, out),
        Ty::Float => simple(4, out),
        Ty::Double => simple(5, out),
        Ty::Boolean => simple(6, out),
        Ty::Char => simple(7, out),
        Ty::String => simple(8, out),
        Ty::Any => simple(9, out),
        Ty::Nothing => simple(10, out),
        Ty::Unit => simple(11, out),
        Ty::Nullable(inner) => {
            out.push(12);
            encode(inner, id, out);
        }
        Ty::Pointer(inner) => {
            out.push(13);
            encode(inner, id, out);
        }
        Ty::Array { inner, size } => {
            out.push(14);
            out.push(size.is_some() as u8);
            let size = u32::try_from(size.unwrap_or(0)).expect("an array size has 4 bytes");
            out.extend_from_slice(&size.to_le_bytes());
            encode(inner, id, out);
        }
        Ty::List(inner) => {
            out.push(15);
            encode(inner, id, out);
        }
        Ty::Map(key, value) => {
            out.push(16);
            encode(key, id, out);
            encode(value, id, out);
        }
        Ty::Named(name) => {
            out.push(17);
            out.extend_from_slice(&id(name).to_le_bytes());
        }
        Ty::Function { params, ret } => {
            out.push(18);
            out.push(params.len() as u8);
            for param in params {
                encode(param, id, out);
            }
            encode(ret, id, out);
        }
        Ty::TypeVar(n) => {
            out.push(19);
            out.extend_from_slice(&n.to_le_bytes());
        }
        Ty::Module(name) => {
            out.push(20);
            out.extend_from_slice(&id(name).to_le_bytes());
        }
        Ty::Error => simple(21, out),
    }
}
