//! Types read from bytes and written back.

use aura_judge::{Names, Type, TypeError};

fn boxed(ty: Type) -> Box<Type> {
    Box::new(ty)
}

fn array(size: u64) -> Type {
    Type::Array { inner: boxed(Type::Int), size: Some(size) }
}

/// The bytes of `array` with any kind, flag and bytes of size.
fn array_bytes(kind: u8, flag: u8, size: &[u8]) -> Vec<u8> {
    [&[kind, flag], size, &[0]].concat()
}

/// Below 2^32, and from there on.
const SMALL: [u64; 5] = [0, 1, 258, (1 << 32) - 2, (1 << 32) - 1];
const LARGE: [u64; 6] = [1 << 32, (1 << 32) + 1, (1 << 40) + 258, 1 << 63, u64::MAX - 1, u64::MAX];

/// One type of each kind, with its bytes and how it is shown.
fn each_kind() -> Vec<(Type, Vec<u8>, &'static str)> {
    vec![
        (Type::Int, vec![0], "Int"),
        (Type::Long, vec![1], "Long"),
        (Type::Short, vec![2], "Short"),
        (Type::Byte, vec![3], "Byte"),
        (Type::Float, vec![4], "Float"),
        (Type::Double, vec![5], "Double"),
        (Type::Boolean, vec![6], "Boolean"),
        (Type::Char, vec![7], "Char"),
        (Type::String, vec![8], "String"),
        (Type::Any, vec![9], "Any"),
        (Type::Nothing, vec![10], "Nothing"),
        (Type::Unit, vec![11], "Unit"),
        (Type::Nullable(boxed(Type::Int)), vec![12, 0], "Nullable(Int)"),
        (Type::Pointer(boxed(Type::Char)), vec![13, 7], "Pointer(Char)"),
        (Type::Array { inner: boxed(Type::Int), size: None }, vec![14, 0, 0, 0, 0, 0, 0], "Array(Int)"),
        (Type::Array { inner: boxed(Type::Int), size: Some(258) }, vec![14, 1, 2, 1, 0, 0, 0], "Array(Int, 258)"),
        (Type::List(boxed(Type::Any)), vec![15, 9], "List(Any)"),
        (Type::Map(boxed(Type::Int), boxed(Type::Long)), vec![16, 0, 1], "Map(Int, Long)"),
        (Type::Named(258), vec![17, 2, 1], "Named(258)"),
        (Type::Function { params: vec![], result: boxed(Type::Unit) }, vec![18, 0, 11], "Function(-> Unit)"),
        (
            Type::Function { params: vec![Type::Int, Type::Long], result: boxed(Type::Unit) },
            vec![18, 2, 0, 1, 11],
            "Function(Int, Long -> Unit)",
        ),
        (Type::TypeVar(0x0403_0201), vec![19, 1, 2, 3, 4], "TypeVar(67305985)"),
        (Type::Module(3), vec![20, 3, 0], "Module(3)"),
        (Type::Error, vec![21], "Error"),
        (array(1 << 32), vec![22, 1, 0, 0, 0, 0, 1, 0, 0, 0, 0], "Array(Int, 4294967296)"),
    ]
}

#[test]
fn each_kind_both_ways() {
    let mut kinds = [false; 23];
    for (ty, bytes, shown) in each_kind() {
        assert_eq!(Type::from_bytes(&bytes), Ok(ty.clone()));
        assert_eq!(ty.to_bytes(), bytes);
        assert_eq!(ty.to_string(), shown);
        assert_eq!(ty.kind(), bytes[0]);
        assert!(shown.starts_with(ty.kind_name()));
        kinds[ty.kind() as usize] = true;
    }
    assert_eq!(kinds, [true; 23]);
}

#[test]
fn a_size_decides_the_kind_of_an_array() {
    for size in SMALL {
        assert_eq!(array(size).to_bytes(), array_bytes(14, 1, &size.to_le_bytes()[..4]));
    }
    for size in LARGE {
        assert_eq!(array(size).to_bytes(), array_bytes(22, 1, &size.to_le_bytes()));
    }
    for (size, kind) in SMALL.map(|size| (size, 14)).into_iter().chain(LARGE.map(|size| (size, 22))) {
        let ty = array(size);
        assert_eq!((ty.kind(), ty.kind_name()), (kind, "Array"));
        assert_eq!(Type::from_bytes(&ty.to_bytes()), Ok(ty.clone()));
        assert_eq!(ty.to_string(), format!("Array(Int, {size})"));
    }
    let none = Type::Array { inner: boxed(Type::Int), size: None };
    assert_eq!((none.kind(), none.to_bytes()), (14, array_bytes(14, 0, &[0; 4])));
}

/// "A kind 22 with a smaller size or another flag counts as malformed".
#[test]
fn a_size_has_one_spelling() {
    for flag in 0..=255 {
        for size in SMALL {
            let bytes = array_bytes(22, flag, &size.to_le_bytes());
            assert_eq!(Type::from_bytes(&bytes), Err(TypeError::Malformed), "flag {flag}, size {size}");
        }
        for size in LARGE {
            let bytes = array_bytes(22, flag, &size.to_le_bytes());
            let read = if flag == 1 { Ok(array(size)) } else { Err(TypeError::Malformed) };
            assert_eq!(Type::from_bytes(&bytes), read, "flag {flag}, size {size}");
        }
    }
}

/// A body is looked at where it is whole.
#[test]
fn a_body_that_is_cut() {
    for (kind, width) in [(14, 4), (22, 8)] {
        for flag in [0, 1, 2] {
            let bytes = array_bytes(kind, flag, &vec![0xff; width]);
            for len in 1..2 + width {
                assert_eq!(Type::from_bytes(&bytes[..len]), Err(TypeError::Cut), "kind {kind}, {len} bytes");
            }
            let element_cut = if flag == 1 { TypeError::Cut } else { TypeError::Malformed };
            assert_eq!(Type::from_bytes(&bytes[..2 + width]), Err(element_cut));
        }
    }
}

#[test]
fn arrays_of_both_kinds_in_each_other() {
    let ty = Type::Array { inner: boxed(Type::Array { inner: boxed(array(3)), size: Some(1 << 32) }), size: None };
    assert_eq!(ty.to_string(), "Array(Array(Array(Int, 3), 4294967296))");
    let bytes = [&[14, 0, 0, 0, 0, 0][..], &[22, 1, 0, 0, 0, 0, 1, 0, 0, 0], &[14, 1, 3, 0, 0, 0, 0]].concat();
    assert_eq!(ty.to_bytes(), bytes);
    assert_eq!(Type::from_bytes(&bytes), Ok(ty));
}

#[test]
fn with_names() {
    let names = Names::of(&[]);
    for (id, shown) in [(0, "Pair"), (1, "Named(List)"), (39, "keys"), (40, "Named(40)")] {
        assert_eq!(Type::Named(id).with(&names).to_string(), shown);
    }
    assert_eq!(Type::Module(0).with(&names).to_string(), "Module(Pair)");
}

#[test]
fn what_is_no_type() {
    for (_, bytes, _) in each_kind() {
        for len in 0..bytes.len() {
            assert_eq!(Type::from_bytes(&bytes[..len]), Err(TypeError::Cut));
        }
        assert_eq!(Type::from_bytes(&[&bytes[..], &[0]].concat()), Err(TypeError::BytesBehind));
    }
    for bytes in [&[23][..], &[255], &[14, 2, 0, 0, 0, 0, 0], &[14, 0, 1, 0, 0, 0, 0], &[18, 17]] {
        assert_eq!(Type::from_bytes(bytes), Err(TypeError::Malformed));
    }
    assert!(Type::from_bytes(&[&[12; 255][..], &[0]].concat()).is_ok());
    assert_eq!(Type::from_bytes(&[&[12; 256][..], &[0]].concat()), Err(TypeError::TooLong));
}

#[test]
fn bytes_that_are_read_are_written_again() {
    let mut state = 1u64;
    let mut draw = |below: u64| {
        state = state.wrapping_mul(6_364_136_223_846_793_005).wrapping_add(1_442_695_040_888_963_407);
        (state >> 33) % below
    };
    let mut read = [0; 23];
    for _ in 0..200_000 {
        let mut bytes: Vec<u8> = (0..draw(12)).map(|_| draw(24) as u8).collect();
        if bytes.len() > 1 && matches!(bytes[0], 14 | 22) {
            bytes[1] = draw(3) as u8;
        }
        if let Ok(ty) = Type::from_bytes(&bytes) {
            assert_eq!(ty.to_bytes(), bytes);
            read[ty.kind() as usize] += 1;
        }
    }
    assert!(read.iter().all(|&count| count > 10), "{read:?}");
}
