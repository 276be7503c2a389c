//! Arrays of more than 2^32 - 1 cells (document 02, order 5): they are read wherever a type stands, and all that holds of an
//! Array holds of them.

use aura_judge::{judge, Answer, Names, Refusal, Type};

const NONE: u16 = 65_535;
/// Built-in names: an owner, a function without one, and a name of a field, of a parameter and of a member.
const OWNER: u16 = 0;
const FUNCTION: u16 = 6;
const SIZE: u16 = 22;
/// Members of an Array.
const MEMBERS: [(u16, Option<Type>); 8] = [
    (20, None), // first
    (25, None), // last
    (26, None), // get
    (27, None), // getAt
    (22, Some(Type::Int)),
    (23, Some(Type::Int)),     // count
    (24, Some(Type::Boolean)), // isEmpty
    (28, Some(Type::Unit)),    // set
];
const ARRAY_LIST: u16 = 2;
const MUTABLE_LIST: u16 = 3;
/// Binary operators.
const EQ: u8 = 5;
const LT: u8 = 7;

/// The smallest size of 8 bytes.
const LARGE: u64 = 1 << 32;
/// No size, sizes of 4 bytes, and sizes of 8.
const SIZES: [Option<u64>; 7] = [None, Some(0), Some(1), Some(LARGE - 1), Some(LARGE), Some(LARGE + 1), Some(u64::MAX)];

fn array(inner: Type, size: Option<u64>) -> Type {
    Type::Array { inner: Box::new(inner), size }
}

fn list(inner: Type) -> Type {
    Type::List(Box::new(inner))
}

fn nullable(inner: Type) -> Type {
    Type::Nullable(Box::new(inner))
}

fn record(kind: u8, ids: [u16; 2]) -> Vec<u8> {
    [kind].into_iter().chain(ids.into_iter().flat_map(u16::to_le_bytes)).collect()
}

/// A function without an owner, with one parameter; both types are bytes.
fn function(param: &[u8], result: &[u8]) -> Vec<u8> {
    [&record(4, [NONE, FUNCTION])[..], &[0, 0, 1], result, &SIZE.to_le_bytes(), &[0], param].concat()
}

fn field(ty: &[u8]) -> Vec<u8> {
    [&record(5, [OWNER, SIZE])[..], ty].concat()
}

fn ask<'d>(table: &[u8], tree: &[u8], buffer: &'d mut [u8]) -> Answer<'d> {
    judge(table, &[&[0xff, 0xff, 0xff, 0xff, 0], tree].concat(), buffer)
}

fn refusal(table: &[u8], tree: &[u8]) -> Option<Refusal> {
    ask(table, tree, &mut [0; 320]).refusal()
}

/// The answer's type, and the diagnostics in words behind it.
fn answer(table: &[u8], tree: &[u8]) -> String {
    let mut buffer = [0; 320];
    let answer = ask(table, tree, &mut buffer);
    let ty = answer.ty().unwrap_or_else(|| panic!("refused with {}", answer.number()));
    let mut words = ty.with(&Names::of(table)).to_string();
    answer.diagnostics().for_each(|d| words += &format!(", {d}"));
    assert_eq!(answer.passed(), answer.diagnostics().len() == 0);
    words
}

fn leaf(ty: &Type) -> Vec<u8> {
    [vec![0], ty.to_bytes()].concat()
}

/// A call of the function with one argument, a leaf.
fn call(argument: &Type) -> Vec<u8> {
    [vec![5, FUNCTION as u8, 0, 1], leaf(argument)].concat()
}

fn member(name: u16, object: &Type) -> Vec<u8> {
    [&[4][..], &name.to_le_bytes(), &leaf(object)].concat()
}

fn binary(op: u8, left: &Type, right: &Type) -> Vec<u8> {
    [vec![1, op], leaf(left), leaf(right)].concat()
}

/// What the one overload with this parameter says of an argument.
fn taken(argument: &Type, param: &Type) -> bool {
    match answer(&function(&param.to_bytes(), &Type::Unit.to_bytes()), &call(argument)).as_str() {
        "Unit" => true,
        "Unit, node 1: mismatch (1)" => false,
        other => panic!("{argument} to {param}: {other}"),
    }
}

#[test]
fn every_size_is_read_wherever_a_type_stands() {
    for size in SIZES {
        let ty = array(array(Type::Byte, Some(3)), size);
        let (bytes, shown) = (ty.to_bytes(), ty.to_string());
        assert_eq!(answer(&[], &leaf(&ty)), shown);
        assert_eq!(answer(&function(&[0], &bytes), &call(&Type::Int)), shown, "a result");
        assert_eq!(answer(&function(&bytes, &[11]), &call(&ty)), "Unit", "a parameter");
        assert_eq!(refusal(&field(&bytes), &leaf(&Type::Int)), None, "a field");
        // In a type of each kind that has children, and in an Array of each kind.
        for around in [nullable(ty.clone()), list(ty.clone()), array(ty.clone(), None), array(ty.clone(), Some(LARGE))]
        {
            assert_eq!(answer(&[], &leaf(&around)), around.to_string());
        }
        let function = Type::Function { params: vec![ty.clone(), Type::Int], result: Box::new(ty.clone()) };
        assert_eq!(answer(&[], &leaf(&function)), function.to_string());
        let map = Type::Map(Box::new(ty.clone()), Box::new(ty));
        assert_eq!(answer(&[], &leaf(&map)), map.to_string());
    }
}

/// "A kind 22 with a smaller size or another flag counts as malformed"; so does a kind above 22.
#[test]
fn another_spelling_is_malformed() {
    let sized = |kind: u8, flag: u8, size: &[u8]| [&[kind, flag], size, &[0]].concat();
    for bytes in [
        sized(22, 1, &0u64.to_le_bytes()),
        sized(22, 1, &1u64.to_le_bytes()),
        sized(22, 1, &(LARGE - 1).to_le_bytes()),
        sized(22, 0, &0u64.to_le_bytes()),
        sized(22, 0, &LARGE.to_le_bytes()),
        sized(22, 2, &LARGE.to_le_bytes()),
        sized(22, 255, &u64::MAX.to_le_bytes()),
        sized(14, 0, &1u32.to_le_bytes()),
        sized(14, 2, &1u32.to_le_bytes()),
        vec![23],
    ] {
        assert_eq!(refusal(&[], &[vec![0], bytes.clone()].concat()), Some(Refusal::MalformedQuestion), "{bytes:?}");
        for table in [field(&bytes), function(&bytes, &[0]), function(&[0], &bytes)] {
            assert_eq!(refusal(&table, &[0, 0]), Some(Refusal::MalformedRecord), "{bytes:?}");
        }
    }
}

/// A method call, whose object has this type: it is Any, whatever the type is.
fn method(object: &[u8]) -> Vec<u8> {
    [&[6, 6, 0, 0, 0][..], object].concat()
}

/// What the 192 bytes of a type come to, in a table and in a leaf: (2, 8), (7, 11), or taken.
fn limits(bytes: &[u8]) -> (u8, u8) {
    let number = |table: &[u8], tree: &[u8]| refusal(table, tree).map_or(0, Refusal::number);
    (number(&field(bytes), &[0, 0]), number(&[], &method(bytes)))
}

#[test]
fn a_body_is_examined_only_where_it_is_whole_in_192_bytes() {
    const BROKEN: (u8, u8) = (2, 8);
    const ENDLESS: (u8, u8) = (7, 11);
    let front = |nullables: usize, body: &[u8]| [&vec![12; nullables], &[22][..], body].concat();
    let body = [1, 0, 0, 0, 0, 1, 0, 0, 0];
    let malformed = [2, 0, 0, 0, 0, 1, 0, 0, 0];
    // The longest that is taken: 181 kinds of one byte, a large Array, Int.
    assert_eq!(limits(&[front(181, &body), vec![0]].concat()), (0, 0));
    assert_eq!(limits(&[front(181, &malformed), vec![0]].concat()), BROKEN);
    // The element lies behind, so the body is the last thing examined.
    assert_eq!(limits(&[front(182, &body), vec![0]].concat()), ENDLESS);
    assert_eq!(limits(&[front(182, &malformed), vec![0]].concat()), BROKEN);
    // From one byte of the body to all of them, and the kind, behind the 192nd byte.
    for nullables in 183..=192 {
        for body in [body, malformed, [0; 9]] {
            assert_eq!(limits(&[front(nullables, &body), vec![0]].concat()), ENDLESS, "{nullables}");
        }
    }
    // Cut at every byte, at the front and right before the 192nd byte.
    for nullables in [0, 1, 100, 181, 182] {
        for len in 0..=9 {
            let left = nullables + 1 + len;
            let wanted = if left < 192 { BROKEN } else { ENDLESS };
            assert_eq!(limits(&front(nullables, &body[..len])), wanted, "{nullables} and {len}");
        }
    }
    for (nullables, len, wanted) in
        [(183, 7, BROKEN), (183, 8, ENDLESS), (190, 0, BROKEN), (190, 1, ENDLESS), (191, 0, ENDLESS)]
    {
        assert_eq!(limits(&front(nullables, &malformed[..len])), wanted, "{nullables} and {len}");
    }
}

/// "List and Array assign to Array by element type, size ignored", across both kinds.
#[test]
fn an_element_decides_whatever_the_sizes_are() {
    for to in SIZES {
        let to_int = array(Type::Int, to);
        for from in SIZES {
            assert!(taken(&array(Type::Int, from), &to_int));
            assert!(taken(&array(Type::Long, from), &to_int));
            assert!(!taken(&array(Type::String, from), &to_int));
            assert!(taken(&array(array(Type::Int, to), from), &array(to_int.clone(), from)));
            assert!(!taken(&array(array(Type::Unit, to), from), &array(to_int.clone(), from)));
            assert!(taken(&nullable(array(Type::Int, from)), &nullable(to_int.clone())));
            // A Pointer, a Map and a Function are compared whole.
            let pointer = |size| Type::Pointer(Box::new(array(Type::Int, size)));
            assert_eq!(taken(&pointer(from), &pointer(to)), from == to);
        }
        assert!(taken(&list(Type::Int), &to_int));
        assert!(!taken(&list(Type::String), &to_int));
        assert!(taken(&Type::Named(ARRAY_LIST), &to_int));
        assert!(taken(&Type::Named(MUTABLE_LIST), &to_int));
        assert!(!taken(&to_int, &list(Type::Int)));
        assert!(!taken(&Type::Int, &to_int));
    }
}

#[test]
fn an_exact_match_has_the_same_size() {
    let overloads = |first: u64, second: u64| {
        let one = |size, result: Type| function(&array(Type::Byte, Some(size)).to_bytes(), &result.to_bytes());
        [one(first, Type::Int), one(second, Type::Long)].concat()
    };
    let called = |size| call(&array(Type::Byte, Some(size)));
    assert_eq!(answer(&overloads(LARGE, LARGE + 1), &called(LARGE)), "Int");
    assert_eq!(answer(&overloads(LARGE, LARGE + 1), &called(LARGE + 1)), "Long");
    assert_eq!(answer(&overloads(LARGE, LARGE + 1), &called(1)), "Int, node 0: tie (2)");
    assert_eq!(answer(&overloads(LARGE - 1, LARGE), &called(LARGE - 1)), "Int");
    assert_eq!(answer(&overloads(LARGE - 1, LARGE), &called(LARGE)), "Long");
    assert_eq!(answer(&overloads(LARGE - 1, LARGE), &call(&list(Type::Byte))), "Int, node 0: tie (2)");
}

#[test]
fn comparisons() {
    let (small, large) = (array(Type::Int, Some(3)), array(Type::Long, Some(LARGE)));
    assert_eq!(answer(&[], &binary(EQ, &small, &large)), "Boolean");
    assert_eq!(answer(&[], &binary(EQ, &large, &small)), "Boolean");
    let other = array(Type::Boolean, Some(LARGE));
    assert_eq!(answer(&[], &binary(EQ, &small, &other)), "Boolean, node 0: unrelated comparison (warning)");
    // `<` asks for the same type.
    assert_eq!(answer(&[], &binary(LT, &large, &large)), "Boolean");
    let larger = array(Type::Long, Some(LARGE + 1));
    assert_eq!(answer(&[], &binary(LT, &large, &larger)), "Boolean, node 0: not comparable");
}

#[test]
fn members_are_by_the_element() {
    for size in SIZES {
        for inner in [Type::Char, nullable(Type::String), array(Type::Int, Some(LARGE)), Type::Named(0)] {
            let object = array(inner.clone(), size);
            for (name, of_all) in MEMBERS {
                let wanted = of_all.unwrap_or(inner.clone()).with(&Names::of(&[])).to_string();
                assert_eq!(answer(&[], &member(name, &object)), wanted, "member {name} of {object}");
            }
            assert_eq!(answer(&[], &member(39, &object)), "Error, node 0: unresolved");
            assert_eq!(answer(&[], &member(22, &nullable(object))), "Error, node 0: nullable member");
        }
    }
}
