//! The functions that Rattle exports (crates/aura_c), that the header declares and that `src/raw.rs` declares are the
//! same, parameter by parameter; so are sizes and numbers, and the built-in names, those of the judge's definition.

use aura_judge::raw::{ANSWER_SIZE, LOAD_LONGEST, TOO_SHORT};
use aura_judge::Refusal;
use std::collections::BTreeMap;

fn read(path: &str) -> String {
    let path = format!("{}/../{}", env!("CARGO_MANIFEST_DIR"), path);
    let text = std::fs::read_to_string(&path).unwrap_or_else(|e| panic!("{path}: {e}"));
    text.lines().map(|line| line.split("//").next().unwrap_or("")).collect::<Vec<_>>().join(" ")
}

/// The functions by name: their parameters and the result, as C types with the parameters' names.
type Functions = BTreeMap<String, String>;

/// `NAME(PARAMETERS) -> RESULT` for each `fn` of the text, each parameter put into C's words by `parameter`.
fn functions(text: &str, mark: &str, parameter: impl Fn(&str, &str) -> String) -> Functions {
    let mut all = Functions::new();
    for piece in text.split(mark).skip(1) {
        let (name, rest) = piece.split_once('(').expect("a function has parameters");
        let (parameters, rest) = rest.split_once(')').expect("parameters end");
        let result = rest.trim_start().strip_prefix("->").expect("each exported function has a result");
        let result = result.split([';', '{']).next().unwrap_or("").split_whitespace().next().unwrap_or("");
        let parameters = parameters.split(',').filter(|p| !p.trim().is_empty()).map(|p| {
            let (name, ty) = p.split_once(':').expect("a parameter has a type");
            parameter(name.trim(), ty.trim())
        });
        let parameters = parameters.collect::<Vec<_>>().join(", ");
        all.insert(name.trim().to_string(), format!("({parameters}) -> {}", c_number(result)));
    }
    all
}

fn c_number(ty: &str) -> &str {
    match ty {
        "u8" => "uint8_t",
        "u32" => "uint32_t",
        "usize" => "size_t",
        other => panic!("{other} has no place in the interface"),
    }
}

fn exported() -> Functions {
    functions(&read("crates/aura_c/src/lib.rt"), "pub extern \"C\" fn ", |name, ty| match ty {
        "&[u8]" => format!("const uint8_t *{name}, size_t {name}_length"),
        "&mut [u8]" => format!("uint8_t *{name}, size_t {name}_length"),
        "&mut usize" => format!("size_t *{name}"),
        number => format!("{} {name}", c_number(number)),
    })
}

fn declared_in_rust() -> Functions {
    let text = read("aura-judge/src/raw.rs");
    let block = text.split("extern \"C\" {").nth(1).and_then(|rest| rest.split('}').next()).expect("a block");
    functions(block, "fn ", |name, ty| match ty {
        "*const u8" => format!("const uint8_t *{name}"),
        "*mut u8" => format!("uint8_t *{name}"),
        "*mut usize" => format!("size_t *{name}"),
        number => format!("{} {name}", c_number(number)),
    })
}

#[test]
fn rust_declares_what_rattle_exports() {
    let exported = exported();
    assert!(exported.contains_key("aura_judge") && exported.contains_key("aura_load"), "{exported:?}");
    assert_eq!(declared_in_rust(), exported);
}

#[test]
fn the_header_declares_what_rattle_exports() {
    let header = read("include/aura_judge.h").split_whitespace().collect::<Vec<_>>().join(" ");
    for (name, signature) in exported() {
        let (parameters, result) = signature.split_once(" -> ").expect("a result");
        let parameters = if parameters == "()" { "(void)" } else { parameters };
        let declaration = format!("{result} {name}{parameters};");
        assert!(header.contains(&declaration), "the header lacks: {declaration}");
    }
}

#[test]
fn the_numbers_are_those_of_the_code_and_the_header() {
    let (judge, written) = ("crates/aura_c/src/lib.rt", "crates/written/specs/Output.antt");
    let header = read("include/aura_judge.h");
    for (number, place, before, behind, header_has) in [
        (ANSWER_SIZE, judge, "const ANSWER_SIZE: usize = ", ";", "AURA_JUDGE_ANSWER_SIZE "),
        (TOO_SHORT.into(), judge, "const TOO_SHORT: u8 = ", ";", "AURA_JUDGE_TOO_SHORT "),
        (Refusal::NodeCount.number().into(), written, " bad_count = ", " ", "AURA_LOAD_NODE_COUNT "),
        (Refusal::OutputBufferTooShort.number().into(), written, " too_short = ", " ", "AURA_LOAD_TOO_SHORT "),
    ] {
        assert!(read(place).contains(&format!("{before}{number}{behind}")), "{before}{number}{behind}");
        assert!(header.contains(&format!("#define {header_has}{number} ")), "{header_has}{number}");
    }
    assert!(header.contains(&format!("#define AURA_LOAD_LONGEST {LOAD_LONGEST} ")));
}

/// The definition has each name as `in_twenty_four (80 ∷ 97 ∷ 105 ∷ 114 ∷ [])`, in the order of the ids.
#[test]
fn the_built_in_names_are_those_of_the_definition() {
    let text = read("crates/record/specs/Spelling.antt");
    let names = text.split("in_twenty_four (").skip(1).map(|rest| {
        let bytes = rest.split(" ∷ ").map_while(|number| number.parse().ok());
        String::from_utf8(bytes.collect()).expect("a name has letters")
    });
    assert_eq!(names.collect::<Vec<_>>(), aura_judge::BUILT_IN);
}
