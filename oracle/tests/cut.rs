//! The cutter and the checksum of the build script.

#[path = "../build/cut.rs"]
#[allow(dead_code)]
mod cut;
#[path = "../build/sha256.rs"]
mod sha256;

use cut::{code_places, literal_after, variants, Source};

#[test]
fn sha256_of_the_published_examples() {
    let abc = "ba7816bf8f01cfea414140de5dae2223b00361a396177a9cb410ff61f20015ad";
    let empty = "e3b0c44298fc1c149afbf4c8996fb92427ae41e4649b934ca495991b7852b855";
    let two_blocks = "248d6a61d20638b8e5c026930c3e6039a33ce45964ff2167f6ecedd419db06c1";
    assert_eq!(sha256::sha256_hex(b"abc"), abc);
    assert_eq!(sha256::sha256_hex(b""), empty);
    assert_eq!(sha256::sha256_hex(b"abcdbcdecdefdefgefghfghighijhijkijkljklmklmnlmnomnopnopq"), two_blocks);
}

const TEXT: &str = r##"
/// fn inner() { is a comment
#[derive(Debug)]
pub enum Kind { One, Two(u8), Three { a: u8, b: Vec<u8> } /* , Four */ }

impl<'a> Other<'a> { fn f(&self) -> u8 { 1 } }

impl Thing {
    #[inline]
    pub fn f<'b>(&'b self) -> char {
        // a closing brace in a comment: }
        let s = "} \" }"; let r = r#"} " }"#; let c = '}'; let q = '\''; let u = '。';
        if s.len() > 1 { '{' } else { c }
    }
    fn ff(&self) { fn g() {} }
}
fn free() { struct Inner { a: u8 } }
"##;

#[test]
fn a_method_is_cut_with_its_attribute_and_its_braces() {
    let piece = Source::new("text", TEXT).method("Thing", "f").expect("f is there");
    assert!(piece.starts_with("    #[inline]\n    pub fn f<'b>"));
    assert!(piece.ends_with("else { c }\n    }"));
    assert!(TEXT.contains(&piece));
    assert_eq!(Source::new("text", TEXT).method("Thing", "ff").as_deref(), Ok("    fn ff(&self) { fn g() {} }"));
}

#[test]
fn an_enum_is_cut_with_its_derive_and_its_variants_are_listed() {
    let piece = Source::new("text", TEXT).data("enum", "Kind").expect("Kind is there");
    assert!(piece.starts_with("#[derive(Debug)]\npub enum Kind {") && piece.ends_with("*/ }"));
    assert_eq!(variants(&piece), ["One", "Two", "Three"]);
}

#[test]
fn what_is_missing_is_named() {
    let source = Source::new("sema/some.rs", TEXT);
    for (cut, named) in [
        (source.method("Thing", "g"), "impl Thing .. fn g"),
        (source.method("Nothing", "f"), "impl Nothing"),
        (source.data("struct", "Inner"), "struct Inner"),
        (source.data("enum", "Thing"), "enum Thing"),
    ] {
        let message = cut.expect_err("it is not there");
        assert!(message.contains(named) && message.contains("is missing in sema/some.rs"), "{}", message);
    }
}

#[test]
fn what_stands_twice_is_refused() {
    let text = "impl A { fn f() {} }\nimpl A { fn f() {} }\n";
    let message = Source::new("x.rs", text).method("A", "f").expect_err("twice");
    assert!(message.contains("stands 2 times in x.rs"));
}

#[test]
fn places_are_found_in_code_alone() {
    let text = "a.report(\"x\"); // self.report(\n\"self.report(\"; self.report(1, \"text\");";
    assert_eq!(code_places(text, &["self", ".", "report", "("]).len(), 1);
    assert_eq!(code_places("self.report_warning(", &["self", ".", "report", "("]).len(), 0);
    assert_eq!(literal_after(text, text.rfind("self").unwrap_or(0)).as_deref(), Some("text"));
}
