//! Types calls of the three overloads of `words` (by gaps, by fonts, by tags), one whose arguments stand at each other's
//! parameters, and one that fits none. The result type tells which overload a call chose. samples/words.txt has the table
//! and the questions in words.
//!
//!     cargo run --example words

use aura_judge::{judge, Answer, Names, Type};

const CALLS: [(&str, &[u8]); 6] = [
    ("page.words(page.gap * 1.5)", include_bytes!("../../samples/words.gaps.bin")),
    ("page.words(page.fonts)", include_bytes!("../../samples/words.fonts.bin")),
    ("page.words(tags = document.tags, depth = 2)", include_bytes!("../../samples/words.tags.bin")),
    ("page.words(document.tags, 2)", include_bytes!("../../samples/words.plain.bin")),
    ("page.words(depth = document.tags, 2)", include_bytes!("../../samples/words.swapped.bin")),
    ("page.words(\"Heading\")", include_bytes!("../../samples/words.heading.bin")),
];

/// The table and the question of a program's input.
fn split(input: &[u8]) -> (&[u8], &[u8]) {
    let len = u16::from_le_bytes([input[0], input[1]]) as usize;
    input[2..].split_at(len)
}

/// The overload with this result type.
fn overload(ty: &Type) -> &'static str {
    match ty {
        Type::List(_) => "by gaps",
        Type::Map(key, _) if **key == Type::String => "by tags",
        Type::Map(..) => "by fonts",
        _ => "none",
    }
}

fn main() {
    for (call, input) in CALLS {
        let (table, question) = split(input);
        let names = Names::of(table);
        let mut buffer = [0; 320];
        println!("{call}");
        match judge(table, question, &mut buffer) {
            Answer::Judged { passed, ty, diagnostics } => {
                let mark = if passed { "passed" } else { "not passed" };
                println!("    {}: {}, overload {}", mark, ty.with(&names), overload(&ty));
                diagnostics.for_each(|d| println!("    {d}"));
            }
            Answer::Refused(refusal) => println!("    {refusal}"),
        }
    }
}
