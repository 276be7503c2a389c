//! The examples of docs/FORMAT.md, in its blocks marked `aura-older`: what is renewed, and what is said where it is not.

use reading::hex::unhex;
use renew::renew;

const PAGE: &str = include_str!("../../docs/FORMAT.md");

/// A line's name and the rest, without the comment; of a line that goes on with the field above it no name.
fn field(line: &str) -> (&str, &str) {
    let line = line.split('#').next().expect("a part");
    if line.starts_with(' ') {
        return ("", line.trim());
    }
    line.split_once(' ').map_or((line, ""), |(name, rest)| (name, rest.trim()))
}

/// The lines of all blocks.
fn lines() -> impl Iterator<Item = &'static str> {
    let blocks = PAGE.split("\n```aura-older\n").skip(1);
    blocks.flat_map(|block| block.lines().take_while(|line| *line != "```"))
}

/// The fields of all blocks, each with its lines in one.
fn fields() -> Vec<(String, String)> {
    let mut fields: Vec<(String, String)> = Vec::new();
    for (name, rest) in lines().map(field) {
        match fields.last_mut() {
            Some(last) if name.is_empty() => last.1 += &format!(" {rest}"),
            _ => fields.push((name.to_string(), rest.to_string())),
        }
    }
    fields
}

fn bytes(text: &str) -> Vec<u8> {
    unhex(&text.split_whitespace().collect::<Vec<_>>().join(".")).expect("hex")
}

#[test]
fn the_examples_are_as_the_page_says() {
    let fields = fields();
    for pair in fields.chunks(2) {
        let [(older, table), (how, expected)] = pair else { panic!("a field alone: {pair:?}") };
        assert_eq!(older, "older");
        match (how.as_str(), renew(&bytes(table))) {
            ("renewed", Ok(renewed)) => assert_eq!(renewed.table, bytes(expected), "{table}"),
            ("says", Err(why)) => assert_eq!(&why.to_string(), expected, "{table}"),
            (_, renewed) => panic!("{how}, but {renewed:?}"),
        }
    }
    assert_eq!(fields.len(), 8);
}
