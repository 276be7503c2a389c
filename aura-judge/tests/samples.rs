//! The samples in `samples/`, answered as their texts say. The result type tells which overload a call chose.

use aura_judge::{judge, Names};

/// The pass mark, the type and the diagnostics in words.
fn answer(input: &[u8]) -> (bool, String, Vec<String>) {
    let len = u16::from_le_bytes([input[0], input[1]]) as usize;
    let (table, question) = input[2..].split_at(len);
    let mut buffer = [0; 320];
    let answer = judge(table, question, &mut buffer);
    let ty = answer.ty().expect("the sample is not refused");
    (answer.passed(), ty.with(&Names::of(table)).to_string(), answer.diagnostics().map(|d| d.to_string()).collect())
}

fn passes(input: &[u8], ty: &str) {
    assert_eq!(answer(input), (true, ty.to_string(), vec![]));
}

fn reports(input: &[u8], ty: &str, diagnostics: &[&str]) {
    let diagnostics = diagnostics.iter().map(|d| d.to_string()).collect();
    assert_eq!(answer(input), (false, ty.to_string(), diagnostics));
}

#[test]
fn each_overload_is_chosen() {
    passes(include_bytes!("../../samples/words.gaps.bin"), "List(Word)");
    passes(include_bytes!("../../samples/words.fonts.bin"), "Map(Font, List(Word))");
    passes(include_bytes!("../../samples/words.tags.bin"), "Map(String, List(Word))");
    passes(include_bytes!("../../samples/words.plain.bin"), "Map(String, List(Word))");
}

#[test]
fn no_overload_takes_a_string() {
    reports(include_bytes!("../../samples/words.heading.bin"), "Error", &["node 0: no match"]);
}

#[test]
fn each_argument_is_compared_with_its_own_parameter() {
    passes(include_bytes!("../../samples/stamp.text.bin"), "Page");
    passes(include_bytes!("../../samples/stamp.number.bin"), "List(Page)");
    passes(include_bytes!("../../samples/stamp.named.bin"), "List(Page)");
    reports(include_bytes!("../../samples/stamp.order.bin"), "Error", &["node 0: no match"]);
    let swapped = ["node 2: mismatch (1)", "node 5: mismatch (2)"];
    reports(include_bytes!("../../samples/words.swapped.bin"), "Map(String, List(Word))", &swapped);
}

#[test]
fn a_subclass_goes_where_its_superclass_is_expected() {
    passes(include_bytes!("../../samples/repair.scan.bin"), "Page");
    passes(include_bytes!("../../samples/repair.batch.bin"), "List(Page)");
    passes(include_bytes!("../../samples/repair.compare.bin"), "Boolean");
}

#[test]
fn an_array_of_more_than_four_bytes_can_count_is_used_like_any_other() {
    passes(include_bytes!("../../samples/mapsheet.cells.bin"), "Array(Byte, 8000000000)");
    passes(include_bytes!("../../samples/mapsheet.first.bin"), "Byte");
    passes(include_bytes!("../../samples/mapsheet.sheet.bin"), "MapSheet");
    passes(include_bytes!("../../samples/mapsheet.tile.bin"), "Tile");
    passes(include_bytes!("../../samples/mapsheet.smaller.bin"), "MapSheet");
    passes(include_bytes!("../../samples/mapsheet.list.bin"), "MapSheet");
    passes(include_bytes!("../../samples/mapsheet.compare.bin"), "Boolean");
    reports(include_bytes!("../../samples/mapsheet.ink.bin"), "MapSheet", &["node 1: mismatch (1)"]);
}

#[test]
fn a_class_goes_where_an_interface_of_it_is_expected() {
    passes(include_bytes!("../../samples/printable.scan.bin"), "Boolean");
    passes(include_bytes!("../../samples/printable.batch.bin"), "Int");
    passes(include_bytes!("../../samples/printable.photo.bin"), "Boolean");
    passes(include_bytes!("../../samples/printable.receipt.bin"), "Signed");
    passes(include_bytes!("../../samples/printable.archive.bin"), "Printable");
    reports(include_bytes!("../../samples/printable.page.bin"), "Boolean", &["node 1: mismatch (1)"]);
    reports(include_bytes!("../../samples/printable.either.bin"), "Page", &["node 0: tie (2)"]);
    let unrelated = ["node 4: unrelated comparison (warning)"];
    reports(include_bytes!("../../samples/printable.compare.bin"), "Boolean", &unrelated);
}

#[test]
fn protected_access_and_operator_methods_are_by_superclasses_alone() {
    passes(include_bytes!("../../samples/printable.margin.bin"), "Float");
    reports(include_bytes!("../../samples/printable.ink.bin"), "Float", &["node 0: access (1)"]);
    reports(include_bytes!("../../samples/printable.sum.bin"), "Error", &["node 0: plus"]);
}

#[test]
fn a_superclass_does_not_go_where_its_subclass_is_expected() {
    reports(include_bytes!("../../samples/repair.page.bin"), "ScannedPage", &["node 1: mismatch (1)"]);
}
