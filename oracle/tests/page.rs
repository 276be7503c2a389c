//! docs/DIFFERENCES.md says what the oracle prints.

use reading::hex::unhex;
use reading::words;

fn spans(cell: &str) -> Vec<&str> {
    cell.split('`').skip(1).step_by(2).collect()
}

/// The rows of the page's tables whose second column has this heading, cell by cell.
fn rows(heading: &str) -> Vec<Vec<String>> {
    let path = concat!(env!("CARGO_MANIFEST_DIR"), "/../docs/DIFFERENCES.md");
    let page = std::fs::read_to_string(path).expect("docs/DIFFERENCES.md");
    let mut inside = false;
    let mut found = Vec::new();
    for line in page.lines() {
        let cells: Vec<String> = line.split('|').map(|cell| cell.trim().to_string()).collect();
        inside = line.starts_with('|') && (inside || cells[2] == heading);
        if inside && cells[2] != heading && !cells[2].starts_with('-') {
            found.push(cells);
        }
    }
    found
}

/// A row's table and question.
fn input(cells: &[String]) -> (Vec<u8>, Vec<u8>) {
    let input = spans(&cells[2]);
    assert_eq!(input.len(), 2, "{:?}", cells);
    (unhex(input[0]).expect("hex"), unhex(input[1]).expect("hex"))
}

/// What a cell says is printed.
fn printed(cell: &str) -> String {
    let printed = spans(cell);
    assert_eq!(printed.len(), 1, "{}", cell);
    printed[0].replace('/', "\n") + "\n"
}

#[test]
fn the_inputs_of_the_page_print_what_it_says() {
    let rows = rows("Input");
    for cells in &rows {
        let (table, question) = input(cells);
        assert_eq!(oracle::printed(&table, &question), printed(&cells[3]), "{:?}", cells);
        assert!(oracle::in_domain(&table, &question), "{:?}", cells);
    }
    assert!(rows.len() >= 20, "only {} inputs were found", rows.len());
}

#[test]
fn what_the_orders_changed_is_answered_as_the_page_says() {
    let rows = rows("Input of an order");
    for cells in &rows {
        let (table, question) = input(cells);
        assert_eq!(oracle::printed(&table, &question), printed(&cells[3]), "the Rust: {:?}", cells);
        assert_eq!(words::printed(&table, &question), printed(&cells[4]), "here: {:?}", cells);
        assert!(!oracle::in_domain(&table, &question), "{:?}", cells);
    }
    assert!(rows.len() >= 4, "only {} inputs were found", rows.len());
}
