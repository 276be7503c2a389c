//! The words on answers that were made without them.

use reading::examples::all;
use reading::hex::unhex;
use reading::words::printed;

/// The named examples, whose answers were written by hand.
#[test]
fn the_named_examples() {
    let mut wrong = Vec::new();
    for example in all() {
        let said = printed(&example.table, &example.question);
        if said != example.printed() {
            wrong.push(format!("{}: {:?}, expected {:?}", example.name, said, example.printed()));
        }
    }
    assert!(wrong.is_empty(), "{} differ:\n{}", wrong.len(), wrong.join("\n"));
}

/// The stored answers, which the Rust's own methods gave inside their domain; outside it they are as the words had them.
#[test]
fn the_stored_answers() {
    let path = concat!(env!("CARGO_MANIFEST_DIR"), "/../samples/answers.txt");
    let text = std::fs::read_to_string(path).expect("samples/answers.txt");
    let mut read = 0;
    for line in text.lines().filter(|line| !line.starts_with('#')) {
        let fields: Vec<&str> = line.splitn(4, ' ').collect();
        let (table, question) = (unhex(fields[1]).expect("hex"), unhex(fields[2]).expect("hex"));
        assert_eq!(printed(&table, &question), fields[3].replace('/', "\n") + "\n", "{}", fields[0]);
        read += 1;
    }
    assert!(read >= 3_000, "only {} stored answers were read", read);
}
