//! The program `oracle` itself: standard input to standard output.

use reading::examples;
use std::io::Write;
use std::process::{Command, Stdio};

fn run(input: &[u8]) -> String {
    let mut child = Command::new(env!("CARGO_BIN_EXE_oracle"))
        .stdin(Stdio::piped())
        .stdout(Stdio::piped())
        .spawn()
        .expect("the program starts");
    child.stdin.take().expect("its input").write_all(input).expect("it reads");
    let done = child.wait_with_output().expect("it ends");
    assert!(done.status.success());
    String::from_utf8(done.stdout).expect("it prints text")
}

#[test]
fn document_01s_two_samples() {
    assert_eq!(run(&[0, 0, 255, 255, 255, 255, 0, 2, 6, 0, 0]), "0 0 1 15 1\n13 0 0\n");
    assert_eq!(run(&[]), "8 0 0 - 0\n");
}

#[test]
fn the_examples_through_the_program() {
    let inside = examples::all().into_iter().filter(|e| oracle::in_domain(&e.table, &e.question));
    for e in inside.step_by(7) {
        let input = reading::join_input(&e.table, &e.question).expect("the length fits");
        assert_eq!(run(&input), e.printed(), "{}", e.name);
    }
}
