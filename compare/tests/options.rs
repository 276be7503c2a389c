//! The program's options: those that name no run stop it with a sentence.

use reading::gen::PROFILES;
use std::process::Command;

/// Every profile of the program whose `--count` is how much is compared.
fn counted() -> impl Iterator<Item = &'static str> {
    PROFILES.iter().map(|(_, name)| *name).chain(["mixed", "writing", "undisturbed"])
}

/// The status, what is printed and what is said beside.
fn run(options: &[&str]) -> (Option<i32>, String, String) {
    let output = Command::new(env!("CARGO_BIN_EXE_compare")).args(options).output().expect("the program starts");
    let text = |bytes: &[u8]| String::from_utf8_lossy(bytes).to_string();
    (output.status.code(), text(&output.stdout), text(&output.stderr))
}

#[test]
fn a_run_of_nothing_stops() {
    let past = "--first and --count go on behind the index 9223372036854775807, the last";
    for (options, why) in [
        (&["--count", "0"][..], "with --count 0 nothing is compared"),
        (&["--first", "9223372036854775808"], past),
        (&["--first", "18446744073709551615"], past),
        (&["--first", "9223372036854775807", "--count", "2"], past),
        (&["--first", "18446744073709551615", "--count", "1"], past),
        (&["--first", "2", "--count", "18446744073709551615"], past),
    ] {
        for profile in counted().chain(["sweeps", "all"]) {
            let (status, printed, said) = run(&[&["--profile", profile], options].concat());
            assert_eq!((status, &printed[..]), (Some(2), ""), "{} {:?}", profile, options);
            assert_eq!(said.lines().next(), Some(&format!("compare: {}", why)[..]), "{} {:?}", profile, options);
        }
    }
}

#[test]
fn the_first_and_the_last_index_are_compared() {
    for profile in counted() {
        for first in ["0", "9223372036854775807"] {
            let options = ["--profile", profile, "--first", first, "--count", "1", "--threads", "64"];
            let (status, printed, _) = run(&options);
            assert_eq!(status, Some(0), "{:?}", options);
            let one = ["1 cases,", "loads of 1 start numbers", "1 pairs of tables,"];
            assert!(one.iter().any(|one| printed.contains(one)), "{}", printed);
            assert!(printed.contains("no difference"), "{}", printed);
        }
    }
}
