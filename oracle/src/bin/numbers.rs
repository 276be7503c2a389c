//! Writes generated cases with their answers in the layout of crates/replay/stdin.
//!
//! numbers --profile P --seed S --count N --out FILE   (P: a profile's name, or mixed)

use oracle::sample::binary_case;
use reading::gen::{self, Profile, PROFILES};
use std::io::{BufWriter, Write};

fn stop(message: &str) -> ! {
    let names: Vec<&str> = PROFILES.iter().map(|(_, n)| *n).collect();
    eprintln!("numbers: {}", message);
    eprintln!("usage: numbers --profile P --seed S --count N --out FILE");
    eprintln!("profiles: mixed, {}", names.join(", "));
    std::process::exit(2)
}

fn number(text: &str) -> u64 {
    text.parse().unwrap_or_else(|_| stop(&format!("{} is no number", text)))
}

fn main() -> std::io::Result<()> {
    let (mut seed, mut count, mut profile, mut out) = (1, 1000, "mixed".to_string(), String::new());
    let args: Vec<String> = std::env::args().skip(1).collect();
    for pair in args.chunks(2) {
        match pair {
            [option, value] => match option.as_str() {
                "--seed" => seed = number(value),
                "--count" => count = number(value),
                "--profile" => profile = value.clone(),
                "--out" => out = value.clone(),
                _ => stop(&format!("unknown option {}", option)),
            },
            _ => stop("an option without a value"),
        }
    }
    if out.is_empty() {
        stop("--out is missing");
    }
    let mut file = BufWriter::new(std::fs::File::create(&out)?);
    let (mut written, mut left_out, mut outside) = (0, 0, 0);
    for index in 0..count {
        let case = match profile.as_str() {
            "mixed" => gen::mixed(seed, index),
            name => match Profile::by_name(name) {
                Some(p) => gen::case(p, seed, index),
                None => stop(&format!("unknown profile {}", name)),
            },
        };
        if !oracle::in_domain(&case.table, &case.question) {
            outside += 1;
            continue;
        }
        match binary_case(&case.table, &case.question, &oracle::printed(&case.table, &case.question)) {
            Some(bytes) => {
                file.write_all(&bytes)?;
                written += 1;
            }
            None => left_out += 1,
        }
    }
    file.flush()?;
    eprintln!(
        "numbers: {} cases written to {}; {} outside the compared domain and {} longer than 2-byte lengths left out",
        written, out, outside, left_out
    );
    Ok(())
}
