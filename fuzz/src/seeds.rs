//! The first corpus: the named examples and stored answers of the oracle, and generated cases of every profile.

use oracle::sample::stored;
use reading::gen::{case, PROFILES};
use reading::join_input;
use std::fs;
use std::path::Path;

/// How many cases of each profile, beside the stored ones.
const EACH: u64 = 30;

/// The seed of these.
const SEED: u64 = 9;

pub fn write(folder: &Path) -> std::io::Result<()> {
    fs::create_dir_all(folder)?;
    let mut written = 0;
    let mut put = |name: &str, table: &[u8], question: &[u8]| match join_input(table, question) {
        Some(bytes) => {
            written += 1;
            fs::write(folder.join(name.replace('/', "-")), bytes)
        }
        None => Ok(()),
    };
    for stored in stored() {
        put(&stored.name, &stored.table, &stored.question)?;
    }
    for (profile, name) in PROFILES {
        // A sweep is walked through in steps.
        let step = profile.count().map_or(1, |n| n as u64 / EACH);
        for i in 0..EACH {
            let case = case(profile, SEED, i * step);
            put(&format!("{}.{}.{}", name, SEED, i * step), &case.table, &case.question)?;
        }
    }
    eprintln!("fuzz: {} seeds written", written);
    Ok(())
}
