//! Writes the stored answers anew: samples/answers.txt, and the same for the program `replay`.

use oracle::sample::{files, replayed, BINARY, REPLAYED, TEXT};
use std::path::Path;

fn main() -> std::io::Result<()> {
    let root = Path::new(env!("CARGO_MANIFEST_DIR")).join("..");
    let (text, binary) = files();
    std::fs::write(root.join(TEXT), &text)?;
    std::fs::write(root.join(BINARY), &binary)?;
    std::fs::write(root.join(REPLAYED), replayed(&text))?;
    let cases = text.lines().filter(|l| !l.starts_with('#')).count();
    println!("samples: {} cases, {} bytes of text, {} bytes binary", cases, text.len(), binary.len());
    Ok(())
}
