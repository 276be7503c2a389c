//! Links the libFuzzer runtime of clang. LIBFUZZER names the archive where clang does not.

use std::path::PathBuf;
use std::process::Command;

const ARCHIVES: [&str; 2] = ["libclang_rt.fuzzer_no_main-x86_64.a", "libclang_rt.fuzzer_no_main.a"];

/// What clang says of an archive's place; it answers the bare name where it has none.
fn asked(clang: &str, archive: &str) -> Option<PathBuf> {
    let out = Command::new(clang).arg(format!("-print-file-name={}", archive)).output().ok()?;
    let path = PathBuf::from(String::from_utf8(out.stdout).ok()?.trim());
    path.is_file().then_some(path)
}

fn runtime() -> PathBuf {
    if let Ok(path) = std::env::var("LIBFUZZER") {
        return PathBuf::from(path);
    }
    let clang = std::env::var("CLANG").unwrap_or_else(|_| String::from("clang"));
    let found = ARCHIVES.iter().find_map(|archive| asked(&clang, archive));
    found.unwrap_or_else(|| panic!("no libFuzzer runtime beside {}: install clang's, or set LIBFUZZER", clang))
}

fn main() {
    println!("cargo:rustc-link-arg-bins={}", runtime().display());
    println!("cargo:rustc-link-arg-bins=-lstdc++");
    println!("cargo:rerun-if-changed=build.rs");
    for name in ["LIBFUZZER", "CLANG"] {
        println!("cargo:rerun-if-env-changed={}", name);
    }
}
