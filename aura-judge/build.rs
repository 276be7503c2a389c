//! Links the proved judge: libaura_c.a, which `rt lib` in crates/aura_c writes.

use std::path::PathBuf;

fn main() {
    println!("cargo:rerun-if-env-changed=AURA_LIB_DIR");
    let root = PathBuf::from(std::env::var("CARGO_MANIFEST_DIR").expect("cargo names the package's folder"));
    let (folder, from) = match std::env::var_os("AURA_LIB_DIR") {
        Some(folder) => (PathBuf::from(folder), "AURA_LIB_DIR names this folder"),
        None => (root.join("../crates/aura_c/out"), "AURA_LIB_DIR is not set"),
    };
    let library = folder.join("libaura_c.a");
    if !library.is_file() {
        eprintln!(
            "{} is missing ({}).\nRun `rt lib` in the repository's crates/aura_c, or set AURA_LIB_DIR to the folder that holds libaura_c.a.",
            library.display(),
            from
        );
        std::process::exit(1);
    }
    println!("cargo:rerun-if-changed={}", library.display());
    println!("cargo:rustc-env=AURA_LIBRARY={}", library.display());
    println!("cargo:rustc-link-search=native={}", folder.display());
    println!("cargo:rustc-link-lib=static=aura_c");
}
