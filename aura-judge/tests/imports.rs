//! The library calls nothing but the C library's block operations: it allocates nothing and keeps nothing.

use std::process::Command;

const ALLOWED: [&str; 5] = ["memset", "memcpy", "memmove", "memcmp", "bcmp"];

#[test]
fn the_library_imports_only_block_operations() {
    // Symbols as the linker sees them, `nm -u` prints one a line behind a `U`.
    let nm = match Command::new("nm").args(["-u", env!("AURA_LIBRARY")]).output() {
        Ok(output) => output,
        Err(error) => return eprintln!("not checked, nm does not run: {error}"),
    };
    assert!(nm.status.success(), "{}", String::from_utf8_lossy(&nm.stderr));
    let text = String::from_utf8_lossy(&nm.stdout);
    let imported: Vec<&str> = text.lines().filter_map(|line| line.trim().strip_prefix("U ")).collect();
    let others: Vec<&&str> = imported.iter().filter(|name| !ALLOWED.contains(name)).collect();
    assert!(others.is_empty(), "the library also imports: {others:?}");
}
