//! libFuzzer over the proved judge and the Rust's own methods in one process: every answer is compared.
//!
//! fuzz [libFuzzer's options] CORPUS..
//! fuzz seeds DIR                          writes the first corpus
//! fuzz reached DIR                        says what a corpus reaches in the oracle
//!
//! `fuzz/run` builds and runs it; docs/HARDENING.md says what it sees.

mod counts;
mod fault;
mod harness;
mod mutate;
mod pages;
mod reached;
mod seeds;

use std::ffi::{c_char, c_int, CString};
use std::path::Path;

extern "C" {
    fn LLVMFuzzerRunDriver(
        argc: *mut c_int,
        argv: *mut *mut *mut c_char,
        one: extern "C" fn(*const u8, usize) -> c_int,
    ) -> c_int;
    fn atexit(last: extern "C" fn()) -> c_int;
}

fn main() -> std::io::Result<()> {
    let args: Vec<String> = std::env::args().collect();
    if let [_, command, folder] = &args[..] {
        match command.as_str() {
            "seeds" => return seeds::write(Path::new(folder)),
            "reached" => return reached::print(Path::new(folder)),
            _ => {}
        }
    }
    let strings: Vec<CString> = args.into_iter().map(|a| CString::new(a).expect("no argument has a zero")).collect();
    let mut pointers: Vec<*mut c_char> = strings.iter().map(|s| s.as_ptr().cast_mut()).collect();
    let mut count = pointers.len() as c_int;
    pointers.push(std::ptr::null_mut());
    let mut first = pointers.as_mut_ptr();
    // SAFETY: the arguments are strings with a null pointer behind them and outlive the call.
    let status = unsafe {
        atexit(counts::print_totals);
        LLVMFuzzerRunDriver(&mut count, &mut first, harness::LLVMFuzzerTestOneInput)
    };
    std::process::exit(status)
}
