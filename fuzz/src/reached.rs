//! What a corpus reaches in the yardsticks: edges and source lines, by file.

use crate::harness;
use std::collections::{BTreeMap, BTreeSet};
use std::ffi::{c_char, c_void, CStr};
use std::path::Path;

// The compiler's counters, one for each edge, and its table of their places: address and flags.
extern "C" {
    static mut __start___sancov_cntrs: u8;
    static mut __stop___sancov_cntrs: u8;
    static __start___sancov_pcs: [usize; 2];
    fn __sanitizer_symbolize_pc(place: *const c_void, form: *const c_char, out: *mut c_char, size: usize);
}

/// The sources that judge or write, by the end of their paths; the generator's are of no concern. `cut.rs` is the Rust's own
/// text.
const FILES: [&str; 27] = [
    "/cut.rs",
    "/oracle/src/rust.rs",
    "/oracle/src/stubs.rs",
    "/oracle/src/table.rs",
    "/oracle/src/question.rs",
    "/oracle/src/types.rs",
    "/oracle/src/answer.rs",
    "/oracle/src/domain.rs",
    "/oracle/src/diagnostic.rs",
    "/reading/src/places.rs",
    "/words/access.rs",
    "/words/assign.rs",
    "/words/binary.rs",
    "/words/calls.rs",
    "/words/clean.rs",
    "/words/judgement.rs",
    "/words/lent.rs",
    "/words/load.rs",
    "/words/member.rs",
    "/words/operator.rs",
    "/words/parameter.rs",
    "/words/question.rs",
    "/words/symbols.rs",
    "/words/table.rs",
    "/words/types.rs",
    "/words/unary.rs",
    "/words/written.rs",
];

/// The edges of a file, and its lines with whether one of their edges was reached.
#[derive(Default)]
struct Reached {
    edges: usize,
    of: usize,
    lines: BTreeMap<u32, bool>,
}

fn counters() -> &'static mut [u8] {
    // SAFETY: the section's bounds, from the linker; nothing else runs between two inputs.
    unsafe {
        let (first, end) = (&raw mut __start___sancov_cntrs, &raw mut __stop___sancov_cntrs);
        std::slice::from_raw_parts_mut(first, end.offset_from(first) as usize)
    }
}

/// File and line of the innermost call there that stands in one of the files.
fn place(edge: usize) -> Option<(&'static str, u32)> {
    let mut text = vec![0u8; 16_384];
    // SAFETY: the table has an entry for each counter; the text has room and a zero behind it.
    unsafe {
        let address = (*(&raw const __start___sancov_pcs).add(edge))[0] + 1;
        let room = text.len() - 2;
        __sanitizer_symbolize_pc(address as *const c_void, c"%s:%l".as_ptr(), text.as_mut_ptr().cast(), room);
    }
    let mut rest = &text[..];
    while let Some(frame) = CStr::from_bytes_until_nul(rest).ok().filter(|f| !f.is_empty()) {
        rest = &rest[frame.count_bytes() + 1..];
        let frame = frame.to_string_lossy();
        let (path, line) = frame.rsplit_once(':')?;
        let file = FILES.iter().find(|file| path.ends_with(*file));
        if let Some(file) = file {
            return Some((file, line.parse().ok()?));
        }
    }
    None
}

/// Runs every input of a folder and prints what they reach together.
pub fn print(folder: &Path) -> std::io::Result<()> {
    let mut hit = vec![false; counters().len()];
    for entry in std::fs::read_dir(folder)? {
        let input = std::fs::read(entry?.path())?;
        counters().fill(0);
        harness::LLVMFuzzerTestOneInput(input.as_ptr(), input.len());
        for (hit, counter) in hit.iter_mut().zip(counters()) {
            *hit |= *counter != 0;
        }
    }
    let mut files: BTreeMap<&str, Reached> = BTreeMap::new();
    for (edge, hit) in hit.iter().enumerate() {
        if let Some((file, line)) = place(edge) {
            let reached = files.entry(file).or_default();
            reached.of += 1;
            reached.edges += *hit as usize;
            *reached.lines.entry(line).or_default() |= hit;
        }
    }
    for (file, reached) in files {
        let not: BTreeSet<u32> = reached.lines.iter().filter(|(_, hit)| !**hit).map(|(line, _)| *line).collect();
        let (lines, of) = (reached.lines.len() - not.len(), reached.lines.len());
        println!("fuzz: reached in {}: {} of {} lines, {} of {} edges", file, lines, of, reached.edges, reached.of);
        let not: Vec<String> = not.iter().map(u32::to_string).collect();
        println!("fuzz: not reached in {}: lines {}", file, not.join(" "));
    }
    Ok(())
}
