//! Document 02, order 1: "Here and in every later writing part the answer is a number, 0 if written, and the output's
//! length, 0 if refused; bytes behind the output are zero." A refusal leaves "only zeros".

use crate::answer::Written;

/// The answer of a writing part under a lent buffer, every byte of which is written. An output fits: where it does not,
/// the part refuses with 15.
pub fn written(said: &Result<Vec<u8>, u8>, buffer: &mut [u8]) -> Written {
    buffer.fill(0);
    match said {
        Ok(output) => {
            buffer[..output.len()].copy_from_slice(output);
            Written { number: 0, len: output.len() }
        }
        Err(number) => Written { number: *number, len: 0 },
    }
}
