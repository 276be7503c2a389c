//! "The answer carries a number, a pass mark (1 passed, 0 not), the type in 256 bytes with zeros behind
//! its length, that length, and a diagnostic count. Diagnostics are records of 5 bytes in order ..; the
//! rest of the buffer is zero."

use crate::answer::{Answer, Said};

/// The room for the root's type.
const TYPE_ROOM: usize = 256;

/// The answer under a lent buffer, every byte of which is written. "All answer pass mark 0, length 0,
/// count 0, zeros everywhere" where refused; "13 root type over 256 bytes", "12 exactly when 5 ×
/// diagnostics exceeds the buffer"; "13, then 12".
pub fn answer(said: &Said, buffer: &mut [u8]) -> Answer {
    buffer.fill(0);
    let (ty, passed, diagnostics) = match said {
        Said::Refused(number) => return Answer::refused(*number),
        Said::Judged { ty, passed, diagnostics } => (ty, *passed, diagnostics),
    };
    if ty.len() > TYPE_ROOM {
        return Answer::refused(13);
    }
    if 5 * diagnostics.len() > buffer.len() {
        return Answer::refused(12);
    }
    for (place, diagnostic) in buffer.chunks_mut(5).zip(diagnostics) {
        place.copy_from_slice(&diagnostic.bytes());
    }
    let mut padded = [0; TYPE_ROOM];
    padded[..ty.len()].copy_from_slice(ty);
    Answer { number: 0, pass: passed as u8, ty: padded, len: ty.len(), count: diagnostics.len() }
}
