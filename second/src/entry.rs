//! The entry of a reading, and its companion.

use crate::reading::ENTRY_BYTES;
use crate::refusal::Refusal;

/// "6, byte count not a multiple of 3; then 7, number 0 or over a third of the
/// count." Request 7: "the entry shown is four bytes, and 2, 4, 6 and 7 follow."
fn check(reading: &[u8], number: usize) -> Result<(), Refusal> {
    if !reading.len().is_multiple_of(ENTRY_BYTES) {
        return Err(Refusal::ReadingByteCount);
    }
    if number == 0 || number > reading.len() / ENTRY_BYTES {
        return Err(Refusal::EntryNumber);
    }
    Ok(())
}

/// "The answer is the three bytes themselves in the caller's reading. The part
/// is empty if there is a refusal, and only then." Four bytes by request 7.
pub fn entry(reading: &[u8], number: usize) -> &[u8] {
    match check(reading, number) {
        Ok(()) => &reading[ENTRY_BYTES * (number - 1)..ENTRY_BYTES * number],
        Err(_) => &[],
    }
}

/// "a companion operation on the same inputs gives 0 or the refusal's number"
pub fn entry_refusal(reading: &[u8], number: usize) -> u8 {
    check(reading, number).map_or_else(Refusal::number, |()| 0)
}
