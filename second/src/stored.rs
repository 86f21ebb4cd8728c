//! Stored readings of three bytes an entry, carried over to the form of four and back.

use crate::reading::{bytes, entries, Entry, ENTRY_BYTES};
use crate::refusal::Refusal;

/// "Stored three-byte readings": kind, week, carrier.
pub const STORED_ENTRY_BYTES: usize = 3;

/// "15 if a week is over 11"
const MOST_STORED_WEEK: u8 = 11;

/// "Stored three-byte readings are carried over to the new form". "Both moves refuse 6 on
/// a count that doesn't divide into entries, then 4 if the target is short". The answer is
/// the count of bytes written.
pub fn widen_reading(old: &[u8], wide: &mut [u8]) -> Result<usize, Refusal> {
    let count = entry_count(old, STORED_ENTRY_BYTES)?;
    let target = target(wide, ENTRY_BYTES * count)?;
    target.copy_from_slice(&bytes(&stored_entries(old)));
    Ok(target.len())
}

/// "and back". "the move back refuses last with 15 if a week is over 11 or a carrier over
/// 255."
pub fn narrow_reading(wide: &[u8], old: &mut [u8]) -> Result<usize, Refusal> {
    let count = entry_count(wide, ENTRY_BYTES)?;
    let target = target(old, STORED_ENTRY_BYTES * count)?;
    let narrow: Option<Vec<[u8; STORED_ENTRY_BYTES]>> =
        entries(wide).into_iter().map(stored_bytes).collect();
    target.copy_from_slice(narrow.ok_or(Refusal::OldForm)?.as_flattened());
    Ok(target.len())
}

/// "6 on a count that doesn't divide into entries"
fn entry_count(reading: &[u8], entry_bytes: usize) -> Result<usize, Refusal> {
    if reading.len().is_multiple_of(entry_bytes) {
        Ok(reading.len() / entry_bytes)
    } else {
        Err(Refusal::ReadingByteCount)
    }
}

/// "4 if the target is short": its first bytes, the only ones written.
fn target(lent: &mut [u8], count: usize) -> Result<&mut [u8], Refusal> {
    lent.get_mut(..count).ok_or(Refusal::ReadingBufferTooShort)
}

/// The entries of a stored reading, whatever their kinds and weeks.
fn stored_entries(old: &[u8]) -> Vec<Entry> {
    let entry = |three: &[u8]| Entry {
        kind: three[0],
        week: three[1],
        carrier: u16::from(three[2]),
    };
    old.chunks_exact(STORED_ENTRY_BYTES).map(entry).collect()
}

/// Kind, week and carrier, unless "a week is over 11 or a carrier over 255".
fn stored_bytes(entry: Entry) -> Option<[u8; STORED_ENTRY_BYTES]> {
    let carrier = u8::try_from(entry.carrier).ok()?;
    (entry.week <= MOST_STORED_WEEK).then_some([entry.kind, entry.week, carrier])
}
