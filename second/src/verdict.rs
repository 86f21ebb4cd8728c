//! The verdict, and the first lawful reading on request: request 5, "one operation
//! gives pass or breach with minute and article, the other writes the first lawful
//! reading."

use crate::fast::Judge;
use crate::limits::Limits;
use crate::reading::ENTRY_BYTES;
use crate::recording;
use crate::refusal::Refusal;

/// A verdict with the reading itself.
#[derive(Clone, Debug, PartialEq, Eq)]
pub enum Outcome {
    /// The first lawful reading.
    Pass(Vec<u8>),
    /// "the least m without a lawful reading, and its article": 1 to 6.
    Breach { minute: i64, article: u8 },
}

/// What the verdict operation answers.
#[derive(Clone, Copy, Debug, PartialEq, Eq)]
pub enum Verdict {
    Pass,
    Breach { minute: i64, article: u8 },
}

/// The verdict: "It is a breach if the recording has no lawful reading, otherwise a
/// pass. ... A breach ... gives the least m without a lawful reading, and its
/// article." Request 5: "The first turns away 1 and 2 only."
pub fn verdict(words: &[u32]) -> Result<Verdict, Refusal> {
    let limits = Limits::document();
    recording::total(words, &limits)?;
    Ok(Judge::new(words, &limits).verdict())
}

/// The first lawful reading, "into the first 3 × k bytes; the rest stays"; the answer
/// is their count. Request 5: "the second turns away 1, 2 and 4, then 13 when the
/// verdict is a breach." Request 7: "Counts of 3 × k become 4 × k".
pub fn first_reading(words: &[u32], reading: &mut [u8]) -> Result<usize, Refusal> {
    let limits = Limits::document();
    let total = recording::total(words, &limits)?;
    let mut judge = Judge::new(words, &limits);
    if reading.len() < ENTRY_BYTES * judge.long_rests() {
        return Err(Refusal::ReadingBufferTooShort);
    }
    let first = judge.first_reading(total).ok_or(Refusal::NoLawfulReading)?;
    reading[..first.len()].copy_from_slice(&first);
    Ok(first.len())
}
