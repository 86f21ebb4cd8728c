//! What the desk says, with its reading as the second program gives it.

use hours_desk::{Refusal, Verdict};
use second::verdict::Outcome;

/// The verdict and the reading, as a caller asks who wants both: for the verdict only where there is no reading.
pub fn outcome(words: &[u32], reading: &mut [u8]) -> Result<Outcome, Refusal> {
    match hours_desk::first_reading(words, reading) {
        Ok(written) => Ok(Outcome::Pass(reading[..written].to_vec())),
        Err(Refusal::NoLawfulReading) => Ok(with_reading(hours_desk::verdict(words)?, reading)),
        Err(refusal) => Err(refusal),
    }
}

/// A verdict, a pass with this reading.
pub fn with_reading(verdict: Verdict, reading: &[u8]) -> Outcome {
    match verdict {
        Verdict::Pass => Outcome::Pass(reading.to_vec()),
        Verdict::Breach { minute, article } => Outcome::Breach {
            minute: minute.into(),
            article,
        },
    }
}
