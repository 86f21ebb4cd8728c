//! The card's own day record: its reader and its writer.

use crate::limits::Limits;
use crate::recording::{self, word, Activity};
use crate::refusal::Refusal;
use crate::runs::runs;

/// "the last activity runs to 1,440"
const DAY: u32 = 1_440;

/// "two-byte changes, ... high byte first: from the top, bit s (slot), c (crew),
/// p (card out), two activity bits with our codes, eleven bits of minute in the
/// day"
#[derive(Clone, Copy, Debug, PartialEq, Eq)]
pub struct Change(pub u16);

impl Change {
    pub const SLOT: u16 = 1 << 15;
    pub const CREW: u16 = 1 << 14;
    pub const CARD_OUT: u16 = 1 << 13;

    /// "with s, c, p zero"
    pub fn new(activity: Activity, minute: u32) -> Change {
        Change((activity.code() as u16) << 11 | minute as u16)
    }

    pub fn activity(self) -> Activity {
        Activity::ALL[usize::from(self.0 >> 11 & 3)]
    }

    /// The minute in the day, up to 2,047.
    pub fn minute(self) -> u32 {
        u32::from(self.0 & 0x7FF)
    }

    /// "Card out with c zero means unknown activity."
    pub fn is_unknown(self) -> bool {
        self.0 & (Change::CARD_OUT | Change::CREW) == Change::CARD_OUT
    }

    /// "Minute 0 always begins a day."
    fn begins_a_day(self) -> bool {
        self.minute() == 0
    }

    /// Where the activity before this change ends, in its day.
    fn end_before(self) -> u32 {
        if self.begins_a_day() {
            DAY
        } else {
            self.minute()
        }
    }
}

/// The changes of a record; a byte that is left over is not in one.
pub fn changes(bytes: &[u8]) -> impl DoubleEndedIterator<Item = Change> + ExactSizeIterator + '_ {
    bytes
        .chunks_exact(2)
        .map(|pair| Change(u16::from_be_bytes([pair[0], pair[1]])))
}

/// "Reading refuses 11 ...; then 12 for unknown activity anywhere; then 2, and
/// last 9 for words lacking." "The reader writes one word a change."
pub fn read(bytes: &[u8], words: &mut [u32]) -> Result<usize, Refusal> {
    if !is_of_the_form(bytes) {
        return Err(Refusal::DayForm);
    }
    if changes(bytes).any(Change::is_unknown) {
        return Err(Refusal::UnknownActivity);
    }
    if total(bytes) > Limits::document().total {
        return Err(Refusal::TotalPassed);
    }
    let count = changes(bytes).len();
    if words.len() < count {
        return Err(Refusal::TooFewWords);
    }
    // From the last change to the first: each lasts up to the one after it.
    let mut end = DAY;
    for (written, change) in words[..count].iter_mut().zip(changes(bytes)).rev() {
        *written = word(end - change.minute(), change.activity());
        end = change.end_before();
    }
    Ok(count)
}

/// The words of a record, where enough of them are lent.
pub fn parse(bytes: &[u8]) -> Result<Vec<u32>, Refusal> {
    let mut words = vec![0; changes(bytes).len()];
    read(bytes, &mut words)?;
    Ok(words)
}

/// "11 for an odd count, a first minute other than 0, a minute over 1,439, or a
/// minute above 0 that is not over the one before it"
fn is_of_the_form(bytes: &[u8]) -> bool {
    // Before the first change stands a minute that only minute 0 may follow.
    let mut before = DAY;
    bytes.len().is_multiple_of(2)
        && changes(bytes).map(Change::minute).all(|minute| {
            let rises = minute > before && minute < DAY;
            before = minute;
            rises || minute == 0
        })
}

/// The minutes of a record of the form: its days are whole.
fn total(bytes: &[u8]) -> i64 {
    let days = changes(bytes).filter(|change| change.begins_a_day());
    i64::from(DAY) * days.count() as i64
}

/// "Writing refuses 1 and 2, then 11 for a part day, and last 10 for bytes
/// lacking."
pub fn write(words: &[u32], bytes: &mut [u8]) -> Result<usize, Refusal> {
    let total = recording::total(words, &Limits::document())?;
    if total % i64::from(DAY) != 0 {
        return Err(Refusal::DayForm);
    }
    let record = record(words);
    if bytes.len() < record.len() {
        return Err(Refusal::TooFewBytes);
    }
    bytes[..record.len()].copy_from_slice(&record);
    Ok(record.len())
}

/// "Written days have a change at minute 0 and wherever the activity differs
/// from the minute before": where a run begins, and at each midnight inside it.
fn record(words: &[u32]) -> Vec<u8> {
    let day = i64::from(DAY);
    let mut record = Vec::new();
    for run in runs(words) {
        let mut start = run.span.start;
        while start < run.span.end {
            let change = Change::new(run.activity, (start % day) as u32);
            record.extend_from_slice(&change.0.to_be_bytes());
            start = day * (start / day + 1);
        }
    }
    record
}
