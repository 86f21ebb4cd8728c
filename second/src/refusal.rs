//! What the operations turn away, with the numbers of documents 01 and 02.

/// A refusal; its discriminant is its number.
#[derive(Clone, Copy, Debug, PartialEq, Eq)]
#[repr(u8)]
pub enum Refusal {
    /// "1, its minutes are 0"
    NoMinutes = 1,
    /// "2, the total passes 120,960"; request 7: "The total rises to 534,240 minutes"
    TotalPassed = 2,
    /// "3, the list has fewer than k records"
    ListTooShort = 3,
    /// "4, the reading buffer is under 3 × k bytes"; request 7: "Counts of 3 × k
    /// become 4 × k"; "4 if the target is short"
    ReadingBufferTooShort = 4,
    /// "5, m is over N"
    StretchOverTotal = 5,
    /// "6, its byte count isn't 3 × k"; "6, byte count not a multiple of 3"; request 7:
    /// 4 for 3; "6 on a count that doesn't divide into entries"
    ReadingByteCount = 6,
    /// "7, number 0 or over a third of the count"; request 7: a quarter
    EntryNumber = 7,
    /// "8, not of the form below"
    TextForm = 8,
    /// "9, fewer words lent than run lines"; "9 for words lacking"
    TooFewWords = 9,
    /// "10, too few bytes"; "10 for bytes lacking"
    TooFewBytes = 10,
    /// "11 for an odd count, a first minute other than 0, a minute over 1,439, or
    /// a minute above 0 that is not over the one before it"; "11 for a part day"
    DayForm = 11,
    /// "12 for unknown activity anywhere"
    UnknownActivity = 12,
    /// "13 when the verdict is a breach"
    NoLawfulReading = 13,
    /// "14 follows 1 and 2 where the lent list is too short"
    SpanListTooShort = 14,
    /// "15 if a week is over 11 or a carrier over 255"
    OldForm = 15,
}

impl Refusal {
    pub fn number(self) -> u8 {
        self as u8
    }
}
