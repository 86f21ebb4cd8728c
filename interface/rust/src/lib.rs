//! The hours desk for Rust: the operations of documents 01 and 02, from the
//! desk's static library.
//!
//! Pass or breach, for lane staff, with no buffer at all:
//!
//! ```
//! use hours_desk::{verdict, Verdict};
//!
//! // A word is 4 × minutes + activity: rest 0, availability 1, work 2, driving 3.
//! let words = [4 * 240 + 3, 4 * 660, 4 * 60 + 2];
//! match verdict(&words) {
//!     Ok(Verdict::Pass) => println!("pass"),
//!     Ok(Verdict::Breach { minute, article }) => panic!("a breach at {minute}, {article}"),
//!     Err(refusal) => panic!("refused, {}", refusal.number()),
//! }
//!
//! // The driving after those three words is 30 minutes too long: rule 1, article 7.
//! let breach = Verdict::Breach { minute: 1_231, article: 1 };
//! assert_eq!(verdict(&[&words[..], &[4 * 300 + 3]].concat()), Ok(breach));
//! ```
//!
//! The reading on request. A caller who wants both asks for the reading first, and
//! for the verdict only where there is none:
//!
//! ```
//! use hours_desk::{first_reading, verdict, Refusal, LONG_RESTS_AT_MOST};
//!
//! let words = [4 * 240 + 3, 4 * 660, 4 * 60 + 2];
//! let mut reading = [0; 4 * LONG_RESTS_AT_MOST];
//! match first_reading(&words, &mut reading) {
//!     Ok(written) => assert_eq!(reading[..written], [0, 0, 0, 0]), // a daily rest
//!     Err(Refusal::NoLawfulReading) => panic!("a breach: {:?}", verdict(&words)),
//!     Err(refusal) => panic!("refused, {}", refusal.number()),
//! }
//! ```
//!
//! A reading has an entry of four bytes for each long rest: kind (0 daily, 1 weekly),
//! week, and the carrier's low and high byte, a number that is low + 256 × high. The
//! old form has three bytes an entry, the carrier in one; [`widen_reading`] and
//! [`narrow_reading`] are the moves between the two.
//!
//! Every function takes any content: a refusal is an `Err`. On a refusal every
//! buffer is as it was; an operation that fills a buffer writes from its start
//! and leaves what lies beyond.
//!
//! Nothing is kept between calls, so threads may call at the same time.
//! Have 4 MiB of stack for [`verdict`], [`first_reading`] and [`breach_spans`]; the
//! most that was measured, of a library that an older toolchain built, is 2,370 KiB,
//! on a year made to take much. The main thread has more, unless told otherwise; a
//! thread of `std` has 2 MiB.

mod calls;

/// A recording has at most so many long rests, so lists of this length and
/// readings of four times as many bytes are never too short.
pub const LONG_RESTS_AT_MOST: usize = 987;

/// A recording has at most so many weeks, and [`breach_spans`] writes at most one
/// record for each first week, so lists of this length are never too short for it.
pub const WEEKS_AT_MOST: usize = 53;

/// Why an operation was turned away; its discriminant is the documents' number.
#[derive(Clone, Copy, Debug, PartialEq, Eq)]
#[repr(u8)]
pub enum Refusal {
    /// A word has no minutes.
    NoMinutes = 1,
    /// The total passes 534,240 minutes.
    TotalPassed = 2,
    /// The list has fewer elements than there are long rests.
    ListTooShort = 3,
    /// The reading buffer is too short for the entries.
    ReadingBufferTooShort = 4,
    /// The stretch is over the total.
    StretchOverTotal = 5,
    /// The byte count is not four for each long rest, or does not divide into entries.
    ReadingByteCount = 6,
    /// The reading has no entry of that number.
    NoEntry = 7,
    /// The text is not of the form.
    TextForm = 8,
    /// Fewer words than run lines, or than changes.
    TooFewWords = 9,
    /// Fewer bytes than the text has, or the record.
    TooFewBytes = 10,
    /// The record is not of the form, or the recording not of whole days.
    DayForm = 11,
    /// The record has a change with the card out and the crew bit zero.
    UnknownActivity = 12,
    /// The verdict is a breach, so there is no lawful reading.
    NoLawfulReading = 13,
    /// The list has fewer elements than there are such spans of weeks.
    SpanListTooShort = 14,
    /// A week is over 11 or a carrier over 255, so the reading has no old form.
    NoOldForm = 15,
}

impl Refusal {
    /// The documents' number.
    pub fn number(self) -> u8 {
        self as u8
    }

    fn of(number: u64) -> Refusal {
        match number {
            1 => Refusal::NoMinutes,
            2 => Refusal::TotalPassed,
            3 => Refusal::ListTooShort,
            4 => Refusal::ReadingBufferTooShort,
            5 => Refusal::StretchOverTotal,
            6 => Refusal::ReadingByteCount,
            7 => Refusal::NoEntry,
            8 => Refusal::TextForm,
            9 => Refusal::TooFewWords,
            10 => Refusal::TooFewBytes,
            11 => Refusal::DayForm,
            12 => Refusal::UnknownActivity,
            13 => Refusal::NoLawfulReading,
            14 => Refusal::SpanListTooShort,
            15 => Refusal::NoOldForm,
            other => unreachable!("the desk has no refusal {other}"),
        }
    }
}

/// What weighing gives.
#[derive(Clone, Copy, Debug, PartialEq, Eq)]
pub struct Measure {
    /// N, the minutes of the recording.
    pub total: u32,
    /// S, the judged end.
    pub judged_end: u32,
    /// k, the count of long rests.
    pub long_rests: u32,
}

/// A record of a list: the minutes from `start` up to `end`, which is not
/// included.
#[derive(Clone, Copy, Debug, Default, PartialEq, Eq)]
#[repr(C)]
pub struct Span {
    pub start: u32,
    pub end: u32,
}

/// A record of a list: the weeks from `first` to `last`, both included. Weeks are
/// numbered from 0.
#[derive(Clone, Copy, Debug, Default, PartialEq, Eq)]
#[repr(C)]
pub struct Weeks {
    pub first: u32,
    pub last: u32,
}

/// What the verdict answers.
#[derive(Clone, Copy, Debug, PartialEq, Eq)]
pub enum Verdict {
    /// The recording has a lawful reading.
    Pass,
    /// The least stretch without a lawful reading; and the smallest of rules 1
    /// to 5 broken there, or 6.
    Breach { minute: u32, article: u8 },
}

/// An answer is at least one unit; less is a refusal.
const ANSWER: u64 = 1 << 56;

/// N and S each have so many numbers in an answer of weighing.
const MINUTES: u64 = 1 << 20;

/// A breach's article is the remainder by this.
const ARTICLES: u64 = 8;

/// The value of an answer, or the refusal.
fn value(answer: u64) -> Result<u64, Refusal> {
    if answer < ANSWER {
        return Err(Refusal::of(answer));
    }
    Ok(answer - ANSWER)
}

fn count(answer: u64) -> Result<usize, Refusal> {
    value(answer).map(|count| count as usize)
}

/// A rule, or an article's place.
fn rule(answer: u64) -> Result<u8, Refusal> {
    value(answer).map(|rule| rule as u8)
}

/// Weighing.
pub fn weigh(words: &[u32]) -> Result<Measure, Refusal> {
    let value = value(calls::weigh(words))?;
    Ok(Measure {
        total: (value % MINUTES) as u32,
        judged_end: (value / MINUTES % MINUTES) as u32,
        long_rests: (value / MINUTES / MINUTES) as u32,
    })
}

/// The long rests, one record each, and their count.
pub fn list_long_rests(words: &[u32], list: &mut [Span]) -> Result<usize, Refusal> {
    count(calls::list_long_rests(words, list))
}

/// The smallest of rules 1 to 5 that the first m minutes break, or 0.
pub fn fixed_test(words: &[u32], m: u32) -> Result<u8, Refusal> {
    rule(calls::fixed_test(words, m))
}

/// The same rules in the regulation's order: the place, 1 to 5, in 6.1, 6.2, 6.3,
/// 7, 8.2 of the first article that the first m minutes break, or 0.
///
/// ```
/// use hours_desk::{article_test, fixed_test};
///
/// // Six days with nine hours of driving, then 271 minutes without a break: more
/// // than the 270 of article 7, and 3,511 in a week, more than article 6.2's 3,360.
/// let day = [4 * 270 + 3, 4 * 45, 4 * 270 + 3, 4 * 660];
/// let words = [&day.repeat(6)[..], &[4 * 271 + 3]].concat();
/// assert_eq!(fixed_test(&words, 7_741), Ok(1)); // rule 1, article 7
/// assert_eq!(article_test(&words, 7_741), Ok(2)); // article 6.2
/// ```
pub fn article_test(words: &[u32], m: u32) -> Result<u8, Refusal> {
    rule(calls::article_test(words, m))
}

/// The smallest of rules 1 to 11 that the recording with this reading breaks,
/// or 0.
pub fn reading_test(words: &[u32], reading: &[u8]) -> Result<u8, Refusal> {
    rule(calls::reading_test(words, reading))
}

/// The four bytes of an entry, kind, week, carrier low and carrier high, in the
/// reading itself. Entries are numbered from 1.
pub fn entry(reading: &[u8], number: usize) -> Result<&[u8], Refusal> {
    count(calls::entry(reading, number)).map(|place| &reading[place..place + 4])
}

/// Why a reading has no entry of that number; `None` where it has one.
pub fn entry_refusal(reading: &[u8], number: usize) -> Option<Refusal> {
    match calls::entry_refusal(reading, number) {
        0 => None,
        refusal => Some(Refusal::of(refusal)),
    }
}

/// The words of a bracket text, one a run line, and their count.
pub fn read_text(text: &[u8], words: &mut [u32]) -> Result<usize, Refusal> {
    count(calls::read_text(text, words))
}

/// The bracket text of a recording, and its length.
pub fn write_text(words: &[u32], text: &mut [u8]) -> Result<usize, Refusal> {
    count(calls::write_text(words, text))
}

/// The words of a card's own day record, one a change, and their count.
///
/// The record is two bytes a change, high byte first: from the top, a bit each
/// for slot, crew and card out, two bits of activity, eleven of the minute in
/// the day. Minute 0 begins a day; no bytes are no days. The refusals are 11,
/// 12, 2 and 9, in this order.
///
/// ```
/// // Rest; work from 05:00; driving from 05:20, with a second driver; a day of
/// // rest, entered by hand.
/// let record = [0x00, 0x00, 0x11, 0x2C, 0x59, 0x40, 0x60, 0x00];
/// let mut words = [0; 4];
/// assert_eq!(hours_desk::read_card(&record, &mut words), Ok(4));
/// assert_eq!(words, [4 * 300, 4 * 20 + 2, 4 * 1_120 + 3, 4 * 1_440]);
/// ```
pub fn read_card(bytes: &[u8], words: &mut [u32]) -> Result<usize, Refusal> {
    count(calls::read_card(bytes, words))
}

/// The day record of a recording of whole days, and its length: a change at
/// each minute 0 and wherever the activity differs from the minute before, the
/// bits for slot, crew and card out zero. The refusals are 1, 2, 11 and 10.
pub fn write_card(words: &[u32], bytes: &mut [u8]) -> Result<usize, Refusal> {
    count(calls::write_card(words, bytes))
}

/// The verdict: pass or breach. The refusals are 1 and 2.
///
/// Where the reading of a pass is wanted too, ask for [`first_reading`] alone, and
/// for this only if it refuses 13.
pub fn verdict(words: &[u32]) -> Result<Verdict, Refusal> {
    let value = value(calls::verdict(words))?;
    if value < ANSWER {
        return Ok(Verdict::Pass);
    }
    let breach = value - ANSWER;
    Ok(Verdict::Breach {
        minute: (breach / ARTICLES) as u32,
        article: (breach % ARTICLES) as u8,
    })
}

/// The first lawful reading, four bytes for each long rest, and the count of
/// its bytes. The refusals are 1, 2 and 4, then 13 where the verdict is a breach.
///
/// What has a lawful reading is a pass, so whoever wants both asks here first, and
/// for the [`verdict`] only on refusal 13: a pass then costs one search, and
/// not two.
pub fn first_reading(words: &[u32], reading: &mut [u8]) -> Result<usize, Refusal> {
    count(calls::first_reading(words, reading))
}

/// A stored reading of the old form in the form of four bytes an entry, and the count
/// of its bytes. Kind, week and carrier are carried as they are, whatever they are.
/// The refusals are 6, where the count is no multiple of three, then 4.
///
/// ```
/// use hours_desk::{narrow_reading, widen_reading};
///
/// // A daily rest; a weekly rest counted in week 2 and paid back by long rest 9.
/// let old = [0, 0, 0, 1, 2, 9];
/// let mut wide = [0; 8];
/// assert_eq!(widen_reading(&old, &mut wide), Ok(8));
/// assert_eq!(wide, [0, 0, 0, 0, 1, 2, 9, 0]);
///
/// let mut back = [7; 6];
/// assert_eq!(narrow_reading(&wide, &mut back), Ok(6));
/// assert_eq!(back, old);
/// ```
pub fn widen_reading(old: &[u8], wide: &mut [u8]) -> Result<usize, Refusal> {
    count(calls::widen_reading(old, wide))
}

/// The move back, into three bytes an entry, and the count of the bytes. Kind, week
/// and carrier are carried as they are. The refusals are 6, where the count is no
/// multiple of four, then 4, then 15 where a week is over 11 or a carrier over 255.
///
/// ```
/// use hours_desk::{narrow_reading, Refusal};
///
/// // Paid back by long rest 256.
/// assert_eq!(narrow_reading(&[1, 2, 0, 1], &mut [0; 3]), Err(Refusal::NoOldForm));
/// ```
pub fn narrow_reading(wide: &[u8], old: &mut [u8]) -> Result<usize, Refusal> {
    count(calls::narrow_reading(wide, old))
}

/// The spans of consecutive weeks, each judged as a recording of its own, that are a
/// breach while no shorter span inside is one: one record each, by first week, then
/// last, and their count. The refusals are 1, 2 and 14.
///
/// ```
/// use hours_desk::{breach_spans, verdict, Verdict, Weeks, WEEKS_AT_MOST};
///
/// // Six days with 456 minutes of driving, and rest up to the week's end: 2,736 in a
/// // week. Either week is a pass, but two have more than article 6.3's 5,400.
/// let day = [4 * 228 + 3, 4 * 45, 4 * 228 + 3, 4 * 939];
/// let week = [&day.repeat(6)[..], &[4 * 1_440]].concat();
/// assert_eq!(verdict(&week), Ok(Verdict::Pass));
///
/// let mut list = [Weeks::default(); WEEKS_AT_MOST];
/// assert_eq!(breach_spans(&week.repeat(3), &mut list), Ok(2));
/// assert_eq!(list[0], Weeks { first: 0, last: 1 });
/// assert_eq!(list[1], Weeks { first: 1, last: 2 });
/// ```
pub fn breach_spans(words: &[u32], list: &mut [Weeks]) -> Result<usize, Refusal> {
    count(calls::breach_spans(words, list))
}
