//! An operation with its input, and what the second program answers to it.

use second::recording::Span;
use second::spans::Terms;
use second::verdict::{Outcome, Verdict};
use second::Refusal;

use crate::spans;

/// The operations of documents 01 and 02.
#[derive(Clone, Copy, Debug, PartialEq, Eq)]
pub enum Operation {
    Weigh,
    List,
    FixedTest,
    ArticleTest,
    ReadingTest,
    Entry,
    EntryRefusal,
    ReadText,
    WriteText,
    ReadCard,
    WriteCard,
    Verdict,
    FirstReading,
    BreachSpans,
    WidenReading,
    NarrowReading,
}

impl Operation {
    pub const ALL: [Operation; 16] = [
        Operation::Weigh,
        Operation::List,
        Operation::FixedTest,
        Operation::ArticleTest,
        Operation::ReadingTest,
        Operation::Entry,
        Operation::EntryRefusal,
        Operation::ReadText,
        Operation::WriteText,
        Operation::ReadCard,
        Operation::WriteCard,
        Operation::Verdict,
        Operation::FirstReading,
        Operation::BreachSpans,
        Operation::WidenReading,
        Operation::NarrowReading,
    ];

    pub fn name(self) -> &'static str {
        match self {
            Operation::Weigh => "weighing",
            Operation::List => "listing long rests",
            Operation::FixedTest => "fixed test",
            Operation::ArticleTest => "article test",
            Operation::ReadingTest => "reading test",
            Operation::Entry => "entry",
            Operation::EntryRefusal => "its companion",
            Operation::ReadText => "reading text",
            Operation::WriteText => "writing text",
            Operation::ReadCard => "reading a card",
            Operation::WriteCard => "writing a card",
            Operation::Verdict => "verdict",
            Operation::FirstReading => "first reading",
            Operation::BreachSpans => "breach spans",
            Operation::WidenReading => "widening a reading",
            Operation::NarrowReading => "narrowing a reading",
        }
    }

    /// A column's title.
    pub fn short_name(self) -> &'static str {
        match self {
            Operation::Weigh => "weigh",
            Operation::List => "list",
            Operation::FixedTest => "fixed",
            Operation::ArticleTest => "article",
            Operation::ReadingTest => "reading",
            Operation::Entry => "entry",
            Operation::EntryRefusal => "refusal",
            Operation::ReadText => "read",
            Operation::WriteText => "write",
            Operation::ReadCard => "card in",
            Operation::WriteCard => "card out",
            Operation::Verdict => "verdict",
            Operation::FirstReading => "first",
            Operation::BreachSpans => "spans",
            Operation::WidenReading => "widen",
            Operation::NarrowReading => "narrow",
        }
    }

    /// The refusals of the documents, in their order.
    pub fn refusals(self) -> &'static [u8] {
        match self {
            Operation::Weigh | Operation::Verdict => &[1, 2],
            Operation::List => &[1, 2, 3],
            Operation::FixedTest | Operation::ArticleTest => &[1, 2, 5],
            Operation::ReadingTest => &[1, 2, 6],
            Operation::Entry | Operation::EntryRefusal => &[6, 7],
            Operation::ReadText => &[8, 9],
            Operation::WriteText => &[1, 2, 10],
            Operation::ReadCard => &[11, 12, 2, 9],
            Operation::WriteCard => &[1, 2, 11, 10],
            Operation::FirstReading => &[1, 2, 4, NO_LAWFUL_READING],
            Operation::BreachSpans => &[1, 2, SPAN_LIST_TOO_SHORT],
            Operation::WidenReading => &[6, 4],
            Operation::NarrowReading => &[6, 4, NO_OLD_FORM],
        }
    }
}

/// What is passed to an operation: a lent buffer with all its content.
#[derive(Clone, Debug, Default, PartialEq, Eq)]
pub struct Input {
    pub words: Vec<u32>,
    /// The reading, the text or the card record that is passed to be read or moved.
    pub bytes: Vec<u8>,
    /// The stretch m, or the number of an entry.
    pub number: usize,
    /// The lent buffer of bytes: a reading, a text or a card record.
    pub lent_bytes: Vec<u8>,
    /// The lent buffers of numbers: the words of a text or a card record, or the
    /// starts and ends, or the first and last weeks, of the records of a list.
    pub lent_words: Vec<u32>,
    pub lent_ends: Vec<u32>,
}

/// What an operation answers, and all that the lent buffers hold then.
#[derive(Clone, Debug, PartialEq, Eq)]
pub struct Answer {
    /// The values of the answer, or the number of the refusal.
    pub told: Result<Vec<u64>, u8>,
    pub lent_bytes: Vec<u8>,
    pub lent_words: Vec<u32>,
    pub lent_ends: Vec<u32>,
}

/// A program that answers for every operation.
pub type Program = fn(Operation, &Input) -> Answer;

/// A breach is told as 1, its minute and its article; a pass as 0 alone.
pub const PASS: u64 = 0;
pub const BREACH: u64 = 1;

/// What the first reading refuses where the verdict is a breach.
pub const NO_LAWFUL_READING: u8 = 13;

/// What the breach spans refuse where there are more of them than records.
pub const SPAN_LIST_TOO_SHORT: u8 = 14;

/// What the move back refuses where a week is over 11 or a carrier over 255.
pub const NO_OLD_FORM: u8 = 15;

impl Answer {
    /// Whether the rules were asked. No other refusals than 13 and 14 come of them.
    pub fn is_judged(&self) -> bool {
        matches!(
            self.told,
            Ok(_) | Err(NO_LAWFUL_READING | SPAN_LIST_TOO_SHORT)
        )
    }
}

pub fn second(operation: Operation, input: &Input) -> Answer {
    let mut after = input.clone();
    let (words, bytes, number) = (&input.words, &input.bytes, input.number);
    let told = match operation {
        Operation::Weigh => second::recording::weigh(words).map(|measure| {
            vec![
                measure.total as u64,
                measure.judged_end as u64,
                measure.long_rests as u64,
            ]
        }),
        Operation::List => second_list(words, &mut after.lent_words, &mut after.lent_ends),
        Operation::FixedTest => second::fixed::test(words, number).map(one),
        Operation::ArticleTest => second::fixed::article_test(words, number).map(one),
        Operation::ReadingTest => second::reading::test(words, bytes).map(one),
        Operation::Entry => second_entry(bytes, number),
        Operation::EntryRefusal => match second::entry::entry_refusal(bytes, number) {
            0 => Ok(vec![]),
            number => return answer(Err(number), after),
        },
        Operation::ReadText => second::text::read(bytes, &mut after.lent_words).map(one),
        Operation::WriteText => second::text::write(words, &mut after.lent_bytes).map(one),
        Operation::ReadCard => second::card::read(bytes, &mut after.lent_words).map(one),
        Operation::WriteCard => second::card::write(words, &mut after.lent_bytes).map(one),
        Operation::Verdict => second::verdict::verdict(words).map(verdict_values),
        Operation::FirstReading => {
            second::verdict::first_reading(words, &mut after.lent_bytes).map(one)
        }
        Operation::BreachSpans => return spans::by_terms(&Terms::request(), input),
        Operation::WidenReading => {
            second::stored::widen_reading(bytes, &mut after.lent_bytes).map(one)
        }
        Operation::NarrowReading => {
            second::stored::narrow_reading(bytes, &mut after.lent_bytes).map(one)
        }
    };
    answer(told.map_err(Refusal::number), after)
}

fn verdict_values(verdict: Verdict) -> Vec<u64> {
    match verdict {
        Verdict::Pass => vec![PASS],
        Verdict::Breach { minute, article } => vec![BREACH, minute as u64, article.into()],
    }
}

/// The verdict of a recording that comes out so, or its first reading in a buffer
/// with room for it.
pub fn outcome_answer(operation: Operation, outcome: &Outcome, input: &Input) -> Answer {
    let mut after = input.clone();
    let told = match (operation, outcome) {
        (Operation::FirstReading, Outcome::Pass(reading)) => {
            after.lent_bytes[..reading.len()].copy_from_slice(reading);
            Ok(one(reading.len()))
        }
        (Operation::FirstReading, Outcome::Breach { .. }) => Err(NO_LAWFUL_READING),
        (_, Outcome::Pass(_)) => Ok(verdict_values(Verdict::Pass)),
        (_, &Outcome::Breach { minute, article }) => {
            Ok(verdict_values(Verdict::Breach { minute, article }))
        }
    };
    answer(told, after)
}

/// The records' starts and ends go to a list, and come back whatever the answer.
fn second_list(words: &[u32], starts: &mut [u32], ends: &mut [u32]) -> Result<Vec<u64>, Refusal> {
    let mut list: Vec<Span> = (starts.iter().zip(ends.iter()))
        .map(|(&start, &end)| Span {
            start: start.into(),
            end: end.into(),
        })
        .collect();
    let count = second::recording::list_long_rests(words, &mut list)?;
    for (index, span) in list.iter().enumerate() {
        starts[index] = span.start as u32;
        ends[index] = span.end as u32;
    }
    Ok(one(count))
}

/// The part is empty if there is a refusal, and only then.
fn second_entry(reading: &[u8], number: usize) -> Result<Vec<u64>, Refusal> {
    let part = second::entry::entry(reading, number);
    if !part.is_empty() {
        return Ok(placed(reading, part));
    }
    match second::entry::entry_refusal(reading, number) {
        6 => Err(Refusal::ReadingByteCount),
        7 => Err(Refusal::EntryNumber),
        _ => Ok(vec![]),
    }
}

/// Where a part of a reading begins in it, and its bytes.
pub fn placed(reading: &[u8], part: &[u8]) -> Vec<u64> {
    let place = part.as_ptr() as usize - reading.as_ptr() as usize;
    let bytes = part.iter().map(|&byte| byte.into());
    std::iter::once(place as u64).chain(bytes).collect()
}

/// An answer of one value.
pub fn one(value: impl TryInto<u64>) -> Vec<u64> {
    value.try_into().ok().into_iter().collect()
}

/// The answer, with what the lent buffers hold after it.
pub fn answer(told: Result<Vec<u64>, u8>, after: Input) -> Answer {
    Answer {
        told,
        lent_bytes: after.lent_bytes,
        lent_words: after.lent_words,
        lent_ends: after.lent_ends,
    }
}
