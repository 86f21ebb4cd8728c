//! What the desk program prints.

use crate::card;
use crate::limits::{Limits, MOST_WEEKS};
use crate::reading::{entries, Entry, ENTRY_BYTES};
use crate::refusal::Refusal;
use crate::runs::Course;
use crate::spans::{breach_spans, Weeks};
use crate::text;
use crate::verdict::{first_reading, verdict, Verdict};

/// "standard input, at most 65,536 bytes; more prints as refusal 9"
pub const MOST_BYTES: usize = 65_536;

/// What the desk program prints for this input text. "It lends words enough
/// for any text of that size."
pub fn print(input: &[u8]) -> String {
    page(input, read_text, judged)
}

/// What it prints for a card's days, with words enough for any record.
pub fn print_card(input: &[u8]) -> String {
    page(input, card::parse, judged)
}

/// Request 6: what it prints of the spans of an input text, with records enough.
pub fn print_spans(input: &[u8]) -> String {
    page(input, read_text, spans)
}

fn read_text(text: &[u8]) -> Result<Vec<u32>, Refusal> {
    text::parse(text).ok_or(Refusal::TextForm)
}

fn page(
    input: &[u8],
    read: impl Fn(&[u8]) -> Result<Vec<u32>, Refusal>,
    answer: impl Fn(&[u32]) -> Result<String, Refusal>,
) -> String {
    if input.len() > MOST_BYTES {
        return refused(Refusal::TooFewWords);
    }
    match read(input).and_then(|words| answer(&words)) {
        Ok(page) => page,
        Err(refusal) => refused(refusal),
    }
}

/// "A refusal prints `(verdict`, `(refused n)`, `)`."
fn refused(refusal: Refusal) -> String {
    format!("(verdict\n(refused {})\n)\n", refusal.number())
}

/// Request 5: "Callers, the desk program included, use the two." "A breach has,
/// after minutes, `(breach m a)` in place of judged and reading."
fn judged(words: &[u32]) -> Result<String, Refusal> {
    let verdict = verdict(words)?;
    let limits = Limits::document();
    let course = Course::new(words, &limits);
    let total = course.total;
    let found = match verdict {
        Verdict::Pass => {
            let mut reading = vec![0; ENTRY_BYTES * course.long_rests.len()];
            first_reading(words, &mut reading)?;
            let judged_end = course.judged_end(total);
            let rests = rest_lines(&course, &entries(&reading));
            format!("(judged {judged_end})\n(reading\n{rests})\n")
        }
        Verdict::Breach { minute, article } => {
            format!("(breach {minute} {})\n", article_name(article))
        }
    };
    Ok(format!("(verdict\n(minutes {total})\n{found})\n"))
}

/// A line for each span of weeks, its first and its last. Each Monday begins one span
/// at most.
fn spans(words: &[u32]) -> Result<String, Refusal> {
    let mut list = [Weeks { first: 0, last: 0 }; MOST_WEEKS];
    let count = breach_spans(words, &mut list)?;
    let line = |weeks: &Weeks| format!("(weeks {} {})\n", weeks.first, weeks.last);
    let lines: String = list[..count].iter().map(line).collect();
    Ok(format!("(spans\n{lines})\n"))
}

/// "These are N, S and each rest's start and end; a weekly rest prints
/// `(weekly start end week carrier)`."
fn rest_lines(course: &Course, entries: &[Entry]) -> String {
    let line = |(rest, entry): (&crate::runs::LongRest, &Entry)| {
        let (start, end) = (rest.span.start, rest.span.end);
        if entry.is_weekly() {
            format!("(weekly {start} {end} {} {})\n", entry.week, entry.carrier)
        } else {
            format!("(daily {start} {end})\n")
        }
    };
    course.long_rests.iter().zip(entries).map(line).collect()
}

/// "a being 7, 6.1, 6.2, 6.3, 8.2 or 8 for 1 to 6"
fn article_name(article: u8) -> &'static str {
    match article {
        1 => "7",
        2 => "6.1",
        3 => "6.2",
        4 => "6.3",
        5 => "8.2",
        _ => "8",
    }
}
