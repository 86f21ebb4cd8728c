//! Request 6, "Weeks that pass alone": the shortest spans of weeks that are a
//! breach.

use crate::fast::Judge;
use crate::limits::Limits;
use crate::recording::{self, word, word_activity, word_minutes, Activity, Recording, Span};
use crate::refusal::Refusal;
use crate::verdict::Verdict;

/// A span of consecutive weeks, "a record of its first and last week", from 0.
#[derive(Clone, Copy, Debug, PartialEq, Eq)]
pub struct Weeks {
    pub first: u32,
    pub last: u32,
}

impl Weeks {
    /// How many weeks.
    pub fn count(self) -> u32 {
        self.last - self.first + 1
    }

    /// Whether it is a "shorter span inside" the other: one of fewer weeks within it.
    pub fn is_shorter_inside(self, other: Weeks) -> bool {
        other.first <= self.first && self.last <= other.last && self.count() < other.count()
    }
}

/// What the request asks of a span, each a choice. The operation uses
/// [`Terms::request`]; a comparison also takes others, to see that they are noticed.
#[derive(Clone, Copy, Debug, PartialEq, Eq)]
pub struct Terms {
    /// "while no shorter span inside it is one". Without it each Monday's shortest
    /// breach is written.
    pub none_inside: bool,
    /// "by itself, ... as a recording of its own". Without it a span is judged from
    /// minute 0 of the whole to its own end.
    pub by_itself: bool,
    /// "or to N in the last week". Without it a part of a week at the end is left out.
    pub part_week: bool,
}

impl Terms {
    /// The terms of the request.
    pub const fn request() -> Terms {
        Terms {
            none_inside: true,
            by_itself: true,
            part_week: true,
        }
    }
}

/// "Write out each span that is a breach while no shorter span inside it is one, as a
/// record of its first and last week, by first week, then last. ... The answer is
/// their number, and 14 follows 1 and 2 where the lent list is too short."
pub fn breach_spans(words: &[u32], list: &mut [Weeks]) -> Result<usize, Refusal> {
    breach_spans_by(&Terms::request(), words, list)
}

/// The same by other terms.
pub fn breach_spans_by(terms: &Terms, words: &[u32], list: &mut [Weeks]) -> Result<usize, Refusal> {
    let limits = Limits::document();
    recording::total(words, &limits)?;
    let found = found(terms, words, &limits);
    if list.len() < found.len() {
        return Err(Refusal::SpanListTooShort);
    }
    list[..found.len()].copy_from_slice(&found);
    Ok(found.len())
}

/// The spans of words that weighing does not turn away, by one verdict for each
/// Monday, the last first.
///
/// A breach stays one when its end moves later. So a Monday has one shortest breach
/// at most, and no shorter one lies inside if it ends before that of every later
/// Monday: up to there it is judged.
pub fn found(terms: &Terms, words: &[u32], limits: &Limits) -> Vec<Weeks> {
    let total = recording::total_minutes(words);
    let mut end = if terms.part_week {
        (total + limits.week - 1) / limits.week
    } else {
        total / limits.week
    };
    let mut found = Vec::new();
    for first in (0..end).rev() {
        let monday = if terms.by_itself { first } else { 0 };
        let Some(breach) = breach_week(words, monday, end, limits) else {
            continue;
        };
        let last = breach.max(first);
        found.push(Weeks {
            first: first as u32,
            last: last as u32,
        });
        if terms.none_inside {
            end = last;
        }
    }
    found.reverse();
    found
}

/// The last week of the shortest breach that starts on this week's Monday, if there
/// is one before week `end`.
fn breach_week(words: &[u32], monday: i64, end: i64, limits: &Limits) -> Option<i64> {
    let span = Span {
        start: limits.week * monday,
        end: limits.week * end,
    };
    match Judge::new(&cut(words, span), limits).verdict() {
        Verdict::Pass => None,
        Verdict::Breach { minute, .. } => Some(monday + limits.week_of(minute - 1)),
    }
}

/// The words of the minutes of a span, as far as it lies in the recording; "a rest
/// cut at its Monday counts with what is left of it".
fn cut(words: &[u32], span: Span) -> Vec<u32> {
    let mut kept = Vec::new();
    let mut reached = 0;
    for &whole in words {
        let start = span.start.max(reached);
        reached += word_minutes(whole);
        let end = span.end.min(reached);
        if start < end {
            kept.push(word((end - start) as u32, word_activity(whole)));
        }
    }
    kept
}

/// The request as it stands: every span of weeks, judged by its own minutes, "from a
/// Monday to a Sunday (or to N in the last week), ... the whole included"; those that
/// are a breach; of them those with no shorter one inside. "by first week, then last."
pub fn plain(
    minutes: &[Activity],
    limits: &Limits,
    mut is_breach: impl FnMut(&[Activity]) -> bool,
) -> Vec<Weeks> {
    let recording = Recording::new(minutes, limits);
    let own_minutes = |weeks: Weeks| {
        recording.activities(Span {
            start: recording.week(i64::from(weeks.first)).start,
            end: recording.week(i64::from(weeks.last)).end,
        })
    };
    let breaches: Vec<Weeks> = all_spans(recording.weeks().end as u32)
        .into_iter()
        .filter(|&weeks| is_breach(own_minutes(weeks)))
        .collect();
    let none_inside = |weeks: &Weeks| !breaches.iter().any(|other| other.is_shorter_inside(*weeks));
    breaches.iter().copied().filter(none_inside).collect()
}

/// Every span of so many weeks.
pub fn all_spans(weeks: u32) -> Vec<Weeks> {
    (0..weeks)
        .flat_map(|first| (first..weeks).map(move |last| Weeks { first, last }))
        .collect()
}
