//! Request 6: "Judge every span of consecutive weeks by itself, ... as a recording of
//! its own ... Write out each span that is a breach while no shorter span inside it is
//! one". Three mistakes about it, and what the answers are counted by.

use second::limits::MOST_WEEKS;
use second::recording::total_minutes;
use second::spans::{breach_spans_by, Terms, Weeks};
use second::{Limits, Refusal};

use crate::mistake::Mistake;
use crate::operation::{answer, one, Answer, Input, Operation};

/// The operation that relies on the terms.
const JUDGING: [Operation; 1] = [Operation::BreachSpans];

const EVERY_MONDAYS: Terms = Terms {
    none_inside: false,
    ..Terms::request()
};

const FROM_MINUTE_0: Terms = Terms {
    by_itself: false,
    ..Terms::request()
};

const WHOLE_WEEKS: Terms = Terms {
    part_week: false,
    ..Terms::request()
};

/// Every Monday's shortest breach, also with a shorter one inside.
pub const WITH_ONE_INSIDE: Mistake = Mistake {
    judging: &JUDGING,
    is_made: |words| weeks(words) > 1,
    answer: |_, input| by_terms(&EVERY_MONDAYS, input),
    other_answer: "one inside: other answer",
    same_answer: "one inside: same answer",
};

/// Spans judged from minute 0 of the whole recording on.
pub const NOT_BY_ITSELF: Mistake = Mistake {
    judging: &JUDGING,
    is_made: |words| weeks(words) > 1,
    answer: |_, input| by_terms(&FROM_MINUTE_0, input),
    other_answer: "not alone: other answer",
    same_answer: "not alone: same answer",
};

/// A part of a week at the end left out.
pub const NO_PART_WEEK: Mistake = Mistake {
    judging: &JUDGING,
    is_made: |words| total_minutes(words) % Limits::document().week > 0,
    answer: |_, input| by_terms(&WHOLE_WEEKS, input),
    other_answer: "no part week: other answer",
    same_answer: "no part week: same answer",
};

/// As many weeks as are begun.
pub fn weeks(words: &[u32]) -> usize {
    let week = Limits::document().week;
    ((total_minutes(words) + week - 1) / week) as usize
}

/// How many spans of weeks are a breach with no shorter one inside; 0 where the words
/// are turned away.
pub fn count(words: &[u32]) -> usize {
    let mut list = [Weeks { first: 0, last: 0 }; MOST_WEEKS];
    second::spans::breach_spans(words, &mut list).unwrap_or(0)
}

/// The second program by these terms. The records' first and last weeks go to a list,
/// and come back whatever the answer.
pub fn by_terms(terms: &Terms, input: &Input) -> Answer {
    let mut after = input.clone();
    let mut list: Vec<Weeks> = (input.lent_words.iter().zip(&input.lent_ends))
        .map(|(&first, &last)| Weeks { first, last })
        .collect();
    let told = breach_spans_by(terms, &input.words, &mut list);
    for (index, weeks) in list.iter().enumerate() {
        after.lent_words[index] = weeks.first;
        after.lent_ends[index] = weeks.last;
    }
    answer(told.map(one).map_err(Refusal::number), after)
}

/// The kinds of answers, by the number of spans.
pub const NUMBERS: [&str; 4] = ["no span", "one span", "two spans", "three spans or more"];

/// And by the weeks of a span that is written.
pub const LENGTHS: [&str; 4] = [
    "a span of a week",
    "of two weeks",
    "of three or four",
    "of five weeks or more",
];

/// The kind of an answer of so many spans.
pub fn number(spans: u64) -> &'static str {
    NUMBERS[spans.min(3) as usize]
}

/// The rows in which an answer is counted: by its number, and by each length among its
/// spans.
pub fn rows(answer: &Answer) -> Vec<&'static str> {
    let Ok([spans]) = answer.told.as_deref() else {
        return Vec::new();
    };
    let records = answer.lent_words.iter().zip(&answer.lent_ends);
    let mut lengths: Vec<usize> = (records.take(*spans as usize))
        .map(|(first, last)| match last - first {
            0 => 0,
            1 => 1,
            2 | 3 => 2,
            _ => 3,
        })
        .collect();
    lengths.sort();
    lengths.dedup();
    let lengths = lengths.into_iter().map(|length| LENGTHS[length]);
    std::iter::once(number(*spans)).chain(lengths).collect()
}
