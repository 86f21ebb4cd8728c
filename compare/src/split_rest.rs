//! Request 3: "A daily rest with portion 540 or more no longer counts under rule 9 if
//! its day holds an earlier rest of 180 to 539 minutes." Two mistakes about it.

use second::fast::Judge;
use second::reading::{self, entries, standings, Entry};
use second::recording::{minutes, Recording};
use second::runs::{Course, LongRest};
use second::Limits;

use crate::mistake::Mistake;
use crate::operation::{answer, one, outcome_answer, Answer, Input, Operation};

/// The operations that rely on rule 9.
const JUDGING: [Operation; 3] = [
    Operation::ReadingTest,
    Operation::Verdict,
    Operation::FirstReading,
];

/// Where a rest of 180 to 539 minutes lies before a long rest.
#[derive(Clone, Copy)]
struct Held {
    in_its_day: bool,
    in_a_day_before: bool,
}

/// A word on whether such a rest frees a long rest with portion 540 or more.
type Frees = fn(Held) -> bool;

fn never(_: Held) -> bool {
    false
}

fn of_any_day(held: Held) -> bool {
    held.in_its_day || held.in_a_day_before
}

/// Rule 9 as document 01 has it.
pub const NEVER: Mistake = Mistake {
    judging: &JUDGING,
    is_made: |words| is_made(never, words),
    answer: |operation, input| wrong_answer(never, operation, input),
    other_answer: "never freed: other answer",
    same_answer: "never freed: same answer",
};

/// The rest also of a day before: a long rest does not make it forgotten.
pub const ANY_DAY: Mistake = Mistake {
    judging: &JUDGING,
    is_made: |words| is_made(of_any_day, words),
    answer: |operation, input| wrong_answer(of_any_day, operation, input),
    other_answer: "any day: other answer",
    same_answer: "any day: same answer",
};

/// Whether some long rest is wrongly freed, or wrongly not.
fn is_made(frees: Frees, words: &[u32]) -> bool {
    let limits = Limits::document();
    let right = Course::new(words, &limits);
    wrong_course(frees, words, &limits).long_rests != right.long_rests
}

/// The recording with its long rests freed by this word.
fn wrong_course<'a>(frees: Frees, words: &[u32], limits: &'a Limits) -> Course<'a> {
    let mut course = Course::new(words, limits);
    let mut in_a_day_before = false;
    for rest in &mut course.long_rests {
        let held = Held {
            in_its_day: rest.earlier_rest,
            in_a_day_before,
        };
        in_a_day_before |= rest.earlier_rest;
        rest.earlier_rest = frees(held);
    }
    course
}

fn wrong_answer(frees: Frees, operation: Operation, input: &Input) -> Answer {
    let limits = Limits::document();
    let course = wrong_course(frees, &input.words, &limits);
    if let Operation::Verdict | Operation::FirstReading = operation {
        let outcome = Judge::of(course).outcome();
        return outcome_answer(operation, &outcome, input);
    }
    let rule = wrong_rule(&course.long_rests, &input.words, &entries(&input.bytes));
    answer(Ok(one(rule)), input.clone())
}

/// The smallest broken rule, with rule 9 read over these long rests.
fn wrong_rule(long_rests: &[LongRest], words: &[u32], entries: &[Entry]) -> u8 {
    let without_rule_9 = Limits {
        reduced_daily_rests: usize::MAX,
        ..Limits::document()
    };
    let minutes = minutes(words);
    let recording = Recording::new(&minutes, &without_rule_9);
    match reading::broken_rule(&recording, entries) {
        earlier @ 1..=8 => earlier,
        _ if !rule_9_holds(long_rests, &recording, entries) => 9,
        rule => rule,
    }
}

/// Rule 9 over these long rests, in a reading that keeps rule 6.
fn rule_9_holds(long_rests: &[LongRest], recording: &Recording, entries: &[Entry]) -> bool {
    let limits = Limits::document();
    let standings = standings(recording, entries).expect("the reading keeps rule 6");
    let mut shortened = 0;
    for ((rest, entry), (_, own)) in long_rests.iter().zip(entries).zip(standings) {
        if entry.is_weekly() {
            shortened = 0;
        } else if rest.is_shortened(own, &limits) {
            shortened += 1;
        }
        if shortened > limits.reduced_daily_rests {
            return false;
        }
    }
    true
}
