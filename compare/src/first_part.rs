//! Request 2: "a rest is a first part only if driving has been done since the
//! sum was last cleared, or since minute 0 if it never was." Two mistakes about it.

use second::broken::Broken;
use second::fast::Judge;
use second::reading::{self, entries};
use second::recording::{minutes, Activity, Recording};
use second::runs::runs;
use second::verdict::Outcome;
use second::Limits;

use crate::cards::split_at;
use crate::mistake::{broken, judged_words, Mistake};
use crate::operation::{answer, one, outcome_answer, Answer, Input, Operation};

/// The operations that rely on the break sum.
const JUDGING: [Operation; 5] = [
    Operation::FixedTest,
    Operation::ArticleTest,
    Operation::ReadingTest,
    Operation::Verdict,
    Operation::FirstReading,
];

/// What has been driven before a rest of 15 minutes or more that does not clear
/// the sum.
#[derive(Clone, Copy)]
struct Driven {
    since_minute_0: bool,
    since_cleared: bool,
}

/// A word on when such a rest is a first part.
type FirstPart = fn(Driven) -> bool;

fn any_rest(_: Driven) -> bool {
    true
}

fn since_minute_0(driven: Driven) -> bool {
    driven.since_minute_0
}

/// Every such rest, also before any driving.
pub const ANY_REST: Mistake = Mistake {
    judging: &JUDGING,
    is_made: |words| is_made(any_rest, words),
    answer: |operation, input| wrong_answer(any_rest, operation, input),
    other_answer: "any rest: other answer",
    same_answer: "any rest: same answer",
};

/// After any driving, also where the sum has been cleared since.
pub const SINCE_MINUTE_0: Mistake = Mistake {
    judging: &JUDGING,
    is_made: |words| is_made(since_minute_0, words),
    answer: |operation, input| wrong_answer(since_minute_0, operation, input),
    other_answer: "since 0: other answer",
    same_answer: "since 0: same answer",
};

/// Whether some rest of the recording is wrongly taken as a first part.
fn is_made(first_part: FirstPart, words: &[u32]) -> bool {
    let mut made = false;
    breach_of_rule_1(words, &mut |driven| {
        made |= first_part(driven) && !driven.since_cleared;
        driven.since_cleared
    });
    made
}

fn wrong_answer(first_part: FirstPart, operation: Operation, input: &Input) -> Answer {
    let words = judged_words(operation, input);
    let breach = breach_of_rule_1(&words, &mut |driven| first_part(driven));
    let without_rule_1 = Limits {
        unbroken_driving: i64::MAX,
        ..Limits::document()
    };
    if let Operation::Verdict | Operation::FirstReading = operation {
        let outcome = outcome(&words, &without_rule_1, breach);
        return outcome_answer(operation, &outcome, input);
    }
    let broken = Broken {
        article_7: breach.is_some(),
        ..broken(&words, &without_rule_1)
    };
    let value = match operation {
        Operation::FixedTest => broken.smallest_rule(),
        Operation::ArticleTest => broken.first_article(),
        _ if broken.article_7 => 1,
        _ => {
            let minutes = minutes(&words);
            let recording = Recording::new(&minutes, &without_rule_1);
            reading::broken_rule(&recording, &entries(&input.bytes))
        }
    };
    answer(Ok(one(value)), input.clone())
}

/// The outcome of a recording whose rule 1 is broken at this minute.
fn outcome(words: &[u32], without_rule_1: &Limits, breach: Option<u32>) -> Outcome {
    let Some(minute) = breach else {
        return Judge::new(words, without_rule_1).outcome();
    };
    let before = split_at(words, minute - 1).0;
    match Judge::new(&before, without_rule_1).outcome() {
        Outcome::Pass(_) => Outcome::Breach {
            minute: minute.into(),
            article: 1,
        },
        earlier => earlier,
    }
}

/// The least m at which the driving sum passes 270. It asks whether a rest of 15 or
/// more that does not clear the sum is a first part.
fn breach_of_rule_1(words: &[u32], first_part: &mut dyn FnMut(Driven) -> bool) -> Option<u32> {
    let limits = Limits::document();
    let (mut sum, mut since_minute_0, mut part_taken) = (0, false, false);
    let mut rest = 0;
    for run in runs(words) {
        let length = run.span.length();
        if run.activity == Activity::Rest {
            rest = length;
            continue;
        }
        if rest >= limits.full_break || part_taken && rest >= limits.second_part {
            (sum, part_taken) = (0, false);
        } else if rest >= limits.first_part {
            part_taken |= first_part(Driven {
                since_minute_0,
                since_cleared: sum > 0,
            });
        }
        rest = 0;
        if run.activity == Activity::Driving {
            let left = limits.unbroken_driving - sum;
            if length > left {
                return Some((run.span.start + left + 1) as u32);
            }
            sum += length;
            since_minute_0 = true;
        }
    }
    None
}
