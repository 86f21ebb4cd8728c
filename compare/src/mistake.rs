//! Wrong words on what a request says: the programs that go by them, and the inputs
//! that could show them.

use second::broken::Broken;
use second::runs::Course;
use second::Limits;

use crate::article_order;
use crate::cards::split_at;
use crate::first_part;
use crate::operation::{second, Answer, Input, Operation};
use crate::reading_order;
use crate::spans;
use crate::split_rest;

/// A wrong word on a rule, or on an order of them. An input that it bears on is counted
/// in either of two rows: the mistake makes another answer of it, or the same.
pub struct Mistake {
    /// The operations that rely on the word.
    pub judging: &'static [Operation],
    /// Whether it bears on a recording.
    pub is_made: fn(&[u32]) -> bool,
    /// What such an operation answers by it, if it comes to judging.
    pub answer: fn(Operation, &Input) -> Answer,
    pub other_answer: &'static str,
    pub same_answer: &'static str,
}

/// The mistakes about one request, as a table of the tally.
pub struct About {
    pub title: &'static str,
    pub mistakes: &'static [Mistake],
    /// The inputs in each row that an operation is compared on at least.
    pub at_least: usize,
}

const MANY: usize = 500;

/// Where it takes a recording of many weeks.
const SOME: usize = 50;

pub const REQUESTS: [About; 5] = [
    About {
        title: "first part by mistake",
        mistakes: &[first_part::ANY_REST, first_part::SINCE_MINUTE_0],
        at_least: MANY,
    },
    About {
        title: "rule 9 by mistake",
        mistakes: &[split_rest::NEVER, split_rest::ANY_DAY],
        at_least: MANY,
    },
    About {
        title: "articles by mistake",
        mistakes: &[article_order::BY_NUMBER],
        at_least: MANY,
    },
    About {
        title: "spans by mistake",
        mistakes: &[
            spans::WITH_ONE_INSIDE,
            spans::NOT_BY_ITSELF,
            spans::NO_PART_WEEK,
        ],
        at_least: MANY,
    },
    About {
        title: "order by mistake",
        mistakes: &[reading_order::BY_BYTES],
        at_least: SOME,
    },
];

impl Mistake {
    /// The second program, but for this mistake.
    pub fn program(&self, operation: Operation, input: &Input) -> Answer {
        let right = second(operation, input);
        if self.judges(operation, &right) {
            (self.answer)(operation, input)
        } else {
            right
        }
    }

    /// The row in which an input is counted, by its right answer.
    pub fn row(&self, operation: Operation, input: &Input, right: &Answer) -> Option<&'static str> {
        let made = self.judges(operation, right) && (self.is_made)(&judged_words(operation, input));
        made.then(|| {
            if (self.answer)(operation, input) == *right {
                self.same_answer
            } else {
                self.other_answer
            }
        })
    }

    pub fn rows(&self) -> [&'static str; 2] {
        [self.other_answer, self.same_answer]
    }

    /// Whether the operation relies on the word and comes to judging.
    fn judges(&self, operation: Operation, answer: &Answer) -> bool {
        self.judging.contains(&operation) && answer.is_judged()
    }
}

/// The recording, or the stretch of it that is tested.
pub fn judged_words(operation: Operation, input: &Input) -> Vec<u32> {
    match operation {
        Operation::FixedTest | Operation::ArticleTest => {
            split_at(&input.words, input.number as u32).0
        }
        _ => input.words.clone(),
    }
}

/// Which of the fixed rules these words break.
pub fn broken(words: &[u32], limits: &Limits) -> Broken {
    let course = Course::new(words, limits);
    course.broken(course.total)
}
