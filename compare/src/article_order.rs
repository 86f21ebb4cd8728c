//! Request 4: "let the work go in the regulation's order, articles 6(1), 6(2), 6(3),
//! 7, 8(2)." A mistake about it.

use second::broken::Broken;
use second::Limits;

use crate::mistake::{broken, judged_words, Mistake};
use crate::operation::{answer, one, Answer, Input, Operation};

/// The place of each rule's article, from rule 0 on, which is none.
const PLACES: [u8; 6] = [0, 4, 1, 2, 3, 5];

/// The first that is broken in the order of the rules' numbers, by its place.
pub const BY_NUMBER: Mistake = Mistake {
    judging: &[Operation::ArticleTest],
    is_made: |words| broken(words, &Limits::document()) != Broken::default(),
    answer: wrong_answer,
    other_answer: "by number: other answer",
    same_answer: "by number: same answer",
};

fn wrong_answer(operation: Operation, input: &Input) -> Answer {
    let words = judged_words(operation, input);
    let rule = broken(&words, &Limits::document()).smallest_rule();
    answer(Ok(one(PLACES[usize::from(rule)])), input.clone())
}
