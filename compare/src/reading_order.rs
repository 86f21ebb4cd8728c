//! Request 7: "The order of readings compares kind, then week, then carrier as a number."
//! A mistake about it.

use second::reading::{broken_reading_rule, bytes, entries, Entry};
use second::recording::{minutes, weigh, Recording};
use second::verdict::first_reading;
use second::{Limits, Refusal};

use crate::mistake::Mistake;
use crate::operation::{answer, one, Answer, Input, Operation};

/// As many long rests as a byte can number.
const ONE_BYTE: usize = 255;

/// A carrier's low byte compared before its high one.
pub const BY_BYTES: Mistake = Mistake {
    judging: &[Operation::FirstReading],
    is_made: |words| weigh(words).is_ok_and(|measure| measure.long_rests > ONE_BYTE),
    answer: wrong_answer,
    other_answer: "by bytes: other answer",
    same_answer: "by bytes: same answer",
};

fn wrong_answer(_: Operation, input: &Input) -> Answer {
    let mut after = input.clone();
    let told = first_reading(&input.words, &mut after.lent_bytes);
    if let Ok(count) = told {
        let first = entries(&after.lent_bytes[..count]);
        if let Some(other) = before_by_bytes(&input.words, &first) {
            after.lent_bytes[..count].copy_from_slice(&bytes(&other));
        }
    }
    answer(told.map(one).map_err(Refusal::number), after)
}

/// A lawful reading with another carrier in one entry, whose bytes come before those of
/// the first reading.
fn before_by_bytes(words: &[u32], first: &[Entry]) -> Option<Vec<Entry>> {
    let limits = Limits::document();
    let minutes = minutes(words);
    let recording = Recording::new(&minutes, &limits);
    (0..first.len()).find_map(|index| {
        let entry = first[index];
        let mut carriers: Vec<u16> = (index as u16 + 2..=first.len() as u16)
            .filter(|carrier| carrier.to_le_bytes() < entry.carrier.to_le_bytes())
            .collect();
        carriers.sort_by_key(|carrier| carrier.to_le_bytes());
        carriers.into_iter().find_map(|carrier| {
            let mut other = first.to_vec();
            other[index].carrier = carrier;
            (broken_reading_rule(&recording, &other) == 0).then_some(other)
        })
    })
}
