//! Plain enumeration, for small recordings: every reading in the document's
//! order, every stretch from 0 on.

use crate::fixed;
use crate::reading::{self, bytes, has_minute_in_week, Entry};
use crate::recording::Recording;
use crate::verdict::Outcome;

/// The entries of a long rest that can keep rule 6, in the order of readings: "kind,
/// then week, then carrier as a number".
pub fn candidates(recording: &Recording, number: usize) -> Vec<Entry> {
    let rest = recording.long_rests[number - 1];
    let mut candidates = vec![Entry::daily()];
    if rest.length() < recording.limits.weekly_rest {
        return candidates;
    }
    let weeks = (0..=u8::MAX).filter(|&week| has_minute_in_week(recording, rest, week));
    for week in weeks {
        candidates.push(Entry::weekly(week, 0));
        for carrier in number + 1..=recording.long_rests.len() {
            candidates.push(Entry::weekly(week, carrier as u16));
        }
    }
    candidates
}

/// How many readings there are to try.
pub fn readings(recording: &Recording) -> f64 {
    (1..=recording.long_rests.len())
        .map(|number| candidates(recording, number).len() as f64)
        .product()
}

/// "The first lawful reading is the one before every other lawful one of the
/// same recording." Readings are tried in order: "first difference decides, smaller
/// first", and by request 7 it "compares kind, then week, then carrier as a number".
pub fn first_lawful(recording: &Recording) -> Option<Vec<u8>> {
    if fixed::broken_rule(recording) != 0 {
        return None;
    }
    let candidates: Vec<Vec<Entry>> = (1..=recording.long_rests.len())
        .map(|number| candidates(recording, number))
        .collect();
    let mut chosen = vec![0; candidates.len()];
    loop {
        let entries: Vec<Entry> = (candidates.iter().zip(&chosen))
            .map(|(entries, &choice)| entries[choice])
            .collect();
        if reading::broken_reading_rule(recording, &entries) == 0 {
            return Some(bytes(&entries));
        }
        if !next_choice(&mut chosen, &candidates) {
            return None;
        }
    }
}

/// Moves on to the next reading, the last rest's entry first; false after the
/// last reading.
fn next_choice(chosen: &mut [usize], candidates: &[Vec<Entry>]) -> bool {
    for (choice, entries) in chosen.iter_mut().zip(candidates).rev() {
        *choice += 1;
        if *choice < entries.len() {
            return true;
        }
        *choice = 0;
    }
    false
}

/// The verdict: "It is a breach if the recording has no lawful reading,
/// otherwise a pass. ... A breach ... gives the least m without a lawful
/// reading."
pub fn outcome(recording: &Recording) -> Outcome {
    if let Some(reading) = first_lawful(recording) {
        return Outcome::Pass(reading);
    }
    let minute = (0..=recording.minutes.len())
        .find(|&m| first_lawful(&recording.stretch(m)).is_none())
        .expect("the whole recording has no lawful reading");
    Outcome::Breach {
        minute: minute as i64,
        article: article(&recording.stretch(minute)),
    }
}

/// "and its article: the smallest of rules 1 to 5 broken at m, or 6 if all
/// five hold there"
fn article(stretch: &Recording) -> u8 {
    match fixed::broken_rule(stretch) {
        0 => 6,
        rule => rule,
    }
}
