//! The breach spans, by the desk and by the second program; beside them the desk's verdict on the recording of each Monday, its
//! words cut from the Monday on.

use std::hint::black_box;
use std::process::exit;
use std::time::Instant;

use hours_desk::WEEKS_AT_MOST;
use second::recording::{total_minutes, word_activity, word_minutes};
use second::spans::Weeks;

use crate::{mean, sorted};

const WEEK: i64 = 10_080;

/// The recording from each Monday on.
pub fn mondays(words: &[u32]) -> Vec<Vec<u32>> {
    let mondays = (0..total_minutes(words)).step_by(WEEK as usize);
    mondays.map(|monday| from(words, monday)).collect()
}

fn from(words: &[u32], minute: i64) -> Vec<u32> {
    let mut left = minute;
    let mut kept = Vec::new();
    for &word in words {
        let before = left.min(word_minutes(word));
        left -= before;
        if before < word_minutes(word) {
            let minutes = (word_minutes(word) - before) as u32;
            kept.push(second::recording::word(minutes, word_activity(word)));
        }
    }
    kept
}

#[inline(never)]
#[no_mangle]
pub fn counted_spans(words: &[u32]) {
    let mut list = [hours_desk::Weeks::default(); WEEKS_AT_MOST];
    let _ = black_box(hours_desk::breach_spans(words, &mut list));
}

#[inline(never)]
#[no_mangle]
pub fn counted_spans_second(words: &[u32]) {
    let mut list = [Weeks { first: 0, last: 0 }; WEEKS_AT_MOST];
    let _ = black_box(second::spans::breach_spans(words, &mut list));
}

#[inline(never)]
#[no_mangle]
pub fn counted_mondays(mondays: &[Vec<u32>]) {
    for words in mondays {
        let _ = black_box(hours_desk::verdict(words));
    }
}

fn micros(call: impl FnOnce()) -> f64 {
    let before = Instant::now();
    call();
    before.elapsed().as_secs_f64() * 1e6
}

/// Prints the line of a kind.
pub fn time(kind: &str, recordings: &[Vec<u32>]) {
    let (mut ours, mut theirs, mut verdicts) = (Vec::new(), Vec::new(), Vec::new());
    let mut spans = 0;
    for words in recordings {
        spans += compared(kind, words);
        let mondays = mondays(words);
        ours.push(micros(|| counted_spans(words)));
        theirs.push(micros(|| counted_spans_second(words)));
        verdicts.push(micros(|| counted_mondays(&mondays)));
    }
    let [ours, theirs, verdicts] = [ours, theirs, verdicts].map(sorted);
    let n = ours.len();
    println!(
        "{kind:13} {n:10} {spans:6} {:12.0} {:7.0} {:14.0} {:7.0} {:17.2} {:19.0} {:7.0} {:23.2}, {:5.2}",
        ours[n / 2],
        ours[n - 1],
        theirs[n / 2],
        theirs[n - 1],
        ours[n / 2] / theirs[n / 2],
        verdicts[n / 2],
        verdicts[n - 1],
        ours[n / 2] / verdicts[n / 2],
        mean(&ours) / mean(&verdicts),
    );
}

/// The number of spans, which both must write alike.
fn compared(kind: &str, words: &[u32]) -> usize {
    let mut list = [hours_desk::Weeks::default(); WEEKS_AT_MOST];
    let mut second_list = [Weeks { first: 0, last: 0 }; WEEKS_AT_MOST];
    let ours = hours_desk::breach_spans(words, &mut list);
    let theirs = second::spans::breach_spans(words, &mut second_list);
    let list = list.map(|weeks| (weeks.first, weeks.last));
    let second_list = second_list.map(|weeks| (weeks.first, weeks.last));
    match (ours, theirs) {
        (Ok(ours), Ok(theirs)) if ours == theirs && list == second_list => ours,
        _ => {
            println!(
                "{kind}: {words:?}\n  desk {ours:?} {list:?}\n  second {theirs:?} {second_list:?}"
            );
            exit(1);
        }
    }
}
