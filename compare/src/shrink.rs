//! The smallest input found that still shows a difference: weeks, words and entries
//! left out, words joined and shortened, texts, card records and buffers shortened, as
//! long as it shows.

use std::time::{Duration, Instant};

use second::reading::{bytes, entries, ENTRY_BYTES};
use second::recording::{weigh, word, word_activity, word_minutes};
use second::stored::STORED_ENTRY_BYTES;

use crate::cards::{record, split_at};
use crate::inputs::written;
use crate::operation::{Input, Operation};
use crate::spans;

const TIME: Duration = Duration::from_secs(30);

const WEEK: u32 = 10_080;

/// What a buffer is filled up with.
const FILLING: u8 = 0xAA;

struct Shrinking<'a> {
    operation: Operation,
    best: Input,
    differs: &'a dyn Fn(&Input) -> bool,
    until: Instant,
}

pub fn smallest(operation: Operation, input: Input, differs: &dyn Fn(&Input) -> bool) -> Input {
    let mut shrinking = Shrinking {
        operation,
        best: input,
        differs,
        until: Instant::now() + TIME,
    };
    loop {
        let before = shrinking.best.clone();
        shrinking.leave_out_weeks();
        shrinking.leave_out_words();
        shrinking.join_words();
        shrinking.shorten_words();
        shrinking.leave_out_changes();
        shrinking.leave_out_entries();
        shrinking.clear_bits();
        shrinking.shorten_bytes();
        shrinking.shorten_buffers();
        shrinking.lessen_number();
        if shrinking.best == before {
            return before;
        }
    }
}

impl Shrinking<'_> {
    /// Goes on from this input if it shows the difference too.
    fn take(&mut self, input: Input) -> bool {
        let shows = Instant::now() < self.until && (self.differs)(&input);
        if shows {
            self.best = input;
        }
        shows
    }

    /// The same with other words, and with the buffers as they are or fitted to
    /// them. Where a card is written, also with the whole days of these words.
    fn take_words(&mut self, words: Vec<u32>) -> bool {
        let days = match self.operation {
            Operation::WriteCard => days_of(&words),
            _ => None,
        };
        [Some(words), days].into_iter().flatten().any(|words| {
            fitted(self.operation, &self.best, words)
                .into_iter()
                .any(|input| self.take(input))
        })
    }

    /// The same with another card record, and with the words that are lent as they
    /// are or fitted to it.
    fn take_record(&mut self, bytes: Vec<u8>) -> bool {
        let fewer = bytes.len() as i64 / 2 - self.best.bytes.len() as i64 / 2;
        let same = Input {
            bytes,
            ..self.best.clone()
        };
        let mut fitted = same.clone();
        resize(&mut fitted.lent_words, fewer);
        self.take(same) || fewer != 0 && self.take(fitted)
    }

    /// Whole weeks, so that those after them are as they were.
    fn leave_out_weeks(&mut self) {
        if self.operation != Operation::BreachSpans || weigh(&self.best.words).is_err() {
            return;
        }
        let mut count = spans::weeks(&self.best.words);
        while count > 0 {
            let mut at = 0;
            while at < spans::weeks(&self.best.words) {
                let (before, from) = split_at(&self.best.words, WEEK * at as u32);
                let after = split_at(&from, WEEK * count as u32).1;
                if !self.take_words([before, after].concat()) {
                    at += count;
                }
            }
            count /= 2;
        }
    }

    fn leave_out_words(&mut self) {
        let mut count = self.best.words.len();
        while count > 0 {
            let mut at = 0;
            while at < self.best.words.len() {
                if !self.take_words(without(&self.best.words, at, count)) {
                    at += count;
                }
            }
            count /= 2;
        }
    }

    fn join_words(&mut self) {
        let mut at = 0;
        while at + 1 < self.best.words.len() {
            let words = &self.best.words;
            let minutes = word_minutes(words[at]) + word_minutes(words[at + 1]);
            let as_one = |chosen: u32| {
                let mut joined = without(words, at, 1);
                joined[at] = word(minutes as u32, word_activity(chosen));
                joined
            };
            let candidates = [as_one(words[at]), as_one(words[at + 1])];
            let fits = minutes < 1 << 30;
            if !(fits && candidates.into_iter().any(|words| self.take_words(words))) {
                at += 1;
            }
        }
    }

    fn shorten_words(&mut self) {
        for at in 0..self.best.words.len() {
            let mut less = word_minutes(self.best.words[at]) as u32;
            while less > 0 {
                let mut words = self.best.words.clone();
                let shorter = words[at] / 4 >= less;
                words[at] = words[at].saturating_sub(4 * less);
                if !(shorter && self.take_words(words)) {
                    less /= 2;
                }
            }
        }
    }

    /// Changes of a card record that is passed.
    fn leave_out_changes(&mut self) {
        if self.operation != Operation::ReadCard {
            return;
        }
        let mut count = self.best.bytes.len() / 2;
        while count > 0 {
            let mut at = 0;
            while at + 1 < self.best.bytes.len() {
                if !self.take_record(without(&self.best.bytes, at, 2 * count)) {
                    at += 2 * count;
                }
            }
            count /= 2;
        }
    }

    /// Entries of a reading that is passed to be moved or to take one from. What is lent
    /// for them is as it is, or fitted.
    fn leave_out_entries(&mut self) {
        let Some((from, to)) = entry_bytes(self.operation) else {
            return;
        };
        let mut count = self.best.bytes.len() / from;
        while count > 0 {
            let mut at = 0;
            while at + from <= self.best.bytes.len() {
                let same = Input {
                    bytes: without(&self.best.bytes, at, from * count),
                    ..self.best.clone()
                };
                let mut fitted = same.clone();
                resize(&mut fitted.lent_bytes, -((to * count) as i64));
                if !(self.take(fitted) || self.take(same)) {
                    at += from * count;
                }
            }
            count /= 2;
        }
    }

    /// Bits of a card record or a reading that are set, its highest first.
    fn clear_bits(&mut self) {
        if self.operation != Operation::ReadCard && entry_bytes(self.operation).is_none() {
            return;
        }
        for at in 0..self.best.bytes.len() {
            for bit in (0..8).rev() {
                let mut bytes = self.best.bytes.clone();
                if bytes[at] & 1 << bit != 0 {
                    bytes[at] ^= 1 << bit;
                    self.take_record(bytes);
                }
            }
        }
    }

    /// A text, a reading or a card record that is passed.
    fn shorten_bytes(&mut self) {
        let mut count = self.best.bytes.len();
        while count > 0 {
            let mut at = 0;
            while at < self.best.bytes.len() {
                let mut input = self.best.clone();
                input.bytes = without(&input.bytes, at, count);
                if !self.take(input) {
                    at += count;
                }
            }
            count /= 2;
        }
    }

    fn shorten_buffers(&mut self) {
        let lengths = |input: &Input| {
            [
                input.lent_bytes.len(),
                input.lent_words.len(),
                input.lent_ends.len(),
            ]
        };
        for buffer in 0..3 {
            let mut less = lengths(&self.best)[buffer];
            while less > 0 {
                let mut kept = lengths(&self.best);
                let shorter = kept[buffer] >= less;
                kept[buffer] = kept[buffer].saturating_sub(less);
                let mut input = self.best.clone();
                input.lent_bytes.truncate(kept[0]);
                input.lent_words.truncate(kept[1]);
                input.lent_ends.truncate(kept[2]);
                if !(shorter && self.take(input)) {
                    less /= 2;
                }
            }
        }
    }

    fn lessen_number(&mut self) {
        let mut less = self.best.number;
        while less > 0 {
            let mut input = self.best.clone();
            let smaller = input.number >= less;
            input.number = input.number.saturating_sub(less);
            if !(smaller && self.take(input)) {
                less /= 2;
            }
        }
    }
}

/// The bytes of an entry that is passed, and of one that is lent for it, where entries are
/// moved or taken by themselves.
fn entry_bytes(operation: Operation) -> Option<(usize, usize)> {
    match operation {
        Operation::WidenReading => Some((STORED_ENTRY_BYTES, ENTRY_BYTES)),
        Operation::NarrowReading => Some((ENTRY_BYTES, STORED_ENTRY_BYTES)),
        Operation::Entry | Operation::EntryRefusal => Some((ENTRY_BYTES, 0)),
        _ => None,
    }
}

fn without<T: Clone>(list: &[T], at: usize, count: usize) -> Vec<T> {
    let end = (at + count).min(list.len());
    [&list[..at], &list[end..]].concat()
}

/// The input with other words: with what is passed beside them as it is, and
/// with as much room, or as many entries, as before beside what they need.
fn fitted(operation: Operation, input: &Input, words: Vec<u32>) -> Vec<Input> {
    let (old, new) = (needs(&input.words), needs(&words));
    let rests = new.rests - old.rests;
    let same = Input {
        words,
        ..input.clone()
    };
    let mut fitted = same.clone();
    match operation {
        Operation::BreachSpans => {
            let [old, new] = [&input.words, &same.words].map(|words| spans::count(words) as i64);
            resize(&mut fitted.lent_words, new - old);
            resize(&mut fitted.lent_ends, new - old);
        }
        Operation::List => {
            resize(&mut fitted.lent_words, rests);
            resize(&mut fitted.lent_ends, rests);
        }
        Operation::FirstReading => resize(&mut fitted.lent_bytes, ENTRY_BYTES as i64 * rests),
        Operation::WriteText => resize(&mut fitted.lent_bytes, new.text - old.text),
        Operation::WriteCard => resize(&mut fitted.lent_bytes, new.record - old.record),
        Operation::FixedTest | Operation::ArticleTest => {
            let moved = fitted.number as i64 + new.total - old.total;
            fitted.number = moved.max(0) as usize;
        }
        Operation::ReadingTest if rests < 0 => {
            let entries = without_entries(&same, -rests);
            return std::iter::once(same).chain(entries).collect();
        }
        _ => return vec![same],
    }
    vec![same, fitted]
}

/// The reading with so many entries left out, from each number on.
fn without_entries(input: &Input, count: i64) -> Vec<Input> {
    let count = count as usize;
    let all = entries(&input.bytes);
    (0..=all.len().saturating_sub(count))
        .map(|from| {
            let mut kept = without(&all, from, count);
            for entry in &mut kept {
                if usize::from(entry.carrier) > from + count {
                    entry.carrier -= count as u16;
                }
            }
            Input {
                bytes: bytes(&kept),
                ..input.clone()
            }
        })
        .collect()
}

fn resize<T: Clone + From<u8>>(buffer: &mut Vec<T>, change: i64) {
    let length = (buffer.len() as i64 + change).max(0);
    buffer.resize(length as usize, T::from(FILLING));
}

/// The words up to their last midnight, where they are more than whole days.
fn days_of(words: &[u32]) -> Option<Vec<u32>> {
    let total = weigh(words).ok()?.total as u32;
    (total % 1_440 > 0).then(|| split_at(words, total - total % 1_440).0)
}

#[derive(Default)]
struct Needs {
    total: i64,
    rests: i64,
    text: i64,
    record: i64,
}

/// The minutes of words, their long rests, the lengths of their text and of their
/// card record; 0 where they are turned away.
fn needs(words: &[u32]) -> Needs {
    let Ok(measure) = weigh(words) else {
        return Needs::default();
    };
    Needs {
        total: measure.total,
        rests: measure.long_rests as i64,
        text: written(words).len() as i64,
        record: record(words).map_or(0, |record| record.len() as i64),
    }
}
