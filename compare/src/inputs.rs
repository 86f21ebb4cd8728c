//! The inputs of every operation on a recording, on a reading and on a text:
//! buffers that just fit, are too short by one, empty or longer; readings
//! lawful, nearly lawful and random; texts whole and damaged.

use second::dice::Dice;
use second::fast::Judge;
use second::limits::MOST_WEEKS;
use second::reading::{entries as entries_of, Entry, ENTRY_BYTES};
use second::runs::{Course, LongRest};
use second::verdict::{Outcome, Verdict};
use second::Limits;

use crate::cards;
use crate::moves;
use crate::operation::{Input, Operation};
use crate::spans;

/// A recording that takes so many steps of a search is asked for its breach spans one
/// time in four: they take a search from each Monday on.
const MANY_STEPS: u64 = 2_000;

/// Where the carrier's low byte lies in an entry, and after it the high one.
const LOW: usize = 2;

/// An input, and what is tried by it.
pub struct Try {
    pub operation: Operation,
    pub variant: &'static str,
    pub input: Input,
}

pub fn attempt(operation: Operation, variant: &'static str, input: Input) -> Try {
    Try {
        operation,
        variant,
        input,
    }
}

/// How long a buffer is beside what is needed.
#[derive(Clone, Copy, PartialEq, Eq)]
pub enum Room {
    JustFits,
    ShortByOne,
    Empty,
    Longer,
}

impl Room {
    pub const ALL: [Room; 4] = [Room::JustFits, Room::ShortByOne, Room::Empty, Room::Longer];

    pub fn length(self, dice: &mut Dice, need: usize) -> usize {
        match self {
            Room::JustFits => need,
            Room::ShortByOne => need.saturating_sub(1),
            Room::Empty => 0,
            Room::Longer => need + dice.between(1, 40) as usize,
        }
    }

    /// By the length that a buffer came to have.
    fn of(length: usize, need: usize) -> Room {
        match length {
            _ if length == need => Room::JustFits,
            _ if length > need => Room::Longer,
            _ if length + 1 == need => Room::ShortByOne,
            _ => Room::Empty,
        }
    }

    /// What such a buffer is told by in the table.
    pub fn name(self) -> &'static str {
        match self {
            Room::JustFits => "just fits",
            Room::ShortByOne => "short by one",
            Room::Empty => "empty",
            Room::Longer => "longer",
        }
    }

    /// The same of a buffer for a reading, where the verdict is a breach.
    pub fn name_in_a_breach(self) -> &'static str {
        match self {
            Room::JustFits => "breach, just fits",
            Room::ShortByOne => "breach, short by one",
            Room::Empty => "breach, empty",
            Room::Longer => "breach, longer",
        }
    }
}

/// The same by its length.
pub fn beside(length: usize, need: usize) -> &'static str {
    Room::of(length, need).name()
}

pub fn one_of<T: Copy>(dice: &mut Dice, choices: &[T]) -> T {
    choices[dice.below(choices.len() as u32) as usize]
}

/// A buffer of numbers that tell where they lie.
pub fn lent<T: From<u8>>(dice: &mut Dice, length: usize) -> Vec<T> {
    let start = dice.below(256) as usize;
    (start..start + length)
        .map(|number| T::from((number * 7 % 251 + 1) as u8))
        .collect()
}

/// Every operation on a recording. The readings are tested beside others.
pub fn of_recording(dice: &mut Dice, words: &[u32], readings: &[Vec<u8>]) -> Vec<Try> {
    let recording = Input {
        words: words.to_vec(),
        ..Input::default()
    };
    let mut tries = vec![attempt(Operation::Weigh, "words", recording.clone())];
    match second::recording::weigh(words) {
        Ok(_) => weighed(dice, &recording, readings, &mut tries),
        Err(_) => turned_away(dice, &recording, &mut tries),
    }
    tries
}

/// The verdict on a recording, and its first reading with room enough and without.
pub fn verdicts_of_recording(dice: &mut Dice, words: &[u32]) -> Vec<Try> {
    let recording = Input {
        words: words.to_vec(),
        ..Input::default()
    };
    let mut tries = Vec::new();
    match second::recording::weigh(words) {
        Ok(measure) => {
            let passes = second::verdict::verdict(words) == Ok(Verdict::Pass);
            let need = ENTRY_BYTES * measure.long_rests;
            verdicts(dice, &recording, need, passes, &mut tries);
        }
        Err(_) => {
            tries.push(attempt(Operation::Verdict, "any", recording.clone()));
            let length = dice.below(9) as usize;
            let input = Input {
                lent_bytes: lent(dice, length),
                ..recording
            };
            tries.push(attempt(Operation::FirstReading, "any", input));
        }
    }
    tries
}

/// The breach spans of a recording, with room enough for them and without.
pub fn spans_of_recording(dice: &mut Dice, words: &[u32]) -> Vec<Try> {
    let recording = Input {
        words: words.to_vec(),
        ..Input::default()
    };
    let mut tries = Vec::new();
    spans(dice, &recording, &mut tries);
    tries
}

/// Words that weighing turns away, with any buffers.
fn turned_away(dice: &mut Dice, recording: &Input, tries: &mut Vec<Try>) {
    for operation in [
        Operation::List,
        Operation::FixedTest,
        Operation::ArticleTest,
        Operation::ReadingTest,
        Operation::WriteText,
        Operation::WriteCard,
        Operation::Verdict,
        Operation::FirstReading,
        Operation::BreachSpans,
    ] {
        let mut length = || dice.below(9) as usize;
        let (words, ends, bytes, lent_bytes) = (length(), length(), length(), length());
        let input = Input {
            bytes: lent(dice, bytes),
            number: dice.below(2_000) as usize,
            lent_bytes: lent(dice, lent_bytes),
            lent_words: lent(dice, words),
            lent_ends: lent(dice, ends),
            ..recording.clone()
        };
        tries.push(attempt(operation, "any", input));
    }
}

fn weighed(dice: &mut Dice, recording: &Input, readings: &[Vec<u8>], tries: &mut Vec<Try>) {
    let limits = Limits::document();
    let mut judge = Judge::new(&recording.words, &limits);
    let outcome = judge.outcome();
    let course = Course::new(&recording.words, &limits);
    list(dice, recording, course.long_rests.len(), tries);
    fixed_tests(dice, recording, &course, &outcome, tries);
    let first = match &outcome {
        Outcome::Pass(reading) => reading.clone(),
        Outcome::Breach { minute, .. } => {
            let mut before = judge.first_reading(minute - 1).unwrap_or_default();
            before.resize(ENTRY_BYTES * course.long_rests.len(), 0);
            before
        }
    };
    let passes = matches!(outcome, Outcome::Pass(_));
    reading_tests(dice, recording, &course.long_rests, &first, passes, tries);
    for reading in readings {
        let input = Input {
            bytes: reading.clone(),
            ..recording.clone()
        };
        tries.push(attempt(Operation::ReadingTest, "nearly lawful", input));
    }
    if dice.one_in(3) {
        moves::of_reading(dice, &first, tries);
    }
    verdicts(dice, recording, first.len(), passes, tries);
    if let Outcome::Breach { minute, .. } = outcome {
        up_to_the_breach(dice, recording, minute as u32, tries);
    }
    texts(dice, recording, tries);
    cards::of_recording(dice, recording, tries);
    if judge.steps < MANY_STEPS || dice.one_in(4) {
        spans(dice, recording, tries);
    }
}

fn list(dice: &mut Dice, recording: &Input, count: usize, tries: &mut Vec<Try>) {
    for room in [Room::JustFits, Room::ShortByOne, Room::Empty, Room::Longer] {
        let records = room.length(dice, count);
        let input = Input {
            lent_words: lent(dice, records),
            lent_ends: lent(dice, records),
            ..recording.clone()
        };
        tries.push(attempt(Operation::List, beside(records, count), input));
    }
}

/// Stretches: all of it, some of it, up to the breach, up to where the first broken
/// article last changes, and past the end.
fn fixed_tests(
    dice: &mut Dice,
    recording: &Input,
    course: &Course,
    outcome: &Outcome,
    tries: &mut Vec<Try>,
) {
    let total = course.total as u32;
    let breach = match outcome {
        Outcome::Pass(_) => dice.below(total + 1),
        Outcome::Breach { minute, .. } => *minute as u32,
    };
    let over = match dice.below(3) {
        0 => total + 1,
        1 => total + 2 + dice.below(1_000),
        _ => u32::MAX,
    };
    let mut stretches = vec![
        ("whole", total),
        ("some of it", dice.below(total + 1)),
        ("up to the breach", breach),
        ("up to the breach", breach.saturating_sub(1)),
        ("over the total", over),
    ];
    if let Some(m) = last_change(course).filter(|&m| m != breach) {
        stretches.extend([("up to a change", m), ("up to a change", m - 1)]);
    }
    for (variant, m) in stretches {
        for operation in [Operation::FixedTest, Operation::ArticleTest] {
            let input = Input {
                number: m as usize,
                ..recording.clone()
            };
            tries.push(attempt(operation, variant, input));
        }
    }
}

/// The least m at which the first broken article is that of the whole recording, if
/// one is broken. What is broken stays so, so m is found by halving.
fn last_change(course: &Course) -> Option<u32> {
    let first_article = |m| course.broken(m).first_article();
    let whole = first_article(course.total);
    let (mut before, mut after) = (0, course.total);
    while after - before > 1 {
        let middle = (before + after) / 2;
        if first_article(middle) == whole {
            after = middle;
        } else {
            before = middle;
        }
    }
    (whole > 0).then_some(after as u32)
}

fn reading_tests(
    dice: &mut Dice,
    recording: &Input,
    rests: &[LongRest],
    first: &[u8],
    passes: bool,
    tries: &mut Vec<Try>,
) {
    let mut push = |variant, bytes| {
        let input = Input {
            bytes,
            ..recording.clone()
        };
        tries.push(attempt(Operation::ReadingTest, variant, input));
    };
    push(
        if passes { "lawful" } else { "nearly lawful" },
        first.to_vec(),
    );
    for _ in 0..2 {
        push("nearly lawful", nearly(dice, rests, first));
    }
    let carriers = if rests.len() > 255 { 4 } else { 1 };
    for _ in 0..carriers {
        push("another carrier", another_carrier(dice, first));
    }
    push("random", random_reading(dice, rests));
    let length = match dice.below(6) {
        0 => first.len() + ENTRY_BYTES,
        1 => first.len().saturating_sub(1),
        2 => dice.below(4_000) as usize,
        3 => 3 * rests.len(),
        4 => first.len().saturating_sub(ENTRY_BYTES),
        _ => first.len() + 1,
    };
    let mut other = first.to_vec();
    other.resize(length, 0);
    push("another size", other);
}

/// The reading with one entry or one byte changed.
fn nearly(dice: &mut Dice, rests: &[LongRest], reading: &[u8]) -> Vec<u8> {
    let mut reading = reading.to_vec();
    if rests.is_empty() {
        return reading;
    }
    let index = dice.below(rests.len() as u32) as usize;
    let byte = dice.below(reading.len() as u32) as usize;
    let entry = ENTRY_BYTES * index;
    match dice.below(6) {
        0 => reading[byte] ^= 1,
        1 => reading[byte] = reading[byte].wrapping_add(1),
        2 => reading[byte] = dice.below(256) as u8,
        3 => reading[entry..entry + ENTRY_BYTES].fill(0),
        4 => {
            let carrier = later(dice, rests, index);
            reading[entry + LOW..entry + ENTRY_BYTES].copy_from_slice(&carrier.to_le_bytes());
        }
        _ => {
            let plausible = plausible(dice, rests, index).bytes();
            reading[entry..entry + ENTRY_BYTES].copy_from_slice(&plausible);
        }
    }
    reading
}

/// The reading with one carrier off by 256, with its low and high byte exchanged, or
/// with another high byte. Most often it is a carrier that is not 0, if there is one.
fn another_carrier(dice: &mut Dice, reading: &[u8]) -> Vec<u8> {
    let mut reading = reading.to_vec();
    let entries = entries_of(&reading);
    if entries.is_empty() {
        return reading;
    }
    let carried: Vec<usize> = (0..entries.len())
        .filter(|&index| entries[index].carrier > 0)
        .collect();
    let index = if carried.is_empty() || dice.one_in(8) {
        dice.below(entries.len() as u32) as usize
    } else {
        one_of(dice, &carried)
    };
    let carrier = &mut reading[ENTRY_BYTES * index + LOW..ENTRY_BYTES * (index + 1)];
    match dice.below(4) {
        0 => carrier[1] = carrier[1].wrapping_add(1),
        1 => carrier[1] = carrier[1].wrapping_sub(1),
        2 => carrier.reverse(),
        _ => carrier[1] = dice.below(256) as u8,
    }
    reading
}

/// An entry that a rest could have: daily, or weekly in one of its weeks.
fn plausible(dice: &mut Dice, rests: &[LongRest], index: usize) -> Entry {
    let rest = rests[index].span;
    if rest.length() < 1_440 && !dice.one_in(20) {
        return Entry::daily();
    }
    let minute = one_of(dice, &[rest.start, rest.end - 1]);
    let week = (minute / 10_080) as u8;
    let carrier = if rest.length() < 2_700 && dice.one_in(2) {
        later(dice, rests, index)
    } else {
        0
    };
    Entry::weekly(week, carrier)
}

/// The number of a later rest, now and then of any.
fn later(dice: &mut Dice, rests: &[LongRest], index: usize) -> u16 {
    let count = rests.len() as u32;
    if dice.one_in(10) {
        return dice.below(count + 2) as u16;
    }
    (index as u32 + 1 + dice.between(0, 4)).min(count) as u16
}

fn random_reading(dice: &mut Dice, rests: &[LongRest]) -> Vec<u8> {
    if dice.one_in(4) {
        return (0..ENTRY_BYTES * rests.len())
            .map(|_| dice.below(256) as u8)
            .collect();
    }
    (0..rests.len())
        .flat_map(|index| plausible(dice, rests, index).bytes())
        .collect()
}

/// The verdict, and the first reading with room enough and without.
fn verdicts(dice: &mut Dice, recording: &Input, need: usize, passes: bool, tries: &mut Vec<Try>) {
    tries.push(attempt(Operation::Verdict, "words", recording.clone()));
    let enough = one_of(dice, &[Room::JustFits, Room::Longer]);
    let too_few = one_of(dice, &[Room::ShortByOne, Room::Empty]);
    for room in [enough, too_few] {
        let length = room.length(dice, need);
        if length == need && room != Room::JustFits {
            continue;
        }
        let input = Input {
            lent_bytes: lent(dice, length),
            ..recording.clone()
        };
        let room = Room::of(length, need);
        let variant = match passes {
            true => room.name(),
            false => room.name_in_a_breach(),
        };
        tries.push(attempt(Operation::FirstReading, variant, input));
    }
}

/// The verdict and the first reading of the stretch up to the breach, which has no
/// lawful reading, or of the one a minute shorter, which has one.
fn up_to_the_breach(dice: &mut Dice, recording: &Input, breach: u32, tries: &mut Vec<Try>) {
    let words = cards::split_at(&recording.words, breach - dice.below(2)).0;
    let long_rests = second::recording::weigh(&words).map_or(0, |measure| measure.long_rests);
    let room = one_of(dice, &[Room::JustFits, Room::Longer]);
    let length = room.length(dice, ENTRY_BYTES * long_rests);
    let input = Input {
        words,
        lent_bytes: lent(dice, length),
        ..Input::default()
    };
    for operation in [Operation::Verdict, Operation::FirstReading] {
        tries.push(attempt(operation, "up to the breach", input.clone()));
    }
}

/// The breach spans, with room enough and, where there are any, without.
fn spans(dice: &mut Dice, recording: &Input, tries: &mut Vec<Try>) {
    let need = spans::count(&recording.words);
    let enough = one_of(dice, &[Room::JustFits, Room::Longer]);
    let too_few = one_of(dice, &[Room::ShortByOne, Room::Empty]);
    let rooms = [enough, too_few];
    for room in &rooms[..need.min(1) + 1] {
        let records = room.length(dice, need);
        let input = Input {
            lent_words: lent(dice, records),
            lent_ends: lent(dice, records),
            ..recording.clone()
        };
        let variant = beside(records, need);
        tries.push(attempt(Operation::BreachSpans, variant, input));
    }
}

/// Writing the recording's text, and reading it, whole and damaged.
fn texts(dice: &mut Dice, recording: &Input, tries: &mut Vec<Try>) {
    let text = written(&recording.words);
    let need = text.len();
    let other = one_of(dice, &[Room::Empty, Room::Longer]);
    for room in [Room::JustFits, Room::ShortByOne, other] {
        let length = room.length(dice, need);
        let input = Input {
            lent_bytes: lent(dice, length),
            ..recording.clone()
        };
        tries.push(attempt(Operation::WriteText, beside(length, need), input));
    }
    let room = one_of(dice, &Room::ALL);
    tries.push(reading(dice, room, text.clone()));
    of_text(dice, &text, tries);
}

/// The text of words that weighing does not turn away. A week's end adds a run and two
/// lines to it.
pub fn written(words: &[u32]) -> Vec<u8> {
    let mut text = vec![0; 24 * (words.len() + 2 * MOST_WEEKS)];
    let length = second::text::write(words, &mut text).expect("the words were weighed");
    text.truncate(length);
    text
}

/// Reading a text with this room for its words.
pub fn reading(dice: &mut Dice, room: Room, text: Vec<u8>) -> Try {
    let runs = second::text::parse(&text).map_or(0, |words| words.len());
    let length = room.length(dice, runs);
    let input = Input {
        bytes: text,
        lent_words: lent(dice, length),
        ..Input::default()
    };
    attempt(Operation::ReadText, beside(length, runs), input)
}

/// Reading a text with a byte or a line damaged, with words enough.
pub fn of_text(dice: &mut Dice, text: &[u8], tries: &mut Vec<Try>) {
    for (variant, text) in [
        ("damaged by a byte", damaged_byte(dice, text)),
        ("damaged by a byte", damaged_byte(dice, text)),
        ("damaged in a line", damaged_line(dice, text)),
    ] {
        let attempt = reading(dice, Room::Longer, text);
        tries.push(Try { variant, ..attempt });
    }
}

fn damaged_byte(dice: &mut Dice, text: &[u8]) -> Vec<u8> {
    let mut text = text.to_vec();
    if text.is_empty() {
        return text;
    }
    let index = dice.below(text.len() as u32) as usize;
    let other = one_of(dice, b"()\n 0123456789\r\tr");
    match dice.below(6) {
        0 => text[index] = dice.below(256) as u8,
        1 => text[index] = other,
        2 => text.insert(index, other),
        3 => text.truncate(index),
        4 => {
            let last = text.len() - 1;
            text.swap(index, (index + 1).min(last));
        }
        _ => {
            text.remove(index);
        }
    }
    text
}

/// A line left out, doubled or moved, a run cut in two, or its number changed.
fn damaged_line(dice: &mut Dice, text: &[u8]) -> Vec<u8> {
    let mut lines: Vec<Vec<u8>> = (text.split_inclusive(|&byte| byte == b'\n'))
        .map(<[u8]>::to_vec)
        .collect();
    if lines.is_empty() {
        return text.to_vec();
    }
    let index = dice.below(lines.len() as u32) as usize;
    let other = dice.below(lines.len() as u32) as usize;
    match dice.below(6) {
        0 => {
            lines.remove(index);
        }
        1 => lines.insert(index, lines[other].clone()),
        2 => lines.swap(index, other),
        3 => lines.insert(index, b"(week\n".to_vec()),
        _ => renumber(dice, &mut lines, index),
    }
    lines.concat()
}

/// The run nearest to a line with another number, or as two runs.
fn renumber(dice: &mut Dice, lines: &mut Vec<Vec<u8>>, index: usize) {
    let is_run = |line: &Vec<u8>| line.contains(&b' ');
    let Some(index) = (index..lines.len())
        .chain(0..index)
        .find(|&line| is_run(&lines[line]))
    else {
        return;
    };
    let line = String::from_utf8_lossy(&lines[index]).into_owned();
    let (name, rest) = line.split_once(' ').expect("a run has a space");
    let minutes: u32 = rest.trim_end_matches(")\n").parse().unwrap_or(1);
    let run = |number: &str| format!("{name} {number})\n").into_bytes();
    match dice.below(8) {
        0 => lines[index] = run(&(minutes + 1).to_string()),
        1 => lines[index] = run(&(minutes - 1).to_string()),
        2 => lines[index] = run(&format!("0{minutes}")),
        3 => {
            lines[index] = run(one_of(
                dice,
                &["0", "10080", "10081", "", "99999999999999999999"],
            ))
        }
        4 => lines[index] = run(&(u64::from(minutes) + (1 << 32)).to_string()),
        _ if minutes > 1 => {
            let first = dice.between(1, minutes - 1);
            lines[index] = run(&first.to_string());
            lines.insert(index, run(&(minutes - first).to_string()));
        }
        _ => {}
    }
}

/// An entry of some bytes and its companion, by numbers in and out of range.
pub fn entries(dice: &mut Dice) -> Vec<Try> {
    let count = dice.below(40) as usize;
    let damage = if dice.one_in(3) {
        dice.between(1, 3) as usize
    } else {
        0
    };
    let bytes: Vec<u8> = (0..ENTRY_BYTES * count + damage)
        .map(|_| dice.below(256) as u8)
        .collect();
    let (variant, number) = match dice.below(8) {
        0 => ("number 0", 0),
        1 => ("number over", count + 1),
        2 => (
            "number over",
            one_of(
                dice,
                &[usize::MAX, usize::MAX / 4 + 2, 1 << 62, 1 << 63, 1 << 32],
            ),
        ),
        3 => ("last number", count),
        _ => ("some number", dice.between(1, count as u32 + 1) as usize),
    };
    let variant = if damage > 0 { "another size" } else { variant };
    let input = Input {
        bytes,
        number,
        ..Input::default()
    };
    [Operation::Entry, Operation::EntryRefusal]
        .map(|operation| attempt(operation, variant, input.clone()))
        .into()
}
