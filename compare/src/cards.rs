//! Card records to read and recordings of whole days to write: records with bits
//! s, c, p and changes that nothing asks for, damaged ones, and days around
//! midnight.

use second::dice::Dice;
use second::recording::{total_minutes, word, word_activity, word_minutes, Activity};

use crate::inputs::{attempt, beside, lent, one_of, Room, Try};
use crate::operation::{Input, Operation};

const DAY: u32 = 1_440;
const MOST_DAYS: usize = 371;

const SLOT: u16 = 0x8000;
const CREW: u16 = 0x4000;
const OUT: u16 = 0x2000;
const MINUTE: u16 = 0x07FF;

/// The bits s, c, p of a known activity.
const KNOWN: [u16; 6] = [0, SLOT, CREW, SLOT | CREW, OUT | CREW, OUT | CREW | SLOT];

/// Writing a recording as it is and in whole days, and reading those days.
pub fn of_recording(dice: &mut Dice, recording: &Input, tries: &mut Vec<Try>) {
    let room = one_of(dice, &[Room::Empty, Room::Longer]);
    tries.push(writing(dice, room, &recording.words));
    let words = whole_days(dice, &recording.words);
    let other = one_of(dice, &[Room::Empty, Room::Longer]);
    for room in [Room::JustFits, Room::ShortByOne, other] {
        tries.push(writing(dice, room, &words));
    }
    let around = around_midnight(dice, &words);
    let room = one_of(dice, &[Room::JustFits, Room::ShortByOne]);
    let around = writing(dice, room, &around);
    tries.push(Try {
        variant: "around midnight",
        ..around
    });

    let changes = known(dice, &words);
    let room = one_of(dice, &Room::ALL);
    tries.push(reading(dice, room, bytes(&changes)));
    of_record(dice, &changes, tries);
    if dice.one_in(6) {
        let many = many_days(dice, &changes);
        let attempt = reading(dice, room, bytes(&many));
        tries.push(Try {
            variant: "about 371 days",
            ..attempt
        });
    }
}

/// Reading a record damaged in a byte, in a change and by unknown activity, and
/// random ones.
pub fn of_record(dice: &mut Dice, changes: &[u16], tries: &mut Vec<Try>) {
    for (variant, record) in [
        ("damaged by a byte", damaged_byte(dice, &bytes(changes))),
        ("damaged in a change", bytes(&damaged_change(dice, changes))),
        ("unknown activity", bytes(&unknown(dice, changes))),
        ("random", random_record(dice)),
    ] {
        let room = one_of(dice, &Room::ALL);
        let attempt = reading(dice, room, record);
        tries.push(Try { variant, ..attempt });
    }
}

/// Writing a recording with this room for its record.
fn writing(dice: &mut Dice, room: Room, words: &[u32]) -> Try {
    let need = record(words).map(|record| record.len());
    let length = room.length(dice, need.unwrap_or(0));
    let input = Input {
        words: words.to_vec(),
        lent_bytes: lent(dice, length),
        ..Input::default()
    };
    let variant = need.map_or("part days", |need| beside(length, need));
    attempt(Operation::WriteCard, variant, input)
}

/// Reading a record with this room for its words.
pub fn reading(dice: &mut Dice, room: Room, record: Vec<u8>) -> Try {
    let need = record.len() / 2;
    let length = room.length(dice, need);
    let input = Input {
        bytes: record,
        lent_words: lent(dice, length),
        ..Input::default()
    };
    attempt(Operation::ReadCard, beside(length, need), input)
}

/// What the second program writes, where it does.
pub fn record(words: &[u32]) -> Option<Vec<u8>> {
    let mut record = vec![0; 2 * (words.len() + MOST_DAYS)];
    let length = second::card::write(words, &mut record).ok()?;
    record.truncate(length);
    Some(record)
}

pub fn bytes(changes: &[u16]) -> Vec<u8> {
    let pairs = changes.iter().map(|change| change.to_be_bytes());
    pairs.flatten().collect()
}

fn changes(bytes: &[u8]) -> Vec<u16> {
    let changes = second::card::changes(bytes);
    changes.map(|change| change.0).collect()
}

/// The words up to a minute and those from it on.
pub fn split_at(words: &[u32], minute: u32) -> (Vec<u32>, Vec<u32>) {
    let (mut before, mut after) = (Vec::new(), Vec::new());
    let mut left = minute;
    for &whole in words {
        let minutes = word_minutes(whole) as u32;
        let first = minutes.min(left);
        let parts = [(&mut before, first), (&mut after, minutes - first)];
        for (part, minutes) in parts {
            if minutes > 0 {
                part.push(word(minutes, word_activity(whole)));
            }
        }
        left -= first;
    }
    (before, after)
}

/// The minutes after the last whole day left out, or this day filled up, by its
/// last activity or another.
fn whole_days(dice: &mut Dice, words: &[u32]) -> Vec<u32> {
    let total = total_minutes(words) as u32;
    let over = total % DAY;
    let mut words = words.to_vec();
    if over == 0 {
        return words;
    }
    match dice.below(3) {
        0 => return split_at(&words, total - over).0,
        1 => words.push(word(DAY - over, one_of(dice, &Activity::ALL))),
        _ => {
            let last = words.len() - 1;
            words[last] += 4 * (DAY - over);
        }
    }
    words
}

/// At a midnight, a minute before it or after it: a word cut in two, another
/// activity from there on, or up to there.
fn around_midnight(dice: &mut Dice, words: &[u32]) -> Vec<u32> {
    let days = total_minutes(words) as u32 / DAY;
    let midnight = DAY * dice.below(days + 1);
    let minute = (midnight + dice.below(3)).saturating_sub(1);
    let (mut before, mut after) = split_at(words, minute);
    let changed = match dice.below(4) {
        0 => None,
        1 => before.last_mut(),
        _ => after.first_mut(),
    };
    if let Some(word) = changed {
        *word = *word / 4 * 4 + dice.below(4);
    }
    [before, after].concat()
}

/// The record of whole days with bits s, c, p of known activities, with changes
/// to the activity that is already on, and with days of one change more.
fn known(dice: &mut Dice, words: &[u32]) -> Vec<u16> {
    let mut changes = changes(&record(words).expect("the days are whole"));
    for _ in 0..one_of(dice, &[0, 0, 1, 5]) {
        change_again(dice, &mut changes);
    }
    if dice.one_in(3) {
        day_before(dice, &mut changes);
    }
    if dice.one_in(2) {
        for change in &mut changes {
            *change |= one_of(dice, &KNOWN);
        }
    }
    changes
}

/// A change to the same activity between one and the next.
fn change_again(dice: &mut Dice, changes: &mut Vec<u16>) {
    if changes.is_empty() {
        return;
    }
    let index = dice.below(changes.len() as u32) as usize;
    let next = changes.get(index + 1).map_or(0, |next| next & MINUTE);
    let end = if next == 0 { DAY as u16 } else { next };
    let minute = changes[index] & MINUTE;
    if minute + 1 < end {
        let later = dice.between(u32::from(minute) + 1, u32::from(end) - 1);
        let again = changes[index] & !MINUTE | later as u16;
        changes.insert(index + 1, again);
    }
}

/// A day of one change before some day: two changes at minute 0 in a row.
fn day_before(dice: &mut Dice, changes: &mut Vec<u16>) {
    let days = changes.iter().filter(|&&change| change & MINUTE == 0);
    let days = days.count();
    if days == MOST_DAYS {
        return;
    }
    let day = dice.below(days as u32 + 1) as usize;
    let begins = (0..changes.len()).filter(|&index| changes[index] & MINUTE == 0);
    let index = begins.chain([changes.len()]).nth(day);
    let change = (dice.below(4) as u16) << 11;
    changes.insert(index.expect("a day or the end"), change);
}

/// The record over and over, for 370 days or somewhat more; now and then with an
/// unknown activity.
fn many_days(dice: &mut Dice, some: &[u16]) -> Vec<u16> {
    let most = dice.between(370, 373) as usize;
    let some = if some.is_empty() { &[0][..] } else { some };
    let mut days = 0;
    let mut changes: Vec<u16> = (some.iter().copied().cycle())
        .take_while(|change| {
            days += usize::from(change & MINUTE == 0);
            days <= most
        })
        .collect();
    if dice.one_in(5) {
        changes = unknown(dice, &changes);
    }
    changes
}

fn damaged_byte(dice: &mut Dice, record: &[u8]) -> Vec<u8> {
    let mut record = record.to_vec();
    let index = dice.below(record.len() as u32 + 1) as usize;
    if index == record.len() {
        record.push(dice.below(256) as u8);
        return record;
    }
    match dice.below(5) {
        0 => record[index] = dice.below(256) as u8,
        1 => record[index] ^= 1 << dice.below(8),
        2 => record.truncate(index),
        3 => record.insert(index, dice.below(256) as u8),
        _ => {
            record.remove(index);
        }
    }
    record
}

/// A fault of the minutes; now and then a change left out or two of them
/// exchanged.
fn damaged_change(dice: &mut Dice, changes: &[u16]) -> Vec<u16> {
    let mut changes = changes.to_vec();
    if changes.is_empty() {
        return vec![dice.between(1, 2_047) as u16];
    }
    let index = dice.below(changes.len() as u32) as usize;
    let before = changes[index.saturating_sub(1)] & MINUTE;
    let minute = match dice.below(8) {
        0 => dice.between(1_440, 2_047) as u16,
        1 => one_of(dice, &[1_439, 1_440, 2_047]),
        2 => before,
        3 => before.saturating_sub(1),
        4 => dice.below(u32::from(before) + 2) as u16,
        5 => {
            changes[0] |= dice.between(1, 2_047) as u16;
            return changes;
        }
        6 => {
            changes.remove(index);
            return changes;
        }
        _ => {
            let other = dice.below(changes.len() as u32) as usize;
            changes.swap(index, other);
            return changes;
        }
    };
    changes[index] = changes[index] & !MINUTE | minute;
    changes
}

/// Card out with c zero at some change; now and then a fault of the minutes
/// before or after it.
fn unknown(dice: &mut Dice, changes: &[u16]) -> Vec<u16> {
    let mut changes = match dice.one_in(3) {
        true => damaged_change(dice, changes),
        false => changes.to_vec(),
    };
    let end = changes.len() as u32;
    if end > 0 {
        let any = dice.below(end) as usize;
        let index = one_of(dice, &[0, any, changes.len() - 1]);
        changes[index] = changes[index] & !CREW | OUT;
    }
    changes
}

/// Any bytes; or days of one change, up to a hundred or somewhat more than a year, with
/// any bits.
fn random_record(dice: &mut Dice) -> Vec<u8> {
    if dice.one_in(2) {
        let count = dice.below(12);
        return (0..count).map(|_| dice.below(256) as u8).collect();
    }
    let unknown_in = one_of(dice, &[20, 1_000]);
    let most = one_of(dice, &[100, 100, 450]);
    let days = (0..dice.below(most)).map(|_| {
        let known = one_of(dice, &KNOWN);
        let marks = if dice.one_in(unknown_in) { OUT } else { known };
        marks | (dice.below(4) as u16) << 11
    });
    bytes(&days.collect::<Vec<_>>())
}
