//! Request 7: stored readings of three bytes an entry carried over to the form of four, and
//! back. Readings of any bytes to move, lawful ones and changed ones, with counts that
//! do not divide into entries and with targets that fit or do not.

use second::dice::Dice;
use second::reading::{Entry, ENTRY_BYTES};
use second::stored::STORED_ENTRY_BYTES;

use crate::inputs::{attempt, beside, lent, one_of, Room, Try};
use crate::operation::{Input, Operation};

/// The most that the old form has.
const MOST_WEEK: u8 = 11;
const MOST_CARRIER: u16 = 255;

/// What is told of a reading that has no old form, by its week, its carrier or both.
pub const NO_OLD_FORM: [&str; 3] = [
    "a week over 11",
    "a carrier over 255",
    "a week and a carrier",
];

/// Both moves of some entries.
pub fn moves(dice: &mut Dice) -> Vec<Try> {
    let (variant, entries) = some_entries(dice);
    let old: Vec<u8> = entries.iter().flat_map(|&entry| stored(entry)).collect();
    let wide: Vec<u8> = entries.iter().flat_map(|&entry| entry.bytes()).collect();
    vec![
        one_move(dice, Operation::WidenReading, "", old),
        one_move(dice, Operation::NarrowReading, variant, wide),
    ]
}

/// Both moves of a reading: the move back of it, and the move over of what comes of it.
pub fn of_reading(dice: &mut Dice, reading: &[u8], tries: &mut Vec<Try>) {
    let entries = second::reading::entries(reading);
    let old = entries.iter().flat_map(|&entry| stored(entry)).collect();
    tries.push(one_move(dice, Operation::WidenReading, "", old));
    tries.push(one_move(
        dice,
        Operation::NarrowReading,
        "",
        reading.to_vec(),
    ));
}

/// Kind, week and the carrier's low byte.
fn stored(entry: Entry) -> [u8; STORED_ENTRY_BYTES] {
    [entry.kind, entry.week, entry.carrier as u8]
}

/// A move of these bytes, one time in five with some left out or added, into a target
/// that fits, most often, or does not.
fn one_move(dice: &mut Dice, operation: Operation, variant: &'static str, bytes: Vec<u8>) -> Try {
    let (from, to) = match operation {
        Operation::WidenReading => (STORED_ENTRY_BYTES, ENTRY_BYTES),
        _ => (ENTRY_BYTES, STORED_ENTRY_BYTES),
    };
    let need = bytes.len() / from * to;
    let mut bytes = bytes;
    if dice.one_in(5) {
        let length = one_of(dice, &[1, 2, from + 1, 2 * from - 1]) + bytes.len();
        bytes.resize(length.saturating_sub(from), dice.below(256) as u8);
    }
    let any = one_of(dice, &Room::ALL);
    let room = one_of(dice, &[Room::JustFits, Room::Longer, any]);
    let length = room.length(dice, need);
    let variant = match variant {
        _ if bytes.len() % from > 0 => "another size",
        "" => beside(length, need),
        _ if length < need => beside(length, need),
        other => other,
    };
    let input = Input {
        bytes,
        lent_bytes: lent(dice, length),
        ..Input::default()
    };
    attempt(operation, variant, input)
}

/// Entries such as readings have; any; or such that have an old form, but for one now and
/// then, with a week of 12 or more or a carrier of 256 or more.
fn some_entries(dice: &mut Dice) -> (&'static str, Vec<Entry>) {
    let count = match dice.below(40) {
        0 => dice.between(200, 987),
        1..=4 => 0,
        _ => dice.between(1, 12),
    };
    if dice.one_in(8) {
        let entries = (0..count).map(|_| any_entry(dice)).collect();
        return ("any entries", entries);
    }
    let mut entries: Vec<Entry> = (0..count).map(|_| old_entry(dice)).collect();
    if entries.is_empty() || dice.one_in(2) {
        return ("", entries);
    }
    let index = dice.below(count) as usize;
    let entry = &mut entries[index];
    let variant = match dice.below(3) {
        0 => {
            entry.week = late_week(dice);
            NO_OLD_FORM[0]
        }
        1 => {
            entry.carrier = far_carrier(dice);
            NO_OLD_FORM[1]
        }
        _ => {
            (entry.week, entry.carrier) = (late_week(dice), far_carrier(dice));
            NO_OLD_FORM[2]
        }
    };
    (variant, entries)
}

fn any_entry(dice: &mut Dice) -> Entry {
    Entry {
        kind: dice.below(256) as u8,
        week: dice.below(256) as u8,
        carrier: dice.below(1 << 16) as u16,
    }
}

/// An entry of the old form: daily, weekly, or of any kind; also at the form's edges.
fn old_entry(dice: &mut Dice) -> Entry {
    let week = dice.below(u32::from(MOST_WEEK) + 1) as u8;
    let carrier = dice.below(u32::from(MOST_CARRIER) + 1) as u16;
    match dice.below(5) {
        0 => Entry::daily(),
        1 => Entry::weekly(week, 0),
        2 => Entry::weekly(week, carrier),
        3 => Entry::weekly(MOST_WEEK, MOST_CARRIER),
        _ => Entry {
            kind: dice.below(256) as u8,
            week,
            carrier,
        },
    }
}

fn late_week(dice: &mut Dice) -> u8 {
    let any = dice.between(u32::from(MOST_WEEK) + 1, 255) as u8;
    one_of(dice, &[MOST_WEEK + 1, MOST_WEEK + 1, 52, 255, any])
}

fn far_carrier(dice: &mut Dice) -> u16 {
    let any = dice.between(u32::from(MOST_CARRIER) + 1, 65_535) as u16;
    let next = MOST_CARRIER + 1;
    one_of(dice, &[next, next, next + 1, 511, 512, 987, u16::MAX, any])
}
