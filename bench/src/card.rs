//! Reading a card record with 40 changes a day and writing it back, by the desk and by the second program.

use std::collections::BTreeSet;
use std::hint::black_box;
use std::time::Instant;

use second::card::Change;
use second::dice::Dice;
use second::recording::Activity;

const RECORDS: u64 = 20;
const CHANGES: usize = 40;

/// A record and its words, and what is lent to read into and to write into.
pub struct Card {
    record: Vec<u8>,
    words: Vec<u32>,
    lent_words: Vec<u32>,
    lent_bytes: Vec<u8>,
}

type Call = fn(&mut Card);

/// An operation of a program, as the function that is counted.
pub fn call(name: &str, program: &str) -> Call {
    match (name, program) {
        ("card_read", "desk") => card_read_desk,
        ("card_read", "second") => card_read_second,
        ("card_write", "desk") => card_write_desk,
        ("card_write", "second") => card_write_second,
        _ => panic!("no {name} by {program}"),
    }
}

/// The microseconds of a call on each record of so many days. Reading leaves its words, writing the record again.
pub fn times(call: Call, days: usize) -> Vec<f64> {
    let time = |mut card: Card| {
        let before = Instant::now();
        call(&mut card);
        let time = before.elapsed().as_secs_f64() * 1e6;
        assert!(card.lent_words == card.words || card.lent_bytes == card.record);
        time
    };
    cards(days).map(time).collect()
}

fn cards(days: usize) -> impl Iterator<Item = Card> {
    (0..RECORDS).map(move |seed| {
        let record = record(&mut Dice::new(seed), days);
        let words = second::card::parse(&record).expect("the record is of the form");
        let (lent_words, lent_bytes) = (vec![0; words.len()], vec![0; record.len()]);
        Card {
            record,
            words,
            lent_words,
            lent_bytes,
        }
    })
}

/// Each day changes at minute 0 and at 39 others, every time to another activity.
fn record(dice: &mut Dice, days: usize) -> Vec<u8> {
    let mut record = Vec::new();
    let mut code = 0;
    for _ in 0..days {
        let mut minutes = BTreeSet::from([0]);
        while minutes.len() < CHANGES {
            minutes.insert(dice.below(1_440));
        }
        for minute in minutes {
            code = (code + dice.between(1, 3)) % 4;
            let change = Change::new(Activity::ALL[code as usize], minute);
            record.extend(change.0.to_be_bytes());
        }
    }
    record
}

#[inline(never)]
#[no_mangle]
pub fn card_read_desk(card: &mut Card) {
    let _ = black_box(hours_desk::read_card(&card.record, &mut card.lent_words));
}

#[inline(never)]
#[no_mangle]
pub fn card_read_second(card: &mut Card) {
    let _ = black_box(second::card::read(&card.record, &mut card.lent_words));
}

#[inline(never)]
#[no_mangle]
pub fn card_write_desk(card: &mut Card) {
    let _ = black_box(hours_desk::write_card(&card.words, &mut card.lent_bytes));
}

#[inline(never)]
#[no_mangle]
pub fn card_write_second(card: &mut Card) {
    let _ = black_box(second::card::write(&card.words, &mut card.lent_bytes));
}
