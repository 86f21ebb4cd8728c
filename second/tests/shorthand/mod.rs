//! Recordings in the document's shorthand: "d, r, a, w are driving, rest,
//! availability, work".

#![allow(dead_code)]

use second::dice::Dice;
use second::limits::MOST_LONG_RESTS;
use second::plain;
use second::reading::{Entry, ENTRY_BYTES};
use second::recording::{minutes, word, Activity, Recording, Span};
use second::verdict::{first_reading, verdict, Outcome, Verdict};
use second::{Limits, Refusal};

/// `"d135 r15 d135"` as words.
pub fn words(shorthand: &str) -> Vec<u32> {
    shorthand.split_whitespace().map(shorthand_word).collect()
}

fn shorthand_word(run: &str) -> u32 {
    let activity = match &run[..1] {
        "d" => Activity::Driving,
        "r" => Activity::Rest,
        "a" => Activity::Availability,
        "w" => Activity::Work,
        other => panic!("no activity is written {other}"),
    };
    word(run[1..].parse().expect("minutes"), activity)
}

/// The same runs so many times over.
pub fn times(count: usize, shorthand: &str) -> String {
    format!("{shorthand} ").repeat(count)
}

/// Work of lawful days before, between and after these rests, up to a total;
/// no other rest of 1,440 or more, none joined to the rests given, no daily
/// rest reduced, and work in the last minute.
pub fn around(rests: &[Span], total: i64) -> Vec<u32> {
    let mut shorthand = String::new();
    let mut reached = 0;
    for rest in rests {
        shorthand += &lawful_days(rest.start - reached);
        shorthand += &format!("r{} ", rest.length());
        reached = rest.end;
    }
    shorthand += &lawful_days(total - reached);
    words(&shorthand)
}

fn lawful_days(minutes: i64) -> String {
    let whole_days = (minutes - 781) / 1_440;
    let left = minutes - 1_440 * whole_days;
    let days = times(whole_days as usize, "w780 r660");
    if left > 780 {
        let before = (left - 660) / 2;
        format!("{days}w{before} r660 w{} ", left - 660 - before)
    } else {
        format!("{days}w{left} ")
    }
}

pub fn span(start: i64, end: i64) -> Span {
    Span { start, end }
}

/// The first lawful reading, or the breach.
pub fn judged(words: &[u32]) -> Result<Vec<u8>, (i64, u8)> {
    let mut reading = vec![0xAA; ENTRY_BYTES * MOST_LONG_RESTS];
    let first = first_reading(words, &mut reading);
    match verdict(words).expect("no refusal") {
        Verdict::Pass => {
            let written = first.expect("a pass has a reading");
            assert!(reading[written..].iter().all(|&byte| byte == 0xAA));
            Ok(reading[..written].to_vec())
        }
        Verdict::Breach { minute, article } => {
            assert_eq!(first, Err(Refusal::NoLawfulReading));
            assert!(reading.iter().all(|&byte| byte == 0xAA));
            Err((minute, article))
        }
    }
}

/// The verdict by plain enumeration.
pub fn plainly(shorthand: &str) -> Outcome {
    let minutes = minutes(&words(shorthand));
    plain::outcome(&Recording::new(&minutes, &Limits::document()))
}

pub fn assert_pass(shorthand: &str) {
    let judged = judged(&words(shorthand));
    assert!(judged.is_ok(), "{shorthand}: {judged:?}");
}

pub fn assert_breach(shorthand: &str, minute: i64, article: u8) {
    assert_eq!(
        judged(&words(shorthand)),
        Err((minute, article)),
        "{shorthand}"
    );
}

/// Weeks with one weekly rest each of so many minutes, from an hour after the
/// week's start, and no minute to spare in any daily rest: between two weekly
/// rests three have 540 minutes, so that none of the others, of 660, may be
/// shortened. Work in each week's first and last minute.
pub fn tight_weeks(rests: &[u32]) -> String {
    let week = |&rest: &u32| {
        let left = 10_080 - 60 - rest - 3 * 1_320;
        let days = tight_days(left as usize / 1_380);
        format!("w60 r{rest} {days}w{} ", left % 1_380)
    };
    rests.iter().map(week).collect()
}

/// Three daily rests of 540 minutes, then so many of 660.
pub fn tight_days(count: usize) -> String {
    times(3, "w780 r540") + &times(count, "w720 r660")
}

/// So many days with a daily rest of eleven hours, then these runs.
pub fn days(count: usize, then: &str) -> String {
    times(count, "w780 r660") + then + " "
}

/// Days of driving with breaks, some with a weekly rest after them; now and then a
/// run longer or shorter.
pub fn driving_days(dice: &mut Dice) -> Vec<u32> {
    let days = [
        "d270 r45 d270 r660",
        "d270 r45 d270 r45 d60 r660",
        "d240 r45 d240 r660",
        "w120 d200 r660",
        "w600 d120 r660",
        "d270 r45 d270 r3000",
    ];
    let taste: Vec<u32> = (0..6).map(|_| dice.between(1, 6)).collect();
    let seldom = dice.between(10, 400);
    let mut recording = Vec::new();
    for _ in 0..dice.between(6, 30) {
        for mut word in words(days[dice.weighted(&taste)]) {
            if dice.one_in(seldom) {
                word = word % 4 + 4 * dice.between(word / 8, word / 4 + 100);
            }
            recording.push(word);
        }
    }
    recording
}

/// The minutes of rest of figure 6 of source document 000, week by week: "The
/// first week has a 44 hour weekly rest period, and all the following weeks
/// have 45 hour weekly rest periods except for the penultimate one, which has a
/// 24 hour weekly rest period." With six weeks it is figure 2.
pub fn general_figure(weeks: usize) -> Vec<u32> {
    let mut hours = vec![45; weeks];
    hours[0] = 44;
    hours[weeks - 2] = 24;
    hours.iter().map(|hours| 60 * hours).collect()
}

/// Figure 5, a reading of figure 2: each week's rest counts in it, the third
/// pays the first one's hour, and this rest the third one's.
pub fn attempt(carrier: u16) -> Vec<Entry> {
    let weekly = [1, 7, 13, 19, 25, 32];
    let mut entries = vec![Entry::daily(); 37];
    for (week, number) in weekly.into_iter().enumerate() {
        entries[number - 1] = Entry::weekly(week as u8, 0);
    }
    entries[weekly[0] - 1].carrier = weekly[2] as u16;
    entries[weekly[2] - 1].carrier = carrier;
    entries
}
