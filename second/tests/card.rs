//! The card's own day record: held against a plain statement minute by minute,
//! round trips, edges, the order of refusals, and what the desk program prints.

mod shorthand;

use second::card::{read, write};
use second::dice::Dice;
use second::grow;
use second::print::print_card;
use second::recording::{minutes, weigh, word, Activity};
use second::Refusal;
use shorthand::{times, words};

const SLOT: u16 = 0x8000;
const CREW: u16 = 0x4000;
const OUT: u16 = 0x2000;
/// "Card out with c zero means unknown activity."
const UNKNOWN: u16 = OUT;

/// All bits s, c, p of a known activity.
const KNOWN: [u16; 6] = [0, SLOT, CREW, SLOT | CREW, OUT | CREW, OUT | CREW | SLOT];

/// A change to an activity code at a minute.
fn at(minute: u16, code: u16) -> u16 {
    2_048 * code + minute
}

/// "high byte first"
fn bytes(changes: &[u16]) -> Vec<u8> {
    let pair = |change: &u16| [(change / 256) as u8, (change % 256) as u8];
    changes.iter().flat_map(pair).collect()
}

/// The changes of each day: "Minute 0 always begins a day."
fn days(changes: &[u16]) -> Vec<Vec<u16>> {
    let mut days: Vec<Vec<u16>> = Vec::new();
    for &change in changes {
        if change % 2_048 == 0 {
            days.push(Vec::new());
        }
        days.last_mut().expect("a record begins at 0").push(change);
    }
    days
}

/// The activity of each minute: that of the latest change at or before it.
fn plain_minutes(changes: &[u16]) -> Vec<Activity> {
    let mut minutes = Vec::new();
    for day in days(changes) {
        for minute in 0..1_440 {
            let so_far = day.iter().filter(|&&change| change % 2_048 <= minute);
            let latest = so_far.max_by_key(|&&change| change % 2_048).unwrap();
            minutes.push(Activity::ALL[usize::from(latest / 2_048 % 4)]);
        }
    }
    minutes
}

/// What reading refuses, by any bytes and so many words lent.
fn plain_refusal(record: &[u8], lent: usize) -> Option<Refusal> {
    let change = |pair: &[u8]| 256 * u16::from(pair[0]) + u16::from(pair[1]);
    let changes: Vec<u16> = record.chunks_exact(2).map(change).collect();
    let minute = |index: usize| changes[index] % 2_048;
    let at_fault = |index: usize| match index {
        _ if minute(index) > 1_439 => true,
        0 => minute(0) != 0,
        _ => minute(index) > 0 && minute(index) <= minute(index - 1),
    };
    if record.len() % 2 == 1 || (0..changes.len()).any(at_fault) {
        return Some(Refusal::DayForm);
    }
    if changes.iter().any(|change| change & (OUT | CREW) == OUT) {
        return Some(Refusal::UnknownActivity);
    }
    if 1_440 * days(&changes).len() > 534_240 {
        return Some(Refusal::TotalPassed);
    }
    (lent < changes.len()).then_some(Refusal::TooFewWords)
}

/// What the record is read as, with words beyond it.
fn read_all(changes: &[u16]) -> Result<Vec<u32>, Refusal> {
    let mut words = vec![77; changes.len() + 3];
    let count = read(&bytes(changes), &mut words)?;
    assert_eq!(words[count..], [77; 3]);
    words.truncate(count);
    Ok(words)
}

/// What is written, with bytes beyond it.
fn written(words: &[u32]) -> Vec<u8> {
    let mut record = vec![b'#'; 1_100_000];
    let length = write(words, &mut record).expect("no refusal");
    assert!(record[length..].iter().all(|&byte| byte == b'#'));
    record.truncate(length);
    record
}

#[track_caller]
fn refused(changes: &[u16], refusal: Refusal) {
    assert_eq!(read_all(changes), Err(refusal));
}

/// Days of rising minutes with any activities and any known bits.
fn random_changes(dice: &mut Dice, most_days: u32) -> Vec<u16> {
    let mut changes = Vec::new();
    for _ in 0..dice.below(most_days + 1) {
        let mut minute = 0;
        while minute < 1_440 {
            let marks = KNOWN[dice.below(6) as usize];
            changes.push(marks | at(minute, dice.below(4) as u16));
            let most = [3, 60, 1_500][dice.below(3) as usize];
            minute += dice.between(1, most) as u16;
        }
    }
    changes
}

/// A recording of whole days, from any.
fn whole_days(words: &[u32]) -> Vec<u32> {
    let total: u32 = words.iter().map(|word| word / 4).sum();
    let missing = (1_440 - total % 1_440) % 1_440;
    let mut words = words.to_vec();
    if missing > 0 {
        words.push(word(missing, Activity::ALL[total as usize % 4]));
    }
    words
}

#[test]
fn read_minute_by_minute() {
    let mut dice = Dice::new(31);
    for _ in 0..1_500 {
        let changes = random_changes(&mut dice, 9);
        let words = read_all(&changes).expect("the record is of the form");
        assert_eq!(words.len(), changes.len());
        assert!(words.iter().all(|&word| word >= 4));
        assert_eq!(minutes(&words), plain_minutes(&changes));
    }
}

/// Any record is refused as the plain statement says, and then nothing is
/// written.
#[test]
fn refused_as_said() {
    let mut dice = Dice::new(32);
    let mut seen = [0; 13];
    for _ in 0..40_000 {
        let mut changes = random_changes(&mut dice, 2);
        if dice.one_in(3) {
            let days = dice.between(366, 376);
            let begin = |_| KNOWN[dice.below(6) as usize];
            changes.extend((0..days).map(begin));
        }
        for _ in 0..dice.below(3) {
            if !changes.is_empty() {
                let index = dice.below(changes.len() as u32) as usize;
                changes[index] = match dice.below(4) {
                    0 => changes[index] & !CREW | OUT,
                    1 => changes[index] ^ 1 << dice.below(16),
                    2 => changes[index] & !0x7FF | dice.between(1_438, 1_442) as u16,
                    _ => changes[index.saturating_sub(1)],
                };
            }
        }
        let mut record = bytes(&changes);
        if dice.one_in(8) {
            record.push(dice.below(256) as u8);
        }
        let lent = (changes.len() + 1).saturating_sub(dice.below(3) as usize);
        let mut words = vec![77; lent];
        match (read(&record, &mut words), plain_refusal(&record, lent)) {
            (Ok(count), None) => {
                seen[0] += 1;
                assert_eq!(count, changes.len());
                assert_eq!(minutes(&words[..count]), plain_minutes(&changes));
                assert!(words[count..].iter().all(|&word| word == 77));
            }
            (Err(refusal), Some(said)) => {
                seen[usize::from(refusal.number())] += 1;
                assert_eq!(refusal, said, "{record:?}");
                assert!(words.iter().all(|&word| word == 77));
            }
            (told, said) => panic!("{told:?} and not {said:?}: {record:?}"),
        }
    }
    for number in [0, 2, 9, 11, 12] {
        assert!(seen[number] > 500, "{number}: {seen:?}");
    }
}

/// "Reading what was exported must give the same minutes."
#[test]
fn round_trips() {
    let mut dice = Dice::new(33);
    for round in 0..3_000 {
        let words = match round % 3 {
            0 => grow::ordinary(&mut dice),
            1 => grow::random_words(&mut dice),
            _ => read_all(&random_changes(&mut dice, 6)).unwrap(),
        };
        let mut record = vec![b'#'; 1_100_000];
        if let Err(refusal) = weigh(&words) {
            assert_eq!(write(&words, &mut record), Err(refusal));
            continue;
        }
        let words = whole_days(&words);
        let record = written(&words);
        let mut again = vec![0; record.len() / 2];
        assert_eq!(read(&record, &mut again), Ok(record.len() / 2));
        assert_eq!(minutes(&again), minutes(&words));
        assert_eq!(written(&again), record);
    }
}

/// "Written days have a change at minute 0 and wherever the activity differs
/// from the minute before", and no other.
#[test]
fn written_minute_by_minute() {
    let mut dice = Dice::new(34);
    for _ in 0..300 {
        let words = whole_days(&grow::ordinary_weeks(&mut dice, 2));
        let minutes = minutes(&words);
        let mut expected = Vec::new();
        for minute in 0..minutes.len() {
            let in_the_day = minute as u16 % 1_440;
            if in_the_day == 0 || minutes[minute] != minutes[minute - 1] {
                expected.push(at(in_the_day, minutes[minute].code() as u16));
            }
        }
        assert_eq!(written(&words), bytes(&expected));
    }
}

#[test]
fn one_word_a_change() {
    assert_eq!(read_all(&[]), Ok(vec![]));
    assert_eq!(read(&[], &mut []), Ok(0));
    assert_eq!(read_all(&[at(0, 3)]), Ok(words("d1440")));
    let day = [at(0, 0), at(300, 2), at(320, 3), at(1_439, 1)];
    assert_eq!(read_all(&day), Ok(words("r300 w20 d1119 a1")));
    // Two changes at minute 0: a day of one activity, and the next day.
    assert_eq!(read_all(&[at(0, 1), at(0, 1)]), Ok(words("a1440 a1440")));
    let two = [at(0, 2), at(0, 0), at(1, 3)];
    assert_eq!(read_all(&two), Ok(words("w1440 r1 d1439")));
    // The same activity again is a word of its own.
    let again = [at(0, 2), at(7, 2), at(8, 2)];
    assert_eq!(read_all(&again), Ok(words("w7 w1 w1432")));
    // The next day may begin before the minute that the one before ended with.
    let next = [at(0, 0), at(900, 2), at(0, 0), at(5, 3)];
    assert_eq!(read_all(&next), Ok(words("r900 w540 r5 d1435")));
    let every_minute: Vec<u16> = (0..1_440).map(|minute| at(minute, minute % 4)).collect();
    assert_eq!(read_all(&every_minute).unwrap().len(), 1_440);
}

/// The bytes themselves: "high byte first".
#[test]
fn bytes_of_a_day() {
    let record = [0x00, 0x00, 0x11, 0x2C, 0x19, 0x40, 0x0D, 0x9F];
    assert_eq!(written(&words("r300 w20 d1119 a1")), record);
    let mut read_words = [0; 4];
    assert_eq!(read(&record, &mut read_words), Ok(4));
    assert_eq!(read_words[..], words("r300 w20 d1119 a1"));
}

/// s is not looked at, nor c where p is zero; p with c is known.
#[test]
fn slot_crew_and_card_out() {
    for marks in 0..8 {
        let marks = marks << 13;
        for code in 0..4 {
            let plain = [at(0, 0), at(60, code), at(0, 1)];
            for index in 0..3 {
                let mut changes = plain;
                changes[index] |= marks;
                let told = match KNOWN.contains(&marks) {
                    true => read_all(&plain),
                    false => Err(Refusal::UnknownActivity),
                };
                assert_eq!(read_all(&changes), told, "{marks:x} {code} {index}");
            }
        }
    }
}

#[test]
fn not_of_the_form() {
    let day_form = Refusal::DayForm;
    for minute in [1, 2, 1_439, 1_440, 2_047] {
        refused(&[at(minute, 0)], day_form);
        refused(&[at(minute, 0), at(0, 0)], day_form);
    }
    for minute in [1_440, 1_441, 2_047] {
        refused(&[at(0, 0), at(minute, 1)], day_form);
        refused(&[at(0, 0), at(minute, 1), at(0, 0)], day_form);
    }
    refused(&[at(0, 0), at(5, 1), at(5, 2)], day_form);
    refused(&[at(0, 0), at(5, 1), at(4, 2)], day_form);
    refused(&[at(0, 0), at(1_439, 1), at(1_439, 2)], day_form);
    refused(&[at(0, 0), at(1_439, 1), at(1, 2)], day_form);
    for length in [1, 3, 5, 65_535] {
        assert_eq!(read(&vec![0; length], &mut []), Err(day_form));
    }
}

/// 11 anywhere, then 12 anywhere, then 2, and last 9.
#[test]
fn reading_refusals_in_order() {
    let unknown = UNKNOWN | at(0, 3);
    let days = |count| vec![at(0, 2); count];
    let joined = |parts: &[&[u16]]| parts.concat();
    let mut none: [u32; 0] = [];

    for fault in [at(1_440, 0), UNKNOWN | at(1_440, 0)] {
        refused(&[unknown, fault], Refusal::DayForm);
        refused(&joined(&[&days(400), &[unknown, fault]]), Refusal::DayForm);
    }
    refused(&[at(1, 0), unknown], Refusal::DayForm);
    refused(&[unknown, at(9, 1), at(9, 1)], Refusal::DayForm);
    let odd = [bytes(&[unknown]), vec![0]].concat();
    assert_eq!(read(&odd, &mut none), Err(Refusal::DayForm));

    for place in [0, 50, 372] {
        let mut changes = days(373);
        changes[place] = unknown;
        refused(&changes, Refusal::UnknownActivity);
        let told = read(&bytes(&changes), &mut none);
        assert_eq!(told, Err(Refusal::UnknownActivity));
    }
    let told = read(&bytes(&[unknown]), &mut none);
    assert_eq!(told, Err(Refusal::UnknownActivity));

    refused(&days(372), Refusal::TotalPassed);
    let told = read(&bytes(&days(372)), &mut none);
    assert_eq!(told, Err(Refusal::TotalPassed));

    assert_eq!(read_all(&days(371)).unwrap(), words(&times(371, "w1440")));
    let mut words = [77; 371];
    let told = read(&bytes(&days(371)), &mut words[..370]);
    assert_eq!(told, Err(Refusal::TooFewWords));
    assert_eq!(words, [77; 371]);
    assert_eq!(read(&bytes(&days(371)), &mut words), Ok(371));
    assert_eq!(words, [4 * 1_440 + 2; 371]);
}

#[test]
fn changes_at_midnight() {
    let record = |shorthand: &str| written(&words(shorthand));
    assert_eq!(written(&[]), []);
    assert_eq!(record("r1440"), bytes(&[at(0, 0)]));
    assert_eq!(record("w1 w1439"), bytes(&[at(0, 2)]));
    assert_eq!(record("r2880"), bytes(&[at(0, 0), at(0, 0)]));
    assert_eq!(record("d1440 d1440"), bytes(&[at(0, 3), at(0, 3)]));
    assert_eq!(record("d1440 a1440"), bytes(&[at(0, 3), at(0, 1)]));
    let early = [at(0, 3), at(1_439, 1), at(0, 1)];
    assert_eq!(record("d1439 a1441"), bytes(&early));
    let late = [at(0, 3), at(0, 3), at(1, 1)];
    assert_eq!(record("d1441 a1439"), bytes(&late));
    let around = [at(0, 2), at(1_439, 0), at(0, 0), at(1, 2)];
    assert_eq!(record("w1439 r2 w1439"), bytes(&around));
    assert_eq!(record("r534240"), vec![0; 2 * 371]);
    let alternating = record(&times(267_120, "r1 w1"));
    assert_eq!(alternating.len(), 2 * 534_240);
    assert_eq!(alternating[..6], bytes(&[at(0, 0), at(1, 2), at(2, 0)]));
}

#[test]
fn writing_refusals_in_order() {
    let mut none: [u8; 0] = [];
    for part_day in ["r1", "r1439", "r1441", "r534239", "w700 d1"] {
        let told = write(&words(part_day), &mut none);
        assert_eq!(told, Err(Refusal::DayForm), "{part_day}");
    }
    assert_eq!(write(&[4, 3, 4], &mut none), Err(Refusal::NoMinutes));
    assert_eq!(
        write(&words("r534241"), &mut none),
        Err(Refusal::TotalPassed)
    );
    assert_eq!(
        write(&words("r535680"), &mut none),
        Err(Refusal::TotalPassed)
    );
    assert_eq!(write(&[], &mut none), Ok(0));

    let recording = words("r300 w20 d1120 r1440");
    let mut lent = [b'#'; 9];
    for length in 0..8 {
        let told = write(&recording, &mut lent[..length]);
        assert_eq!(told, Err(Refusal::TooFewBytes));
    }
    assert_eq!(write(&words("r1 w1"), &mut lent), Err(Refusal::DayForm));
    assert_eq!(lent, [b'#'; 9]);
    assert_eq!(write(&recording, &mut lent[..8]), Ok(8));
    assert_eq!(lent, [0x00, 0x00, 0x11, 0x2C, 0x19, 0x40, 0x00, 0x00, b'#']);
}

#[test]
fn printed_cards() {
    let printed = |changes: &[u16]| print_card(&bytes(changes));
    let nothing = "(verdict\n(minutes 0)\n(judged 0)\n(reading\n)\n)\n";
    assert_eq!(printed(&[]), nothing);
    let day = [at(0, 0), at(600, 2), at(700, 0)];
    assert_eq!(
        printed(&day),
        "(verdict\n(minutes 1440)\n(judged 700)\n(reading\n(daily 0 600)\n)\n)\n"
    );
    assert_eq!(
        printed(&[CREW | at(0, 2)]),
        "(verdict\n(minutes 1440)\n(breach 901 8.2)\n)\n"
    );
    for (changes, number) in [
        (&[UNKNOWN][..], 12),
        (&[at(1, 0)], 11),
        (&[at(0, 0); 372], 2),
    ] {
        let page = format!("(verdict\n(refused {number})\n)\n");
        assert_eq!(printed(changes), page);
    }
}

/// A record of just as many bytes as the desk program takes, and one more.
#[test]
fn printed_at_the_most_bytes() {
    let changes: Vec<u16> = (0..32_768).map(|number| at(number % 1_440, 0)).collect();
    let mut record = bytes(&changes);
    assert_eq!(record.len(), 65_536);
    let rest = "(verdict\n(minutes 33120)\n(judged 0)\n(reading\n)\n)\n";
    assert_eq!(print_card(&record), rest);
    record.push(0);
    assert_eq!(print_card(&record), "(verdict\n(refused 9)\n)\n");
    assert_eq!(print_card(&[0; 65_536]), "(verdict\n(refused 2)\n)\n");
    assert_eq!(print_card(&[0; 65_535]), "(verdict\n(refused 11)\n)\n");
}
