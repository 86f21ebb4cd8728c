//! Every operation on small inputs: answers, refusals, and what a buffer holds.

use hours_desk::{
    article_test, breach_spans, entry, entry_refusal, first_reading, fixed_test, list_long_rests,
    narrow_reading, read_card, read_text, reading_test, verdict, weigh, widen_reading, write_card,
    write_text, Measure, Refusal, Span, Verdict, Weeks, LONG_RESTS_AT_MOST, WEEKS_AT_MOST,
};

/// 240 of driving, 660 of rest, 60 of work, 2,700 of rest, a minute of work.
const WORDS: [u32; 5] = [4 * 240 + 3, 4 * 660, 4 * 60 + 2, 4 * 2_700, 4 + 2];

const NO_MINUTES: [u32; 1] = [2];
const TOO_LONG: [u32; 2] = [4 * 534_240, u32::MAX];

/// As many long rests as a recording can have, each with a minute of work after it.
fn most_long_rests() -> Vec<u32> {
    [4 * 540, 4 + 2].repeat(LONG_RESTS_AT_MOST)
}

#[test]
fn weighing() {
    let measure = |total, judged_end, long_rests| Measure {
        total,
        judged_end,
        long_rests,
    };
    assert_eq!(weigh(&WORDS), Ok(measure(3_661, 3_661, 2)));
    assert_eq!(weigh(&WORDS[..2]), Ok(measure(900, 240, 0)));
    assert_eq!(weigh(&[]), Ok(measure(0, 0, 0)));
    assert_eq!(weigh(&NO_MINUTES), Err(Refusal::NoMinutes));
    assert_eq!(weigh(&TOO_LONG), Err(Refusal::TotalPassed));

    assert_eq!(weigh(&[4 * 534_240 + 3]), Ok(measure(534_240, 534_240, 0)));
    assert_eq!(weigh(&[4 * 534_240]), Ok(measure(534_240, 0, 0)));
    assert_eq!(weigh(&[4 * 534_239, 6]), Ok(measure(534_240, 534_240, 1)));
    assert_eq!(weigh(&[4 * 534_241 + 3]), Err(Refusal::TotalPassed));
    assert_eq!(weigh(&[4 * 534_239, 6, 6]), Err(Refusal::TotalPassed));

    // 987 × 541 minutes, and an open rest up to the end of the last week.
    let most = most_long_rests();
    assert_eq!(weigh(&most), Ok(measure(533_967, 533_967, 987)));
    let full = [&most[..], &[4 * 273]].concat();
    assert_eq!(weigh(&full), Ok(measure(534_240, 533_967, 987)));
    let over = [&most[..], &[4 * 274]].concat();
    assert_eq!(weigh(&over), Err(Refusal::TotalPassed));
}

#[test]
fn listing() {
    let record = |start, end| Span { start, end };
    let mut list = [record(7, 8); 3];
    assert_eq!(list_long_rests(&WORDS, &mut list), Ok(2));
    assert_eq!(list, [record(240, 900), record(960, 3_660), record(7, 8)]);
    let mut list = [record(7, 8); 2];
    assert_eq!(list_long_rests(&WORDS, &mut list), Ok(2));
    assert_eq!(list, [record(240, 900), record(960, 3_660)]);
    let mut list = [record(7, 8); 1];
    let refused = list_long_rests(&WORDS, &mut list);
    assert_eq!(refused, Err(Refusal::ListTooShort));
    assert_eq!(list, [record(7, 8)]);
    let refused = list_long_rests(&NO_MINUTES, &mut list);
    assert_eq!(refused, Err(Refusal::NoMinutes));
    let refused = list_long_rests(&TOO_LONG, &mut list);
    assert_eq!(refused, Err(Refusal::TotalPassed));
    assert_eq!(list, [record(7, 8)]);
    assert_eq!(list_long_rests(&[], &mut []), Ok(0));

    let most = most_long_rests();
    let mut list = [record(7, 8); LONG_RESTS_AT_MOST];
    let refused = list_long_rests(&most, &mut list[1..]);
    assert_eq!(refused, Err(Refusal::ListTooShort));
    assert_eq!(list_long_rests(&most, &mut list), Ok(987));
    for (number, rest) in (0..).zip(list) {
        assert_eq!(rest, record(541 * number, 541 * number + 540));
    }
}

#[test]
fn tests() {
    assert_eq!(fixed_test(&WORDS, 3_661), Ok(0));
    assert_eq!(fixed_test(&[4 * 901 + 2], 901), Ok(5));
    assert_eq!(fixed_test(&WORDS, 3_662), Err(Refusal::StretchOverTotal));
    assert_eq!(reading_test(&WORDS, &[0, 0, 0, 0, 1, 0, 0, 0]), Ok(0));
    assert_eq!(reading_test(&WORDS, &[0, 0, 0, 0, 1, 9, 0, 0]), Ok(6));
    assert_eq!(reading_test(&WORDS, &[0, 0, 0, 0, 1, 0, 0, 1]), Ok(6));
    for count in [0, 4, 6, 7, 9] {
        assert_eq!(
            reading_test(&WORDS, &vec![0; count]),
            Err(Refusal::ReadingByteCount)
        );
    }
    assert_eq!(reading_test(&[], &[]), Ok(0));
}

/// A carrier is a number of two bytes. 48 weeks have six long rests each; number 258, in
/// week 42, is a reduced weekly rest of 2,699 minutes, and 259 has a minute to spare.
#[test]
fn carriers() {
    let day = [4 * 780 + 2, 4 * 660];
    let regular = [&day.repeat(5)[..], &[4 * 180 + 2, 4 * 2_700]].concat();
    let reduced = [&day.repeat(5)[..], &[4 * 181 + 2, 4 * 2_699]].concat();
    let paying = [&[4 * 779 + 2, 4 * 661][..], &regular[2..]].concat();
    let weeks = [regular.repeat(42), reduced, paying, regular.repeat(4)].concat();
    let words = [&weeks[..], &[4 + 2]].concat();
    assert_eq!(weigh(&words).map(|measure| measure.long_rests), Ok(288));

    let mut reading = Vec::new();
    for week in 0..48 {
        reading.extend([0; 20]);
        reading.extend([1, week, 0, 0]);
    }
    let low = 4 * 257 + 2;
    // None pays back; 769, the bytes exchanged; 3; 260, which then counts as shortened; 259.
    for (carrier, rule) in [
        ([0, 0], 8),
        ([1, 3], 6),
        ([3, 0], 6),
        ([4, 1], 0),
        ([3, 1], 0),
    ] {
        reading[low..low + 2].copy_from_slice(&carrier);
        assert_eq!(reading_test(&words, &reading), Ok(rule));
    }

    let mut first = vec![9; 4 * LONG_RESTS_AT_MOST];
    assert_eq!(first_reading(&words, &mut first), Ok(4 * 288));
    assert_eq!(first[..4 * 288], reading);
    assert!(first[4 * 288..].iter().all(|&byte| byte == 9));
}

#[test]
fn articles() {
    assert_eq!(article_test(&WORDS, 3_661), Ok(0));
    assert_eq!(article_test(&[4 * 901 + 2], 901), Ok(5));
    assert_eq!(article_test(&WORDS, 3_662), Err(Refusal::StretchOverTotal));
    assert_eq!(article_test(&NO_MINUTES, 0), Err(Refusal::NoMinutes));
    assert_eq!(article_test(&TOO_LONG, 0), Err(Refusal::TotalPassed));
    assert_eq!(article_test(&[], 0), Ok(0));
    assert_eq!(article_test(&[], 1), Err(Refusal::StretchOverTotal));

    // Broken at one minute: 6.1 and 7; 6.1, 7 and 8.2; 7 and 8.2.
    let drives = [4 * 165 + 3, 4 * 45, 4 * 165 + 3, 4 * 45, 4 * 271 + 3];
    let after_work = [&[4 * 210 + 2], &drives[..]].concat();
    let late_drive = [4 * 630 + 2, 4 * 271 + 3];
    for (words, m, rule, place) in [
        (&drives[..], 691, 1, 1),
        (&after_work, 901, 1, 1),
        (&late_drive, 901, 1, 4),
    ] {
        assert_eq!(fixed_test(words, m - 1), Ok(0));
        assert_eq!(article_test(words, m - 1), Ok(0));
        assert_eq!(fixed_test(words, m), Ok(rule));
        assert_eq!(article_test(words, m), Ok(place));
    }

    // 6.2 is broken at minute 7,591, and 7 too at 7,741.
    let day = [4 * 270 + 3, 4 * 45, 4 * 270 + 3, 4 * 660];
    let week = [&day.repeat(6)[..], &[4 * 271 + 3]].concat();
    for (m, rule, place) in [(7_590, 0, 0), (7_591, 3, 2), (7_740, 3, 2), (7_741, 1, 2)] {
        assert_eq!(fixed_test(&week, m), Ok(rule));
        assert_eq!(article_test(&week, m), Ok(place));
    }
}

#[test]
fn entries() {
    let reading = [1, 2, 3, 4, 5, 6, 7, 8];
    let second = entry(&reading, 2).unwrap();
    assert!(std::ptr::eq(second, &reading[4..8]));
    assert_eq!(entry_refusal(&reading, 2), None);
    for number in [0, 3, usize::MAX] {
        assert_eq!(entry(&reading, number), Err(Refusal::NoEntry));
        assert_eq!(entry_refusal(&reading, number), Some(Refusal::NoEntry));
    }
    for count in [1, 3, 5, 6, 7] {
        let refusal = Refusal::ReadingByteCount;
        assert_eq!(entry(&reading[..count], 1), Err(refusal));
        assert_eq!(entry_refusal(&reading[..count], 0), Some(refusal));
    }
    assert_eq!(entry(&[], 1), Err(Refusal::NoEntry));

    let most = [0; 4 * LONG_RESTS_AT_MOST];
    let last = entry(&most, LONG_RESTS_AT_MOST).unwrap();
    assert!(std::ptr::eq(last, &most[4 * 986..]));
}

/// Over and back gives the old bytes; back and over the wide ones.
#[test]
fn moves() {
    let old = [0, 0, 0, 1, 11, 255, 0, 0, 1];
    let wide = [0, 0, 0, 0, 1, 11, 255, 0, 0, 0, 1, 0];
    let mut over = [9; 14];
    assert_eq!(widen_reading(&old, &mut over), Ok(12));
    assert_eq!(over[..12], wide);
    assert_eq!(over[12..], [9; 2]);
    let mut back = [9; 11];
    assert_eq!(narrow_reading(&over[..12], &mut back), Ok(9));
    assert_eq!(back[..9], old);
    assert_eq!(back[9..], [9; 2]);

    // Buffers that just fit; none are lent for no entries.
    let mut back = [9; 9];
    assert_eq!(narrow_reading(&wide, &mut back), Ok(9));
    assert_eq!(back, old);
    let mut over = [9; 12];
    assert_eq!(widen_reading(&back, &mut over), Ok(12));
    assert_eq!(over, wide);
    assert_eq!(widen_reading(&[], &mut []), Ok(0));
    assert_eq!(narrow_reading(&[], &mut []), Ok(0));

    // Any kind, week and carrier is carried as it is, also those of no lawful reading.
    for byte in 0..=255 {
        let mut wide = [9; 8];
        let entries = [byte, 0, 1, 2, byte, byte];
        assert_eq!(widen_reading(&entries, &mut wide), Ok(8));
        assert_eq!(wide, [byte, 0, 1, 0, 2, byte, byte, 0]);
        let mut old = [9; 6];
        let narrowed = narrow_reading(&wide, &mut old);
        if byte <= 11 {
            assert_eq!((narrowed, old), (Ok(6), entries));
        } else {
            assert_eq!((narrowed, old), (Err(Refusal::NoOldForm), [9; 6]));
        }
        let mut old = [9; 3];
        assert_eq!(narrow_reading(&[byte, 11, byte, 0], &mut old), Ok(3));
        assert_eq!(old, [byte, 11, byte]);
    }
}

/// Refusals of the moves in their order, with the buffer as it was.
#[test]
fn moves_refused() {
    let old = [0, 0, 0, 1, 11, 255, 0, 0];
    let mut wide = [9; 10];
    let mut refuses = |count: usize, room: usize, refusal| {
        let refused = widen_reading(&old[..count], &mut wide[..room]);
        assert_eq!(refused, Err(refusal));
        assert_eq!(wide, [9; 10]);
    };
    for count in [1, 2, 4, 5, 7, 8] {
        refuses(count, 0, Refusal::ReadingByteCount);
        refuses(count, 10, Refusal::ReadingByteCount);
    }
    for (count, room) in [(3, 0), (3, 3), (6, 6), (6, 7)] {
        refuses(count, room, Refusal::ReadingBufferTooShort);
    }

    let mut old = [9; 8];
    let mut refuses = |wide: &[u8], room: usize, refusal| {
        assert_eq!(narrow_reading(wide, &mut old[..room]), Err(refusal));
        assert_eq!(old, [9; 8]);
    };
    // A week of 12, carriers of 256 and 65,535; after an entry that has an old form, and before.
    for late in [[1, 12, 0, 0], [1, 0, 0, 1], [0, 0, 255, 255]] {
        for wide in [[[0; 4], late].concat(), [late, [0; 4]].concat()] {
            for count in [1, 2, 3, 5, 6, 7] {
                refuses(&wide[..count], 0, Refusal::ReadingByteCount);
                refuses(&wide[..count], 8, Refusal::ReadingByteCount);
            }
            for room in [0, 3, 5] {
                refuses(&wide, room, Refusal::ReadingBufferTooShort);
            }
            for room in [6, 7, 8] {
                refuses(&wide, room, Refusal::NoOldForm);
            }
        }
    }
    assert_eq!(Refusal::NoOldForm.number(), 15);

    let most = [0; 4 * LONG_RESTS_AT_MOST];
    let mut old = [9; 3 * LONG_RESTS_AT_MOST];
    let short = narrow_reading(&most, &mut old[1..]);
    assert_eq!(short, Err(Refusal::ReadingBufferTooShort));
    assert_eq!(narrow_reading(&most, &mut old), Ok(3 * 987));
    assert_eq!(old, [0; 3 * LONG_RESTS_AT_MOST]);
}

#[test]
fn texts() {
    let expected = b"(recording\n(week\n(drive 240)\n(rest 660)\n)\n)\n";
    let mut text = [b'#'; 50];
    let length = write_text(&WORDS[..2], &mut text).unwrap();
    assert_eq!(text[..length], expected[..]);
    assert!(text[length..].iter().all(|&byte| byte == b'#'));
    let mut short = vec![b'#'; length - 1];
    let refused = write_text(&WORDS[..2], &mut short);
    assert_eq!(refused, Err(Refusal::TooFewBytes));

    let mut words = [7; 3];
    assert_eq!(read_text(expected, &mut words), Ok(2));
    assert_eq!(words, [WORDS[0], WORDS[1], 7]);
    assert_eq!(
        read_text(&expected[1..], &mut words),
        Err(Refusal::TextForm)
    );
    let refused = read_text(expected, &mut words[..1]);
    assert_eq!(refused, Err(Refusal::TooFewWords));
    assert_eq!(read_text(&[], &mut []), Err(Refusal::TextForm));
}

#[test]
fn cards() {
    // Rest; work from 05:00; driving from 05:20, with a second driver; a day of
    // rest, entered by hand.
    let record = [0x00, 0x00, 0x11, 0x2C, 0x59, 0x40, 0x60, 0x00];
    let day = [4 * 300, 4 * 20 + 2, 4 * 1_120 + 3, 4 * 1_440];
    let mut words = [7; 5];
    assert_eq!(read_card(&record, &mut words), Ok(4));
    assert_eq!(words[..4], day);
    assert_eq!(words[4], 7);
    let mut words = [7; 3];
    assert_eq!(read_card(&record, &mut words), Err(Refusal::TooFewWords));
    assert_eq!(read_card(&[0; 744], &mut words), Err(Refusal::TotalPassed));
    assert_eq!(read_card(&[0; 742], &mut words), Err(Refusal::TooFewWords));
    let unknown = Err(Refusal::UnknownActivity);
    assert_eq!(read_card(&[0x20, 0x00], &mut words), unknown);
    assert_eq!(read_card(&[0x20, 0x01], &mut words), Err(Refusal::DayForm));
    assert_eq!(read_card(&record[..7], &mut words), Err(Refusal::DayForm));
    assert_eq!(words, [7; 3]);
    assert_eq!(read_card(&[], &mut []), Ok(0));

    let plain = [0x00, 0x00, 0x11, 0x2C, 0x19, 0x40, 0x00, 0x00];
    let mut bytes = [b'#'; 10];
    assert_eq!(write_card(&day, &mut bytes[..7]), Err(Refusal::TooFewBytes));
    assert_eq!(write_card(&WORDS, &mut bytes), Err(Refusal::DayForm));
    assert_eq!(write_card(&NO_MINUTES, &mut bytes), Err(Refusal::NoMinutes));
    assert_eq!(write_card(&TOO_LONG, &mut bytes), Err(Refusal::TotalPassed));
    assert_eq!(bytes, [b'#'; 10]);
    assert_eq!(write_card(&day, &mut bytes), Ok(8));
    assert_eq!(bytes[..8], plain);
    assert_eq!(bytes[8..], [b'#'; 2]);
    assert_eq!(write_card(&[], &mut []), Ok(0));
}

#[test]
fn verdicts() {
    assert_eq!(verdict(&WORDS), Ok(Verdict::Pass));
    assert_eq!(verdict(&[]), Ok(Verdict::Pass));
    let breach = |minute, article| Ok(Verdict::Breach { minute, article });
    assert_eq!(verdict(&[4 * 901 + 2]), breach(901, 5));
    assert_eq!(verdict(&[4 * 271 + 3]), breach(271, 1));
    let days = [[4 * 840 + 2, 4 * 600]; 4].concat();
    assert_eq!(verdict(&[&days[..], &[4 + 2]].concat()), breach(5_761, 6));
    // In the last minute of a year.
    assert_eq!(verdict(&[4 * 533_340, 4 * 900 + 2]), Ok(Verdict::Pass));
    assert_eq!(verdict(&[4 * 533_339, 4 * 901 + 2]), breach(534_240, 5));
    assert_eq!(verdict(&NO_MINUTES), Err(Refusal::NoMinutes));
    assert_eq!(verdict(&TOO_LONG), Err(Refusal::TotalPassed));
}

/// A long rest, then a day that is too long.
const LATE: [u32; 2] = [4 * 540, 4 * 901 + 2];

#[test]
fn first_readings() {
    let mut reading = [9; 10];
    assert_eq!(first_reading(&WORDS, &mut reading), Ok(8));
    assert_eq!(reading, [0, 0, 0, 0, 0, 0, 0, 0, 9, 9]);
    let mut reading = [9; 8];
    assert_eq!(first_reading(&WORDS, &mut reading), Ok(8));
    assert_eq!(reading, [0; 8]);
    assert_eq!(first_reading(&[], &mut []), Ok(0));
    let most = most_long_rests();
    let mut short = [9; 4 * LONG_RESTS_AT_MOST - 1];
    let refused = first_reading(&most, &mut short);
    assert_eq!(refused, Err(Refusal::ReadingBufferTooShort));
    let refused = first_reading(&most, &mut [9; 4 * LONG_RESTS_AT_MOST]);
    assert_eq!(refused, Err(Refusal::NoLawfulReading));

    let mut reading = [9; 10];
    let mut refuses = |words: &[u32], room: usize, refusal| {
        assert_eq!(first_reading(words, &mut reading[..room]), Err(refusal));
        assert_eq!(reading, [9; 10]);
    };
    refuses(&NO_MINUTES, 0, Refusal::NoMinutes);
    refuses(&TOO_LONG, 10, Refusal::TotalPassed);
    refuses(&WORDS, 7, Refusal::ReadingBufferTooShort);
    refuses(&WORDS, 0, Refusal::ReadingBufferTooShort);
    refuses(&LATE, 3, Refusal::ReadingBufferTooShort);
    refuses(&LATE, 4, Refusal::NoLawfulReading);
    refuses(&LATE, 10, Refusal::NoLawfulReading);
    refuses(&[4 * 901 + 2], 0, Refusal::NoLawfulReading);
    assert_eq!(Refusal::NoLawfulReading.number(), 13);
}

/// A reading is written where the verdict is a pass, and only there.
#[test]
fn together() {
    for words in [&WORDS[..], &LATE, &[], &[4 * 271 + 3], &[4 * 270 + 3]] {
        let read = first_reading(words, &mut [0; 8]);
        match verdict(words) {
            Ok(Verdict::Pass) => assert!(read.is_ok()),
            _ => assert_eq!(read, Err(Refusal::NoLawfulReading)),
        }
    }
}

/// A week of five days with 540 minutes of driving, and with so many more on a sixth.
fn week(more: u32) -> Vec<u32> {
    let day = [4 * 270 + 3, 4 * 45, 4 * 270 + 3, 4 * 855];
    let sixth = [4 * more + 3, 4 * 60 + 2, 4 * (2_820 - more)];
    [&day.repeat(5)[..], &sixth].concat()
}

#[test]
fn spans() {
    let weeks = |first, last| Weeks { first, last };
    let untouched = weeks(7, 8);

    // The first two weeks break 6.3 together, the third breaks 7 by itself.
    let recording = [week(1), week(1), week(271)].concat();
    assert_eq!(verdict(&week(1)), Ok(Verdict::Pass));
    let mut list = [untouched; 3];
    assert_eq!(breach_spans(&recording, &mut list), Ok(2));
    assert_eq!(list, [weeks(0, 1), weeks(2, 2), untouched]);
    let mut list = [untouched; 2];
    assert_eq!(breach_spans(&recording, &mut list), Ok(2));
    assert_eq!(list, [weeks(0, 1), weeks(2, 2)]);

    let mut list = [untouched; 3];
    let mut refuses = |words: &[u32], room: usize, refusal| {
        assert_eq!(breach_spans(words, &mut list[..room]), Err(refusal));
        assert_eq!(list, [untouched; 3]);
    };
    refuses(&recording, 1, Refusal::SpanListTooShort);
    refuses(&recording, 0, Refusal::SpanListTooShort);
    refuses(&[4 * 901 + 2], 0, Refusal::SpanListTooShort);
    refuses(&NO_MINUTES, 0, Refusal::NoMinutes);
    refuses(&TOO_LONG, 3, Refusal::TotalPassed);
    assert_eq!(Refusal::SpanListTooShort.number(), 14);

    assert_eq!(breach_spans(&[], &mut []), Ok(0));
    assert_eq!(breach_spans(&WORDS, &mut []), Ok(0));
    let mut list = [untouched; 1];
    assert_eq!(breach_spans(&week(1), &mut list), Ok(0));
    assert_eq!(list, [untouched]);
}

/// The last week may have a minute only; and 53 records are enough for a breach in
/// each of 53 weeks.
#[test]
fn weeks() {
    // Driving from Sunday evening on, up to a minute after midnight.
    let night = [4 * 9_810, 4 * 271 + 3];
    let mut list = [Weeks::default(); WEEKS_AT_MOST];
    assert_eq!(breach_spans(&night, &mut list), Ok(1));
    assert_eq!(list[0], Weeks { first: 0, last: 1 });
    assert_eq!(breach_spans(&[4 * 9_810, 4 * 270 + 3], &mut list), Ok(0));

    let year = week(271).repeat(53);
    assert_eq!(breach_spans(&year, &mut list), Ok(53));
    for (number, weeks) in (0..).zip(list) {
        assert_eq!((weeks.first, weeks.last), (number, number));
    }
}

/// Verdicts and readings on four threads at a time, with the stack that `std` gives
/// them.
#[test]
fn threads() {
    let judged = || {
        (0..50).all(|_| {
            let read = first_reading(&WORDS, &mut [9; 8]);
            read == Ok(8) && verdict(&WORDS) == Ok(Verdict::Pass)
        })
    };
    let threads = [(); 4].map(|()| std::thread::spawn(judged));
    assert!(threads
        .map(|thread| thread.join().unwrap())
        .iter()
        .all(|&right| right));
}
