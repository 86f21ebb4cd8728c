//! Request 7 of document 02, "A year on the desk": "Depots keep 53 weeks. The total rises
//! to 534,240 minutes, long rests to 987, text to 53 weeks, and a reading's entry becomes
//! four bytes: kind, week, carrier low, carrier high. Stored three-byte readings are
//! carried over to the new form and back; where no week byte is over 11, over and back
//! gives the old bytes. Counts of 3 × k become 4 × k, the entry shown is four bytes, and
//! 2, 4, 6 and 7 follow. The order of readings compares kind, then week, then carrier as a
//! number. Both moves refuse 6 on a count that doesn't divide into entries, then 4 if the
//! target is short, and the move back refuses last with 15 if a week is over 11 or a
//! carrier over 255."

mod shorthand;
#[path = "../examples/year.rs"]
mod year_of_work;

use second::dice::Dice;
use second::entry::{entry, entry_refusal};
use second::fast::Judge;
use second::limits::{MOST_LONG_RESTS, MOST_MINUTES, MOST_WEEKS};
use second::print::{print, print_card, print_spans};
use second::reading::{self, broken_rule, bytes, entries, Entry};
use second::recording::{
    list_long_rests, minutes, total_minutes, weigh, word, Activity, Recording, Weighing,
};
use second::spans::{breach_spans, Weeks};
use second::stored::{narrow_reading, widen_reading};
use second::verdict::{first_reading, verdict, Verdict};
use second::{card, fixed, grow, plain, small, stepwise, text, Limits, Refusal};
use shorthand::{judged, span, tight_weeks, times, words};

/// The text of a recording.
fn text_of(words: &[u32]) -> Vec<u8> {
    let mut text = vec![0; 1_000_000];
    let length = text::write(words, &mut text).expect("no refusal");
    text.truncate(length);
    text
}

/// "The total rises to 534,240 minutes, long rests to 987, text to 53 weeks": the three
/// go together.
#[test]
fn the_three_numbers() {
    assert_eq!(MOST_MINUTES, 534_240);
    assert_eq!(MOST_LONG_RESTS, 987);
    assert_eq!(MOST_WEEKS, 53);
    let limits = Limits::document();
    assert_eq!(limits.total, MOST_MINUTES);
    assert_eq!(limits.week * MOST_WEEKS as i64, MOST_MINUTES);
    let with_a_minute = limits.long_rest + 1;
    assert_eq!(MOST_MINUTES / with_a_minute, MOST_LONG_RESTS as i64);
}

/// What each operation that weighs answers, with room for everything.
fn weighed_by_all(words: &[u32]) -> Vec<Option<Refusal>> {
    let k = weigh(words).map_or(0, |weighing| weighing.long_rests);
    let mut reading = vec![0; 4 * k];
    vec![
        weigh(words).err(),
        list_long_rests(words, &mut vec![span(0, 0); k]).err(),
        fixed::test(words, 0).err(),
        fixed::article_test(words, 0).err(),
        reading::test(words, &reading).err(),
        verdict(words).err(),
        first_reading(words, &mut reading).err(),
        breach_spans(words, &mut [Weeks { first: 0, last: 0 }; 53]).err(),
        text::write(words, &mut vec![0; 1_000_000]).err(),
        card::write(words, &mut vec![0; 1_100_000]).err(),
    ]
}

#[test]
fn the_total() {
    for full in [
        words("r534240"),
        words("w60 r534180"),
        words("r534239 r1"),
        words(&times(53, "r10080")),
        words(&times(371, "r1440")),
    ] {
        assert_eq!(weighed_by_all(&full), vec![None; 10]);
        let over = [&full[..], &[4]].concat();
        assert_eq!(weighed_by_all(&over), vec![Some(Refusal::TotalPassed); 10]);
        let without_minutes = [&full[..], &[3, 4]].concat();
        let told = weighed_by_all(&without_minutes);
        assert_eq!(told, vec![Some(Refusal::NoMinutes); 10]);
    }
    let told = weighed_by_all(&words("r534241"));
    assert_eq!(told, vec![Some(Refusal::TotalPassed); 10]);
    // "m from 0 to N"
    let year = words("r534239 w1");
    assert_eq!(fixed::test(&year, 534_240), Ok(0));
    assert_eq!(fixed::test(&year, 534_241), Err(Refusal::StretchOverTotal));
}

/// Long rests of 540 minutes, each with a minute of another activity after it. Another
/// 273 minutes fit in, and so no other long rest.
#[test]
fn nine_hundred_and_eighty_seven_long_rests() {
    let weighing = |total, judged_end, long_rests| {
        Ok(Weighing {
            total,
            judged_end,
            long_rests,
        })
    };
    for (minute, activity) in [(1, 'a'), (2, 'w'), (3, 'd')] {
        let day = [4 * 540, 4 + minute];
        let most = day.repeat(987);
        assert_eq!(weigh(&most), weighing(533_967, 533_967, 987), "{activity}");
        let with_rest = [&most[..], &[4 * 273]].concat();
        assert_eq!(weigh(&with_rest), weighing(534_240, 533_967, 987));
        let with_work = [&most[..], &[4 * 273 + 2]].concat();
        assert_eq!(weigh(&with_work), weighing(534_240, 534_240, 987));
        let over = [&most[..], &[4 * 274]].concat();
        assert_eq!(weigh(&over), Err(Refusal::TotalPassed));
        // Without its last minute the last rest is open.
        let open = &most[..2 * 987 - 1];
        assert_eq!(weigh(open), weighing(533_966, 533_426, 986));
    }
    let most = [4 * 540, 4 + 2].repeat(987);
    let untouched = span(-1, -1);
    let mut list = vec![untouched; 988];
    let told = list_long_rests(&most, &mut list[..986]);
    assert_eq!(told, Err(Refusal::ListTooShort));
    assert_eq!(list, vec![untouched; 988]);
    assert_eq!(list_long_rests(&most, &mut list), Ok(987));
    assert_eq!(list[986], span(533_426, 533_966));
    assert_eq!(list[987], untouched);
}

/// Four bytes for each of them: 3,948.
#[test]
fn readings_of_987_entries() {
    let most = [4 * 540, 4 + 2].repeat(987);
    let breach = Verdict::Breach {
        minute: 4 * 541,
        article: 6,
    };
    assert_eq!(verdict(&most), Ok(breach));
    let mut lent = vec![7; 3_948];
    let told = first_reading(&most, &mut lent[..3_947]);
    assert_eq!(told, Err(Refusal::ReadingBufferTooShort));
    let told = first_reading(&most, &mut lent);
    assert_eq!(told, Err(Refusal::NoLawfulReading));
    assert_eq!(lent, vec![7; 3_948]);
    assert_eq!(reading::test(&most, &vec![0; 3_948]), Ok(9));
    for count in [0, 3 * 987, 3_944, 3_947, 3_949, 3_952] {
        let told = reading::test(&most, &vec![0; count]);
        assert_eq!(told, Err(Refusal::ReadingByteCount), "{count}");
    }
}

/// A week of twelve long rests, eleven of them daily ones.
const DENSE_WEEK: &str = "w60 r2700 w1 r660 w1 r660 w1 r660 w1 r660 w1 r660 w1 r660 \
                          w1 r660 w1 r660 w1 r660 w1 r660 w1 r660 w49 ";

#[test]
fn a_year_of_many_rests_passes() {
    let year = words(&times(53, DENSE_WEEK));
    let weighing = weigh(&year).unwrap();
    assert_eq!((weighing.total, weighing.long_rests), (534_240, 636));
    let reading = judged(&year).unwrap();
    assert_eq!(reading.len(), 4 * 636);
    for (number, entry) in entries(&reading).into_iter().enumerate() {
        let expected = match number % 12 {
            0 => Entry::weekly((number / 12) as u8, 0),
            _ => Entry::daily(),
        };
        assert_eq!(entry, expected, "{number}");
    }
    assert_eq!(reading::test(&year, &reading), Ok(0));
    let page = String::from_utf8(print(&text_of(&year)).into_bytes()).unwrap();
    assert!(page.starts_with("(verdict\n(minutes 534240)\n(judged 534240)\n(reading\n"));
    assert!(page.contains("\n(weekly 524220 526920 52 0)\n"));
    assert_eq!(page.lines().count(), 636 + 6);
    assert_eq!(print_spans(&text_of(&year)), "(spans\n)\n");
}

/// The year of examples/ is what its program makes. Its reduced weekly rests are paid back,
/// the last ones by rests over 255.
#[test]
fn an_ordinary_year() {
    let text = include_bytes!("../../examples/year.txt");
    assert_eq!(year_of_work::text().as_bytes(), text);
    let year = text::parse(text).expect("the year is of the form");
    assert_eq!(weigh(&year).map(|weighing| weighing.long_rests), Ok(286));
    let reading = judged(&year).unwrap();
    assert_eq!(reading::test(&year, &reading), Ok(0));
    let entries = entries(&reading);
    let carried: Vec<Entry> = (entries.iter().copied())
        .filter(|entry| entry.carrier > 0)
        .collect();
    assert_eq!(carried.len(), 24);
    assert_eq!(
        carried[22..],
        [Entry::weekly(46, 260), Entry::weekly(48, 271)]
    );
    // Each is paid back by the weekend after it.
    let weekly: Vec<usize> = (1..=286)
        .filter(|number| entries[number - 1].is_weekly())
        .collect();
    for pair in weekly.windows(2) {
        let carrier = usize::from(entries[pair[0] - 1].carrier);
        assert!(carrier == 0 || carrier == pair[1]);
    }
    // In week 46 the carrier's low byte alone is a rest before it.
    let mut low = reading.clone();
    let place = low.chunks(4).position(|entry| entry == [1, 46, 4, 1]);
    low[4 * place.expect("week 46") + 3] = 0;
    assert_eq!(reading::test(&year, &low), Ok(6));
    assert_eq!(breach_spans(&year, &mut []), Ok(0));
}

/// Figure 6 of source document 000 over a whole year: the first week's hour is handed on
/// for 53 weeks.
#[test]
fn a_year_handed_on() {
    let rests = shorthand::general_figure(53);
    assert_eq!(judged(&words(&tight_weeks(&rests))), Err((534_240, 6)));
    let (without_last, without_first) = (tight_weeks(&rests[..52]), tight_weeks(&rests[1..]));
    assert!(judged(&words(&without_first)).is_ok());
    let reading = judged(&words(&without_last)).unwrap();
    let handed_on: Vec<Entry> = (entries(&reading).into_iter())
        .filter(|entry| entry.carrier > 0)
        .collect();
    // Every other week, up to one whose carrier's own debt is due after the end.
    let weeks: Vec<u8> = handed_on.iter().map(|entry| entry.week).collect();
    assert_eq!(weeks, (0..=46).step_by(2).collect::<Vec<u8>>());
    assert!(handed_on.iter().any(|entry| entry.carrier > 255));
    let mut old = vec![9; reading.len()];
    assert_eq!(narrow_reading(&reading, &mut old), Err(Refusal::OldForm));
}

/// "text to 53 weeks"
#[test]
fn weeks_of_text() {
    let text = |weeks: usize| {
        format!(
            "(recording\n{})\n",
            "(week\n(rest 10080)\n)\n".repeat(weeks)
        )
    };
    let mut lent = [77; 54];
    assert_eq!(text::read(text(53).as_bytes(), &mut lent), Ok(53));
    assert_eq!(lent[..53], [4 * 10_080; 53]);
    assert_eq!(lent[53], 77);
    assert_eq!(text_of(&lent[..53]), text(53).as_bytes());
    let told = text::read(text(54).as_bytes(), &mut lent);
    assert_eq!(told, Err(Refusal::TextForm));
    let told = text::read(text(53).as_bytes(), &mut lent[..52]);
    assert_eq!(told, Err(Refusal::TooFewWords));
    let a_minute_more = text(53).replace("))\n", ")") + "(week\n(work 1)\n)\n)\n";
    let told = text::read(a_minute_more.as_bytes(), &mut lent);
    assert_eq!(told, Err(Refusal::TextForm));
    let page = "(verdict\n(minutes 534240)\n(judged 0)\n(reading\n)\n)\n";
    assert_eq!(print(text(53).as_bytes()), page);
    assert_eq!(print(text(54).as_bytes()), "(verdict\n(refused 8)\n)\n");
    // The desk program takes 65,536 bytes at most.
    let long = text_of(&words(&times(4_000, "r60 w60")));
    assert!(long.len() > 65_536);
    assert!(text::read(&long, &mut [0; 9_000]).is_ok());
    assert_eq!(print(&long), "(verdict\n(refused 9)\n)\n");
}

/// A card record may hold as many days as the total has.
#[test]
fn days_of_a_card() {
    let mut lent = [77; 373];
    assert_eq!(card::read(&[0; 2 * 371], &mut lent), Ok(371));
    assert_eq!(lent[..371], [4 * 1_440; 371]);
    assert_eq!(lent[371..], [77; 2]);
    let told = card::read(&[0; 2 * 372], &mut lent);
    assert_eq!(told, Err(Refusal::TotalPassed));
    let mut record = [7; 2 * 372];
    assert_eq!(card::write(&lent[..371], &mut record), Ok(2 * 371));
    assert_eq!(record[..2 * 371], [0; 2 * 371]);
    let told = card::write(&[4 * 1_440; 372], &mut record);
    assert_eq!(told, Err(Refusal::TotalPassed));
    let page = "(verdict\n(minutes 534240)\n(judged 0)\n(reading\n)\n)\n";
    assert_eq!(print_card(&[0; 2 * 371]), page);
    assert_eq!(print_card(&[0; 2 * 372]), "(verdict\n(refused 2)\n)\n");
}

/// "four bytes: kind, week, carrier low, carrier high"
#[test]
fn four_bytes_an_entry() {
    for (carrier, low, high) in [
        (0, 0, 0),
        (1, 1, 0),
        (255, 255, 0),
        (256, 0, 1),
        (257, 1, 1),
        (511, 255, 1),
        (512, 0, 2),
        (987, 219, 3),
        (65_535, 255, 255),
    ] {
        let entry = Entry::weekly(52, carrier);
        assert_eq!(entry.bytes(), [1, 52, low, high]);
        assert_eq!(entries(&[1, 52, low, high]), [entry]);
    }
    for carrier in 0..=u16::MAX {
        let entry = Entry::weekly(7, carrier);
        assert_eq!(entries(&entry.bytes()), [entry]);
        let [_, _, low, high] = entry.bytes();
        assert_eq!(
            usize::from(carrier),
            usize::from(low) + 256 * usize::from(high)
        );
    }
}

/// "the entry shown is four bytes": the part itself.
#[test]
fn the_entry_shown() {
    let reading: Vec<u8> = (0..4 * 987).map(|place| (place % 251) as u8).collect();
    for number in [1, 2, 255, 256, 257, 986, 987] {
        let part = entry(&reading, number);
        let expected = &reading[4 * (number - 1)..4 * number];
        assert!(std::ptr::eq(part, expected), "{number}");
        assert_eq!(entry_refusal(&reading, number), 0);
    }
    for number in [0, 988, 4 * 987, usize::MAX] {
        assert!(entry(&reading, number).is_empty());
        assert_eq!(entry_refusal(&reading, number), 7);
    }
    for cut in [1, 2, 3, 5, 6, 7] {
        let reading = &reading[..reading.len() - cut];
        for number in [0, 1, 988] {
            assert!(entry(reading, number).is_empty());
            assert_eq!(entry_refusal(reading, number), 6);
        }
    }
    // A quarter of the count, not a third.
    assert_eq!(entry_refusal(&[0; 12], 3), 0);
    assert_eq!(entry_refusal(&[0; 12], 4), 7);
    assert_eq!(entry_refusal(&[0; 9], 3), 6);
}

/// "The order of readings compares kind, then week, then carrier as a number."
#[test]
fn the_order_of_entries() {
    let rising = [
        Entry::daily(),
        Entry::weekly(0, 0),
        Entry::weekly(0, 1),
        Entry::weekly(0, 255),
        Entry::weekly(0, 256),
        Entry::weekly(0, 257),
        Entry::weekly(0, 511),
        Entry::weekly(0, 512),
        Entry::weekly(0, 987),
        Entry::weekly(1, 0),
        Entry::weekly(52, 3),
        Entry::weekly(52, 256),
    ];
    assert!(rising.is_sorted() && rising.windows(2).all(|pair| pair[0] < pair[1]));
    let out_of_byte_order = |pair: &&[Entry]| pair[0].bytes() > pair[1].bytes();
    assert_eq!(rising.windows(2).filter(out_of_byte_order).count(), 3);
}

/// Weeks of eleven long rests each, up to week 26. The weekly rest of week 22, number 243,
/// lacks 21 hours, which are due at the end of week 25. Of the rests 254 on, the second
/// and the third of week 23, numbers 255 and 256, can spare them.
fn two_carriers() -> Vec<u32> {
    let week = format!("w60 r2700 {}w120 ", times(10, "w60 r660"));
    let reduced = format!("w60 r1440 {}w120 ", times(10, "w186 r660"));
    let carriers = format!(
        "w60 r2700 w60 r1920 w60 r1920 {}w480 ",
        times(4, "w60 r660")
    );
    words(&(times(22, &week) + &reduced + &carriers + &times(3, &week)))
}

/// Two lawful readings that differ in the carriers 255 and 256: the first of them comes
/// before the other, and after it byte by byte.
#[test]
fn the_carrier_as_a_number() {
    let year = two_carriers();
    let first = judged(&year).unwrap();
    let mut other = entries(&first);
    assert_eq!(other[242], Entry::weekly(22, 255));
    assert!((243..256).all(|index| index == 253 || other[index] == Entry::daily()));
    other[242].carrier = 256;
    assert_eq!(reading::test(&year, &first), Ok(0));
    assert_eq!(reading::test(&year, &bytes(&other)), Ok(0));
    assert!(entries(&first) < other && first > bytes(&other));
    // The rests before and after these two cannot spare as much.
    for carrier in [0, 244, 252, 254, 257, 258] {
        other[242].carrier = carrier;
        assert_ne!(reading::test(&year, &bytes(&other)), Ok(0), "{carrier}");
    }
    // Only by its high byte a carrier is one of week 23.
    other[242].carrier = 255 + 256;
    assert_eq!(reading::test(&year, &bytes(&other)), Ok(6));
    let minutes = minutes(&year);
    let limits = Limits::document();
    let recording = Recording::new(&minutes, &limits);
    let stepwise = stepwise::first_lawful(&recording, 2_000_000);
    assert_eq!(stepwise, Ok(Some(first.clone())));
    assert!(print(&text_of(&year)).contains(" 22 255)\n"));
}

/// Without rest 255's minutes to spare, 256 pays back, and prints as a number.
#[test]
fn the_later_carrier() {
    let mut year = two_carriers();
    let place = (year.iter()).position(|&run| run == word(1_920, Activity::Rest));
    let place = place.expect("rest 255");
    year[place] = word(660, Activity::Rest);
    year[place - 1] = word(60 + 720, Activity::Work);
    year[place + 1] = word(60 + 540, Activity::Work);
    let first = judged(&year).unwrap();
    assert_eq!(first[4 * 242..4 * 243], [1, 22, 0, 1]);
    assert!(print(&text_of(&year)).contains(" 22 256)\n"));
}

/// Limits under which a rest of one minute is long, one of three may be weekly, one is so
/// by this minute, and what a weekly rest of week 0 lacks is due at that week's end.
fn limits_of_many_rests(week: i64, weekly_by: i64) -> Limits {
    Limits {
        total: 2 * week,
        week,
        long_rest: 1,
        day_length: week,
        weekly_rest: 3,
        daily_rest: 1,
        regular_weekly_rest: 5,
        due_weeks: 1,
        day_and_rest: 2 * week,
        regular_daily_rest: 1,
        earlier_rest_least: 1,
        earlier_rest_most: 1,
        later_portion: 1,
        between_weekly_rests: weekly_by,
        ..Limits::document()
    }
}

/// Many rests of a minute, then one that must be weekly, then a few of any length: their
/// numbers are about 256, and the week ends near the last of them.
fn many_rests(dice: &mut Dice) -> (Limits, Vec<u32>) {
    let day = |rest: u32| [word(1, Activity::Work), word(rest, Activity::Rest)];
    let before = dice.between(246, 254);
    let mut words: Vec<u32> = (0..before).flat_map(|_| day(1)).collect();
    let weekly_by = total_minutes(&words) + i64::from(dice.between(0, 3));
    words.extend(day(dice.between(3, 5)));
    for _ in 0..dice.between(3, 9) {
        let rest = [1, 1, 2, 3, 3, 4][dice.below(6) as usize];
        words.extend(day(rest));
    }
    let week = total_minutes(&words) + 2 - i64::from(dice.below(6));
    words.push(word(dice.between(2, 60), Activity::Work));
    (limits_of_many_rests(week, weekly_by), words)
}

/// Every reading that can keep rule 6, in the order in which they are tried.
fn each_reading(recording: &Recording, mut found: impl FnMut(&[Entry])) {
    let candidates: Vec<Vec<Entry>> = (1..=recording.long_rests.len())
        .map(|number| plain::candidates(recording, number))
        .collect();
    assert!(candidates.iter().all(|entries| entries.is_sorted()));
    let chosen: Vec<Entry> = candidates.iter().map(|entries| entries[0]).collect();
    let free: Vec<usize> = (0..candidates.len())
        .filter(|&index| candidates[index].len() > 1)
        .collect();
    let count: usize = free.iter().map(|&index| candidates[index].len()).product();
    for number in 0..count {
        let mut reading = chosen.clone();
        let mut left = number;
        for &index in free.iter().rev() {
            let entries = &candidates[index];
            reading[index] = entries[left % entries.len()];
            left /= entries.len();
        }
        found(&reading);
    }
}

/// The first lawful reading by search and by plain enumeration is the least of all lawful
/// ones by kind, week and carrier, also where the least byte by byte is another.
#[test]
fn first_readings_of_more_than_255_rests() {
    let mut dice = Dice::new(71);
    let (mut compared, mut with_carrier, mut over_255, mut others) = (0, 0, 0, 0);
    while compared < 250 {
        let (limits, words) = many_rests(&mut dice);
        let minutes = minutes(&words);
        let recording = Recording::new(&minutes, &limits);
        if plain::readings(&recording) > 600.0 {
            continue;
        }
        let (mut lawful, mut lawful_bytes) = (Vec::new(), Vec::new());
        each_reading(&recording, |reading| {
            if broken_rule(&recording, reading) == 0 {
                lawful_bytes.push(bytes(reading));
                lawful.push(reading.to_vec());
            }
        });
        let (least, least_by_byte) = (lawful.iter().min(), lawful_bytes.into_iter().min());
        let expected = least.map(|reading| bytes(reading));
        assert_eq!(plain::first_lawful(&recording), expected);
        let total = minutes.len() as i64;
        let found = Judge::new(&words, &limits).first_reading(total);
        assert_eq!(found, expected, "{limits:?} {words:?}");
        assert_eq!(stepwise::first_lawful(&recording, u64::MAX), Ok(found));
        compared += 1;
        let carriers = (least.into_iter().flatten()).map(|entry| entry.carrier);
        with_carrier += usize::from(carriers.clone().any(|carrier| carrier > 0));
        over_255 += usize::from(carriers.clone().any(|carrier| carrier > 255));
        others += usize::from(least_by_byte != expected);
    }
    println!("{with_carrier} of {compared} with a carrier, {over_255} over 255, {others} others byte by byte");
    assert!(with_carrier > 50 && over_255 > 10 && others > 10);
}

/// What a move answers, and the whole target after it.
fn moved(
    reading: &[u8],
    mut target: Vec<u8>,
    by: fn(&[u8], &mut [u8]) -> Result<usize, Refusal>,
) -> (Result<usize, u8>, Vec<u8>) {
    let told = by(reading, &mut target).map_err(Refusal::number);
    (told, target)
}

fn widened(old: &[u8]) -> Vec<u8> {
    let (told, wide) = moved(old, vec![0xAA; old.len() / 3 * 4], widen_reading);
    assert_eq!(told, Ok(wide.len()));
    wide
}

fn narrowed(wide: &[u8]) -> Option<Vec<u8>> {
    match moved(wide, vec![0xAA; wide.len() / 4 * 3], narrow_reading) {
        (Ok(count), old) => {
            assert_eq!(count, old.len());
            Some(old)
        }
        (told, old) => {
            assert_eq!(told, Err(15));
            assert!(old.iter().all(|&byte| byte == 0xAA));
            None
        }
    }
}

#[test]
fn moves() {
    assert_eq!(moved(&[], vec![], widen_reading), (Ok(0), vec![]));
    assert_eq!(moved(&[], vec![], narrow_reading), (Ok(0), vec![]));
    assert_eq!(moved(&[], vec![5, 6], widen_reading), (Ok(0), vec![5, 6]));
    assert_eq!(moved(&[], vec![5, 6], narrow_reading), (Ok(0), vec![5, 6]));
    let old = [1, 11, 255, 0, 0, 0, 200, 7, 9];
    let wide = [1, 11, 255, 0, 0, 0, 0, 0, 200, 7, 9, 0];
    assert_eq!(widened(&old), wide);
    assert_eq!(narrowed(&wide).as_deref(), Some(&old[..]));
    // What lies beyond stays.
    let beyond = [5, 6, 7, 8, 9];
    let lent = [&[0xAA; 12][..], &beyond].concat();
    let after = [&wide[..], &beyond].concat();
    assert_eq!(moved(&old, lent, widen_reading), (Ok(12), after));
    let lent = [&[0xAA; 9][..], &beyond].concat();
    let after = [&old[..], &beyond].concat();
    assert_eq!(moved(&wide, lent, narrow_reading), (Ok(9), after));
}

/// Kind, week and carrier are carried as they are. The move back turns away a week over 11
/// and a carrier over 255, of daily rests too, and no kind.
#[test]
fn every_byte() {
    for byte in 0..=255 {
        for (old, wide) in [
            ([byte, 0, 0], [byte, 0, 0, 0]),
            ([0, byte, 0], [0, byte, 0, 0]),
            ([1, byte, 3], [1, byte, 3, 0]),
            ([1, 0, byte], [1, 0, byte, 0]),
        ] {
            assert_eq!(widened(&old), wide);
            let week = old[1];
            let back = (week <= 11).then(|| old.to_vec());
            assert_eq!(narrowed(&wide), back, "{old:?}");
        }
        let high = [1, 0, 0, byte];
        let back = (byte == 0).then(|| vec![1, 0, 0]);
        assert_eq!(narrowed(&high), back);
    }
    for (wide, back) in [
        ([1, 11, 255, 0], Some(vec![1, 11, 255])),
        ([1, 12, 255, 0], None),
        ([1, 11, 0, 1], None),
        ([0, 12, 0, 0], None),
        ([0, 0, 0, 1], None),
        ([255, 255, 255, 255], None),
    ] {
        assert_eq!(narrowed(&wide), back, "{wide:?}");
    }
}

/// "Both moves refuse 6 on a count that doesn't divide into entries, then 4 if the target
/// is short, and the move back refuses last with 15". Nothing is written then.
#[test]
fn refusals_of_the_moves() {
    assert_eq!(Refusal::OldForm.number(), 15);
    for count in 0..40 {
        for lent in 0..60 {
            let target = vec![0xAA; lent];
            let reading = vec![1; count];
            let expected = match count {
                _ if count % 3 != 0 => Err(6),
                _ if lent < count / 3 * 4 => Err(4),
                _ => Ok(count / 3 * 4),
            };
            let (told, after) = moved(&reading, target.clone(), widen_reading);
            assert_eq!(told, expected, "{count} into {lent}");
            assert!(told.is_ok() || after == target);
            // With a week over 11 in any entry, with a carrier over 255, and with neither.
            for fault in [None, Some((1, 12)), Some((3, 1))] {
                let mut reading: Vec<u8> =
                    (0..count).map(|place| u8::from(place % 4 < 3)).collect();
                if let Some((place, byte)) = fault {
                    for entry in reading.chunks_exact_mut(4).rev().take(1) {
                        entry[place] = byte;
                    }
                }
                let expected = match count {
                    _ if count % 4 != 0 => Err(6),
                    _ if lent < count / 4 * 3 => Err(4),
                    _ if fault.is_some() && count > 0 => Err(15),
                    _ => Ok(count / 4 * 3),
                };
                let (told, after) = moved(&reading, target.clone(), narrow_reading);
                assert_eq!(told, expected, "{count} into {lent}, {fault:?}");
                assert!(told.is_ok() || after == target);
            }
        }
    }
}

/// "where no week byte is over 11, over and back gives the old bytes"; and where the move
/// back is not refused, back and over gives the new ones.
#[test]
fn over_and_back() {
    let mut dice = Dice::new(72);
    let (mut same, mut refused) = ([0; 2], [0; 2]);
    for _ in 0..20_000 {
        let count = dice.below(12) as usize;
        let most_week = [12, 13, 256][dice.below(3) as usize];
        let old: Vec<u8> = (0..3 * count)
            .map(|place| match place % 3 {
                1 => dice.below(most_week) as u8,
                _ => dice.below(256) as u8,
            })
            .collect();
        let back = narrowed(&widened(&old));
        let week_over_11 = old.chunks(3).any(|entry| entry[1] > 11);
        assert_eq!(back, (!week_over_11).then_some(old));
        refused[0] += usize::from(week_over_11);
        same[0] += usize::from(!week_over_11);

        let most_high = [1, 1, 2, 256][dice.below(4) as usize];
        let wide: Vec<u8> = (0..4 * count)
            .map(|place| match place % 4 {
                1 => dice.below(most_week) as u8,
                3 => dice.below(most_high) as u8,
                _ => dice.below(256) as u8,
            })
            .collect();
        let beyond = wide.chunks(4).any(|entry| entry[1] > 11 || entry[3] > 0);
        let old = narrowed(&wide);
        assert_eq!(old.is_none(), beyond);
        if let Some(old) = &old {
            assert_eq!(widened(old), wide);
        }
        refused[1] += usize::from(beyond);
        same[1] += usize::from(!beyond);
    }
    println!("over and back {same:?}, refused {refused:?}");
    assert!(same.iter().chain(&refused).all(|&count| count > 2_000));
}

/// What the reading test of three bytes an entry answers, its refusal by the number.
fn old_test(words: &[u32], old: &[u8]) -> Result<u8, u8> {
    let limits = Limits::document();
    let minutes = minutes(words);
    let recording = Recording::new(&minutes, &limits);
    if old.len() != 3 * recording.long_rests.len() {
        return Err(6);
    }
    let entry = |three: &[u8]| Entry {
        kind: three[0],
        week: three[1],
        carrier: u16::from(three[2]),
    };
    let entries: Vec<Entry> = old.chunks(3).map(entry).collect();
    Ok(broken_rule(&recording, &entries))
}

/// The place and the stored bytes of an entry that can keep rule 6, most often a weekly
/// one.
fn other_entry(dice: &mut Dice, recording: &Recording) -> Option<(usize, Vec<u8>)> {
    let free: Vec<usize> = (0..recording.long_rests.len())
        .filter(|&index| recording.long_rests[index].length() >= recording.limits.weekly_rest)
        .collect();
    let index = *free.get(dice.below(free.len().max(1) as u32) as usize)?;
    let candidates = plain::candidates(recording, index + 1);
    let entry = candidates[dice.below(candidates.len() as u32) as usize];
    Some((3 * index, narrowed(&entry.bytes())?))
}

/// Readings of twelve weeks, as found and with entries or a byte changed: moved over, a stored reading
/// is answered as before, and the order of two of them is the one byte by byte.
#[test]
fn stored_readings_of_twelve_weeks() {
    let mut dice = Dice::new(73);
    let limits = Limits {
        total: 120_960,
        ..Limits::document()
    };
    let (mut rules, mut refused, mut orders) = ([0; 12], 0, [0; 3]);
    for seed in 0..400 {
        let words = match seed % 4 {
            0 => grow::ordinary(&mut dice),
            1 => grow::grown(&mut dice),
            2 => grow::scarce(&mut dice),
            _ => small::recording(&mut dice, &limits, 30),
        };
        let total = weigh(&words).unwrap().total;
        assert!(total <= 120_960);
        let Some(first) = Judge::new(&words, &limits).first_reading(total) else {
            continue;
        };
        let first = narrowed(&first).expect("twelve weeks have weeks to 11, at most 223 rests");
        let minutes = minutes(&words);
        let recording = Recording::new(&minutes, &limits);
        assert_eq!(old_test(&words, &first), Ok(0));
        for round in 0..6 {
            let mut old = first.clone();
            for _ in 0..round {
                if let Some((place, entry)) = other_entry(&mut dice, &recording) {
                    old[place..place + 3].copy_from_slice(&entry);
                }
            }
            if round == 4 && !old.is_empty() {
                let place = dice.below(old.len() as u32) as usize;
                old[place] = dice.below(256) as u8;
            }
            if round == 5 && dice.one_in(4) {
                old.truncate(old.len().saturating_sub(3));
            }
            let wide = widened(&old);
            let before = old_test(&words, &old);
            let after = reading::test(&words, &wide).map_err(Refusal::number);
            assert_eq!(before, after, "{words:?} {old:?}");
            match after {
                Ok(rule) => rules[usize::from(rule)] += 1,
                Err(number) => refused += usize::from(number == 6),
            }
            let order = old.cmp(&first);
            assert_eq!(entries(&wide).cmp(&entries(&widened(&first))), order);
            orders[(order as i8 + 1) as usize] += 1;
        }
    }
    println!("rules {rules:?}, {refused} refused, orders {orders:?}");
    assert!(rules[0] > 200 && rules[6..].iter().all(|&count| count > 0));
    assert!(refused > 10 && orders.iter().all(|&count| count > 50));
}
