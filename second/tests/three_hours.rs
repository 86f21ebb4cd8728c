//! Request 3 of document 02, "Three hours, then nine": "A daily rest with portion
//! 540 or more no longer counts under rule 9 if its day holds an earlier rest of
//! 180 to 539 minutes." The day is the one that runs from P to its start.

mod shorthand;

use second::dice::Dice;
use second::fast::Judge;
use second::fixed;
use second::plain;
use second::reading::{self, broken_reading_rule, bytes, standings, Entry};
use second::recording::{minutes, rests, weigh, word, Activity, Recording};
use second::runs::{Course, LongRest};
use second::small;
use second::stepwise;
use second::verdict::Outcome;
use second::Limits;
use shorthand::{assert_breach, assert_pass, judged, plainly, times, words};

/// A pass by the verdict and plainly, and by both tests, with every rest daily.
fn pass(shorthand: &str) {
    assert_pass(shorthand);
    assert!(
        matches!(plainly(shorthand), Outcome::Pass(_)),
        "{shorthand}"
    );
    assert_eq!(tested(shorthand), (0, 0), "{shorthand}");
}

/// A breach of rule 9 in the last minute, and only there.
fn breach(shorthand: &str, minute: i64) {
    first_breach(shorthand, minute, 6);
    assert_eq!(tested(shorthand), (0, 9), "{shorthand}");
    let weighing = weigh(&words(shorthand)).unwrap();
    assert_eq!(weighing.total, minute, "{shorthand}");
}

/// A breach by the verdict and plainly.
fn first_breach(shorthand: &str, minute: i64, article: u8) {
    assert_breach(shorthand, minute, article);
    let expected = Outcome::Breach { minute, article };
    assert_eq!(plainly(shorthand), expected, "{shorthand}");
}

/// The answers of the fixed test and of the reading test, with every rest daily.
fn tested(shorthand: &str) -> (u8, u8) {
    let words = words(shorthand);
    let weighing = weigh(&words).unwrap();
    let daily = vec![0; 4 * weighing.long_rests];
    let fixed = fixed::test(&words, weighing.total as usize).unwrap();
    (fixed, reading::test(&words, &daily).unwrap())
}

/// So many days of these runs, and a minute to close the last rest.
fn days(count: usize, day: &str) -> String {
    times(count, day) + "w1"
}

/// Three days whose rest counts, so that no other may.
fn after_three(then: &str) -> String {
    times(3, "w840 r600") + then
}

/// "Four times (w300 r180 w360 r600), then w1, is then a pass."
#[test]
fn three_hours_then_nine() {
    let day = "w300 r180 w360 r600";
    pass(&days(4, day));
    assert_eq!(judged(&words(&days(4, day))), Ok(vec![0; 16]));
    pass(&days(5, day));
    // Six days on, a weekly rest is lacking.
    pass(&times(6, day));
    first_breach(&days(6, day), 8_641, 6);
    assert_eq!(tested(&days(6, day)), (0, 10));
}

#[test]
fn of_180_to_539_minutes() {
    breach(&days(4, "w300 r179 w361 r600"), 5_761);
    pass(&days(4, "w300 r180 w360 r600"));
    pass(&days(4, "w300 r181 w359 r600"));
    pass(&days(4, "w100 r538 w202 r600"));
    pass(&days(4, "w100 r539 w201 r600"));
    // A rest of 540 is long: it ends the day, and counts itself.
    breach(&days(2, "w100 r540 w200 r600"), 2_881);
    pass(&days(1, "w100 r540 w200 r600 w100 r540"));
}

/// One day alone, where three others count.
#[test]
fn the_fourth_day() {
    pass(&after_three("w300 r180 w360 r600 w1"));
    breach(&after_three("w300 r179 w361 r600 w1"), 5_761);
    pass(&after_three("w100 r539 w201 r600 w1"));
    // "Breach distances are read with the new rule 9": a day later.
    let fifth = "w300 r180 w360 r600 w840 r600 w1";
    breach(&after_three(fifth), 7_201);
}

/// The portion is the rest's length where it ends within 1,440 of P.
#[test]
fn portion_by_length() {
    pass(&days(4, "w300 r180 w360 r540"));
    breach(&days(4, "w300 r179 w361 r540"), 5_521);
    pass(&days(4, "w300 r180 w300 r659"));
    breach(&days(4, "w300 r179 w301 r659"), 5_757);
    pass(&days(4, "w300 r179 w301 r660"));
}

/// The portion ends 1,440 after P: at most 660 from 780 on, 540 from 900 on. From
/// 901 on it would be 539, but rule 5 is broken there.
#[test]
fn portion_by_the_window() {
    pass(&days(4, "w300 r179 w301 r700"));
    breach(&days(4, "w300 r179 w302 r700"), 5_925);
    pass(&days(4, "w300 r180 w301 r700"));
    pass(&days(4, "w300 r180 w420 r600"));
    breach(&days(4, "w300 r179 w421 r600"), 6_001);
    let late = "w300 r180 w421 r600 w1";
    first_breach(late, 901, 5);
    assert_eq!(tested(late), (5, 5));
}

/// A weekly rest, then a day whose rest pays back what that lacks, then three days
/// whose rests count. Of its own that rest has 540 at least, or rule 7 is broken.
#[test]
fn portion_by_a_load() {
    let tested = |weekly: i64, day: &str| {
        let shorthand = format!("r{weekly} {day} {}", after_three("w1"));
        let entries = [&[1, 0, 2, 0][..], &[0; 16]].concat();
        reading::test(&words(&shorthand), &entries).unwrap()
    };
    for (weekly, debt) in [(2_699, 1), (2_640, 60), (1_440, 1_260)] {
        let rule = |before: &str, own: i64| tested(weekly, &format!("{before} r{}", own + debt));
        assert_eq!(rule("w300 r180 w360", 540), 0);
        assert_eq!(rule("w300 r179 w361", 540), 9);
        assert_eq!(rule("w100 r539 w201", 540), 0);
        assert_eq!(rule("w300 r180 w360", 539), 7);
        assert_eq!(rule("w300 r179 w361", 539), 7);
        assert_eq!(rule("w300 r180 w300", 659), 0);
        assert_eq!(rule("w300 r179 w301", 659), 9);
        assert_eq!(rule("w300 r179 w301", 660), 0);
        // Own 600 of which the window leaves 540.
        assert_eq!(rule("w300 r180 w420", 600), 0);
        assert_eq!(rule("w300 r179 w421", 600), 9);
    }
}

#[test]
fn in_the_day_before() {
    let four = days(4, "w840 r600");
    breach(&format!("w300 r180 w360 r600 {four}"), 7_201);
    breach(&format!("w1 r539 w300 r600 {four}"), 7_201);
    let three = days(3, "w840 r600");
    pass(&format!("w300 r180 w360 r600 {three}"));
    // Every other day holds one.
    let two_days = "w300 r180 w360 r600 w840 r600";
    pass(&format!("{}w1", times(2, two_days)));
    pass(&format!("w840 r600 {}w1", times(2, two_days)));
}

#[test]
fn after_the_long_rest() {
    first_breach(&after_three("w840 r600 w1 r180 w1"), 5_761, 6);
    first_breach(&after_three("w840 r600 w300 r180 w360 r600 w1"), 5_761, 6);
}

#[test]
fn two_in_a_day() {
    pass(&days(4, "w100 r180 w200 r180 w180 r600"));
    pass(&days(4, "w100 r179 w200 r180 w181 r600"));
    pass(&days(4, "w100 r180 w200 r179 w181 r600"));
    // They don't add up, and none is left for another day.
    breach(&days(4, "w100 r179 w200 r179 w182 r600"), 5_761);
    breach(&days(4, "w300 r90 w1 r90 w359 r600"), 5_761);
    let four = days(4, "w840 r600");
    breach(&format!("w100 r180 w200 r180 w180 r600 {four}"), 7_201);
}

#[test]
fn from_minute_0() {
    let three = days(3, "w840 r600");
    pass(&format!("r180 w660 r600 {three}"));
    breach(&format!("r179 w661 r600 {three}"), 5_761);
    pass(&format!("r539 w301 r600 {three}"));
    // 540 are a long rest of portion 540, and its day is empty.
    let two = days(2, "w840 r600");
    breach(&format!("r540 w300 r600 {two}"), 4_321);
    pass(&format!("r660 w300 r600 {two}"));
    // It is in the first day alone.
    let four = days(4, "w840 r600");
    breach(&format!("r180 w660 r600 {four}"), 7_201);
}

/// A minute after the day's start, a minute before its end. Without that minute it
/// belongs to the long rest.
#[test]
fn at_the_ends_of_the_day() {
    pass(&days(4, "w1 r180 w659 r600"));
    pass(&days(4, "w659 r180 w1 r600"));
    breach(&days(4, "w840 r180 r420"), 5_761);
    breach(&days(2, "w840 r600 r180 w660 r600"), 5_761);
}

#[test]
fn one_unbroken_rest() {
    pass(&days(4, "w300 r90 r90 w360 r600"));
    breach(&days(4, "w300 r90 a1 r90 w359 r600"), 5_761);
    breach(&days(4, "w300 a180 w360 r600"), 5_761);
    breach(&days(4, "w480 w360 r600"), 5_761);
    pass(&days(4, "d240 a60 r180 d150 w90 d120 r600"));
}

/// "Open rests are ignored in every rule": what is open is neither the earlier rest
/// nor the later one.
#[test]
fn the_open_rest() {
    pass(&times(4, "w300 r179 w361 r600"));
    pass(&after_three("w300 r180"));
    pass(&after_three("w300 r179 w361 r600"));
    pass(&after_three("w300 r180 w360 r600"));
    breach(&after_three("w300 r179 w361 r600 w1"), 5_761);
    first_breach(&after_three("w840 r600 w300 r180"), 5_761, 6);
}

/// A rest of 25 hours need not be weekly any more to start the count again.
#[test]
fn the_first_lawful_reading() {
    let read = |day: &str| judged(&words(&after_three(day)));
    let daily = vec![0; 16];
    let weekly = [&[0; 12][..], &[1, 0, 0, 0]].concat();
    assert_eq!(read("w300 r180 w360 r1500 w1"), Ok(daily));
    assert_eq!(read("w300 r179 w361 r1500 w1"), Ok(weekly));
}

/// The rule over the list of rests: P is the end of the long rest before, and the
/// earlier rests are those between the two.
fn counts_by_the_list(recording: &Recording, index: usize, own: i64) -> bool {
    let limits = recording.limits;
    let rest = recording.long_rests[index];
    let day_start = match index {
        0 => 0,
        _ => recording.long_rests[index - 1].end,
    };
    let portion = own.min(day_start + limits.day_and_rest - rest.start);
    let in_two = rests(recording.minutes)
        .iter()
        .filter(|earlier| day_start <= earlier.start && earlier.end < rest.start)
        .map(|earlier| earlier.length())
        .any(|length| limits.earlier_rest_least <= length && length <= limits.earlier_rest_most);
    match portion {
        _ if portion >= limits.regular_daily_rest => false,
        _ if portion >= limits.later_portion => !in_two,
        _ => true,
    }
}

/// Rule 9 for rests of these owns: the daily ones between weekly ones, and how many
/// of them count.
fn rule_9_by_the_list(recording: &Recording, entries: &[Entry], owns: &[i64]) -> bool {
    let counts = |index: usize| {
        let daily = !entries[index].is_weekly();
        daily.then(|| counts_by_the_list(recording, index, owns[index]))
    };
    let all: Vec<Option<bool>> = (0..entries.len()).map(counts).collect();
    all.split(Option::is_none).all(|between| {
        let counted = between.iter().filter(|counts| **counts == Some(true));
        counted.count() <= recording.limits.reduced_daily_rests
    })
}

/// The same numbers without request 3: no rest is of this length.
fn without_request_3(limits: &Limits) -> Limits {
    Limits {
        earlier_rest_least: i64::MAX,
        ..*limits
    }
}

/// Small limits under which daily rests are shortened and freed more often than
/// fixed rules are broken.
fn limits(dice: &mut Dice) -> Limits {
    let small = small::limits(dice);
    let mut pick = |least: u32, most: u32| i64::from(dice.between(least, most));
    let (week, long_rest) = (pick(30, 60), 4);
    let regular_daily_rest = long_rest + pick(1, 3);
    let weekly_rest = regular_daily_rest + pick(1, 3);
    Limits {
        total: 12 * week,
        week,
        long_rest,
        unbroken_driving: 40,
        day_driving: 40,
        ordinary_day_driving: 40,
        week_driving: 60,
        fortnight_driving: 90,
        day_length: pick(16, 24),
        weekly_rest,
        daily_rest: long_rest,
        regular_weekly_rest: weekly_rest + pick(1, 4),
        day_and_rest: pick(18, 30),
        regular_daily_rest,
        earlier_rest_least: pick(1, 2),
        earlier_rest_most: pick(2, 3),
        later_portion: long_rest + pick(0, 1),
        reduced_daily_rests: pick(0, 2) as usize,
        between_weekly_rests: week * pick(8, 16) / 8,
        ..small
    }
}

/// What random readings have met: the rule that each breaks first, where request 3
/// decides, and where a load does.
#[derive(Debug, Default)]
struct Met {
    rules: [usize; 12],
    freed: usize,
    freed_under_a_load: usize,
}

impl Met {
    /// Holds the reading test's rule 9 against the list of rests, where it is read.
    fn reading(&mut self, recording: &Recording, entries: &[Entry]) {
        let rule = broken_reading_rule(recording, entries);
        self.rules[usize::from(rule)] += 1;
        if (1..9).contains(&rule) {
            return;
        }
        let standings = standings(recording, entries).expect("rule 6 holds");
        let owns: Vec<i64> = standings.iter().map(|(_, own)| *own).collect();
        let holds = rule_9_by_the_list(recording, entries, &owns);
        let words = shown(recording);
        assert_eq!(
            rule != 9,
            holds,
            "{words} {entries:?} {:?}",
            recording.limits
        );
        let limits = without_request_3(recording.limits);
        let before = Recording::new(recording.minutes, &limits);
        if rule != 9 && broken_reading_rule(&before, entries) == 9 {
            self.freed += 1;
            let loaded = (entries.iter().map(|entry| usize::from(entry.carrier)))
                .filter(|&carrier| carrier > 0)
                .any(|carrier| !entries[carrier - 1].is_weekly());
            self.freed_under_a_load += usize::from(loaded);
        }
    }
}

fn shown(recording: &Recording) -> String {
    let letter = |activity: &Activity| ["r", "a", "w", "d"][activity.code() as usize];
    recording.minutes.iter().map(letter).collect()
}

/// A reading that keeps rule 6: weekly in a week of the rest, with a later carrier
/// now and then.
fn any_reading(dice: &mut Dice, recording: &Recording) -> Vec<Entry> {
    let count = recording.long_rests.len();
    (1..=count)
        .map(|number| {
            let candidates = plain::candidates(recording, number);
            if dice.one_in(2) {
                return candidates[0];
            }
            let mut entry = candidates[dice.below(candidates.len() as u32) as usize];
            if dice.one_in(2) {
                entry.carrier = 0;
            }
            entry
        })
        .collect()
}

/// Days of duty and rest for any limits: some with a rest about as long as the
/// earlier one, most with a long rest that may count, few with a weekly one.
fn days_of_any_limits(dice: &mut Dice, limits: &Limits, most: u32) -> Vec<u32> {
    let mut words = Vec::new();
    let around = |dice: &mut Dice, least: i64, most: i64| {
        let minutes = dice.between(least.max(1) as u32, most.max(1) as u32);
        word(minutes, Activity::Rest)
    };
    let duty = |dice: &mut Dice, most: i64| {
        let activity = Activity::ALL[dice.weighted(&[0, 2, 5, 1])];
        word(dice.between(1, most.max(1) as u32), activity)
    };
    if dice.one_in(4) {
        words.push(around(
            dice,
            limits.earlier_rest_least - 1,
            limits.long_rest,
        ));
    }
    for _ in 0..dice.between(1, most) {
        words.push(duty(dice, limits.day_length / 3));
        for _ in 0..dice.weighted(&[3, 4, 1]) {
            words.push(around(
                dice,
                limits.earlier_rest_least - 1,
                limits.earlier_rest_most + 1,
            ));
            words.push(duty(dice, limits.day_length / 3));
        }
        words.push(match dice.below(6) {
            0 => around(dice, limits.weekly_rest, limits.regular_weekly_rest + 1),
            1 => around(dice, limits.regular_daily_rest, limits.weekly_rest),
            _ => around(dice, limits.long_rest, limits.regular_daily_rest),
        });
    }
    words.push(duty(dice, 1));
    words
}

/// Readings of small recordings: the reading test against the list of rests.
#[test]
fn rule_9_by_the_list_of_rests() {
    let mut dice = Dice::new(31);
    let mut met = Met::default();
    for _ in 0..6_000 {
        let limits = limits(&mut dice);
        let words = days_of_any_limits(&mut dice, &limits, 8);
        let minutes = minutes(&words);
        let recording = Recording::new(&minutes, &limits);
        for _ in 0..4 {
            let entries = any_reading(&mut dice, &recording);
            met.reading(&recording, &entries);
        }
    }
    println!("small limits: {met:?}");
    assert!(met.rules[9] > 3_000 && met.rules[0] > 3_000);
    assert!(met.freed > 1_000 && met.freed_under_a_load > 50);
}

/// Days under the documents' numbers: lengths and starts at their edges, and weekly
/// rests that lack so much as a daily rest can pay back.
fn days_at_the_edges(dice: &mut Dice) -> Vec<u32> {
    let mut words = Vec::new();
    for day in 0..dice.between(4, 7) {
        let start = [780, 781, 840, 899, 900, 901][dice.weighted(&[2, 3, 5, 3, 5, 1])];
        let earlier = [0, 120, 179, 180, 300, 538, 539][dice.weighted(&[4, 1, 3, 3, 2, 1, 2])];
        let before = dice.between(1, start - earlier - 1);
        let begins = day == 0 && dice.one_in(2);
        words.extend((!begins).then(|| word(before, Activity::Work)));
        words.extend((earlier > 0).then(|| word(earlier, Activity::Rest)));
        let after = start - earlier - if begins { 0 } else { before };
        words.push(word(after, Activity::Work));
        let debt = [0, 1, 60][dice.below(3) as usize];
        let rest = match dice.weighted(&[8, 3, 1]) {
            0 => [540, 541, 600, 658, 659, 660][dice.below(6) as usize] + debt,
            1 => [2_640, 2_699, 1_440][dice.below(3) as usize],
            _ => 2_700,
        };
        words.push(word(rest, Activity::Rest));
    }
    words.push(word(1, Activity::Work));
    words
}

#[test]
fn rule_9_under_the_documents_numbers() {
    let limits = Limits::document();
    let mut dice = Dice::new(32);
    let mut met = Met::default();
    for _ in 0..3_000 {
        let words = days_at_the_edges(&mut dice);
        let minutes = minutes(&words);
        let recording = Recording::new(&minutes, &limits);
        for _ in 0..4 {
            let entries = any_reading(&mut dice, &recording);
            met.reading(&recording, &entries);
            let right = reading::broken_rule(&recording, &entries);
            assert_eq!(reading::test(&words, &bytes(&entries)), Ok(right));
        }
    }
    println!("the documents' numbers: {met:?}");
    assert!(met.rules[9] > 1_000 && met.rules[0] > 1_000);
    assert!(met.freed > 500 && met.freed_under_a_load > 50);
}

/// Each long rest, run by run, against the list of rests, with any own.
#[test]
fn long_rests_run_by_run() {
    let mut dice = Dice::new(33);
    let (mut held, mut none) = (0, 0);
    for _ in 0..6_000 {
        let limits = match dice.below(2) {
            0 => small::limits(&mut dice),
            _ => limits(&mut dice),
        };
        let words: Vec<u32> = match dice.below(2) {
            0 => days_of_any_limits(&mut dice, &limits, 8),
            _ => (0..dice.below(40))
                .map(|_| 4 * dice.between(1, 4) + dice.below(4))
                .collect(),
        };
        let minutes = minutes(&words);
        let recording = Recording::new(&minutes, &limits);
        let long_rests = Course::new(&words, &limits).long_rests;
        assert_eq!(long_rests.len(), recording.long_rests.len());
        for (index, rest) in long_rests.iter().enumerate() {
            for own in -1..=rest.span.length() {
                let counts = counts_by_the_list(&recording, index, own);
                let run_by_run = LongRest::is_shortened(rest, own, &limits);
                assert_eq!(counts, run_by_run, "{words:?} {index} {own}");
            }
            held += usize::from(rest.earlier_rest);
            none += usize::from(!rest.earlier_rest);
        }
    }
    println!("{held} long rests with an earlier rest in their day, {none} without");
    assert!(held > 3_000 && none > 3_000);
}

/// Verdicts of small recordings, plainly and by the search; how many would be
/// others without request 3.
#[test]
fn verdicts_of_small_recordings() {
    let mut dice = Dice::new(34);
    let (mut others, mut later_breaches, mut other_readings, mut same) = (0, 0, 0, 0);
    while others + same < 6_000 {
        let limits = limits(&mut dice);
        let words = days_of_any_limits(&mut dice, &limits, 7);
        let minutes = minutes(&words);
        let recording = Recording::new(&minutes, &limits);
        if minutes.len() as i64 > limits.total || plain::readings(&recording) > 500.0 {
            continue;
        }
        let expected = plain::outcome(&recording);
        let found = Judge::new(&words, &limits).outcome();
        assert_eq!(expected, found, "{limits:?} {words:?}");
        let before = Judge::new(&words, &without_request_3(&limits)).outcome();
        match (&before, &found) {
            _ if before == found => same += 1,
            (Outcome::Pass(_), Outcome::Pass(_)) => other_readings += 1,
            (Outcome::Breach { minute, .. }, Outcome::Breach { minute: later, .. }) => {
                assert!(minute <= later);
                later_breaches += 1;
            }
            (Outcome::Breach { .. }, Outcome::Pass(_)) => {}
            _ => panic!("request 3 makes a breach of {words:?} under {limits:?}"),
        }
        others += usize::from(before != found);
    }
    println!("{others} other verdicts: {later_breaches} later breaches, {other_readings} readings; {same} the same");
    assert!(others > 500 && later_breaches > 50 && other_readings > 20 && same > 500);
}

/// Verdicts under the documents' numbers, held plainly: the first lawful reading, or
/// none at the breach and one before it.
#[test]
fn verdicts_of_days_at_the_edges() {
    let limits = Limits::document();
    let mut dice = Dice::new(35);
    let (mut passes, mut breaches, mut others) = (0, 0, 0);
    for _ in 0..600 {
        let words = days_at_the_edges(&mut dice);
        let minutes = minutes(&words);
        let recording = Recording::new(&minutes, &limits);
        let first = |m: usize| plain::first_lawful(&recording.stretch(m));
        let found = Judge::new(&words, &limits).outcome();
        match &found {
            Outcome::Pass(reading) => {
                assert_eq!(first(minutes.len()).as_ref(), Some(reading), "{words:?}");
                passes += 1;
            }
            Outcome::Breach { minute, .. } => {
                let m = *minute as usize;
                let lawful = (first(m - 1).is_some(), first(m).is_some());
                assert_eq!(lawful, (true, false), "{words:?} {m}");
                breaches += 1;
            }
        }
        let before = Judge::new(&words, &without_request_3(&limits)).outcome();
        others += usize::from(before != found);
    }
    println!("{passes} passes, {breaches} breaches, {others} others without request 3");
    assert!(passes > 100 && breaches > 100 && others > 50);
}

/// Limits under which weekly rests must follow one another soon, lack little, and are
/// paid back soon; and a daily rest with an earlier one may pay back some of it and
/// stay freed, but not all.
fn limits_of_debts(dice: &mut Dice) -> Limits {
    let mut pick = |least: u32, most: u32| i64::from(dice.between(least, most));
    let (week, weekly_rest) = (pick(40, 70), pick(9, 10));
    Limits {
        total: 12 * week,
        week,
        long_rest: 4,
        day_length: 24,
        weekly_rest,
        daily_rest: 4,
        regular_weekly_rest: weekly_rest + pick(2, 3),
        due_weeks: pick(1, 2),
        day_and_rest: 40,
        regular_daily_rest: 8,
        earlier_rest_least: 1,
        earlier_rest_most: 3,
        later_portion: pick(5, 7),
        reduced_daily_rests: pick(0, 1) as usize,
        between_weekly_rests: pick(10, 30),
        ..Limits::document()
    }
}

/// Days of few minutes, most with an earlier rest, and a daily or a weekly rest.
fn days_of_debts(dice: &mut Dice, limits: &Limits) -> Vec<u32> {
    let (weekly, regular) = (limits.weekly_rest as u32, limits.regular_weekly_rest as u32);
    let mut words = Vec::new();
    for _ in 0..dice.between(3, 7) {
        words.push(word(1, Activity::Work));
        if !dice.one_in(4) {
            words.extend([word(1, Activity::Rest), word(1, Activity::Work)]);
        }
        let rest = match dice.below(2) {
            0 => dice.between(4, 8),
            _ => dice.between(weekly, regular),
        };
        words.push(word(rest, Activity::Rest));
    }
    words.push(word(dice.between(1, 20), Activity::Work));
    words
}

/// The search against readings entry by entry, where rests that request 3 frees pay
/// back.
#[test]
fn freed_rests_that_pay_back() {
    let mut dice = Dice::new(36);
    let (mut lawful, mut none, mut others) = (0, 0, 0);
    for _ in 0..60_000 {
        let limits = limits_of_debts(&mut dice);
        let words = days_of_debts(&mut dice, &limits);
        let minutes = minutes(&words);
        let total = minutes.len() as i64;
        let recording = Recording::new(&minutes, &limits);
        let Ok(expected) = stepwise::first_lawful(&recording, 20_000) else {
            continue;
        };
        let found = Judge::new(&words, &limits).first_reading(total);
        assert_eq!(expected, found, "{limits:?} {words:?}");
        lawful += usize::from(found.is_some());
        none += usize::from(found.is_none());
        let before = Judge::new(&words, &without_request_3(&limits)).first_reading(total);
        others += usize::from(before != found);
    }
    println!("{lawful} with a reading, {none} without, {others} others without request 3");
    assert!(lawful > 10_000 && none > 10_000 && others > 3_000);
}
