//! Each number of the documents at its edge.

mod shorthand;

use second::fixed;
use second::reading::{self, entries};
use second::recording::{list_long_rests, weigh, Span, Weighing};
use second::{Limits, Refusal};
use shorthand::{around, assert_breach, assert_pass, judged, span, times, words};

/// The answer of the fixed test for the whole recording.
fn fixed_rule(shorthand: &str) -> u8 {
    let words = words(shorthand);
    let total = weigh(&words).unwrap().total as usize;
    fixed::test(&words, total).unwrap()
}

fn reading_rule(shorthand: &str, reading: &[u8]) -> u8 {
    reading::test(&words(shorthand), reading).unwrap()
}

#[test]
fn total() {
    let weigh_words = |minutes: &[u32]| {
        let words: Vec<u32> = minutes.iter().map(|minutes| 4 * minutes).collect();
        weigh(&words).map(|weighing| weighing.total)
    };
    assert_eq!(weigh_words(&[]), Ok(0));
    assert_eq!(weigh_words(&[534_240]), Ok(534_240));
    assert_eq!(weigh_words(&[534_241]), Err(Refusal::TotalPassed));
    assert_eq!(weigh_words(&[534_240, 1]), Err(Refusal::TotalPassed));
    assert_eq!(weigh_words(&[534_240, 0]), Err(Refusal::NoMinutes));
    assert_eq!(weigh_words(&[534_241, 0]), Err(Refusal::TotalPassed));
    assert_eq!(weigh_words(&[0, 534_241]), Err(Refusal::NoMinutes));
    let huge = [u32::MAX / 4; 8];
    assert_eq!(weigh_words(&huge), Err(Refusal::TotalPassed));
    assert_eq!(weigh(&[u32::MAX; 8]).map(|_| ()), Err(Refusal::TotalPassed));
    for activity in 0..4 {
        assert_eq!(weigh(&[activity]).map(|_| ()), Err(Refusal::NoMinutes));
    }
}

#[test]
fn long_rests_and_the_open_rest() {
    let weighed = |shorthand| weigh(&words(shorthand)).unwrap();
    let weighing = |total, judged_end, long_rests| Weighing {
        total,
        judged_end,
        long_rests,
    };
    assert_eq!(weighed("w1 r540 w1"), weighing(542, 542, 1));
    assert_eq!(weighed("w1 r539 w1"), weighing(541, 541, 0));
    assert_eq!(weighed("w1 r540"), weighing(541, 1, 0));
    assert_eq!(weighed("r540"), weighing(540, 0, 0));
    assert_eq!(weighed("r270 r270 w1"), weighing(541, 541, 1));
    assert_eq!(
        weighed(&times(987, "r540 w1")),
        weighing(533_967, 533_967, 987)
    );
}

#[test]
fn list_of_long_rests() {
    let words = words("w10 r540 w10 r600 w1 r700");
    let untouched = span(-1, -1);
    let mut list = [untouched; 3];
    assert_eq!(list_long_rests(&words, &mut list), Ok(2));
    assert_eq!(list, [span(10, 550), span(560, 1_160), untouched]);
    let mut short: [Span; 1] = [untouched];
    assert_eq!(
        list_long_rests(&words, &mut short),
        Err(Refusal::ListTooShort)
    );
    assert_eq!(short, [untouched]);
    assert_eq!(list_long_rests(&[0], &mut short), Err(Refusal::NoMinutes));
}

#[test]
fn rule_2() {
    let drives = |driving: i64| format!("d270 r45 d{} r45 d60", driving - 330);
    assert_eq!(fixed_rule(&drives(600)), 0);
    assert_eq!(fixed_rule(&format!("{} d1", drives(600))), 2);
    let extended = format!("{} r600", drives(541));
    let days = |last: i64| format!("{}{}", times(2, &extended), drives(last));
    assert_eq!(fixed_rule(&days(540)), 0);
    assert_eq!(fixed_rule(&days(541)), 2);
    // The third extended day counts in the week in which it begins.
    assert_eq!(fixed_rule(&format!("r7616 w1 {}", days(541))), 2);
    assert_eq!(fixed_rule(&format!("r7617 w1 {}", days(541))), 0);
}

#[test]
fn rules_3_and_4() {
    let day = |driving: i64| format!("d270 r45 d{} r45 d60 r660 ", driving - 330);
    let week = format!("{}{}", day(600).repeat(2), day(540).repeat(4));
    assert_eq!(fixed_rule(&week), 0);
    assert_eq!(fixed_rule(&format!("{week} d1")), 3);
    let minutes = weigh(&words(&week)).unwrap().total;
    let monday = format!("{week} r{} ", 10_080 - minutes);
    // 3,360 in the first week leave 2,040 for the second.
    let second = format!("{monday}{}", day(510).repeat(4));
    assert_eq!(fixed_rule(&second), 0);
    assert_eq!(fixed_rule(&format!("{second} d1")), 4);
    // Driving from the second week's end on counts in the third.
    let reached = weigh(&words(&second)).unwrap().total;
    let third = |end: i64| format!("{second} r{} d1", end - reached);
    assert_eq!(fixed_rule(&third(20_160)), 0);
    assert_eq!(fixed_rule(&third(20_159)), 4);
}

#[test]
fn rule_1() {
    assert_eq!(fixed_rule("d270 r45 d270"), 0);
    assert_eq!(fixed_rule("d270 r44 d1"), 1);
    assert_eq!(fixed_rule("d100 r15 d170 r30 d270"), 0);
    assert_eq!(fixed_rule("d100 r15 d170 r29 d1"), 1);
    assert_eq!(fixed_rule("d100 r14 d170 r30 d1"), 1);
    // A rest before any driving is no first part.
    assert_eq!(fixed_rule("r15 d270 r30 d1"), 1);
    assert_eq!(fixed_rule("r15 d1 r15 d269 r30 d1"), 0);
    // A rest of 30 to 44 is itself a first part where none came before it.
    assert_eq!(fixed_rule("d100 r30 d170 r30 d270"), 0);
    // Clearing forgets the first part.
    assert_eq!(fixed_rule("d100 r15 d100 r30 d270 r30 d1"), 1);
    assert_eq!(fixed_rule("d100 r15 d100 r45 d270 r30 d1"), 1);
    // A second short rest stays a first part.
    assert_eq!(fixed_rule("d100 r15 d100 r29 d70 r30 d270"), 0);
    assert_eq!(fixed_rule("d270 a45 d1"), 1);
    assert_eq!(fixed_rule("d270 w45 d1"), 1);
}

#[test]
fn rule_5() {
    assert_eq!(fixed_rule("w900 r540 w900 r540"), 0);
    assert_eq!(fixed_rule("w901 r540"), 5);
    assert_eq!(fixed_rule("w900 r540 w901"), 5);
    assert_eq!(fixed_rule("w400 r539 w1"), 5);
    assert_eq!(fixed_rule("w400 r499 w1"), 0);
    assert_eq!(fixed_rule("w400 r500 w1"), 5);
}

#[test]
fn fixed_test_of_a_stretch() {
    let words = words("d270 d1 w10");
    assert_eq!(fixed::test(&words, 270), Ok(0));
    assert_eq!(fixed::test(&words, 271), Ok(1));
    assert_eq!(fixed::test(&words, 281), Ok(1));
    assert_eq!(fixed::test(&words, 282), Err(Refusal::StretchOverTotal));
    assert_eq!(
        fixed::test(&words, usize::MAX),
        Err(Refusal::StretchOverTotal)
    );
    assert_eq!(fixed::test(&[0], usize::MAX), Err(Refusal::NoMinutes));
    assert_eq!(fixed::test(&[u32::MAX], 0), Err(Refusal::TotalPassed));
}

#[test]
fn rule_6() {
    let one = "w1 r1440 w1";
    assert_eq!(reading_rule(one, &[0, 0, 0, 0]), 0);
    assert_eq!(reading_rule(one, &[1, 0, 0, 0]), 0);
    for broken in [
        [2, 0, 0, 0],
        [255, 0, 0, 0],
        [0, 1, 0, 0],
        [0, 0, 1, 0],
        [0, 0, 0, 1],
        [1, 1, 0, 0],
        [1, 0, 1, 0],
        [1, 0, 2, 0],
        [1, 0, 0, 1],
    ] {
        assert_eq!(reading_rule(one, &broken), 6, "{broken:?}");
    }
    assert_eq!(reading_rule("w1 r1439 w1", &[1, 0, 0, 0]), 6);
    // A carrier is a later long rest; this one has the room.
    let two = "w1 r2699 w1 r2701 w1";
    assert_eq!(reading_rule(two, &[1, 0, 2, 0, 1, 0, 0, 0]), 0);
    assert_eq!(reading_rule(two, &[1, 0, 3, 0, 1, 0, 0, 0]), 6);
    assert_eq!(reading_rule(two, &[1, 0, 1, 0, 1, 0, 0, 0]), 6);
    assert_eq!(reading_rule(two, &[1, 0, 0, 0, 1, 0, 1, 0]), 6);
    assert_eq!(reading_rule(two, &[1, 0, 2, 1, 1, 0, 0, 0]), 6);
}

#[test]
fn rule_6_the_minute_in_that_week() {
    // From a week's last minute, and up to a week's first.
    let rests = [
        span(4_000, 10_080),
        span(10_700, 20_160),
        span(20_200, 30_241),
    ];
    let words = around(&rests, 30_300);
    let rule = |weeks: [u8; 3]| {
        let reading: Vec<u8> = weeks.iter().flat_map(|&week| [1, week, 0, 0]).collect();
        let daily = weigh(&words).unwrap().long_rests - 3;
        let mut whole = vec![0; 4 * daily];
        whole.extend(reading);
        reading::test(&words, &whole).unwrap()
    };
    assert_eq!(rule([0, 1, 2]), 0);
    assert_eq!(rule([1, 1, 2]), 6);
    assert_eq!(rule([0, 0, 2]), 6);
    assert_eq!(rule([0, 2, 2]), 6);
    assert_eq!(rule([0, 1, 1]), 6);
    // The third may count in week 3, but week 2 then lacks it.
    assert_eq!(rule([0, 1, 3]), 11);
}

#[test]
fn rule_7() {
    // The first owes 1,260: what is left of the second must be 540 or 1,440.
    let daily =
        |length: i64| reading_rule(&format!("r1440 w1 r{length} w1"), &[1, 0, 2, 0, 0, 0, 0, 0]);
    assert_eq!(daily(1_800), 0);
    assert_eq!(daily(1_799), 7);
    let weekly =
        |length: i64| reading_rule(&format!("r1440 w1 r{length} w1"), &[1, 0, 2, 0, 1, 0, 0, 0]);
    assert_eq!(weekly(2_700), 0);
    assert_eq!(weekly(2_699), 7);
    assert_eq!(weekly(1_440), 7);
}

#[test]
fn rule_8_a_regular_rest_has_carrier_0() {
    assert_eq!(
        reading_rule("r2700 w1 r5000 w1", &[1, 0, 2, 0, 0, 0, 0, 0]),
        8
    );
    assert_eq!(
        reading_rule("r2699 w1 r5000 w1", &[1, 0, 2, 0, 0, 0, 0, 0]),
        0
    );
    // The second is regular only while it carries nothing.
    let rests = "r1440 w1 r3959 w1 r6000 w1";
    let rule = |first: u8, second: u8| {
        let reading = [1, 0, first, 0, 1, 0, second, 0, 1, 1, 0, 0];
        reading_rule(rests, &reading)
    };
    assert_eq!(rule(2, 0), 0);
    assert_eq!(rule(2, 3), 0);
    assert_eq!(rule(0, 3), 8);
}

/// A debt of 1,260 from week 0 and no rest that could carry it: its due,
/// 40,320, is the first S at which it is a breach.
#[test]
fn rule_8_due_after_the_judged_end() {
    let rests = [
        span(5_000, 6_440),
        span(14_000, 16_700),
        span(24_000, 25_440),
        span(34_000, 36_700),
    ];
    assert_eq!(judged(&around(&rests, 40_330)), Err((40_320, 6)));
    let reading = judged(&around(&rests, 40_319)).unwrap();
    assert!(entries(&reading).iter().all(|entry| entry.carrier == 0));
}

/// The same debt with a rest of 3,960 to carry it, which may end exactly at
/// due.
#[test]
fn rule_8_the_carrier_ends_no_later_than_due() {
    let judged_with_end = |end: i64| {
        let rests = [
            span(5_000, 6_440),
            span(14_000, 16_700),
            span(24_000, 25_440),
            span(30_500, 31_940),
            span(end - 3_960, end),
        ];
        judged(&around(&rests, 44_000))
    };
    assert!(judged_with_end(40_320).is_ok());
    assert_eq!(judged_with_end(40_321), Err((40_322, 6)));
}

/// Debts of 1,260 and 300, from weeks 0 and 2, and one rest with room for both
/// beside the 540 of its own; the other rests have none to spare.
#[test]
fn one_rest_carries_two_debts() {
    let judged_with_length = |length: i64| {
        let rests = [
            span(5_000, 6_440),
            span(14_000, 16_700),
            span(24_000, 26_400),
            span(30_500, 33_200),
            span(36_000, 36_000 + length),
            span(41_500, 42_940),
            span(48_900, 50_340),
            span(58_000, 60_700),
        ];
        judged(&around(&rests, 60_800))
    };
    let reading = judged_with_length(2_100).unwrap();
    let carriers: Vec<u16> = (entries(&reading).iter().map(|entry| entry.carrier))
        .filter(|&carrier| carrier > 0)
        .collect();
    assert_eq!(carriers.len(), 2);
    assert_eq!(carriers[0], carriers[1]);
    assert_eq!(judged_with_length(2_099), Err((60_701, 6)));
}

#[test]
fn rule_9() {
    let days = |day: &str| times(4, day) + "w1";
    assert_pass(&days("w780 r660"));
    assert_breach(&days("w780 r659"), 4 * 1_439 + 1, 6);
    // The portion ends 1,440 after P, however long the rest is.
    assert_pass(&days("w780 r700"));
    assert_breach(&days("w781 r700"), 4 * 1_481 + 1, 6);
    // A weekly rest starts the count again.
    let week = format!(
        "{}w600 r2700 {}w1",
        times(3, "w800 r640"),
        times(3, "w800 r640")
    );
    assert_pass(&week);
    // A daily rest that carries 1,260 has the rest of its length only.
    let carrying = |length: i64| {
        let days = times(3, "w780 r600") + "w1";
        let reading = [&[1, 0, 2, 0][..], &[0; 16]].concat();
        reading_rule(&format!("r1440 w1 r{length} w1 {days}"), &reading)
    };
    assert_eq!(carrying(1_920), 0);
    assert_eq!(carrying(1_919), 9);
}

/// Request 3: "an earlier rest of 180 to 539 minutes".
#[test]
fn rule_9_by_the_earlier_rest() {
    let days = |earlier: i64| times(4, &format!("w100 r{earlier} w{} r600", 740 - earlier)) + "w1";
    assert_breach(&days(179), 5_761, 6);
    assert_pass(&days(180));
    assert_pass(&days(539));
    // More than that is a long rest, and then no rest of the day.
    let limits = Limits::document();
    assert_eq!(limits.earlier_rest_most + 1, limits.long_rest);
    assert_breach(&(times(2, "w100 r540 w200 r600") + "w1"), 2_881, 6);
}

/// Request 3: "A daily rest with portion 540 or more".
#[test]
fn rule_9_by_the_later_portion() {
    assert_pass(&(times(4, "w100 r180 w560 r540") + "w1"));
    assert_pass(&(times(4, "w100 r180 w620 r600") + "w1"));
    // Less than that breaks rule 7 or rule 5.
    let limits = Limits::document();
    assert_eq!(limits.later_portion, limits.daily_rest);
    let by_the_window = limits.day_and_rest - limits.day_length;
    assert_eq!(limits.later_portion, by_the_window);
    let own = |length: i64| {
        let shorthand = format!("r2699 w100 r180 w560 r{length} w1");
        reading_rule(&shorthand, &[1, 0, 2, 0, 0, 0, 0, 0])
    };
    assert_eq!(own(541), 0);
    assert_eq!(own(540), 7);
    assert_eq!(fixed_rule("w100 r180 w621 r600 w1"), 5);
}

#[test]
fn rule_10() {
    let monday = |minute: i64| around(&[span(minute, minute + 2_700)], minute + 2_800);
    assert!(judged(&monday(8_640)).is_ok());
    assert_eq!(judged(&monday(8_641)), Err((8_641, 6)));
    let between = |gap: i64| {
        let rests = [span(2_000, 4_700), span(4_700 + gap, 7_400 + gap)];
        judged(&around(&rests, 7_500 + gap))
    };
    assert!(between(8_640).is_ok());
    assert_eq!(between(8_641), Err((13_341, 6)));
}

/// One weekly rest in two weeks, and two reduced ones: a breach once S is the
/// end of the second week.
#[test]
fn rule_11() {
    let one = [span(8_000, 11_600)];
    assert_eq!(judged(&around(&one, 20_300)), Err((20_160, 6)));
    assert!(judged(&around(&one, 20_159)).is_ok());
    let reduced = [span(7_000, 9_699), span(17_000, 19_699)];
    assert_eq!(judged(&around(&reduced, 20_300)), Err((20_160, 6)));
    let regular = [span(7_000, 9_699), span(17_000, 19_700)];
    assert!(judged(&around(&regular, 20_300)).is_ok());
}

/// "A week of rest minutes only counts as holding exactly one regular weekly
/// rest, however many are counted in it."
#[test]
fn rule_11_a_week_of_rest() {
    // Week 1 holds one without the rest that covers it, which week 0 needs.
    let rests = [
        span(8_000, 20_200),
        span(28_000, 30_700),
        span(38_000, 40_700),
    ];
    let reading = judged(&around(&rests, 41_000)).unwrap();
    let weeks: Vec<u8> = (entries(&reading).iter())
        .filter(|entry| entry.is_weekly())
        .map(|entry| entry.week)
        .collect();
    assert_eq!(weeks, [0, 2, 3]);
    // Counted in the week it covers, it adds nothing there.
    let words = around(&[span(8_000, 20_160)], 20_200);
    let daily = weigh(&words).unwrap().long_rests - 1;
    for (week, rule) in [(0, 0), (1, 11)] {
        let reading = [vec![0; 4 * daily], vec![1, week, 0, 0]].concat();
        assert_eq!(reading::test(&words, &reading), Ok(rule));
    }
}
