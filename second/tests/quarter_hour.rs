//! Request 2 of document 02, "A quarter hour before setting off": "From now on a
//! rest is a first part only if driving has been done since the sum was last
//! cleared, or since minute 0 if it never was. Whatever relies on the break sum
//! follows: the fixed test, the reading test and the verdict."

mod shorthand;

use second::dice::Dice;
use second::fixed;
use second::reading;
use second::recording::{minutes, open_rest, rests, weigh, Recording, Span};
use second::runs::Course;
use second::small;
use second::verdict::Outcome;
use second::Limits;
use shorthand::{assert_breach, assert_pass, judged, plainly, words};

/// A pass by the verdict and plainly, and by both tests.
fn pass(shorthand: &str) {
    assert_pass(shorthand);
    assert!(
        matches!(plainly(shorthand), Outcome::Pass(_)),
        "{shorthand}"
    );
    let words = words(shorthand);
    let total = weigh(&words).unwrap().total as usize;
    assert_eq!(fixed::test(&words, total), Ok(0), "{shorthand}");
    let first = judged(&words).unwrap();
    assert_eq!(reading::test(&words, &first), Ok(0), "{shorthand}");
}

/// A breach of article 7 in the last minute, and only there.
fn breach(shorthand: &str, minute: i64) {
    assert_breach(shorthand, minute, 1);
    let expected = Outcome::Breach { minute, article: 1 };
    assert_eq!(plainly(shorthand), expected, "{shorthand}");
    let words = words(shorthand);
    let m = minute as usize;
    assert_eq!(fixed::test(&words, m - 1), Ok(0), "{shorthand}");
    assert_eq!(fixed::test(&words, m), Ok(1), "{shorthand}");
    let weighing = weigh(&words).unwrap();
    assert_eq!(weighing.total, minute, "{shorthand}");
    let daily = vec![0; 4 * weighing.long_rests];
    assert_eq!(reading::test(&words, &daily), Ok(1), "{shorthand}");
}

/// "r15 d270 r30 d1 was a pass and becomes a breach at 316."
#[test]
fn a_quarter_hour_before_setting_off() {
    breach("r15 d270 r30 d1", 316);
    pass("r15 d270 r30");
    pass("r15 d270 r45 d1");
    pass("r15 d269 r30 d1");
    // Equal neighbours are one rest.
    breach("r10 r5 d270 r30 d1", 316);
    pass("r10 d1 r10 r5 d269 r30 d1");
}

#[test]
fn a_quarter_hour_after_the_first_minute() {
    pass("r15 d1 r15 d269 r30 d1");
    breach("r15 d1 r14 d269 r30 d1", 330);
    pass("d1 r15 d269 r30 d1");
    breach("d1 r14 d269 r30 d1", 315);
}

/// Up to 44 minutes; 45 clear the sum, which was 0.
#[test]
fn longer_rests_before_setting_off() {
    breach("r29 d270 r30 d1", 330);
    breach("r30 d270 r30 d1", 331);
    breach("r44 d270 r30 d1", 345);
    breach("r45 d270 r30 d1", 346);
    breach("r540 d270 r30 d1", 841);
    // Nor is one of them the second part of another.
    breach("r15 w1 r30 w1 r15 d270 r30 d1", 15 + 1 + 30 + 1 + 316);
}

/// The rest of 30 to 44 minutes that is no second part is a first part itself.
#[test]
fn the_break_after_a_quarter_hour_is_a_first_part() {
    pass("r15 d100 r30 d170 r30 d270");
    breach("r15 d100 r29 d170 r29 d1", 15 + 100 + 29 + 170 + 29 + 1);
    pass("r15 d100 r29 d170 r30 d270");
}

#[test]
fn availability_and_work_are_no_driving() {
    breach("a60 r15 d270 r30 d1", 60 + 316);
    breach("w60 r15 d270 r30 d1", 60 + 316);
    breach("w60 r44 d270 r30 d1", 60 + 345);
    breach("w20 a20 w20 r15 d270 r30 d1", 60 + 316);
    pass("w60 d1 r15 d269 r30 d1");
    pass("d1 w60 r15 d269 r30 d1");
    pass("d1 a60 r15 d269 r30 d1");
}

/// After a rest of 45 or more, and after a second part.
#[test]
fn a_quarter_hour_after_clearing() {
    for (cleared, minutes) in [
        ("d100 r45", 145),
        ("d100 r540", 640),
        ("d100 r15 d10 r30", 155),
        ("d100 r15 w10 r44", 169),
    ] {
        for between in ["w10", "a10", "w5 a5"] {
            for rest in [15, 30, 44] {
                let set_off = minutes + 10 + rest;
                let shorthand = format!("{cleared} {between} r{rest} d270 r30 d1");
                breach(&shorthand, set_off + 301);
                // One minute of driving before it makes it a first part.
                pass(&format!("{cleared} {between} d1 r{rest} d269 r30 d1"));
                pass(&format!("{cleared} d1 {between} r{rest} d269 r30 d1"));
            }
        }
    }
}

#[test]
fn clearing_forgets_the_first_part() {
    breach("d100 r15 d100 r30 d270 r30 d1", 546);
    breach("d100 r15 d100 r45 d270 r30 d1", 561);
    // Also where the first part came just before the break that clears.
    breach("d1 r15 w1 r45 d270 r30 d1", 363);
    breach("d1 r15 w1 r30 w1 r15 d270 r30 d1", 364);
}

/// A longer day: only from its start on is a quarter hour no first part.
#[test]
fn the_second_half_of_a_day() {
    pass("r15 d270 r45 d135 r15 d135 r30 w1");
    pass("r15 d270 r45 d200 r15 d70 r30 d60");
    breach("r15 d270 r45 w30 r15 d270 r30 d1", 15 + 270 + 45 + 30 + 316);
}

/// What a rest is to the sum.
#[derive(Clone, Copy, PartialEq, Eq)]
enum Break {
    Clears,
    FirstPart,
    /// It would be a first part if driving had been done.
    NoDrivingDone,
    Shorter,
}

/// Each closed rest, by the rests before it and the driving since the last of
/// them that clears.
fn breaks(recording: &Recording) -> Vec<(Span, Break)> {
    let limits = recording.limits;
    let open = open_rest(recording.minutes);
    let mut breaks: Vec<(Span, Break)> = Vec::new();
    for rest in rests(recording.minutes) {
        if Some(rest) == open {
            break;
        }
        let first_part = (breaks.iter().rev())
            .take_while(|(_, kind)| *kind != Break::Clears)
            .any(|(_, kind)| *kind == Break::FirstPart);
        let driven = recording.driving(since_cleared(&breaks, rest.start)) > 0;
        let kind = match rest.length() {
            length if length >= limits.full_break => Break::Clears,
            length if length >= limits.second_part && first_part => Break::Clears,
            length if length >= limits.first_part && driven => Break::FirstPart,
            length if length >= limits.first_part => Break::NoDrivingDone,
            _ => Break::Shorter,
        };
        breaks.push((rest, kind));
    }
    breaks
}

/// From the end of the last rest that clears the sum, or minute 0, to a point.
fn since_cleared(breaks: &[(Span, Break)], end: i64) -> Span {
    let cleared = |(rest, kind): &(Span, Break)| *kind == Break::Clears && rest.end <= end;
    let last = breaks.iter().rev().find(|one| cleared(one));
    Span {
        start: last.map_or(0, |(rest, _)| rest.end),
        end,
    }
}

/// "The sum never passes 270", at any minute.
fn rule_1_holds(recording: &Recording, breaks: &[(Span, Break)]) -> bool {
    (0..=recording.total()).all(|minute| {
        let sum = recording.driving(since_cleared(breaks, minute));
        sum <= recording.limits.unbroken_driving
    })
}

/// Both ways in which the program says rule 1, on small recordings of any runs.
#[test]
fn rule_1_rest_by_rest() {
    let mut dice = Dice::new(21);
    let mut met = [0; 4];
    let (mut kept, mut broken) = (0, 0);
    for _ in 0..6_000 {
        let limits = small::limits(&mut dice);
        let words: Vec<u32> = (0..dice.below(24))
            .map(|_| 4 * dice.between(1, 4) + dice.below(4))
            .collect();
        let minutes = minutes(&words);
        let recording = Recording::new(&minutes, &limits);
        let breaks = breaks(&recording);
        let holds = rule_1_holds(&recording, &breaks);
        assert_eq!(fixed::broken_rule(&recording) != 1, holds, "{words:?}");
        let rule_1_alone = Limits {
            day_driving: i64::MAX,
            ordinary_day_driving: i64::MAX,
            week_driving: i64::MAX,
            fortnight_driving: i64::MAX,
            day_length: limits.total,
            ..limits
        };
        let breach = Course::new(&words, &rule_1_alone).first_fixed_breach();
        assert_eq!(breach.is_none(), holds, "{words:?}");
        if let Some(breach) = breach {
            let before = recording.stretch(breach.minute as usize - 1);
            assert!(rule_1_holds(&before, &breaks), "{words:?}");
        }
        for (_, kind) in breaks {
            met[kind as usize] += 1;
        }
        kept += usize::from(holds);
        broken += usize::from(!holds);
    }
    println!("{kept} kept, {broken} broken, rests {met:?}");
    assert!(kept > 1_000 && broken > 1_000 && met.iter().all(|&count| count > 1_000));
}
