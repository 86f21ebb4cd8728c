//! The search against plain enumeration, on small recordings from a generator
//! with a fixed seed.

mod seen;

use second::dice::Dice;
use second::fast::Judge;
use second::fixed;
use second::plain;
use second::reading::counts_under_rule_9;
use second::recording::{minutes, total_minutes, Recording};
use second::runs::Course;
use second::small;
use second::stepwise::{self, GivenUp};
use second::verdict::Outcome;
use second::Limits;
use seen::Seen;

#[test]
fn runs_tell_what_minutes_tell() {
    let mut dice = Dice::new(11);
    for _ in 0..4_000 {
        let limits = small::limits(&mut dice);
        let count = dice.below(40);
        let words: Vec<u32> = (0..count)
            .map(|_| 4 * dice.between(1, 9) + dice.below(4))
            .collect();
        let minutes = minutes(&words);
        let whole = Recording::new(&minutes, &limits);
        let course = Course::new(&words, &limits);
        for m in 0..=minutes.len() {
            compare_stretch(&whole.stretch(m), &course, m as i64);
        }
    }
}

/// S, the long rests with their P and whether they count under rule 9, and the
/// smallest fixed rule broken.
fn compare_stretch(stretch: &Recording, course: &Course, m: i64) {
    let rests = &course.long_rests[..course.long_rests_in(m)];
    assert_eq!(stretch.judged_end, course.judged_end(m));
    assert_eq!(stretch.long_rests.len(), rests.len());
    for (span, rest) in stretch.long_rests.iter().zip(rests) {
        assert_eq!(*span, rest.span);
        assert_eq!(stretch.previous_end(span.start), rest.previous_end);
        for own in 0..=span.length() {
            let counts = counts_under_rule_9(stretch, *span, own);
            assert_eq!(counts, rest.is_shortened(own, stretch.limits));
        }
    }
    let rule = fixed::broken_rule(stretch);
    match course.first_fixed_breach() {
        Some(breach) if m == breach.minute => assert_eq!(rule, breach.rule),
        Some(breach) => assert_eq!(rule != 0, m > breach.minute),
        None => assert_eq!(rule, 0),
    }
}

/// A small recording, grown or tight or tightened too far.
fn small_recording(dice: &mut Dice, limits: &Limits, most_rests: u32) -> Vec<u32> {
    if dice.one_in(2) {
        return small::recording(dice, limits, most_rests);
    }
    let (lawful, too_far) = small::tight(dice, limits, most_rests);
    match too_far {
        Some(words) if dice.one_in(2) => words,
        _ => lawful,
    }
}

#[test]
fn verdicts_on_small_recordings() {
    let mut dice = Dice::new(1);
    let mut seen = Seen::default();
    while seen.recordings < 12_000 {
        let limits = small::limits(&mut dice);
        let words = small_recording(&mut dice, &limits, 10);
        let minutes = minutes(&words);
        let recording = Recording::new(&minutes, &limits);
        if plain::readings(&recording) > 500.0 {
            continue;
        }
        let expected = plain::outcome(&recording);
        let found = Judge::new(&words, &limits).outcome();
        assert_eq!(expected, found, "{limits:?} {words:?}");
        seen.outcome(&recording, &expected);
    }
    println!("verdicts, plain: {seen:?}");
    seen.assert_breaches();
    seen.assert_readings();
}

#[test]
fn first_readings_of_small_stretches() {
    let mut dice = Dice::new(2);
    let mut seen = Seen::default();
    while seen.recordings < 12_000 {
        let limits = small::limits(&mut dice);
        let words = small_recording(&mut dice, &limits, 12);
        let total = total_minutes(&words) as u32;
        let m = dice.between(total / 2, total);
        let minutes = minutes(&words);
        let stretch = Recording::new(&minutes[..m as usize], &limits);
        if plain::readings(&stretch) > 8_000.0 {
            continue;
        }
        let expected = plain::first_lawful(&stretch);
        let mut judge = Judge::new(&words, &limits);
        let found = judge.first_reading(i64::from(m));
        assert_eq!(expected, found, "{limits:?} {words:?} {m}");
        assert_eq!(expected.is_some(), judge.is_lawful(i64::from(m)));
        seen.first_reading(&stretch, expected.as_deref());
    }
    println!("stretches, plain: {seen:?}");
    seen.assert_readings();
}

/// A breach minute is right if the stretch before it has a lawful reading and
/// its own has none.
#[test]
fn verdicts_of_a_middle_size() {
    let mut dice = Dice::new(3);
    let mut seen = Seen::default();
    let mut given_up = 0;
    while seen.recordings < 8_000 {
        let limits = small::limits(&mut dice);
        let words = small_recording(&mut dice, &limits, 26);
        let minutes = minutes(&words);
        let recording = Recording::new(&minutes, &limits);
        let found = Judge::new(&words, &limits).outcome();
        match verdict_is_right(&recording, &found) {
            Ok(right) => assert!(right, "{limits:?} {words:?} {found:?}"),
            Err(GivenUp) => {
                given_up += 1;
                continue;
            }
        }
        seen.outcome(&recording, &found);
    }
    println!("verdicts, stepwise ({given_up} given up): {seen:?}");
    seen.assert_breaches();
    seen.assert_readings();
    assert!(seen.carried_with_others > 20);
}

/// The same for up to 53 weeks of a few minutes each, a pass or a breach after the twelfth.
#[test]
fn verdicts_after_twelve_weeks() {
    let mut dice = Dice::new(6);
    let mut seen = Seen::default();
    let mut given_up = 0;
    while seen.recordings < 120 {
        let limits = small::limits_of_weeks(&mut dice, 53);
        let words = small::recording(&mut dice, &limits, 100);
        let found = Judge::new(&words, &limits).outcome();
        let reached = match found {
            Outcome::Pass(_) => total_minutes(&words),
            Outcome::Breach { minute, .. } => minute,
        };
        if reached <= 12 * limits.week {
            continue;
        }
        let minutes = minutes(&words);
        let recording = Recording::new(&minutes, &limits);
        match verdict_is_right(&recording, &found) {
            Ok(right) => assert!(right, "{limits:?} {words:?} {found:?}"),
            Err(GivenUp) => {
                given_up += 1;
                continue;
            }
        }
        seen.outcome(&recording, &found);
    }
    println!("after twelve weeks, stepwise ({given_up} given up): {seen:?}");
    assert!(seen.passes > 30 && seen.reading_breaches > 20 && seen.carried > 20);
}

fn verdict_is_right(recording: &Recording, verdict: &Outcome) -> Result<bool, GivenUp> {
    let first = |m: usize| stepwise::first_lawful(&recording.stretch(m), 5_000);
    match verdict {
        Outcome::Pass(reading) => Ok(first(recording.minutes.len())?.as_ref() == Some(reading)),
        Outcome::Breach { minute, article } => {
            let m = *minute as usize;
            let rule = fixed::broken_rule(&recording.stretch(m));
            let article_is_right = *article == if rule == 0 { 6 } else { rule };
            Ok(first(m - 1)?.is_some() && first(m)?.is_none() && article_is_right)
        }
    }
}

#[test]
fn first_readings_under_the_document() {
    let limits = Limits::document();
    let mut dice = Dice::new(4);
    let mut seen = Seen::default();
    let mut given_up = 0;
    while seen.recordings < 400 {
        let words = small::recording(&mut dice, &limits, 40);
        let minutes = minutes(&words);
        let recording = Recording::new(&minutes, &limits);
        let Ok(expected) = stepwise::first_lawful(&recording, 20_000) else {
            given_up += 1;
            continue;
        };
        let total = minutes.len() as i64;
        let found = Judge::new(&words, &limits).first_reading(total);
        assert_eq!(expected, found, "{words:?}");
        seen.first_reading(&recording, expected.as_deref());
    }
    println!("the document's limits, stepwise ({given_up} given up): {seen:?}");
}

#[test]
fn stepwise_against_plain() {
    let mut dice = Dice::new(5);
    let mut compared = 0;
    while compared < 5_000 {
        let limits = small::limits(&mut dice);
        let words = small::recording(&mut dice, &limits, 9);
        let minutes = minutes(&words);
        let recording = Recording::new(&minutes, &limits);
        if plain::readings(&recording) > 8_000.0 {
            continue;
        }
        let expected = plain::first_lawful(&recording);
        let found = stepwise::first_lawful(&recording, u64::MAX);
        assert_eq!(Ok(expected), found, "{limits:?} {words:?}");
        compared += 1;
    }
}
