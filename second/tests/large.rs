//! Recordings of any size, where plain enumeration cannot follow: what can
//! still be seen of a verdict by the rules themselves.

use second::dice::Dice;
use second::fast::Judge;
use second::fixed;
use second::grow;
use second::reading::{self, entries};
use second::recording::{minutes, total_minutes, weigh, Recording};
use second::runs::Course;
use second::verdict::Outcome;
use second::Limits;

/// A pass gives a lawful reading; before a breach there is one, from the breach
/// on there is none, and its article is read off the fixed rules.
fn check(words: &[u32]) -> Outcome {
    let limits = Limits::document();
    let minutes = minutes(words);
    let mut judge = Judge::new(words, &limits);
    let outcome = judge.outcome();
    let lawful = |reading: &[u8], m: i64| {
        let stretch = Recording::new(&minutes[..m as usize], &limits);
        reading::broken_rule(&stretch, &entries(reading)) == 0
    };
    match &outcome {
        Outcome::Pass(first) => assert!(lawful(first, minutes.len() as i64)),
        Outcome::Breach { minute, article } => {
            let before = judge.first_reading(minute - 1).expect("lawful before");
            assert!(lawful(&before, minute - 1));
            for m in [
                *minute,
                (minute + minutes.len() as i64) / 2,
                minutes.len() as i64,
            ] {
                assert!(!judge.is_lawful(m));
            }
            let stretch = Recording::new(&minutes[..*minute as usize], &limits);
            let rule = fixed::broken_rule(&stretch);
            assert_eq!(*article, if rule == 0 { 6 } else { rule });
        }
    }
    outcome
}

fn passes(outcomes: &[Outcome]) -> usize {
    let pass = |outcome: &&Outcome| matches!(outcome, Outcome::Pass(_));
    outcomes.iter().filter(pass).count()
}

#[test]
fn ordinary_weeks() {
    let outcomes: Vec<_> = (0..200)
        .map(|seed| check(&grow::ordinary(&mut Dice::new(seed))))
        .collect();
    println!("ordinary: {} of 200 pass", passes(&outcomes));
    assert!(passes(&outcomes) > 100);
}

/// Days of three hours, then nine: most would be too many shortened ones without
/// request 3.
#[test]
fn split_weeks() {
    let recordings: Vec<_> = (0..60)
        .map(|seed| grow::split(&mut Dice::new(seed)))
        .collect();
    let outcomes: Vec<_> = recordings.iter().map(|words| check(words)).collect();
    let before = Limits {
        earlier_rest_least: i64::MAX,
        ..Limits::document()
    };
    let others = (recordings.iter().zip(&outcomes))
        .filter(|(words, outcome)| Judge::new(words, &before).outcome() != **outcome)
        .count();
    let (held, days) = recordings
        .iter()
        .map(|words| held_rests(words))
        .fold((0, 0), |(held, days), (more_held, more_days)| {
            (held + more_held, days + more_days)
        });
    println!(
        "split: {} of 60 pass, {others} other outcomes without request 3, {held} of {days} days",
        passes(&outcomes)
    );
    assert!(passes(&outcomes) > 40 && others > 40 && 3 * held > days);
}

/// The long rests whose day holds an earlier rest of 180 to 539 minutes, and all.
fn held_rests(words: &[u32]) -> (usize, usize) {
    let limits = Limits::document();
    let long_rests = Course::new(words, &limits).long_rests;
    let held = long_rests.iter().filter(|rest| rest.earlier_rest);
    (held.count(), long_rests.len())
}

#[test]
fn random_words() {
    let mut weighed = 0;
    for seed in 0..2_000 {
        let words = grow::random_words(&mut Dice::new(seed));
        if weigh(&words).is_ok() {
            check(&words);
            weighed += 1;
        }
    }
    println!("random words: {weighed} of 2000 weighed");
    assert!(weighed > 500);
}

#[test]
fn grown_recordings() {
    let recordings: Vec<_> = (0..120)
        .map(|seed| grow::grown(&mut Dice::new(seed)))
        .collect();
    let outcomes: Vec<_> = recordings.iter().map(|words| check(words)).collect();
    let twelve_weeks = |words: &&Vec<u32>| total_minutes(words) == 120_960;
    let full = recordings.iter().filter(twelve_weeks).count();
    println!(
        "grown: {} of 120 pass, {full} have twelve weeks",
        passes(&outcomes)
    );
    assert!(passes(&outcomes) > 40 && passes(&outcomes) < 120 && full > 10);
}

#[test]
fn hard_recordings() {
    let mut in_the_last_week = 0;
    for seed in 0..12 {
        match check(&grow::hard(&mut Dice::new(seed), 60)) {
            Outcome::Breach { minute, article: 6 } if minute > 110_880 => in_the_last_week += 1,
            _ => {}
        }
    }
    println!("hard: {in_the_last_week} of 12 breached in the last week");
    assert!(in_the_last_week > 4);
}

#[test]
fn scarce_carriers() {
    let outcomes: Vec<_> = (0..40)
        .map(|seed| check(&grow::scarce(&mut Dice::new(seed))))
        .collect();
    println!("scarce: {} of 40 pass", passes(&outcomes));
    assert!(passes(&outcomes) > 2 && passes(&outcomes) < 38);
}

/// A kind of recording, and how many of it.
type Kind = (u64, fn(&mut Dice) -> Vec<u32>);

/// Recordings of a year of every kind.
#[test]
fn years() {
    let kinds: [Kind; 7] = [
        (20, |dice| grow::ordinary_weeks(dice, 53)),
        (8, |dice| grow::split_of_weeks(dice, 53)),
        (60, |dice| grow::grown_of_weeks(dice, 53)),
        (8, |dice| grow::grown_through(dice, 53)),
        (16, |dice| grow::scarce_of_weeks(dice, 53)),
        (3, |dice| grow::hard_of_weeks(dice, 20, 53)),
        (3, |dice| grow::climbed_of_weeks(dice, 8, 100, 53)),
    ];
    let (mut outcomes, mut late, mut over_255) = (Vec::new(), 0, 0);
    for (count, grow) in kinds {
        for seed in 0..count {
            let outcome = check(&grow(&mut Dice::new(seed)));
            match &outcome {
                Outcome::Pass(reading) => {
                    let mut entries = entries(reading).into_iter();
                    over_255 += usize::from(entries.any(|entry| entry.carrier > 255));
                }
                Outcome::Breach { minute, .. } => late += usize::from(*minute > 120_960),
            }
            outcomes.push(outcome);
        }
    }
    let (passes, all) = (passes(&outcomes), outcomes.len());
    println!(
        "years: {passes} of {all} pass, {over_255} with a carrier over 255, {late} late breaches"
    );
    assert!(passes > 40 && over_255 > 5 && late > 10);
}

/// The most long rests there can be.
#[test]
fn nine_hundred_and_eighty_seven_rests() {
    let words = [4 * 540, 4 + 2].repeat(987);
    assert_eq!(weigh(&words).map(|weighing| weighing.long_rests), Ok(987));
    let outcome = check(&words);
    let breach = Outcome::Breach {
        minute: 4 * 541,
        article: 6,
    };
    assert_eq!(outcome, breach);
}
