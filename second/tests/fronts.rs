//! The model of fronts against the search: the front after the last long rest
//! closes exactly where the recording has a lawful reading.

mod shorthand;

use second::dice::Dice;
use second::fast::Judge;
use second::fronts::Front;
use second::grow;
use second::runs::Course;
use second::Limits;
use shorthand::{times, words};

/// Whether the recording has a reading that keeps rules 6 to 11, by the front,
/// and how wide that was at its widest.
fn by_fronts(course: &Course) -> (bool, usize) {
    let mut front = Front::new(course.judged_end(course.total));
    let mut widest = front.width();
    for rest in &course.long_rests {
        front = front.after(*rest, usize::MAX).expect("any width will do");
        widest = widest.max(front.width());
    }
    (front.closes(), widest)
}

/// Compares them on each recording that keeps the fixed rules, and on some of
/// its stretches; gives how often there was a reading, how often none, and the
/// greatest width.
fn compare(recordings: impl Iterator<Item = Vec<u32>>) -> (u32, u32, usize) {
    let limits = Limits::document();
    let (mut yes, mut no, mut widest) = (0, 0, 0);
    for words in recordings {
        for length in [words.len(), words.len() / 2, words.len() / 3] {
            let words = &words[..length];
            let course = Course::new(words, &limits);
            if course.first_fixed_breach().is_some() {
                continue;
            }
            let (closes, width) = by_fronts(&course);
            let lawful = Judge::new(words, &limits).is_lawful(course.total);
            assert_eq!(closes, lawful, "{words:?}");
            if lawful {
                yes += 1;
            } else {
                no += 1;
            }
            widest = widest.max(width);
        }
    }
    println!("{yes} with a reading, {no} without, width up to {widest}");
    (yes, no, widest)
}

#[test]
fn ordinary_and_grown_recordings() {
    let grown = (0..300).map(|seed| grow::grown(&mut Dice::new(seed)));
    let ordinary = (0..100).map(|seed| grow::ordinary(&mut Dice::new(seed)));
    let (yes, no, _) = compare(grown.chain(ordinary));
    assert!(yes > 500 && no > 30);
}

#[test]
fn split_recordings() {
    let (yes, _, _) = compare((0..40).map(|seed| grow::split(&mut Dice::new(seed))));
    let days = |count, earlier| {
        let day = format!("w100 r{earlier} w{} r600 ", 740 - earlier);
        words(&(times(count, &day) + "w1"))
    };
    let short = [3, 4, 5]
        .into_iter()
        .flat_map(|count| [179, 180, 539].map(|earlier| days(count, earlier)));
    let (short_yes, no, _) = compare(short);
    assert!(yes > 80 && short_yes > 10 && no > 1);
}

#[test]
fn scarce_recordings() {
    let (yes, no, _) = compare((0..40).map(|seed| grow::scarce(&mut Dice::new(seed))));
    assert!(yes > 20 && no > 10);
}

#[test]
fn years() {
    let scarce = (0..6).map(|seed| grow::scarce_of_weeks(&mut Dice::new(seed), 53));
    let grown = (0..40).map(|seed| grow::grown_of_weeks(&mut Dice::new(seed), 53));
    let through = (0..4).map(|seed| grow::grown_through(&mut Dice::new(seed), 53));
    let ordinary = (0..10).map(|seed| grow::ordinary_weeks(&mut Dice::new(seed), 53));
    let (yes, no, _) = compare(scarce.chain(grown).chain(through).chain(ordinary));
    assert!(yes > 60 && no > 5);
}

#[test]
fn climbed_recordings_are_wide() {
    let climbed = |seed| grow::climbed(&mut Dice::new(seed), 8, 400);
    let (yes, no, widest) = compare((0..40).map(climbed));
    assert!(yes > 20 && no > 5 && widest > 300);
}
