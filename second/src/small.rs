//! Small recordings to compare on, for limits of any size, from a generator
//! with a fixed seed.

use crate::dice::Dice;
use crate::fast::Judge;
use crate::limits::Limits;
use crate::recording::{total_minutes, word, word_activity, word_minutes, Activity};

/// Limits under which a week is a few minutes long and a debt soon due, for twelve
/// weeks.
pub fn limits(dice: &mut Dice) -> Limits {
    limits_of_weeks(dice, 12)
}

/// The same for so many weeks.
pub fn limits_of_weeks(dice: &mut Dice, weeks: u32) -> Limits {
    let mut pick = |least: u32, most: u32| i64::from(dice.between(least, most));
    let week = pick(12, 40);
    let long_rest = pick(1, 4);
    let weekly_rest = long_rest + pick(2, 5);
    let earlier_rest_least = pick(1, 2);
    Limits {
        total: i64::from(weeks) * week,
        week,
        long_rest,
        full_break: 4,
        first_part: 2,
        second_part: 3,
        unbroken_driving: pick(5, 12),
        day_driving: pick(8, 14),
        ordinary_day_driving: pick(4, 8),
        extended_days: pick(0, 2) as usize,
        week_driving: pick(8, 20),
        fortnight_driving: pick(12, 30),
        day_length: pick(6, 24),
        weekly_rest,
        daily_rest: long_rest,
        regular_weekly_rest: weekly_rest + pick(1, 7),
        due_weeks: [1, 1, 2, 2, 3, 4][pick(0, 5) as usize],
        day_and_rest: pick(8, 28),
        regular_daily_rest: long_rest + pick(0, 2),
        earlier_rest_least,
        earlier_rest_most: earlier_rest_least + pick(0, 2),
        later_portion: long_rest + pick(0, 1),
        reduced_daily_rests: pick(0, 3) as usize,
        between_weekly_rests: week * pick(2, 16) / 8,
    }
}

/// A recording of few long rests for these limits, so that plain enumeration
/// can follow: grown while it stays lawful, now and then further.
pub fn recording(dice: &mut Dice, limits: &Limits, most_rests: u32) -> Vec<u32> {
    let mut words = Vec::new();
    let taste: Vec<u32> = (0..8).map(|_| dice.between(1, 9)).collect();
    for _ in 0..dice.between(1, most_rests) {
        if let Some(longer) = with_a_day(dice, limits, &taste, &words) {
            words = longer;
        }
    }
    push_tail(dice, limits, &mut words);
    words
}

/// The words with one more day, if one is found that fits in and is lawful
/// with its rest closed, or is let through.
fn with_a_day(dice: &mut Dice, limits: &Limits, taste: &[u32], words: &[u32]) -> Option<Vec<u32>> {
    (0..12).find_map(|_| {
        let mut longer = words.to_vec();
        push_day(dice, limits, taste, &mut longer);
        let closed = [&longer[..], &[word(1, Activity::Work)]].concat();
        let total = total_minutes(&closed);
        let fits = total <= limits.total;
        let let_through = dice.one_in(20);
        let found = fits && (let_through || Judge::new(&closed, limits).is_lawful(total));
        found.then_some(longer)
    })
}

/// A small recording with its rests shortened as far as it stays lawful, so
/// that hardly any reading is left; and the last that was shortened too far,
/// if there is one.
pub fn tight(dice: &mut Dice, limits: &Limits, most_rests: u32) -> (Vec<u32>, Option<Vec<u32>>) {
    let mut lawful = recording(dice, limits, most_rests);
    let mut too_far = None;
    for _ in 0..4 * lawful.len() {
        let shorter = shortened(dice, &lawful);
        if Judge::new(&shorter, limits).is_lawful(total_minutes(&shorter)) {
            lawful = shorter;
        } else {
            too_far = Some(shorter);
        }
    }
    (lawful, too_far)
}

/// The same words with one rest shorter, the minutes moved to the duty before
/// it or left out.
fn shortened(dice: &mut Dice, words: &[u32]) -> Vec<u32> {
    let mut words = words.to_vec();
    let index = dice.below(words.len().max(1) as u32) as usize;
    if words.get(index).map(|&word| word_activity(word)) != Some(Activity::Rest) {
        return words;
    }
    let most = (word_minutes(words[index]) - 1) as u32;
    let minutes = dice.between(1, 3).min(most);
    words[index] -= 4 * minutes;
    if index > 0 && dice.one_in(2) {
        words[index - 1] += 4 * minutes;
    }
    words
}

/// Duty, mostly of work, then a rest near one of the limits. One day in four holds
/// a rest such as frees the later one.
fn push_day(dice: &mut Dice, limits: &Limits, taste: &[u32], words: &mut Vec<u32>) {
    let longest = match dice.below(3) {
        0 => limits.day_length / 8 + 1,
        1 => limits.day_length / 2,
        _ => limits.day_length,
    };
    if dice.one_in(4) {
        let (least, most) = (limits.earlier_rest_least, limits.earlier_rest_most);
        let before = dice.between(1, longest as u32 / 4 + 1);
        let rest = dice.between(least as u32, most as u32);
        words.extend([word(before, Activity::Work), word(rest, Activity::Rest)]);
    }
    let duty = dice.between(1, longest as u32);
    let activity = Activity::ALL[dice.weighted(&[0, 1, 8, 1])];
    words.push(word(duty, activity));
    let start = total_minutes(words);
    let rest = rest_length(dice, limits, taste, start);
    words.push(word(rest, Activity::Rest));
}

fn rest_length(dice: &mut Dice, limits: &Limits, taste: &[u32], start: i64) -> u32 {
    let regular = limits.regular_weekly_rest;
    let (least, most) = match dice.weighted(taste) {
        0 => (1, limits.long_rest),
        1 => (limits.long_rest, limits.regular_daily_rest),
        2 => (limits.regular_daily_rest, limits.weekly_rest),
        3 => (limits.weekly_rest, limits.weekly_rest + 1),
        4 => (limits.weekly_rest, regular),
        5 => (regular, regular + 2),
        6 => {
            let to_the_end = limits.week - start % limits.week;
            (to_the_end + 1, to_the_end + limits.weekly_rest)
        }
        _ => (regular, 2 * limits.week),
    };
    dice.between(least as u32, most as u32)
}

/// Work after the last rest: none, so that it stays open, one minute, a day's,
/// or up to the end of the week.
fn push_tail(dice: &mut Dice, limits: &Limits, words: &mut Vec<u32>) {
    let reached = total_minutes(words);
    let work = match dice.below(4) {
        0 => 0,
        1 => 1,
        2 => i64::from(dice.between(1, limits.day_length as u32)),
        _ => limits.week - reached % limits.week,
    };
    let work = work.min(limits.total - reached);
    if work > 0 {
        words.push(word(work as u32, Activity::Work));
    }
}
