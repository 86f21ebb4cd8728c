//! Recordings of several weeks, made to see which spans of them are a breach.

use second::dice::Dice;
use second::grow;
use second::recording::{total_minutes, word, Activity, Span};

use crate::cards::split_at;
use crate::inputs::one_of;
use crate::recordings::{driving_week, few_days};
use crate::shorthand::{around, days, general_figure, span, tight_weeks, words};

const WEEK: u32 = 10_080;

/// A kind of recordings.
pub struct Kind {
    pub name: &'static str,
    pub make: fn(&mut Dice) -> Vec<u32>,
    /// How many of it are made for each one of the kind that takes the longest.
    pub share: u64,
}

pub const fn kind(name: &'static str, share: u64, make: fn(&mut Dice) -> Vec<u32>) -> Kind {
    Kind { name, make, share }
}

pub const KINDS: [Kind; 8] = [
    kind("weeks joined", 10, joined),
    kind("rests over Mondays", 10, rests_over_mondays),
    kind("duty over Mondays", 10, duty_over_mondays),
    kind("faults in weeks", 10, faults),
    kind("fortnights", 10, fortnights),
    kind("debts", 10, debts),
    kind("tight weeks", 4, tight),
    kind("figures", 1, figures),
];

/// Two to twelve, most often few or twelve.
fn some_weeks(dice: &mut Dice) -> u32 {
    let any = dice.between(2, 12);
    one_of(dice, &[2, 2, 3, 3, 4, 5, any, any, 12])
}

/// Whole weeks, or the last of them in part: its first minute alone, some, or all but
/// the last one. Now and then a word is cut at a Monday.
pub fn ended(dice: &mut Dice, words: Vec<u32>) -> Vec<u32> {
    let total = total_minutes(&words) as u32;
    let left = total % WEEK;
    let last = if left > 0 { left } else { WEEK };
    let some = dice.between(1, last);
    let kept = one_of(dice, &[last, last, last, 1, some, some, last - 1]);
    let words = split_at(&words, total - last + kept).0;
    match dice.below(3) {
        0 => {
            let monday = WEEK * dice.between(0, total / WEEK);
            let (before, after) = split_at(&words, monday);
            [before, after].concat()
        }
        _ => words,
    }
}

/// Weeks that are made one by one, with nothing over a Monday but rest.
fn joined(dice: &mut Dice) -> Vec<u32> {
    let weeks = some_weeks(dice);
    joined_weeks(dice, weeks)
}

pub fn joined_weeks(dice: &mut Dice, weeks: u32) -> Vec<u32> {
    let mut words = Vec::new();
    for _ in 0..weeks {
        let piece = piece(dice);
        words.extend(whole_week(&piece));
    }
    ended(dice, words)
}

fn piece(dice: &mut Dice) -> Vec<u32> {
    match dice.weighted(&[6, 4, 2, 1, 1, 1]) {
        0 => grow::ordinary_weeks(dice, 1),
        1 => few_days(dice),
        2 => driving_week(dice.between(2_400, 3_361)),
        3 => vec![word(WEEK, Activity::Rest)],
        4 => words(&days(7, "")),
        _ => words("w901 r660 d271"),
    }
}

/// Its first 10,080 minutes, with rest after them where they are fewer.
fn whole_week(piece: &[u32]) -> Vec<u32> {
    let mut words = split_at(piece, WEEK).0;
    let left = WEEK - total_minutes(&words) as u32;
    words.extend((left > 0).then(|| word(left, Activity::Rest)));
    words
}

/// Lawful days around a long rest over each Monday. What of it lies before and after is
/// about as long as a daily rest or a weekly one, if not nothing. Now and then there is
/// a weekly rest within a week.
fn rests_over_mondays(dice: &mut Dice) -> Vec<u32> {
    let weeks = some_weeks(dice);
    let mut rests = Vec::new();
    for week in 0..i64::from(weeks) {
        let monday = i64::from(WEEK) * week;
        if week > 0 {
            let (before, after) = (part_of_a_rest(dice), part_of_a_rest(dice));
            rests.extend((before + after > 0).then(|| span(monday - before, monday + after)));
        }
        if dice.one_in(4) {
            let start = monday + i64::from(dice.between(3_200, 4_000));
            let length = one_of(dice, &[1_440, 2_699, 2_700]);
            rests.push(span(start, start + length));
        }
    }
    let words = around(&rests, i64::from(WEEK * weeks));
    ended(dice, words)
}

fn part_of_a_rest(dice: &mut Dice) -> i64 {
    let any = i64::from(dice.between(0, 2_800));
    let edges = [
        0, 1, 539, 540, 541, 659, 660, 1_439, 1_440, 1_441, 2_160, 2_699, 2_700, 2_701,
    ];
    let edge = one_of(dice, &edges);
    one_of(dice, &[any, edge, edge])
}

/// Lawful weeks with driving or work over some Mondays, about as long as may be.
fn duty_over_mondays(dice: &mut Dice) -> Vec<u32> {
    let weeks = some_weeks(dice);
    let mut words = lawful_weeks(weeks);
    for week in 1..weeks {
        let (activity, most) = match dice.below(4) {
            0 => continue,
            1 => (Activity::Work, 900),
            _ => (Activity::Driving, 270),
        };
        let length = most + one_of(dice, &[0, 1, 1, 2, 30]);
        let before = dice.between(0, length);
        words = with(&words, WEEK * week - before, length, activity);
    }
    ended(dice, words)
}

/// Six days of work from Monday noon on in each week, and a rest of 46 hours over Sunday.
fn lawful_weeks(weeks: u32) -> Vec<u32> {
    let rests: Vec<Span> = (1..=i64::from(weeks))
        .map(|week| i64::from(WEEK) * week)
        .map(|monday| span(monday - 2_040, monday + 720))
        .collect();
    let words = around(&rests, i64::from(WEEK * weeks + 721));
    split_at(&words, WEEK * weeks).0
}

/// The recording with so many minutes of it, from this one on, of another activity.
fn with(words: &[u32], start: u32, length: u32, activity: Activity) -> Vec<u32> {
    let (before, from) = split_at(words, start);
    let (instead, after) = split_at(&from, length);
    let length = total_minutes(&instead) as u32;
    let instead = (length > 0).then(|| word(length, activity));
    [before, Vec::from_iter(instead), after].concat()
}

/// Lawful or ordinary weeks with some faults: drives and duties that are too long, at
/// any minute, or work in place of some of a rest.
fn faults(dice: &mut Dice) -> Vec<u32> {
    let weeks = some_weeks(dice);
    let mut words = match dice.below(2) {
        0 => lawful_weeks(weeks),
        _ => split_at(&grow::ordinary_weeks(dice, weeks), WEEK * weeks).0,
    };
    for _ in 0..dice.between(1, 5) {
        let start = dice.below(total_minutes(&words) as u32);
        let (activity, length) = match dice.below(3) {
            0 => (Activity::Driving, dice.between(200, 300)),
            1 => (Activity::Work, dice.between(500, 1_000)),
            _ => (Activity::Work, dice.between(1, 10)),
        };
        words = with(&words, start, length, activity);
    }
    ended(dice, words)
}

/// Weeks of much driving, of which each two have about as much as they may.
fn fortnights(dice: &mut Dice) -> Vec<u32> {
    let mut words = Vec::new();
    let mut before = 2_700;
    for _ in 0..some_weeks(dice) {
        let most = (5_400 - before).min(3_360);
        let driving = match dice.below(6) {
            0 => dice.between(1_800, 3_362),
            1 => most + 1,
            2 => most - 1,
            _ => most,
        };
        words.extend(driving_week(driving));
        before = driving;
    }
    ended(dice, words)
}

/// Weeks with a regular weekly rest each, at the end, but for two that are reduced by
/// more than a daily rest can pay back: in a row, or as in figures 2 to 6 of source
/// document 000. Now and then another rest can pay.
fn debts(dice: &mut Dice) -> Vec<u32> {
    let weeks = dice.between(4, 12);
    debts_of_weeks(dice, weeks)
}

pub fn debts_of_weeks(dice: &mut Dice, weeks: u32) -> Vec<u32> {
    let first = dice.below(weeks - 3);
    let second = one_of(dice, &[first + 1, weeks - 2, weeks - 2]);
    let rests: Vec<Span> = (0..weeks)
        .map(|week| {
            let length = match dice.below(12) {
                _ if week == first => dice.between(1_500, 2_579),
                _ if week == second => dice.between(1_500, 1_600),
                0 => dice.between(2_700, 3_900),
                _ => 2_700,
            };
            let end = WEEK * (week + 1) - dice.between(1, 60);
            span(i64::from(end - length), i64::from(end))
        })
        .collect();
    let words = around(&rests, i64::from(WEEK * weeks));
    ended(dice, words)
}

/// Weeks with one weekly rest each and no minute to spare in any daily rest, so that
/// debts pass from week to week.
fn tight(dice: &mut Dice) -> Vec<u32> {
    let lacking = one_of(dice, &[1, 60, 1_260]);
    let few = dice.between(2, 5);
    let rests: Vec<u32> = (0..some_weeks(dice))
        .map(|_| match dice.below(2 * few) {
            0 => 1_440,
            1 => 2_700 - lacking,
            2 => 2_700 + lacking,
            _ => 2_700,
        })
        .collect();
    let words = words(&tight_weeks(&rests));
    ended(dice, words)
}

/// Figures 2 to 6 of source document 000, two good halves and a bad whole: such weeks
/// with regular ones before or after them, and now and then another rest in one.
fn figures(dice: &mut Dice) -> Vec<u32> {
    let weeks = dice.between(5, 12) as usize;
    let figure = general_figure(weeks);
    let more = dice.below(13 - weeks as u32) as usize;
    let before = dice.below(more as u32 + 1) as usize;
    let mut rests = [vec![2_700; before], figure, vec![2_700; more - before]].concat();
    if dice.one_in(3) {
        let index = dice.below(rests.len() as u32) as usize;
        rests[index] += one_of(dice, &[1, 59, 60, 61, 1_200]);
    }
    let words = words(&tight_weeks(&rests));
    ended(dice, words)
}
