//! Recordings of 13 to 53 weeks, most with weeks over 11, and many with carriers over 255.

use second::dice::Dice;
use second::grow;
use second::limits::MOST_WEEKS;
use second::recording::{total_minutes, word, Activity};

use crate::cards::split_at;
use crate::inputs::one_of;
use crate::recordings::{breaks, few_days, much_driving, split_rests};
use crate::shorthand::{general_figure, tight_weeks, times, words};
use crate::weeks::{self, kind, Kind};

const WEEK: u32 = 10_080;

/// A recording's weeks at most.
const MOST: u32 = MOST_WEEKS as u32;

pub const KINDS: [Kind; 7] = [
    kind("years, ordinary", 4, ordinary),
    kind("years, split rests", 1, |dice| {
        let weeks = many_weeks(dice);
        grow::split_of_weeks(dice, weeks)
    }),
    kind("years, then others", 6, then_others),
    kind("years, joined", 3, |dice| {
        let weeks = many_weeks(dice);
        weeks::joined_weeks(dice, weeks)
    }),
    kind("years, debts", 3, |dice| {
        let weeks = many_weeks(dice);
        weeks::debts_of_weeks(dice, weeks)
    }),
    kind("years, figures", 1, figures),
    kind("carriers about 256", 12, carriers_about_256),
];

/// 13 to 53, most often about a quarter, a half or a whole year.
fn many_weeks(dice: &mut Dice) -> u32 {
    let any = dice.between(13, MOST);
    one_of(dice, &[13, 14, 26, any, any, 52, MOST])
}

fn ordinary(dice: &mut Dice) -> Vec<u32> {
    let weeks = many_weeks(dice);
    let words = grow::ordinary_weeks(dice, weeks);
    weeks::ended(dice, words)
}

/// Lawful weeks with six long rests each, or with twelve.
fn lawful_weeks(dice: &mut Dice, weeks: u32) -> Vec<u32> {
    let few = times(5, "w780 r660") + "w180 r2700";
    let many = times(11, "w10 r660") + "w10 r2700";
    words(one_of(dice, &[&few, &many, &many])).repeat(weeks as usize)
}

/// Lawful weeks, and after them a recording of another kind, as far as it fits in.
fn then_others(dice: &mut Dice) -> Vec<u32> {
    let others = match dice.below(8) {
        0 => few_days(dice),
        1 => split_rests(dice),
        2 => much_driving(dice),
        3 => breaks(dice),
        4 => weeks::debts_of_weeks(dice, 9),
        5 => grow::grown(dice),
        6 => grow::scarce(dice),
        _ => grow::ordinary(dice),
    };
    let others = split_at(&others, WEEK * 12).0;
    let after = total_minutes(&others) as u32;
    let most = MOST - after.div_ceil(WEEK);
    let weeks = one_of(dice, &[13, 24, 30, most, most]).min(most);
    let mut words = lawful_weeks(dice, weeks);
    words.extend(others);
    words
}

/// Figure 6 of source document 000 with 13 weeks or more.
fn figures(dice: &mut Dice) -> Vec<u32> {
    let weeks = one_of(dice, &[13, 14, 16, 20, 30, 52, 53]);
    let mut rests = general_figure(weeks);
    if dice.one_in(3) {
        let index = dice.below(weeks as u32) as usize;
        rests[index] += one_of(dice, &[1, 59, 60, 61, 1_200]);
    }
    words(&tight_weeks(&rests))
}

/// Weeks with eleven long rests each, the last of them weekly. One, whose number is a
/// little under 256 or 512, lacks some minutes; rests of the weeks after it can pay them
/// back, most often none of them but a few, with numbers on both sides.
fn carriers_about_256(dice: &mut Dice) -> Vec<u32> {
    let edge = one_of(dice, &[256, 256, 512]);
    let reduced = (edge - 1 - dice.below(10)) / 11;
    let lacking = dice.between(1, 60);
    let paying_in = one_of(dice, &[2, 4, 8]);
    let tight = !dice.one_in(4);
    let mut words = Vec::new();
    for week in 0..reduced + 5 {
        for day in 0..10 {
            let pays = week >= reduced && dice.one_in(paying_in);
            let more = if pays { lacking } else { 0 };
            let short = if tight && day < 3 { 120 } else { 0 };
            words.push(word(70 + short - more, Activity::Work));
            words.push(word(660 - short + more, Activity::Rest));
        }
        let lacking = if week + 1 == reduced { lacking } else { 0 };
        words.push(word(80 + lacking, Activity::Work));
        words.push(word(2_700 - lacking, Activity::Rest));
    }
    let last = dice.between(1, 900);
    words.push(word(last, Activity::Work));
    words
}
