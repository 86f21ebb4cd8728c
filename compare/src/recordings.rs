//! Recordings to compare on, from fixed seeds.

use second::dice::Dice;
use second::grow;
use second::recording::{total_minutes, word, word_activity, word_minutes, Activity};
use second::small;
use second::Limits;

use crate::inputs::one_of;

/// Any words: now and then one of no minutes or a huge one, or nothing else.
pub fn random(dice: &mut Dice) -> Vec<u32> {
    match dice.below(8) {
        0 => (0..dice.below(12)).map(|_| any_word(dice)).collect(),
        1 => vec![dice.below(4); dice.below(5) as usize],
        2 => {
            let mut words = few_days(dice);
            let index = dice.below(words.len() as u32 + 1) as usize;
            words.insert(index, any_word(dice));
            words
        }
        _ => grow::random_words(dice),
    }
}

/// A word of any 32 bits, of no minutes, or of about as many as fit.
fn any_word(dice: &mut Dice) -> u32 {
    match dice.below(4) {
        0 => dice.roll() as u32,
        1 => dice.below(4),
        2 => u32::MAX - dice.below(16),
        _ => 4 * dice.between(534_190, 534_290) + dice.below(4),
    }
}

/// A recording of few days, most of them lawful.
pub fn few_days(dice: &mut Dice) -> Vec<u32> {
    let most_rests = dice.between(1, 8);
    small::recording(dice, &Limits::document(), most_rests)
}

/// A drive about as long as the sum may grow, with rests about as long as a break
/// or one of its parts. Before most there is a rest of 15 to 44 minutes, at minute 0
/// or after other drives and a break.
pub fn breaks(dice: &mut Dice) -> Vec<u32> {
    let mut words = Vec::new();
    for _ in 0..dice.below(3) {
        words.push(word(dice.between(1, 120), Activity::Driving));
        whole_break(dice, &mut words);
    }
    if !dice.one_in(4) {
        words.extend(dice.one_in(3).then(|| other_duty(dice)));
        words.push(part_of_a_break(dice));
    }
    words.extend(dice.one_in(3).then(|| other_duty(dice)));
    long_drive(dice, &mut words);
    let rest = one_of(dice, &[29, 30, 30, 37, 44, 45]);
    words.push(word(rest, Activity::Rest));
    words.push(word(dice.between(1, 40), Activity::Driving));
    words.extend(dice.one_in(2).then(|| part_of_a_break(dice)));
    words.push(other_duty(dice));
    words
}

/// A break in one piece or in two, or a long rest, and no driving after it.
fn whole_break(dice: &mut Dice, words: &mut Vec<u32>) {
    let rest = match dice.below(4) {
        0 => one_of(dice, &[45, 60]),
        1 => dice.between(540, 700),
        _ => {
            words.extend([word(15, Activity::Rest), other_duty(dice)]);
            dice.between(30, 44)
        }
    };
    words.extend([word(rest, Activity::Rest), other_duty(dice)]);
}

/// Driving in one piece, or in two with a rest about as long as a first part.
fn long_drive(dice: &mut Dice, words: &mut Vec<u32>) {
    let minutes = one_of(dice, &[180, 260, 269, 270, 270]);
    let first = one_of(dice, &[1, minutes / 2, minutes, minutes]);
    words.push(word(first, Activity::Driving));
    if first < minutes {
        let rest = one_of(dice, &[1, 14, 15, 29, 30]);
        words.push(word(rest, Activity::Rest));
        words.push(word(minutes - first, Activity::Driving));
    }
}

/// A rest of 15 to 44 minutes.
fn part_of_a_break(dice: &mut Dice) -> u32 {
    let any = dice.between(15, 44);
    word(one_of(dice, &[15, any, 44]), Activity::Rest)
}

fn other_duty(dice: &mut Dice) -> u32 {
    let activity = one_of(dice, &[Activity::Work, Activity::Availability]);
    word(dice.between(1, 20), activity)
}

/// One recording in four with a rest of 15 to 44 minutes before setting off, if it
/// fits in: at the start, or ahead of the first drive after a rest of 45 or more.
/// Half of the time the next break is then as long as a second part.
pub fn setting_off(dice: &mut Dice, words: Vec<u32>) -> Vec<u32> {
    if !dice.one_in(4) {
        return words;
    }
    let drives = first_drives(&words);
    let mut changed = words.clone();
    if drives.is_empty() || dice.one_in(3) {
        changed.splice(0..0, [part_of_a_break(dice), other_duty(dice)]);
    } else {
        let drive = one_of(dice, &drives);
        let next = (drive..words.len()).find(|&index| is_break(words[index]));
        let next = next.filter(|&index| word_minutes(words[index]) < 540);
        if let Some(next) = next.filter(|_| dice.one_in(2)) {
            changed[next] = word(dice.between(30, 44), Activity::Rest);
        }
        changed.splice(drive..drive, [other_duty(dice), part_of_a_break(dice)]);
    }
    if total_minutes(&changed) > Limits::document().total {
        return words;
    }
    changed
}

/// The drives that are the first since minute 0 or since a rest of 45 or more.
fn first_drives(words: &[u32]) -> Vec<usize> {
    let mut first = true;
    let mut drives = Vec::new();
    for (index, &word) in words.iter().enumerate() {
        if is_break(word) {
            first = true;
        } else if word_activity(word) == Activity::Driving {
            drives.extend(first.then_some(index));
            first = false;
        }
    }
    drives
}

/// A rest that clears the sum by itself.
fn is_break(word: u32) -> bool {
    word_activity(word) == Activity::Rest && word_minutes(word) >= 45
}

/// Four to eight days, most of 13 to 15 hours, with a rest of nine to eleven hours
/// after each. Some or most of them, or of the first few, hold a rest of about three
/// hours, of up to nine, or two of them; one may begin at minute 0. Now and then
/// there is a weekly rest between, and a rest after it that could pay back what it
/// lacks.
pub fn split_rests(dice: &mut Dice) -> Vec<u32> {
    let mut words = Vec::new();
    let with_a_rest = one_of(dice, &[1, 2, 3, 7]);
    let (days, the_first) = (dice.between(4, 8), one_of(dice, &[8, 8, 1, 2]));
    let mut lacking = 0;
    for day in 0..days {
        let with_a_rest = if day < the_first { with_a_rest } else { 0 };
        split_day(dice, day == 0, with_a_rest, &mut words);
        let rest = match dice.weighted(&[16, 1, 1]) {
            0 => nine_hours_or_more(dice) + one_of(dice, &[0, lacking]),
            1 => one_of(dice, &[1_440, 2_100, 2_640, 2_699, 2_700]),
            _ => dice.between(660, 1_440),
        };
        lacking = if rest < 1_440 { 0 } else { 2_700 - rest };
        words.push(word(rest, Activity::Rest));
    }
    words.extend((!dice.one_in(8)).then(|| other_duty(dice)));
    words
}

/// Duty up to the start of a long rest, with none, one or two rests in it.
fn split_day(dice: &mut Dice, first: bool, with_a_rest: u32, words: &mut Vec<u32>) {
    let any = dice.between(400, 900);
    let mut left = one_of(dice, &[any, 780, 781, 840, 899, 900, 900, 840]);
    if first && dice.one_in(4) {
        let rest = three_hours_or_so(dice, left - 1);
        words.push(word(rest, Activity::Rest));
        left -= rest;
    }
    for _ in 0..dice.weighted(&[2, 2 * with_a_rest, with_a_rest.min(1)]) {
        if left > 400 {
            let duty = dice.between(1, left - 182);
            let rest = three_hours_or_so(dice, left - duty - 1);
            words.extend([word(duty, any_duty(dice)), word(rest, Activity::Rest)]);
            left -= duty + rest;
        }
    }
    words.push(word(left, any_duty(dice)));
}

/// A rest about as long as three hours or as 539 minutes, or between, but no longer
/// than fits in.
fn three_hours_or_so(dice: &mut Dice, fits: u32) -> u32 {
    let (short, any) = (dice.between(180, 300), dice.between(180, 539));
    let edges = [179, 179, 180, 180, 181, short, any, 538, 539];
    one_of(dice, &edges).min(fits)
}

/// The length of a daily rest that counts as shortened, or nearly.
fn nine_hours_or_more(dice: &mut Dice) -> u32 {
    let any = dice.between(540, 659);
    one_of(dice, &[any, any, 540, 541, 600, 659, 660])
}

fn any_duty(dice: &mut Dice) -> Activity {
    one_of(
        dice,
        &[Activity::Work, Activity::Work, Activity::Availability],
    )
}

/// A day that breaks some of articles 6(1), 7 and 8(2), at about one minute. Half of the
/// time there are days before it, with as much driving in the week that 6(2) is broken
/// at about that minute too, or in two weeks that 6(3) is, or both. Now and then one of
/// all these days breaks something by itself.
pub fn much_driving(dice: &mut Dice) -> Vec<u32> {
    let (day, driven) = last_day(dice);
    let mut words = Vec::new();
    match dice.below(4) {
        0 => words.extend(driving_days(about(dice, 3_361 - driven))),
        1 => {
            let to_the_most = one_of(dice, &[3_361, 2_401]) - driven;
            let second = about(dice, to_the_most);
            words.extend(driving_week(about(dice, 5_401 - driven - second)));
            words.extend(driving_days(second));
        }
        _ => {}
    }
    words.extend(day);
    if dice.one_in(3) {
        spoil_a_break(dice, &mut words);
    }
    words
}

/// A day, and its driving up to the minute at which it breaks what it breaks, or would.
fn last_day(dice: &mut Dice) -> (Vec<u32>, u32) {
    let any = dice.between(1, 260);
    let last = one_of(dice, &[any, 271]);
    let (any, most) = (dice.between(0, 540 - last), about(dice, 601 - last));
    let before = one_of(dice, &[any, most]);
    let mut day = Vec::new();
    let mut left = before;
    while left > 0 {
        let drive = left.min(one_of(dice, &[165, 270]));
        day.extend([word(drive, Activity::Driving), word(45, Activity::Rest)]);
        left -= drive;
    }
    let reached = total_minutes(&day) as u32 + last;
    let (any, most) = (dice.between(1, 60), about(dice, 901 - reached));
    day.insert(0, word(one_of(dice, &[any, most]), any_duty(dice)));
    day.push(word(last + dice.below(10), Activity::Driving));
    (day, before + last)
}

/// This minute, or one near it.
fn about(dice: &mut Dice, minute: u32) -> u32 {
    let any = dice.between(0, 40);
    minute + one_of(dice, &[20, 20, 20, 19, 21, any]) - 20
}

/// Days of nine hours of driving, and one of what is left, with a weekly rest after the
/// third. In 10,080 minutes a long day fits in after those of 3,360.
pub fn driving_days(minutes: u32) -> Vec<u32> {
    let mut words = Vec::new();
    let mut left = minutes;
    while left > 0 {
        let first = left.min(270);
        let second = (left - first).min(270);
        words.push(word(first, Activity::Driving));
        if second > 0 {
            words.extend([word(45, Activity::Rest), word(second, Activity::Driving)]);
        }
        left -= first + second;
        let third = minutes - left == 3 * 540;
        let rest = if third { 1_440 } else { 660 };
        words.push(word(rest, Activity::Rest));
    }
    words
}

/// Such days, and rest up to the week's end.
pub fn driving_week(minutes: u32) -> Vec<u32> {
    let mut words = driving_days(minutes);
    let rest = 10_080 - total_minutes(&words) as u32;
    words.push(word(rest, Activity::Rest));
    words
}

/// A break of 45 minutes made too short, which breaks article 7, or so long that its day
/// breaks 8(2); or a drive between two, by which its day breaks 6(1), or nearly.
fn spoil_a_break(dice: &mut Dice, words: &mut Vec<u32>) {
    let whole_break = word(45, Activity::Rest);
    let is_one = |&index: &usize| words[index] == whole_break;
    let breaks: Vec<usize> = (0..words.len()).filter(is_one).collect();
    if breaks.is_empty() {
        return;
    }
    let index = one_of(dice, &breaks);
    let instead = match dice.below(3) {
        0 => vec![word(dice.between(1, 44), Activity::Rest)],
        1 => vec![word(dice.between(300, 539), Activity::Rest)],
        _ => {
            let drive = word(dice.between(50, 90), Activity::Driving);
            vec![whole_break, drive, whole_break]
        }
    };
    words.splice(index..=index, instead);
}

/// One recording in four with a rest of about three hours or more in some or most of
/// its days, if it fits in: days of up to 15 hours before a daily rest, which is as
/// much shorter then, or of nine to eleven hours.
pub fn three_hours(dice: &mut Dice, words: Vec<u32>) -> Vec<u32> {
    if !dice.one_in(4) {
        return words;
    }
    let one_day_in = one_of(dice, &[1, 1, 2, 3]);
    let mut changed = Vec::new();
    let mut day = Vec::new();
    for &next in &words {
        if !is_long_rest(next) {
            day.push(next);
            continue;
        }
        let minutes = word_minutes(next) as u32;
        let duty = total_minutes(&day);
        if (1..=720).contains(&duty) && minutes < 1_440 && dice.one_in(one_day_in) {
            let rest = three_hours_or_so(dice, 900 - duty as u32);
            put_in(dice, rest, &mut day);
            let shorter = minutes.saturating_sub(rest).max(540);
            let long_rest = one_of(dice, &[shorter, shorter.min(659)]);
            changed.append(&mut day);
            changed.push(word(long_rest, Activity::Rest));
        } else {
            changed.append(&mut day);
            changed.push(next);
        }
    }
    changed.append(&mut day);
    if total_minutes(&changed) > Limits::document().total {
        return words;
    }
    changed
}

/// Puts a rest into a day: within one of its duties, or before its last minute.
fn put_in(dice: &mut Dice, rest: u32, day: &mut Vec<u32>) {
    let can_be_cut = |&index: &usize| {
        word_activity(day[index]) != Activity::Rest && word_minutes(day[index]) > 1
    };
    let duties: Vec<usize> = (0..day.len()).filter(can_be_cut).collect();
    if duties.is_empty() {
        day.extend([word(rest, Activity::Rest), word(1, Activity::Work)]);
        return;
    }
    let index = one_of(dice, &duties);
    split(dice, day, index);
    day.insert(index + 1, word(rest, Activity::Rest));
}

fn is_long_rest(word: u32) -> bool {
    word_activity(word) == Activity::Rest && word_minutes(word) >= 540
}

/// The recording cut at some word, as it was while it grew.
pub fn cut(dice: &mut Dice, words: &[u32]) -> Vec<u32> {
    let end = dice.below(words.len() as u32 + 1) as usize;
    words[..end].to_vec()
}

/// The recording with one or two words changed a little.
pub fn changed(dice: &mut Dice, words: &[u32]) -> Vec<u32> {
    let mut words = words.to_vec();
    for _ in 0..dice.between(1, 2) {
        change(dice, &mut words);
    }
    words
}

fn change(dice: &mut Dice, words: &mut Vec<u32>) {
    if words.is_empty() {
        return;
    }
    let index = dice.below(words.len() as u32) as usize;
    let last = words.len() - 1;
    let minutes = word_minutes(words[index]) as u32;
    match dice.below(9) {
        0 => words[index] = words[index].wrapping_add(4),
        1 => words[index] = words[index].saturating_sub(4),
        2 => words[index] = 4 * minutes + dice.below(4),
        3 => {
            words.remove(index);
        }
        4 => words.insert(index, words[index]),
        5 => split(dice, words, index),
        6 => words.swap(index, last),
        7 => shift(dice, words, index),
        _ => {
            let rest = word(dice.between(1_440, 2_760), Activity::Rest);
            words[index] = rest;
        }
    }
}

/// Equal neighbours in place of one word.
fn split(dice: &mut Dice, words: &mut Vec<u32>, index: usize) {
    let (minutes, activity) = (
        word_minutes(words[index]) as u32,
        word_activity(words[index]),
    );
    if minutes > 1 {
        let first = dice.between(1, minutes - 1);
        words[index] = word(first, activity);
        words.insert(index + 1, word(minutes - first, activity));
    }
}

/// Some minutes of a word moved to the next one.
fn shift(dice: &mut Dice, words: &mut [u32], index: usize) {
    let most = word_minutes(words[index]) as u32;
    if index + 1 < words.len() && most > 1 {
        let minutes = dice.between(1, most.min(40) - 1);
        words[index] -= 4 * minutes;
        words[index + 1] = words[index + 1].saturating_add(4 * minutes);
    }
}
