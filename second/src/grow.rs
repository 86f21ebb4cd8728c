//! Recordings to compare on, from a generator with a fixed seed: of twelve weeks, and,
//! by the functions whose names end in `of_weeks`, of any number up to 53.

use crate::dice::Dice;
use crate::fast::Judge;
use crate::fronts::Front;
use crate::limits::Limits;
use crate::recording::{word, Activity, Span};
use crate::verdict::Outcome;

/// The weeks of a recording where no other number is asked for.
const WEEKS: u32 = 12;
const WEEK: u32 = 10_080;
const DAY: u32 = 1_440;

/// A recording in the making; what would pass its weeks is cut off.
#[derive(Clone)]
struct Draft {
    words: Vec<u32>,
    total: u32,
    /// The minutes of its weeks.
    full: u32,
}

impl Draft {
    fn new(weeks: u32) -> Draft {
        Draft {
            words: Vec::new(),
            total: 0,
            full: weeks * WEEK,
        }
    }

    fn push(&mut self, activity: Activity, minutes: u32) {
        let minutes = minutes.min(self.full - self.total);
        if minutes > 0 {
            self.words.push(word(minutes, activity));
            self.total += minutes;
        }
    }

    /// Rest up to this minute.
    fn rest_until(&mut self, minute: u32) {
        self.push(Activity::Rest, minute.saturating_sub(self.total));
    }

    fn is_full(&self) -> bool {
        self.total == self.full
    }

    /// Whether it is lawful with its last rest closed.
    fn is_lawful(&self) -> bool {
        let mut closed = self.clone();
        closed.push(Activity::Work, 1);
        let limits = Limits::document();
        Judge::new(&closed.words, &limits).is_lawful(i64::from(closed.total))
    }
}

/// One to twelve weeks such as drivers have: five days with breaks and a
/// weekly rest around Sunday, or six days and a reduced one, but not twice in
/// a row. Most are lawful.
pub fn ordinary(dice: &mut Dice) -> Vec<u32> {
    ordinary_of_weeks(dice, WEEKS)
}

/// One to `most` of them.
pub fn ordinary_of_weeks(dice: &mut Dice, most: u32) -> Vec<u32> {
    let weeks = dice.between(1, most);
    ordinary_up_to(dice, weeks, most)
}

/// So many of them; if they are fewer than twelve, also some days of the week after.
pub fn ordinary_weeks(dice: &mut Dice, weeks: u32) -> Vec<u32> {
    ordinary_up_to(dice, weeks, weeks.max(WEEKS))
}

/// So many of them and, if they are fewer than `most`, some days of the week after.
fn ordinary_up_to(dice: &mut Dice, weeks: u32, most: u32) -> Vec<u32> {
    let mut draft = Draft::new(most);
    let mut days = 5;
    for week in 0..weeks {
        days = if days == 5 && dice.one_in(4) { 6 } else { 5 };
        ordinary_week(dice, &mut draft, week * WEEK, days);
    }
    if weeks < most {
        let days = dice.below(5);
        ordinary_week(dice, &mut draft, weeks * WEEK, days);
    }
    draft.words
}

/// Duty on so many days from Monday on, each from half past nine or so.
fn ordinary_week(dice: &mut Dice, draft: &mut Draft, monday: u32, days: u32) {
    for day in 0..days {
        let start = dice.between(545, 620);
        draft.rest_until(monday + day * DAY + start);
        ordinary_duty(dice, draft);
    }
}

/// Twelve ordinary weeks in which many days hold a rest of three hours or more, and
/// a rest of nine to eleven hours follows them: in one week of three nearly all of
/// its days, in the others one in four.
pub fn split(dice: &mut Dice) -> Vec<u32> {
    split_of_weeks(dice, WEEKS)
}

/// So many of them.
pub fn split_of_weeks(dice: &mut Dice, weeks: u32) -> Vec<u32> {
    let mut draft = Draft::new(weeks);
    let mut days = 5;
    for week in 0..weeks {
        days = if days == 5 && dice.one_in(4) { 6 } else { 5 };
        split_week(dice, &mut draft, week * WEEK, days);
    }
    draft.words
}

/// Duty on so many days from Monday on. The last one is ordinary: a weekly rest
/// follows it.
fn split_week(dice: &mut Dice, draft: &mut Draft, monday: u32, days: u32) {
    let nearly_all = dice.one_in(3);
    let starts: Vec<u32> = (0..days)
        .map(|day| monday + day * DAY + dice.between(545, 620))
        .collect();
    for (day, &start) in starts.iter().enumerate() {
        draft.rest_until(start);
        let split = if nearly_all {
            !dice.one_in(8)
        } else {
            dice.one_in(4)
        };
        match starts.get(day + 1) {
            Some(next) if split => split_duty(dice, draft, next - start),
            _ => ordinary_duty(dice, draft),
        }
    }
}

/// A duty in two, up to 15 hours with the rest of three hours or more in between,
/// that leaves nine to eleven hours of so many minutes up to the next one.
fn split_duty(dice: &mut Dice, draft: &mut Draft, to_the_next: u32) {
    let long_rest = dice.between(540.max(to_the_next - 900), 659);
    let (work, first_drive) = (dice.between(1, 30), dice.between(120, 240));
    let (second_drive, availability) = (dice.between(60, 200), dice.between(1, 40));
    let left = to_the_next - long_rest - work - first_drive - second_drive - availability;
    let rest = dice.between(180, 539.min(left - 1));
    draft.push(Activity::Work, work);
    draft.push(Activity::Driving, first_drive);
    draft.push(Activity::Rest, rest);
    draft.push(Activity::Driving, second_drive);
    draft.push(Activity::Availability, availability);
    draft.push(Activity::Work, left - rest);
}

/// A day's duty of nine hours or so, with a break after each long drive, but
/// for a rare one forgotten.
fn ordinary_duty(dice: &mut Dice, draft: &mut Draft) {
    draft.push(Activity::Work, dice.between(1, 30));
    draft.push(Activity::Driving, dice.between(120, 270));
    if !dice.one_in(300) {
        ordinary_break(dice, draft);
    }
    draft.push(Activity::Driving, dice.between(60, 250));
    if dice.one_in(12) {
        ordinary_break(dice, draft);
        draft.push(Activity::Driving, dice.between(10, 80));
    }
    draft.push(Activity::Availability, dice.between(1, 40));
    draft.push(Activity::Work, dice.between(1, 60));
}

/// A break in one piece or in two.
fn ordinary_break(dice: &mut Dice, draft: &mut Draft) {
    if dice.one_in(2) {
        draft.push(Activity::Rest, dice.between(45, 60));
    } else {
        draft.push(Activity::Rest, dice.between(15, 29));
        draft.push(Activity::Availability, dice.between(1, 30));
        draft.push(Activity::Rest, dice.between(30, 44));
    }
}

/// Any words, now and then one of no minutes or one far too long.
pub fn random_words(dice: &mut Dice) -> Vec<u32> {
    random_words_of_weeks(dice, WEEKS)
}

/// The same, now and then with one of about so many weeks.
pub fn random_words_of_weeks(dice: &mut Dice, weeks: u32) -> Vec<u32> {
    let count = dice.below(60);
    (0..count).map(|_| random_word(dice, weeks)).collect()
}

fn random_word(dice: &mut Dice, weeks: u32) -> u32 {
    let minutes = match dice.weighted(&[2, 60, 60, 60, 20, 3, 1]) {
        0 => 0,
        1 => dice.between(1, 60),
        2 => dice.between(1, 600),
        3 => dice.between(530, 900),
        4 => dice.between(1_400, 4_000),
        5 => dice.between(9_000, weeks * WEEK + 9_040),
        _ => dice.between(0, u32::MAX / 4),
    };
    word(minutes, Activity::ALL[dice.below(4) as usize])
}

/// How often each kind of rest is proposed.
#[derive(Clone, Copy)]
struct Taste([u32; 7]);

impl Taste {
    /// Weekly rests of all kinds now and then.
    fn mixed(dice: &mut Dice) -> Taste {
        Taste([
            dice.between(1, 8),
            dice.between(8, 30),
            dice.between(0, 8),
            dice.between(1, 8),
            dice.between(0, 6),
            dice.between(0, 4),
            dice.below(2),
        ])
    }

    /// Most rests between 24 and 45 hours.
    fn reduced(dice: &mut Dice) -> Taste {
        Taste([
            dice.between(0, 3),
            dice.between(0, 6),
            dice.between(0, 6),
            dice.between(10, 30),
            dice.between(0, 3),
            dice.between(0, 3),
            0,
        ])
    }

    /// The length of a rest that starts at this minute.
    fn rest(&self, dice: &mut Dice, start: u32) -> u32 {
        match dice.weighted(&self.0) {
            0 => dice.between(540, 659),
            1 => dice.between(660, 900),
            2 => dice.between(900, 1_439),
            3 => dice.between(1_440, 2_699),
            4 => dice.between(2_700, 4_200),
            5 => over_the_week_end(dice, start),
            _ => dice.between(4_200, 25_000),
        }
    }
}

/// A rest that ends up to two days after the end of its week.
fn over_the_week_end(dice: &mut Dice, start: u32) -> u32 {
    let to_the_end = WEEK - start % WEEK;
    if to_the_end > 3_000 {
        return dice.between(540, 3_000);
    }
    (to_the_end + dice.between(1, 2_880)).max(540)
}

/// A recording grown rest by rest while it stays lawful, up to twelve weeks.
/// Half of them end with a rest that makes them unlawful.
pub fn grown(dice: &mut Dice) -> Vec<u32> {
    grown_of_weeks(dice, WEEKS)
}

/// The same, up to so many weeks.
pub fn grown_of_weeks(dice: &mut Dice, weeks: u32) -> Vec<u32> {
    let taste = Taste::mixed(dice);
    let mut draft = Draft::new(weeks);
    while !draft.is_full() {
        match grown_by_a_day(dice, &draft, taste) {
            Ok(next) => draft = next,
            Err(unlawful) if dice.one_in(2) => return unlawful.words,
            Err(_) => break,
        }
    }
    draft.words
}

/// A lawful recording of so many weeks, grown in the same way. Where no rest will do,
/// the last few days are taken back.
pub fn grown_through(dice: &mut Dice, weeks: u32) -> Vec<u32> {
    let taste = Taste::mixed(dice);
    let mut drafts = vec![Draft::new(weeks)];
    loop {
        let draft = drafts.last().expect("the first draft is never taken back");
        if draft.is_full() {
            return draft.words.clone();
        }
        match grown_by_a_day(dice, draft, taste) {
            Ok(next) => drafts.push(next),
            Err(_) => drafts.truncate(drafts.len().saturating_sub(4).max(1)),
        }
    }
}

/// A lawful draft with one more duty and rest, or the last one tried.
fn grown_by_a_day(dice: &mut Dice, draft: &Draft, taste: Taste) -> Result<Draft, Draft> {
    let mut next = draft.clone();
    for _ in 0..24 {
        next = draft.clone();
        grown_duty(dice, &mut next);
        let rest = taste.rest(dice, next.total);
        next.push(Activity::Rest, rest);
        if next.is_lawful() {
            return Ok(next);
        }
    }
    next.push(Activity::Work, 1);
    Err(next)
}

/// A duty of up to 15 hours, with or without driving.
fn grown_duty(dice: &mut Dice, draft: &mut Draft) {
    match dice.below(4) {
        0 => ordinary_duty(dice, draft),
        1 => draft.push(Activity::Work, dice.between(1, 60)),
        2 => draft.push(Activity::Work, dice.between(600, 900)),
        _ => draft.push(Activity::Availability, dice.between(1, 900)),
    }
}

/// A recording whose verdict takes a long search: most rests between 24 and 45
/// hours, many debts outstanding, and, if so many rounds suffice, a breach in
/// the last week. It starts from a grown one and takes each change by which
/// the breach gets later, up to the last week, or the search longer.
pub fn hard(dice: &mut Dice, rounds: u32) -> Vec<u32> {
    hard_of_weeks(dice, rounds, WEEKS)
}

/// The same of so many weeks.
pub fn hard_of_weeks(dice: &mut Dice, rounds: u32, weeks: u32) -> Vec<u32> {
    let mut best = grown_of_reduced_rests(dice, weeks);
    let mut best_score = score(&best);
    for _ in 0..rounds {
        let changed = best.changed(dice);
        let score = score(&changed);
        if score >= best_score {
            best_score = score;
            best = changed;
        }
    }
    best.words()
}

/// The minute of the breach, the same for all in the last week, and the steps
/// of the search.
fn score(days: &Days) -> (i64, u64) {
    let words = days.words();
    let limits = Limits::document();
    let mut judge = Judge::new(&words, &limits);
    match judge.outcome() {
        Outcome::Pass(_) => (0, 0),
        Outcome::Breach { minute, .. } => (minute.min(i64::from(days.last_week())), judge.steps),
    }
}

/// Twelve weeks of rests of little more than 24 hours, which cannot carry each
/// other's debts, with a longer one every so often: many debts, few carriers.
pub fn scarce(dice: &mut Dice) -> Vec<u32> {
    scarce_of_weeks(dice, WEEKS)
}

/// So many weeks of them.
pub fn scarce_of_weeks(dice: &mut Dice, weeks: u32) -> Vec<u32> {
    let lengths: Vec<u32> = (0..6).map(|_| dice.between(1_440, 1_500)).collect();
    let longer = [2_700, 2_701, 2_710, 2_760, 3_500][dice.below(5) as usize];
    let every = dice.between(5, 10);
    let daily = dice.between(540, 900);
    let work = dice.between(1, 60);
    let mut draft = Draft::new(weeks);
    for number in 1.. {
        let rest = match dice.below(7) {
            _ if number % every == 0 => longer,
            6 => daily,
            length => lengths[length as usize],
        };
        draft.push(Activity::Work, work);
        if draft.is_full() {
            break;
        }
        draft.push(Activity::Rest, rest);
    }
    draft.words
}

/// Twelve weeks climbed to make the front wide: each rest is the one of so many
/// that leaves the most states which no other makes needless, but no more than
/// `widest`. Where nothing is left, the last few days are taken back. Half of
/// them have daily rests alone in the last week.
pub fn climbed(dice: &mut Dice, candidates: u32, widest: usize) -> Vec<u32> {
    climbed_of_weeks(dice, candidates, widest, WEEKS)
}

/// So many weeks of them.
pub fn climbed_of_weeks(dice: &mut Dice, candidates: u32, widest: usize, weeks: u32) -> Vec<u32> {
    let climb = Climb::new(dice);
    let mut days = Days::new(weeks);
    let end = if dice.one_in(2) {
        days.full()
    } else {
        days.last_week()
    };
    let mut fronts = vec![Front::new(i64::from(days.full()) - 1)];
    for _ in 0..days.tries() {
        let front = fronts.last().expect("the first front is never taken back");
        let reached = days.draft().total;
        if reached >= end {
            break;
        }
        let fronts_after = (0..candidates).filter_map(|_| {
            let (work, rest) = climb.day(dice);
            let start = i64::from(reached + work);
            let end = start + i64::from(rest);
            let after = front.after(front.rest(Span { start, end }), widest)?;
            (after.width() > 0).then_some(((work, rest), after))
        });
        match fronts_after.max_by_key(|(_, after)| after.width()) {
            Some((day, after)) => {
                days.days.push(day);
                fronts.push(after);
            }
            None => {
                days.take_back();
                fronts.truncate(days.days.len() + 1);
            }
        }
    }
    days.words()
}

/// What a climb chooses from: lengths of little more than 24 hours, one of 45
/// hours and more, one of a daily rest, and minutes of work.
struct Climb {
    lengths: [u32; 4],
    longer: u32,
    daily: u32,
    work: u32,
}

impl Climb {
    fn new(dice: &mut Dice) -> Climb {
        let mut length = || dice.between(1_440, 1_540);
        Climb {
            lengths: [length(), length(), length(), length()],
            longer: dice.between(2_700, 2_970),
            daily: dice.between(540, 900),
            work: dice.between(1, 5),
        }
    }

    /// Work, and a rest after it.
    fn day(&self, dice: &mut Dice) -> (u32, u32) {
        let work = match dice.below(8) {
            0 => dice.between(1, 60),
            _ => self.work,
        };
        let rest = match dice.weighted(&[8, 8, 4, 2, 3, 2]) {
            0 => self.lengths[dice.below(4) as usize],
            1 => dice.between(1_440, 1_540),
            2 => self.longer,
            3 => dice.between(2_700, 2_970),
            4 => self.daily,
            _ => dice.between(540, 1_439),
        };
        (work, rest)
    }
}

/// Days of work alone, in so many weeks: minutes of work, then minutes of rest.
#[derive(Clone)]
struct Days {
    weeks: u32,
    days: Vec<(u32, u32)>,
}

impl Days {
    fn new(weeks: u32) -> Days {
        Days {
            weeks,
            days: Vec::new(),
        }
    }

    /// The minutes of its weeks.
    fn full(&self) -> u32 {
        self.weeks * WEEK
    }

    /// The start of the last week.
    fn last_week(&self) -> u32 {
        self.full() - WEEK
    }

    /// How often a day is looked for.
    fn tries(&self) -> u32 {
        400 * self.weeks / WEEKS
    }

    /// Without the last few days.
    fn take_back(&mut self) {
        self.days.truncate(self.days.len().saturating_sub(4));
    }

    fn draft(&self) -> Draft {
        let mut draft = Draft::new(self.weeks);
        for &(work, rest) in &self.days {
            draft.push(Activity::Work, work);
            draft.push(Activity::Rest, rest);
        }
        draft
    }

    /// The days, and after them daily rests alone up to the end of its weeks.
    fn words(&self) -> Vec<u32> {
        let mut draft = self.draft();
        while !draft.is_full() {
            draft.push(Activity::Work, 780);
            draft.push(Activity::Rest, 660);
        }
        draft.words
    }

    /// The same days with one of them changed.
    fn changed(&self, dice: &mut Dice) -> Days {
        let mut days = self.clone();
        let count = days.days.len() as u32;
        if count == 0 {
            return days;
        }
        let chosen = dice.below(count) as usize;
        let other = dice.below(count) as usize;
        match dice.below(6) {
            0 => days.days.swap(chosen, other),
            1 => days.days[chosen].0 = dice.between(1, 900),
            2 => days.days[chosen].1 = dice.between(540, 1_500),
            3 => days.days[chosen].1 = dice.between(1_440, 2_720),
            4 => {
                let rest = days.days[chosen].1 + dice.between(0, 60);
                days.days[chosen].1 = rest.saturating_sub(30).max(540);
            }
            _ => {
                days.days.remove(chosen);
            }
        }
        days
    }
}

/// Days grown while they stay lawful, up to the last week, with a regular
/// weekly rest only where nothing else will do. Where nothing will, the last
/// few days are taken back.
fn grown_of_reduced_rests(dice: &mut Dice, weeks: u32) -> Days {
    let taste = Taste::reduced(dice);
    let mut days = Days::new(weeks);
    for _ in 0..days.tries() {
        let draft = days.draft();
        if draft.total >= days.last_week() {
            break;
        }
        match lawful_day(dice, &draft, taste) {
            Some(day) => days.days.push(day),
            None => days.take_back(),
        }
    }
    days
}

/// Work and rest that the draft can be followed by.
fn lawful_day(dice: &mut Dice, draft: &Draft, taste: Taste) -> Option<(u32, u32)> {
    (0..16).find_map(|attempt| {
        let longest = if dice.one_in(3) { 900 } else { 60 };
        let work = dice.between(1, longest);
        let rest = if attempt < 10 {
            taste.rest(dice, draft.total + work)
        } else {
            dice.between(2_700, 2_760)
        };
        let mut next = draft.clone();
        next.push(Activity::Work, work);
        next.push(Activity::Rest, rest);
        next.is_lawful().then_some((work, rest))
    })
}
