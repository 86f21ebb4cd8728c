//! Rules 1 to 5, minute by minute as the documents say them, in the regulation's
//! order: articles 6(1), 6(2), 6(3), 7, 8(2).

use crate::broken::Broken;
use crate::limits::Limits;
use crate::recording::{weighed_minutes, Activity, Recording, Span};
use crate::refusal::Refusal;

/// Testing fixed rules for a stretch of m: "The answer is 0 or the smallest
/// broken rule of 1 to 5."
pub fn test(words: &[u32], m: usize) -> Result<u8, Refusal> {
    Ok(broken_in_stretch(words, m)?.smallest_rule())
}

/// Request 4: "an operation beside the fixed test, with its inputs and refusals,
/// that answers 0 or the place, 1 to 5, of the first of these broken".
pub fn article_test(words: &[u32], m: usize) -> Result<u8, Refusal> {
    Ok(broken_in_stretch(words, m)?.first_article())
}

/// "1, 2; then 5, m is over N."
fn broken_in_stretch(words: &[u32], m: usize) -> Result<Broken, Refusal> {
    let limits = Limits::document();
    let minutes = weighed_minutes(words, &limits)?;
    if m > minutes.len() {
        return Err(Refusal::StretchOverTotal);
    }
    Ok(broken(&Recording::new(&minutes[..m], &limits)))
}

/// 0 or the smallest broken rule of 1 to 5.
pub fn broken_rule(recording: &Recording) -> u8 {
    broken(recording).smallest_rule()
}

/// 0 or the place, 1 to 5, of the first broken article.
pub fn broken_article(recording: &Recording) -> u8 {
    broken(recording).first_article()
}

/// Which of the five are broken.
pub fn broken(recording: &Recording) -> Broken {
    let articles = [keeps_6_1, keeps_6_2, keeps_6_3, keeps_7, keeps_8_2];
    Broken::by_article(articles.map(|keeps| !keeps(recording)))
}

/// Rule 2, 6(1). "A day's driving is at most 600. At most two days that begin
/// in one week exceed 540."
fn keeps_6_1(recording: &Recording) -> bool {
    let limits = recording.limits;
    let days = recording.days();
    let within = |day: &_| recording.driving(*day) <= limits.day_driving;
    let extended_days_of = |week: i64| {
        days.iter()
            .filter(|day| limits.week_of(day.start) == week)
            .filter(|day| recording.driving(**day) > limits.ordinary_day_driving)
            .count()
    };
    days.iter().all(within)
        && recording
            .weeks()
            .all(|week| extended_days_of(week) <= limits.extended_days)
}

/// Rule 3, 6(2). "A week's driving is at most 3,360."
fn keeps_6_2(recording: &Recording) -> bool {
    recording
        .weeks()
        .all(|week| recording.driving(recording.week(week)) <= recording.limits.week_driving)
}

/// Rule 4, 6(3). "Two consecutive weeks have at most 5,400."
fn keeps_6_3(recording: &Recording) -> bool {
    let driving = |week: i64| recording.driving(recording.week(week));
    recording
        .weeks()
        .all(|week| driving(week) + driving(week + 1) <= recording.limits.fortnight_driving)
}

/// Rule 1, article 7, after some minutes.
#[derive(Default)]
struct Breaks {
    /// "A driving sum starts at 0."
    sum: i64,
    /// Whether a first part has been taken.
    first_part: bool,
    /// The end of the rest that last cleared the sum, or minute 0.
    cleared: i64,
    /// The last minute of driving, if there was one.
    driven: Option<i64>,
}

impl Breaks {
    /// "After a rest of 45 or more it is 0 again. A rest of 15 or more is a
    /// first part, unless it clears the sum; a rest of 30 or more after a first
    /// part clears the sum. Clearing forgets the first part."
    fn rest(&mut self, rest: Span, limits: &Limits) {
        let second_part = self.first_part && rest.length() >= limits.second_part;
        if rest.length() >= limits.full_break || second_part {
            self.sum = 0;
            self.first_part = false;
            self.cleared = rest.end;
        } else if rest.length() >= limits.first_part && self.driving_done() {
            self.first_part = true;
        }
    }

    /// Request 2: "From now on a rest is a first part only if driving has been
    /// done since the sum was last cleared, or since minute 0 if it never was."
    fn driving_done(&self) -> bool {
        self.driven.is_some_and(|minute| minute >= self.cleared)
    }

    fn drive(&mut self, minute: i64) {
        self.sum += 1;
        self.driven = Some(minute);
    }
}

/// Rule 1, article 7. "The sum never passes 270."
fn keeps_7(recording: &Recording) -> bool {
    let limits = recording.limits;
    let mut breaks = Breaks::default();
    let mut reached = 0;
    for (minute, &activity) in (0..).zip(recording.minutes) {
        if activity == Activity::Rest {
            continue;
        }
        let rest = Span {
            start: reached,
            end: minute,
        };
        breaks.rest(rest, limits);
        reached = minute + 1;
        if activity == Activity::Driving {
            breaks.drive(minute);
        }
        if breaks.sum > limits.unbroken_driving {
            return false;
        }
    }
    true
}

/// Rule 5, 8(2). "Every long rest starts at most 900 after P; S too."
fn keeps_8_2(recording: &Recording) -> bool {
    let starts = recording.long_rests.iter().map(|rest| rest.start);
    starts
        .chain([recording.judged_end])
        .all(|point| point - recording.previous_end(point) <= recording.limits.day_length)
}
