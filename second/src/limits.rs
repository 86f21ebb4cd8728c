//! The numbers of the documents, in one place.
//!
//! Every rule takes its numbers from a [`Limits`]. The public operations use
//! [`Limits::document`]; tests also use smaller ones, so that many weeks fit
//! in few minutes and plain enumeration stays cheap. They keep to what is so
//! in the document: a week is no shorter than a long rest, and the lengths of
//! rests grow from daily through weekly to regular weekly.

/// "The total rises to 534,240 minutes".
pub const MOST_MINUTES: i64 = 534_240;
/// "long rests to 987": as many as the total has room for, each with a minute after it.
pub const MOST_LONG_RESTS: usize = 987;
/// "text to 53 weeks": as many as the total has.
pub const MOST_WEEKS: usize = 53;

/// The numbers that the rules compare with, in minutes unless said otherwise; those
/// of the fixed rules in the regulation's order.
#[derive(Clone, Copy, Debug, PartialEq, Eq)]
pub struct Limits {
    /// "The total N is 0 to 120,960"; by request 7 it "rises to 534,240 minutes".
    pub total: i64,
    /// "Week w (from 0) is minutes 10,080 × w to 10,080 × (w + 1)."
    pub week: i64,
    /// "A long rest is a rest that is not open and has 540 minutes or more."
    pub long_rest: i64,

    /// Rule 2, 6(1): "A day's driving is at most 600."
    pub day_driving: i64,
    /// Rule 2, 6(1): the driving of a day that is not extended, 540.
    pub ordinary_day_driving: i64,
    /// Rule 2, 6(1): "At most two days that begin in one week exceed 540."
    pub extended_days: usize,
    /// Rule 3, 6(2): "A week's driving is at most 3,360."
    pub week_driving: i64,
    /// Rule 4, 6(3): "Two consecutive weeks have at most 5,400."
    pub fortnight_driving: i64,
    /// Rule 1, article 7: "After a rest of 45 or more it is 0 again."
    pub full_break: i64,
    /// Rule 1, article 7: "A rest of 15 or more is a first part."
    pub first_part: i64,
    /// Rule 1, article 7: "a rest of 30 or more after a first part clears the sum".
    pub second_part: i64,
    /// Rule 1, article 7: "The sum never passes 270."
    pub unbroken_driving: i64,
    /// Rule 5, 8(2): "Every long rest starts at most 900 after P; S too."
    pub day_length: i64,

    /// Rules 6 and 7: the least length and the least own of a weekly rest, 1,440.
    pub weekly_rest: i64,
    /// Rule 7: the least own of a daily rest, 540.
    pub daily_rest: i64,
    /// "A weekly rest with own under 2,700 is reduced."
    pub regular_weekly_rest: i64,
    /// Rule 8: "due is 10,080 × (w + 4)", in weeks.
    pub due_weeks: i64,
    /// Rule 9: "min(start + own, P + 1,440) − start".
    pub day_and_rest: i64,
    /// Rule 9: "portion under 660".
    pub regular_daily_rest: i64,
    /// Rule 9 by request 3: "an earlier rest of 180 to 539 minutes", the least.
    pub earlier_rest_least: i64,
    /// And the most.
    pub earlier_rest_most: i64,
    /// Rule 9 by request 3: "A daily rest with portion 540 or more".
    pub later_portion: i64,
    /// Rule 9: "At most three daily rests".
    pub reduced_daily_rests: usize,
    /// Rule 10: "at most 8,640".
    pub between_weekly_rests: i64,
}

impl Limits {
    /// The numbers of the documents.
    pub const fn document() -> Limits {
        Limits {
            total: MOST_MINUTES,
            week: 10_080,
            long_rest: 540,
            day_driving: 600,
            ordinary_day_driving: 540,
            extended_days: 2,
            week_driving: 3_360,
            fortnight_driving: 5_400,
            full_break: 45,
            first_part: 15,
            second_part: 30,
            unbroken_driving: 270,
            day_length: 900,
            weekly_rest: 1_440,
            daily_rest: 540,
            regular_weekly_rest: 2_700,
            due_weeks: 4,
            day_and_rest: 1_440,
            regular_daily_rest: 660,
            earlier_rest_least: 180,
            earlier_rest_most: 539,
            later_portion: 540,
            reduced_daily_rests: 3,
            between_weekly_rests: 8_640,
        }
    }

    /// The week that holds this minute.
    pub fn week_of(&self, minute: i64) -> i64 {
        minute / self.week
    }

    /// "For a reduced one counted in week w, due is 10,080 × (w + 4)."
    pub fn due(&self, week: i64) -> i64 {
        self.week * (week + self.due_weeks)
    }

    /// "A weekly rest with own under 2,700 is reduced, with debt 2,700 − own":
    /// 0 for a regular one.
    pub fn weekly_debt(&self, own: i64) -> i64 {
        if own < self.regular_weekly_rest {
            self.regular_weekly_rest - own
        } else {
            0
        }
    }

    /// Rule 9: "A daily rest's portion is min(start + own, P + 1,440) − start."
    pub fn portion(&self, start: i64, own: i64, previous_end: i64) -> i64 {
        (start + own).min(previous_end + self.day_and_rest) - start
    }
}
