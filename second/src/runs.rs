//! The recording run by run: the same facts as in
//! [`recording`](crate::recording) and [`fixed`](crate::fixed), without a list
//! of minutes.

use crate::broken::Broken;
use crate::limits::Limits;
use crate::recording::{word_activity, word_minutes, Activity, Span};

/// A longest unbroken run of one activity.
#[derive(Clone, Copy, Debug, PartialEq, Eq)]
pub struct Run {
    pub activity: Activity,
    pub span: Span,
}

/// The runs of a recording, equal neighbours joined.
pub fn runs(words: &[u32]) -> Vec<Run> {
    let mut runs: Vec<Run> = Vec::new();
    let mut reached = 0;
    for &word in words {
        let activity = word_activity(word);
        let end = reached + word_minutes(word);
        match runs.last_mut() {
            Some(last) if last.activity == activity => last.span.end = end,
            _ => runs.push(Run {
                activity,
                span: Span {
                    start: reached,
                    end,
                },
            }),
        }
        reached = end;
    }
    runs
}

/// The pieces of a span, cut at week ends.
pub fn cut_at_weeks(span: Span, limits: &Limits) -> impl Iterator<Item = Span> + '_ {
    let first = limits.week_of(span.start);
    let last = limits.week_of(span.end - 1);
    (first..=last).map(move |week| Span {
        start: span.start.max(limits.week * week),
        end: span.end.min(limits.week * (week + 1)),
    })
}

/// A long rest, with P of its start and what its day holds.
#[derive(Clone, Copy, Debug, PartialEq, Eq)]
pub struct LongRest {
    pub span: Span,
    /// P
    pub previous_end: i64,
    /// "its day holds an earlier rest of 180 to 539 minutes"
    pub earlier_rest: bool,
}

impl LongRest {
    /// Whether it counts under rule 9 as a daily rest with this own.
    pub fn is_shortened(&self, own: i64, limits: &Limits) -> bool {
        let portion = limits.portion(self.span.start, own, self.previous_end);
        portion < self.full_portion(limits)
    }

    /// The portion from which on it does not count under rule 9. Request 3: "A
    /// daily rest with portion 540 or more no longer counts under rule 9 if its
    /// day holds an earlier rest of 180 to 539 minutes."
    pub fn full_portion(&self, limits: &Limits) -> i64 {
        if self.earlier_rest {
            limits.later_portion.min(limits.regular_daily_rest)
        } else {
            limits.regular_daily_rest
        }
    }
}

/// A recording run by run, with its long rests.
pub struct Course<'a> {
    pub limits: &'a Limits,
    pub runs: Vec<Run>,
    pub long_rests: Vec<LongRest>,
    pub total: i64,
}

/// "A breach ... gives the least m without a lawful reading, and its article."
#[derive(Clone, Copy, Debug, PartialEq, Eq)]
pub struct FixedBreach {
    pub minute: i64,
    pub rule: u8,
}

impl<'a> Course<'a> {
    pub fn new(words: &[u32], limits: &'a Limits) -> Course<'a> {
        let runs = runs(words);
        let total = runs.last().map_or(0, |run| run.span.end);
        let mut course = Course {
            limits,
            runs,
            long_rests: Vec::new(),
            total,
        };
        course.long_rests = course.find_long_rests();
        course
    }

    /// Rest by rest: a long rest ends its day, and the next one holds nothing yet.
    fn find_long_rests(&self) -> Vec<LongRest> {
        let earlier_rest = self.limits.earlier_rest_least..=self.limits.earlier_rest_most;
        let mut long_rests = Vec::new();
        let mut previous_end = 0;
        let mut held = false;
        let is_rest = |run: &&Run| run.activity == Activity::Rest;
        for run in self.runs.iter().filter(is_rest) {
            if self.is_long_rest(run) {
                long_rests.push(LongRest {
                    span: run.span,
                    previous_end,
                    earlier_rest: held,
                });
                previous_end = run.span.end;
                held = false;
            } else {
                held |= earlier_rest.contains(&run.span.length());
            }
        }
        long_rests
    }

    /// "A long rest is a rest that is not open and has 540 minutes or more."
    fn is_long_rest(&self, run: &Run) -> bool {
        run.activity == Activity::Rest
            && run.span.end < self.total
            && run.span.length() >= self.limits.long_rest
    }

    /// k of the stretch of m: a rest is closed once the minute after it is in.
    pub fn long_rests_in(&self, m: i64) -> usize {
        self.long_rests.partition_point(|rest| rest.span.end < m)
    }

    /// S of the stretch of m.
    pub fn judged_end(&self, m: i64) -> i64 {
        let next = self.runs.partition_point(|run| run.span.start < m);
        match self.runs[..next].last() {
            Some(run) if run.activity == Activity::Rest => run.span.start,
            _ => m,
        }
    }

    /// The least m at which one of the fixed rules is broken, and the smallest of
    /// them broken there.
    pub fn first_fixed_breach(&self) -> Option<FixedBreach> {
        let breaches = self.fixed_breaches();
        let minute = breaches.into_iter().flatten().min()?;
        Some(FixedBreach {
            minute,
            rule: broken_at(breaches, minute).smallest_rule(),
        })
    }

    /// Which of the fixed rules the stretch of m breaks.
    pub fn broken(&self, m: i64) -> Broken {
        broken_at(self.fixed_breaches(), m)
    }

    /// The least m at which each of the fixed rules is broken, in the regulation's
    /// order.
    fn fixed_breaches(&self) -> [Option<i64>; 5] {
        [
            self.breach_of_6_1(),
            self.breach_of_6_2(),
            self.breach_of_6_3(),
            self.breach_of_7(),
            self.breach_of_8_2(),
        ]
    }

    /// 6(1): "A day's driving is at most 600. At most two days that begin in one
    /// week exceed 540."
    fn breach_of_6_1(&self) -> Option<i64> {
        let mut day_start = 0;
        let mut driving = 0;
        let mut extended_days = Counter::default();
        for run in &self.runs {
            if self.is_long_rest(run) {
                day_start = run.span.end;
                driving = 0;
            }
            if run.activity != Activity::Driving {
                continue;
            }
            let extended = passes(driving, run.span, self.limits.ordinary_day_driving);
            let over = passes(driving, run.span, self.limits.day_driving);
            let one_too_many = extended.filter(|_| {
                let days = extended_days.add(self.limits.week_of(day_start), 1);
                days > self.limits.extended_days as i64
            });
            if let Some(breach) = over.into_iter().chain(one_too_many).min() {
                return Some(breach);
            }
            driving += run.span.length();
        }
        None
    }

    /// The driving, cut at week ends, each piece with its week.
    fn driving_by_week(&self) -> impl Iterator<Item = (i64, Span)> + '_ {
        self.runs
            .iter()
            .filter(|run| run.activity == Activity::Driving)
            .flat_map(|run| cut_at_weeks(run.span, self.limits))
            .map(|piece| (self.limits.week_of(piece.start), piece))
    }

    /// 6(2): "A week's driving is at most 3,360."
    fn breach_of_6_2(&self) -> Option<i64> {
        let mut weeks = Counter::default();
        self.driving_by_week().find_map(|(week, piece)| {
            let before = weeks.of(week);
            weeks.add(week, piece.length());
            passes(before, piece, self.limits.week_driving)
        })
    }

    /// 6(3): "Two consecutive weeks have at most 5,400."
    fn breach_of_6_3(&self) -> Option<i64> {
        let mut weeks = Counter::default();
        self.driving_by_week().find_map(|(week, piece)| {
            let before = weeks.of(week - 1) + weeks.of(week);
            weeks.add(week, piece.length());
            passes(before, piece, self.limits.fortnight_driving)
        })
    }

    /// Article 7: "The sum never passes 270."
    fn breach_of_7(&self) -> Option<i64> {
        let mut driving = UnbrokenDriving::default();
        for run in &self.runs {
            match run.activity {
                Activity::Rest => driving = driving.after_rest(run.span.length(), self.limits),
                Activity::Driving => {
                    let breach = passes(driving.sum, run.span, self.limits.unbroken_driving);
                    if breach.is_some() {
                        return breach;
                    }
                    driving.sum += run.span.length();
                }
                Activity::Availability | Activity::Work => {}
            }
        }
        None
    }

    /// 8(2): "Every long rest starts at most 900 after P; S too." A long rest's
    /// start is S before that rest, so only S is looked at: it grows with each
    /// minute that is not rest.
    fn breach_of_8_2(&self) -> Option<i64> {
        let mut previous_end = 0;
        for run in &self.runs {
            let latest = previous_end + self.limits.day_length;
            if self.is_long_rest(run) {
                previous_end = run.span.end;
            } else if run.activity != Activity::Rest && run.span.end > latest {
                return Some((run.span.start + 1).max(latest + 1));
            }
        }
        None
    }
}

/// Which of the fixed rules are broken in the stretch of m: each is broken from its
/// least m on.
fn broken_at(breaches: [Option<i64>; 5], m: i64) -> Broken {
    Broken::by_article(breaches.map(|breach| breach.is_some_and(|least| least <= m)))
}

/// The least m at which a sum that grows by 1 a minute over this span passes
/// the limit, if it passes it there.
fn passes(before: i64, span: Span, limit: i64) -> Option<i64> {
    let grows_past = before <= limit && before + span.length() > limit;
    grows_past.then(|| span.start + (limit - before) + 1)
}

/// A count for each week.
#[derive(Default)]
struct Counter(Vec<i64>);

impl Counter {
    fn of(&self, week: i64) -> i64 {
        match usize::try_from(week) {
            Ok(week) => self.0.get(week).copied().unwrap_or(0),
            Err(_) => 0,
        }
    }

    /// Adds to a week's count and gives the new one.
    fn add(&mut self, week: i64, amount: i64) -> i64 {
        let week = week as usize;
        if self.0.len() <= week {
            self.0.resize(week + 1, 0);
        }
        self.0[week] += amount;
        self.0[week]
    }
}

/// Article 7 after some runs: the driving sum, and whether a first part has been
/// taken.
#[derive(Clone, Copy, Default)]
struct UnbrokenDriving {
    sum: i64,
    first_part: bool,
}

impl UnbrokenDriving {
    /// Request 2: "a rest is a first part only if driving has been done since
    /// the sum was last cleared, or since minute 0 if it never was." Just then
    /// the sum is over 0.
    fn after_rest(self, length: i64, limits: &Limits) -> UnbrokenDriving {
        let second_part = self.first_part && length >= limits.second_part;
        if length >= limits.full_break || second_part {
            return UnbrokenDriving::default();
        }
        let first_part = self.sum > 0 && length >= limits.first_part;
        UnbrokenDriving {
            sum: self.sum,
            first_part: self.first_part || first_part,
        }
    }
}
