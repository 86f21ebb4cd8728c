//! The verdict for recordings of any size: run by run, by the search.

use crate::limits::Limits;
use crate::reading::bytes;
use crate::runs::Course;
use crate::search::Search;
use crate::verdict::{Outcome, Verdict};

/// Questions about a recording and its stretches.
pub struct Judge<'a> {
    course: Course<'a>,
    /// The steps of all searches so far.
    pub steps: u64,
}

impl<'a> Judge<'a> {
    /// The words must be such that weighing does not turn them away.
    pub fn new(words: &[u32], limits: &'a Limits) -> Judge<'a> {
        Judge::of(Course::new(words, limits))
    }

    pub fn of(course: Course<'a>) -> Judge<'a> {
        Judge { course, steps: 0 }
    }

    /// k
    pub fn long_rests(&self) -> usize {
        self.course.long_rests.len()
    }

    /// Whether the stretch of m has a lawful reading.
    pub fn is_lawful(&mut self, m: i64) -> bool {
        self.keeps_fixed_rules(m) && self.has_reading(m)
    }

    /// The first lawful reading of the stretch of m.
    pub fn first_reading(&mut self, m: i64) -> Option<Vec<u8>> {
        if !self.keeps_fixed_rules(m) {
            return None;
        }
        let mut search = self.search(m);
        let reading = search.first_reading();
        self.steps += search.steps;
        reading.map(|entries| bytes(&entries))
    }

    /// The verdict alone: the first lawful reading is not looked for.
    pub fn verdict(&mut self) -> Verdict {
        if self.is_lawful(self.course.total) {
            return Verdict::Pass;
        }
        let (minute, article) = self.breach();
        Verdict::Breach { minute, article }
    }

    /// The verdict, a pass with its first lawful reading.
    pub fn outcome(&mut self) -> Outcome {
        if let Some(reading) = self.first_reading(self.course.total) {
            return Outcome::Pass(reading);
        }
        let (minute, article) = self.breach();
        Outcome::Breach { minute, article }
    }

    /// Minute and article, where there is no lawful reading. A breach of the fixed
    /// rules stands from some minute on, so readings are asked for only before it.
    fn breach(&mut self) -> (i64, u8) {
        match self.course.first_fixed_breach() {
            None => (self.reading_breach(self.course.total), 6),
            Some(fixed) if self.has_reading(fixed.minute - 1) => (fixed.minute, fixed.rule),
            Some(fixed) => (self.reading_breach(fixed.minute - 1), 6),
        }
    }

    /// The least m without a lawful reading, where the stretch of `unlawful`
    /// has none and keeps the fixed rules. Lawfulness is lost once and for all
    /// as m grows, so m is found by halving.
    fn reading_breach(&mut self, mut unlawful: i64) -> i64 {
        let mut lawful = 0;
        while unlawful - lawful > 1 {
            let middle = (lawful + unlawful) / 2;
            if self.is_lawful_between(lawful, middle, unlawful) {
                lawful = middle;
            } else {
                unlawful = middle;
            }
        }
        unlawful
    }

    /// Whether some reading of the stretch of m keeps rules 6 to 11, where that
    /// is known of a shorter and a longer one: a search is needed only if the
    /// rules can tell it from both.
    fn is_lawful_between(&mut self, lawful: i64, m: i64, unlawful: i64) -> bool {
        let sight = self.sight(m);
        if sight == self.sight(lawful) {
            return true;
        }
        sight != self.sight(unlawful) && self.has_reading(m)
    }

    /// All that rules 6 to 11 see of the stretch of m: its k, the week of S
    /// (rule 11; and every due of rule 8 is a week's end), and to how many of
    /// minute 0 and the ends of its rests S keeps the distance of rule 10.
    fn sight(&self, m: i64) -> (usize, i64, usize) {
        let limits = self.course.limits;
        let judged_end = self.course.judged_end(m);
        let rests = &self.course.long_rests[..self.course.long_rests_in(m)];
        let near = std::iter::once(0)
            .chain(rests.iter().map(|rest| rest.span.end))
            .filter(|&end| judged_end - end <= limits.between_weekly_rests);
        (rests.len(), limits.week_of(judged_end), near.count())
    }

    fn keeps_fixed_rules(&self, m: i64) -> bool {
        match self.course.first_fixed_breach() {
            Some(breach) => m < breach.minute,
            None => true,
        }
    }

    /// Whether some reading of the stretch of m keeps rules 6 to 11.
    fn has_reading(&mut self, m: i64) -> bool {
        let mut search = self.search(m);
        let exists = search.exists();
        self.steps += search.steps;
        exists
    }

    fn search(&self, m: i64) -> Search<'_> {
        let rests = &self.course.long_rests[..self.course.long_rests_in(m)];
        Search::new(self.course.limits, rests, self.course.judged_end(m))
    }
}
