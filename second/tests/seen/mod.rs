//! What a comparison has met, so that it can be seen to have met everything.

use second::reading::{
    broken_reading_rule, counts_under_rule_9, entries, standings, Entry, Standing,
};
use second::recording::Recording;
use second::verdict::Outcome;

#[derive(Debug, Default)]
pub struct Seen {
    pub recordings: usize,
    pub passes: usize,
    pub fixed_breaches: usize,
    pub reading_breaches: usize,
    pub weekly: usize,
    pub reduced: usize,
    pub carried: usize,
    pub carried_with_others: usize,
    pub carried_by_daily: usize,
    pub carried_by_reduced: usize,
    pub over_week_ends: usize,
    pub in_a_later_week: usize,
    /// The daily rests with portion under 660 that do not count under rule 9.
    pub freed: usize,
    /// For each rule, the changes of one byte of a first reading that break it
    /// before any other.
    pub broken: [usize; 12],
}

impl Seen {
    pub fn outcome(&mut self, recording: &Recording, outcome: &Outcome) {
        match outcome {
            Outcome::Pass(reading) => self.first_reading(recording, Some(reading)),
            Outcome::Breach { article, .. } => {
                self.recordings += 1;
                self.reading_breaches += usize::from(*article == 6);
                self.fixed_breaches += usize::from(*article < 6);
            }
        }
    }

    pub fn first_reading(&mut self, recording: &Recording, reading: Option<&[u8]>) {
        self.recordings += 1;
        if let Some(reading) = reading {
            self.passes += 1;
            self.entries(recording, &entries(reading));
            self.changes(recording, reading);
        }
    }

    fn entries(&mut self, recording: &Recording, entries: &[Entry]) {
        let standings = standings(recording, entries).expect("a first reading keeps rule 6");
        for (index, entry) in entries.iter().enumerate() {
            let rest = recording.long_rests[index];
            if !entry.is_weekly() {
                let (limits, own) = (recording.limits, standings[index].1);
                let previous_end = recording.previous_end(rest.start);
                let portion = limits.portion(rest.start, own, previous_end);
                let counts = counts_under_rule_9(recording, rest, own);
                self.freed += usize::from(portion < limits.regular_daily_rest && !counts);
            } else {
                let first = recording.limits.week_of(rest.start);
                self.weekly += 1;
                self.over_week_ends += usize::from(first < recording.limits.week_of(rest.end - 1));
                self.in_a_later_week += usize::from(first < i64::from(entry.week));
            }
            if matches!(standings[index].0, Standing::ReducedWeekly { .. }) {
                self.reduced += 1;
            }
            if entry.carrier > 0 {
                self.carrier(
                    entries,
                    standings[usize::from(entry.carrier) - 1].0,
                    entry.carrier,
                );
            }
        }
    }

    fn carrier(&mut self, entries: &[Entry], standing: Standing, carrier: u16) {
        let carried = entries.iter().filter(|entry| entry.carrier == carrier);
        self.carried += 1;
        self.carried_with_others += usize::from(carried.count() > 1);
        match standing {
            Standing::Daily => self.carried_by_daily += 1,
            Standing::ReducedWeekly { .. } => self.carried_by_reduced += 1,
            Standing::RegularWeekly => {}
        }
    }

    fn changes(&mut self, recording: &Recording, reading: &[u8]) {
        for index in 0..reading.len() {
            let mut changed = reading.to_vec();
            changed[index] ^= 1;
            let rule = broken_reading_rule(recording, &entries(&changed));
            self.broken[usize::from(rule)] += 1;
        }
    }

    #[allow(dead_code)]
    pub fn assert_breaches(&self) {
        assert!(self.fixed_breaches > 50);
        assert!(self.reading_breaches > 500);
    }

    pub fn assert_readings(&self) {
        assert!(self.passes > 1_000);
        assert!(self.weekly > 1_000 && self.reduced > 1_000);
        assert!(self.over_week_ends > 1_000 && self.in_a_later_week > 100);
        assert!(self.carried > 100);
        assert!(self.carried_by_daily > 20 && self.carried_by_reduced > 20);
        assert!(self.freed > 100);
        assert!(self.broken[6..].iter().all(|&count| count > 0));
    }
}
