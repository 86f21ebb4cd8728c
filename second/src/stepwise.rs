//! Readings entry by entry with cuts, for recordings of a middle size.
//!
//! The order is that of [`plain`](crate::plain): each entry with its carrier is
//! decided before the next. A beginning that already breaks a rule is left at
//! once; a whole reading is held against the rules themselves.

use crate::fixed;
use crate::plain::candidates;
use crate::reading::{broken_reading_rule, bytes, counts_under_rule_9, Entry};
use crate::recording::Recording;

/// Not known after so many steps.
#[derive(Clone, Copy, Debug, PartialEq, Eq)]
pub struct GivenUp;

/// The first lawful reading, or `None` if there is none.
pub fn first_lawful(recording: &Recording, steps: u64) -> Result<Option<Vec<u8>>, GivenUp> {
    if fixed::broken_rule(recording) != 0 {
        return Ok(None);
    }
    let k = recording.long_rests.len();
    let mut walk = Walk {
        recording,
        candidates: (1..=k)
            .map(|number| candidates(recording, number))
            .collect(),
        entries: Vec::new(),
        loads: vec![0; k],
        steps,
    };
    let found = walk.extend(Beginning::default());
    if walk.steps == 0 {
        return Err(GivenUp);
    }
    Ok(found.then(|| bytes(&walk.entries)))
}

struct Walk<'a> {
    recording: &'a Recording<'a>,
    candidates: Vec<Vec<Entry>>,
    entries: Vec<Entry>,
    /// What the decided entries already ask of each rest.
    loads: Vec<i64>,
    /// The steps that may still be taken.
    steps: u64,
}

/// What a beginning of a reading hands on to the next entry.
#[derive(Clone, Copy, Default)]
struct Beginning {
    /// The end of the last weekly rest, or 0.
    weekly_end: i64,
    /// The daily rests since then that count under rule 9.
    reduced_daily_rests: usize,
}

impl Walk<'_> {
    /// Completes the reading in the first way that is lawful.
    fn extend(&mut self, beginning: Beginning) -> bool {
        let index = self.entries.len();
        if index == self.recording.long_rests.len() {
            return broken_reading_rule(self.recording, &self.entries) == 0;
        }
        for entry in self.candidates[index].clone() {
            if self.steps == 0 {
                return false;
            }
            self.steps -= 1;
            if self.try_entry(entry, beginning) {
                return true;
            }
        }
        false
    }

    fn try_entry(&mut self, entry: Entry, beginning: Beginning) -> bool {
        let Some((next, debt)) = self.after(entry, beginning) else {
            return false;
        };
        let carrier = usize::from(entry.carrier);
        if carrier > 0 {
            self.loads[carrier - 1] += debt;
        }
        self.entries.push(entry);
        if self.carriers_have_room() && self.closed_weeks_hold() && self.extend(next) {
            return true;
        }
        self.entries.pop();
        if carrier > 0 {
            self.loads[carrier - 1] -= debt;
        }
        false
    }

    /// Rules 7 to 10 for the next rest alone: what follows it, and its debt.
    fn after(&self, entry: Entry, beginning: Beginning) -> Option<(Beginning, i64)> {
        let limits = self.recording.limits;
        let index = self.entries.len();
        let rest = self.recording.long_rests[index];
        let own = rest.length() - self.loads[index];
        if rest.start - beginning.weekly_end > limits.between_weekly_rests {
            return None;
        }
        if !entry.is_weekly() {
            let mut next = beginning;
            if counts_under_rule_9(self.recording, rest, own) {
                next.reduced_daily_rests += 1;
            }
            let holds =
                own >= limits.daily_rest && next.reduced_daily_rests <= limits.reduced_daily_rests;
            return holds.then_some((next, 0));
        }
        let debt = limits.weekly_debt(own);
        let due = limits.due(i64::from(entry.week));
        let paid_in_time = match usize::from(entry.carrier) {
            0 => debt == 0 || due > self.recording.judged_end,
            carrier => debt > 0 && self.recording.long_rests[carrier - 1].end <= due,
        };
        let next = Beginning {
            weekly_end: rest.end,
            reduced_daily_rests: 0,
        };
        (own >= limits.weekly_rest && paid_in_time).then_some((next, debt))
    }

    /// No rest carries more than rule 7 can leave it.
    fn carriers_have_room(&self) -> bool {
        let least = self
            .recording
            .limits
            .daily_rest
            .min(self.recording.limits.weekly_rest);
        self.recording
            .long_rests
            .iter()
            .zip(&self.loads)
            .all(|(rest, load)| rest.length() - load >= least)
    }

    /// Rule 11's count of weekly rests, for the weeks that no later rest can
    /// be counted in. A week that a rest covers is left to the whole test.
    fn closed_weeks_hold(&self) -> bool {
        let limits = self.recording.limits;
        let index = self.entries.len();
        let reached = match self.recording.long_rests.get(index) {
            Some(rest) => rest.start,
            None => self.recording.judged_end,
        };
        let covered = |week: i64| {
            let week = self.recording.week(week);
            self.recording
                .long_rests
                .iter()
                .any(|rest| rest.start <= week.start && week.end <= rest.end)
        };
        let counted = |week: i64| {
            self.entries
                .iter()
                .filter(|entry| entry.is_weekly() && i64::from(entry.week) == week)
                .count()
        };
        (0..limits.week_of(reached) - 1).all(|week| {
            covered(week) || covered(week + 1) || counted(week) + counted(week + 1) >= 2
        })
    }
}
