//! Readings and rules 6 to 11, as the document says them.

use crate::fixed;
use crate::limits::Limits;
use crate::recording::{weighed_minutes, Activity, Recording, Span};
use crate::refusal::Refusal;

pub const DAILY: u8 = 0;
pub const WEEKLY: u8 = 1;

/// Request 7: "a reading's entry becomes four bytes".
pub const ENTRY_BYTES: usize = 4;

/// "A reading has three bytes for each long rest: kind (0 daily, 1 weekly),
/// week, carrier (0, or the number of the long rest that pays back)." Request 7:
/// "four bytes: kind, week, carrier low, carrier high". "The order of readings compares
/// kind, then week, then carrier as a number": entry by entry, in the order of the fields.
#[derive(Clone, Copy, Debug, PartialEq, Eq, PartialOrd, Ord)]
pub struct Entry {
    pub kind: u8,
    pub week: u8,
    pub carrier: u16,
}

impl Entry {
    pub fn daily() -> Entry {
        Entry {
            kind: DAILY,
            week: 0,
            carrier: 0,
        }
    }

    pub fn weekly(week: u8, carrier: u16) -> Entry {
        Entry {
            kind: WEEKLY,
            week,
            carrier,
        }
    }

    /// "kind, week, carrier low, carrier high"
    pub fn bytes(self) -> [u8; ENTRY_BYTES] {
        let [low, high] = self.carrier.to_le_bytes();
        [self.kind, self.week, low, high]
    }

    pub fn is_weekly(self) -> bool {
        self.kind == WEEKLY
    }
}

/// The entries of a reading, one a long rest.
pub fn entries(bytes: &[u8]) -> Vec<Entry> {
    let entry = |four: &[u8]| Entry {
        kind: four[0],
        week: four[1],
        carrier: u16::from_le_bytes([four[2], four[3]]),
    };
    bytes.chunks_exact(ENTRY_BYTES).map(entry).collect()
}

pub fn bytes(entries: &[Entry]) -> Vec<u8> {
    entries.iter().flat_map(|entry| entry.bytes()).collect()
}

/// Testing a reading: "1, 2; then 6, its byte count isn't 3 × k. The answer is
/// 0 or the smallest broken rule." Request 7: "Counts of 3 × k become 4 × k".
pub fn test(words: &[u32], reading: &[u8]) -> Result<u8, Refusal> {
    let limits = Limits::document();
    let minutes = weighed_minutes(words, &limits)?;
    let recording = Recording::new(&minutes, &limits);
    if reading.len() != ENTRY_BYTES * recording.long_rests.len() {
        return Err(Refusal::ReadingByteCount);
    }
    Ok(broken_rule(&recording, &entries(reading)))
}

/// "A reading is lawful when all eleven hold."
pub fn is_lawful(recording: &Recording, entries: &[Entry]) -> bool {
    broken_rule(recording, entries) == 0
}

/// 0 or the smallest broken rule of 1 to 11.
pub fn broken_rule(recording: &Recording, entries: &[Entry]) -> u8 {
    match fixed::broken_rule(recording) {
        0 => broken_reading_rule(recording, entries),
        fixed_rule => fixed_rule,
    }
}

/// 0 or the smallest broken rule of 6 to 11: "Later rules are read only when
/// the earlier ones hold."
pub fn broken_reading_rule(recording: &Recording, entries: &[Entry]) -> u8 {
    if !rule_6(recording, entries) {
        return 6;
    }
    let read = Read::new(recording, entries);
    let rules = [
        Read::rule_7,
        Read::rule_8,
        Read::rule_9,
        Read::rule_10,
        Read::rule_11,
    ];
    for (number, rule) in (7..).zip(rules) {
        if !rule(&read) {
            return number;
        }
    }
    0
}

/// Rule 6, form and 8(9), for every entry.
fn rule_6(recording: &Recording, entries: &[Entry]) -> bool {
    (1..)
        .zip(entries)
        .all(|(number, &entry)| has_form(recording, number, entry))
}

/// "A kind byte over 1 breaks this rule. Daily: week and carrier are 0.
/// Weekly: length at least 1,440; the rest has a minute in that week; the
/// carrier is 0 or a later long rest."
fn has_form(recording: &Recording, number: usize, entry: Entry) -> bool {
    let rest = recording.long_rests[number - 1];
    let carrier = usize::from(entry.carrier);
    match entry.kind {
        DAILY => entry.week == 0 && entry.carrier == 0,
        WEEKLY => {
            rest.length() >= recording.limits.weekly_rest
                && has_minute_in_week(recording, rest, entry.week)
                && (carrier == 0 || (carrier > number && carrier <= recording.long_rests.len()))
        }
        _ => false,
    }
}

/// "the rest has a minute in that week"
pub fn has_minute_in_week(recording: &Recording, rest: Span, week: u8) -> bool {
    let week = recording.week(i64::from(week));
    rest.start < week.end && week.start < rest.end
}

/// A recording with a reading that keeps rule 6, and what each rest carries,
/// has of its own and owes.
struct Read<'a> {
    recording: &'a Recording<'a>,
    entries: &'a [Entry],
    own: Vec<i64>,
    debt: Vec<i64>,
}

impl<'a> Read<'a> {
    /// "load(j) is the sum of debts of the rests whose carrier is j. own =
    /// length − load." Each carrier is a later rest, so the load of a rest is
    /// known once all earlier rests have their debts.
    fn new(recording: &'a Recording<'a>, entries: &'a [Entry]) -> Read<'a> {
        let mut read = Read {
            recording,
            entries,
            own: Vec::new(),
            debt: Vec::new(),
        };
        for (index, rest) in recording.long_rests.iter().enumerate() {
            let own = rest.length() - read.load(index + 1);
            read.own.push(own);
            read.debt.push(read.debt_of(entries[index], own));
        }
        read
    }

    /// "load(j) is the sum of debts of the rests whose carrier is j."
    fn load(&self, number: usize) -> i64 {
        self.entries
            .iter()
            .zip(&self.debt)
            .filter(|(entry, _)| usize::from(entry.carrier) == number)
            .map(|(_, debt)| debt)
            .sum()
    }

    /// "A weekly rest with own under 2,700 is reduced, with debt 2,700 − own;
    /// every other rest has debt 0."
    fn debt_of(&self, entry: Entry, own: i64) -> i64 {
        if entry.is_weekly() {
            self.recording.limits.weekly_debt(own)
        } else {
            0
        }
    }

    fn limits(&self) -> &Limits {
        self.recording.limits
    }

    fn indices(&self) -> std::ops::Range<usize> {
        0..self.entries.len()
    }

    fn rest(&self, index: usize) -> Span {
        self.recording.long_rests[index]
    }

    fn is_regular(&self, index: usize) -> bool {
        self.entries[index].is_weekly() && self.debt[index] == 0
    }

    fn is_reduced(&self, index: usize) -> bool {
        self.entries[index].is_weekly() && self.debt[index] > 0
    }

    /// Rule 7, 8(7). "own is at least 1,440 if weekly, 540 if daily."
    fn rule_7(&self) -> bool {
        self.indices().all(|index| {
            let least = if self.entries[index].is_weekly() {
                self.limits().weekly_rest
            } else {
                self.limits().daily_rest
            };
            self.own[index] >= least
        })
    }

    /// Rule 8, 8(6). "A regular weekly rest has carrier 0. For a reduced one
    /// counted in week w, due is 10,080 × (w + 4): its carrier ends no later
    /// than due, or the carrier is 0 and due is after S."
    fn rule_8(&self) -> bool {
        self.indices().all(|index| {
            let carrier = usize::from(self.entries[index].carrier);
            if self.is_regular(index) {
                carrier == 0
            } else if self.is_reduced(index) {
                let due = self.limits().due(i64::from(self.entries[index].week));
                if carrier == 0 {
                    due > self.recording.judged_end
                } else {
                    self.rest(carrier - 1).end <= due
                }
            } else {
                true
            }
        })
    }

    /// Rule 9, 8(4). "At most three daily rests with portion under 660 lie
    /// between two neighbouring weekly rests, before the first, after the last,
    /// or in all where there is no weekly rest."
    fn rule_9(&self) -> bool {
        let mut reduced_daily_rests = 0;
        for index in self.indices() {
            if self.entries[index].is_weekly() {
                reduced_daily_rests = 0;
            } else if counts_under_rule_9(self.recording, self.rest(index), self.own[index]) {
                reduced_daily_rests += 1;
            }
            if reduced_daily_rests > self.limits().reduced_daily_rests {
                return false;
            }
        }
        true
    }

    /// Rule 10, 8(6). "From minute 0 or a weekly rest's end to the next weekly
    /// rest's start, or to S if none follows: at most 8,640."
    fn rule_10(&self) -> bool {
        let mut from = 0;
        for index in self.indices() {
            if self.entries[index].is_weekly() {
                if self.rest(index).start - from > self.limits().between_weekly_rests {
                    return false;
                }
                from = self.rest(index).end;
            }
        }
        self.recording.judged_end - from <= self.limits().between_weekly_rests
    }

    /// Rule 11, 8(6). "For weeks w and w + 1 with 10,080 × (w + 2) at most S:
    /// at least two weekly rests counted, one of them regular."
    fn rule_11(&self) -> bool {
        (0..)
            .take_while(|week| self.limits().week * (week + 2) <= self.recording.judged_end)
            .all(|week| {
                let (weekly, regular) = self.weekly_rests(week);
                let (next_weekly, next_regular) = self.weekly_rests(week + 1);
                weekly + next_weekly >= 2 && regular + next_regular >= 1
            })
    }

    /// The weekly rests counted in a week and the regular ones among them. "A
    /// week of rest minutes only counts as holding exactly one regular weekly
    /// rest, however many are counted in it."
    fn weekly_rests(&self, week: i64) -> (usize, usize) {
        let minutes = self.recording.activities(self.recording.week(week));
        if minutes.iter().all(|&activity| activity == Activity::Rest) {
            return (1, 1);
        }
        let counted = |index: &usize| {
            self.entries[*index].is_weekly() && i64::from(self.entries[*index].week) == week
        };
        let weekly = self.indices().filter(counted);
        let regular = weekly.clone().filter(|&index| self.is_regular(index));
        (weekly.count(), regular.count())
    }
}

/// Rule 9 counts daily rests "with portion under 660". Request 3: "A daily rest
/// with portion 540 or more no longer counts under rule 9 if its day holds an
/// earlier rest of 180 to 539 minutes."
pub fn counts_under_rule_9(recording: &Recording, rest: Span, own: i64) -> bool {
    let limits = recording.limits;
    let portion = limits.portion(rest.start, own, recording.previous_end(rest.start));
    portion < limits.regular_daily_rest
        && !(portion >= limits.later_portion && day_holds_an_earlier_rest(recording, rest))
}

/// Whether, in the day that runs from P to this rest's start, minutes of rest
/// come to 180 to 539 in a row before one that is not rest. The day's last minute
/// is not rest, nor is its first one after a long rest.
fn day_holds_an_earlier_rest(recording: &Recording, rest: Span) -> bool {
    let limits = recording.limits;
    let day = Span {
        start: recording.previous_end(rest.start),
        end: rest.start,
    };
    let mut in_a_row = 0;
    for &activity in recording.activities(day) {
        if activity == Activity::Rest {
            in_a_row += 1;
        } else if in_a_row >= limits.earlier_rest_least && in_a_row <= limits.earlier_rest_most {
            return true;
        } else {
            in_a_row = 0;
        }
    }
    false
}

/// "So each long rest is daily, regular weekly or reduced weekly."
#[derive(Clone, Copy, Debug, PartialEq, Eq)]
pub enum Standing {
    Daily,
    RegularWeekly,
    ReducedWeekly { debt: i64 },
}

/// The standing and the own length of each long rest in a reading that keeps
/// rule 6; `None` for one that breaks it.
pub fn standings(recording: &Recording, entries: &[Entry]) -> Option<Vec<(Standing, i64)>> {
    if !rule_6(recording, entries) {
        return None;
    }
    let read = Read::new(recording, entries);
    let standing = |index| {
        if read.is_reduced(index) {
            Standing::ReducedWeekly {
                debt: read.debt[index],
            }
        } else if read.is_regular(index) {
            Standing::RegularWeekly
        } else {
            Standing::Daily
        }
    };
    Some(
        read.indices()
            .map(|index| (standing(index), read.own[index]))
            .collect(),
    )
}
