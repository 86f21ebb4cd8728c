//! The recording, minute by minute.

use crate::limits::Limits;
use crate::refusal::Refusal;

/// "Activity codes: 0 rest, 1 availability, 2 other work, 3 driving."
#[derive(Clone, Copy, Debug, PartialEq, Eq)]
pub enum Activity {
    Rest,
    Availability,
    Work,
    Driving,
}

impl Activity {
    pub const ALL: [Activity; 4] = [
        Activity::Rest,
        Activity::Availability,
        Activity::Work,
        Activity::Driving,
    ];

    pub fn code(self) -> u32 {
        self as u32
    }
}

/// "A word is 4 × minutes + activity."
pub fn word(minutes: u32, activity: Activity) -> u32 {
    4 * minutes + activity.code()
}

pub fn word_minutes(word: u32) -> i64 {
    i64::from(word / 4)
}

pub fn word_activity(word: u32) -> Activity {
    Activity::ALL[(word % 4) as usize]
}

/// The minutes of all words together.
pub fn total_minutes(words: &[u32]) -> i64 {
    words.iter().map(|&word| word_minutes(word)).sum()
}

/// The minutes from `start` to `end`, the second not included.
#[derive(Clone, Copy, Debug, Default, PartialEq, Eq)]
pub struct Span {
    pub start: i64,
    pub end: i64,
}

impl Span {
    pub fn length(self) -> i64 {
        self.end - self.start
    }
}

/// "Weighing gives N, S and k."
#[derive(Clone, Copy, Debug, PartialEq, Eq)]
pub struct Weighing {
    /// N
    pub total: i64,
    /// S
    pub judged_end: i64,
    /// k
    pub long_rests: usize,
}

/// "Words are taken in order and the first word at fault decides: 1, its
/// minutes are 0; else 2, the total passes 120,960." Request 7: "The total rises to
/// 534,240 minutes".
pub fn total(words: &[u32], limits: &Limits) -> Result<i64, Refusal> {
    let mut total = 0;
    for &word in words {
        if word_minutes(word) == 0 {
            return Err(Refusal::NoMinutes);
        }
        total += word_minutes(word);
        if total > limits.total {
            return Err(Refusal::TotalPassed);
        }
    }
    Ok(total)
}

/// Weighing.
pub fn weigh(words: &[u32]) -> Result<Weighing, Refusal> {
    let limits = Limits::document();
    let minutes = weighed_minutes(words, &limits)?;
    let recording = Recording::new(&minutes, &limits);
    Ok(Weighing {
        total: recording.total(),
        judged_end: recording.judged_end,
        long_rests: recording.long_rests.len(),
    })
}

/// Listing long rests: "A lent list takes one record a long rest, its start
/// and its end; later records stay. The answer is k."
pub fn list_long_rests(words: &[u32], list: &mut [Span]) -> Result<usize, Refusal> {
    let limits = Limits::document();
    let minutes = weighed_minutes(words, &limits)?;
    let long_rests = Recording::new(&minutes, &limits).long_rests;
    if list.len() < long_rests.len() {
        return Err(Refusal::ListTooShort);
    }
    list[..long_rests.len()].copy_from_slice(&long_rests);
    Ok(long_rests.len())
}

/// The list of minutes of words that weighing does not turn away.
pub fn weighed_minutes(words: &[u32], limits: &Limits) -> Result<Vec<Activity>, Refusal> {
    total(words, limits)?;
    Ok(minutes(words))
}

/// "Equal neighbours are allowed: only the list of minutes counts."
pub fn minutes(words: &[u32]) -> Vec<Activity> {
    let mut minutes = Vec::new();
    for &word in words {
        for _ in 0..word_minutes(word) {
            minutes.push(word_activity(word));
        }
    }
    minutes
}

/// "A rest is a longest unbroken run of rest minutes." The open one is among
/// them, as the last.
pub fn rests(minutes: &[Activity]) -> Vec<Span> {
    let mut rests = Vec::new();
    let mut start = None;
    for (minute, &activity) in (0..).zip(minutes) {
        match (activity, start) {
            (Activity::Rest, None) => start = Some(minute),
            (Activity::Rest, Some(_)) => {}
            (_, None) => {}
            (_, Some(began)) => {
                rests.push(Span {
                    start: began,
                    end: minute,
                });
                start = None;
            }
        }
    }
    if let Some(began) = start {
        rests.push(Span {
            start: began,
            end: minutes.len() as i64,
        });
    }
    rests
}

/// "If the last minute is rest, that rest is open."
pub fn open_rest(minutes: &[Activity]) -> Option<Span> {
    match minutes.last() {
        Some(Activity::Rest) => rests(minutes).last().copied(),
        _ => None,
    }
}

/// A list of minutes with what the rules ask of it.
pub struct Recording<'a> {
    pub limits: &'a Limits,
    pub minutes: &'a [Activity],
    /// S
    pub judged_end: i64,
    pub long_rests: Vec<Span>,
}

impl<'a> Recording<'a> {
    pub fn new(minutes: &'a [Activity], limits: &'a Limits) -> Recording<'a> {
        Recording {
            limits,
            minutes,
            judged_end: judged_end(minutes),
            long_rests: long_rests(minutes, limits),
        }
    }

    /// "A stretch is the first m minutes, taken as a recording, m from 0 to N;
    /// its total, S, k, P and readings are its own."
    pub fn stretch(&self, m: usize) -> Recording<'a> {
        Recording::new(&self.minutes[..m], self.limits)
    }

    /// N
    pub fn total(&self) -> i64 {
        self.minutes.len() as i64
    }

    /// P: "P is the end of the latest long rest before a point, or 0."
    pub fn previous_end(&self, point: i64) -> i64 {
        self.long_rests
            .iter()
            .map(|rest| rest.end)
            .filter(|&end| end <= point)
            .max()
            .unwrap_or(0)
    }

    /// "A day runs from P to the next long rest's start, or to S."
    pub fn days(&self) -> Vec<Span> {
        let ends = self.long_rests.iter().map(|rest| rest.start);
        ends.chain([self.judged_end])
            .map(|end| Span {
                start: self.previous_end(end),
                end,
            })
            .collect()
    }

    /// The weeks that have a minute in the recording.
    pub fn weeks(&self) -> std::ops::Range<i64> {
        0..(self.total() + self.limits.week - 1) / self.limits.week
    }

    /// "Week w (from 0) is minutes 10,080 × w to 10,080 × (w + 1), the second
    /// not included."
    pub fn week(&self, week: i64) -> Span {
        Span {
            start: self.limits.week * week,
            end: self.limits.week * (week + 1),
        }
    }

    /// The activities of a span, as far as it lies in the recording.
    pub fn activities(&self, span: Span) -> &'a [Activity] {
        let start = span.start.min(self.total()) as usize;
        let end = span.end.min(self.total()) as usize;
        &self.minutes[start..end]
    }

    /// The minutes of driving in a span.
    pub fn driving(&self, span: Span) -> i64 {
        let driving = |activity: &&Activity| **activity == Activity::Driving;
        self.activities(span).iter().filter(driving).count() as i64
    }
}

/// "The judged end S is the open rest's start, or N if there is none."
fn judged_end(minutes: &[Activity]) -> i64 {
    open_rest(minutes).map_or(minutes.len() as i64, |rest| rest.start)
}

/// "A long rest is a rest that is not open and has 540 minutes or more."
fn long_rests(minutes: &[Activity], limits: &Limits) -> Vec<Span> {
    let open = open_rest(minutes);
    rests(minutes)
        .into_iter()
        .filter(|&rest| Some(rest) != open && rest.length() >= limits.long_rest)
        .collect()
}
