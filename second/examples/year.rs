//! The year of examples/, week by week: `cargo run --example year > ../examples/year.txt`.

use std::io::{self, Write};

/// A duty: the hour at which it begins, or up to half an hour later, and its runs.
type Duty = (usize, &'static str);

const WEEKDAYS: [Duty; 5] = [
    (9 * 60, "work 20, drive 240, rest 45, drive 215, work 130"),
    (
        7 * 60 + 30,
        "drive 130, rest 15, drive 125, rest 30, drive 200, avail 60, work 100",
    ),
    (
        7 * 60,
        "work 60, drive 180, avail 45, drive 85, rest 45, drive 190, work 60",
    ),
    (
        6 * 60 + 30,
        "work 30, drive 255, rest 50, drive 225, work 100",
    ),
    (6 * 60, "work 120, drive 150, rest 45, drive 170, work 175"),
];

/// To Monday it is forty hours from an early Saturday's end, and 38 from a late one's: five
/// hours less than a regular weekly rest has, and seven.
const SATURDAYS: [Duty; 2] = [
    (6 * 60, "drive 220, rest 45, drive 235, work 160"),
    (8 * 60, "work 60, drive 240, rest 45, drive 215, work 100"),
];

const WEEKS: usize = 53;
const HOLIDAY: usize = 31;
const DAY: usize = 1_440;

/// The duties of a week: five days, and every other week the Saturday, but in the last.
fn duties(week: usize) -> Vec<Duty> {
    if week == HOLIDAY {
        return Vec::new();
    }
    let mut duties = WEEKDAYS.to_vec();
    if week.is_multiple_of(2) && week + 1 < WEEKS {
        duties.push(SATURDAYS[week / 2 % 2]);
    }
    duties
}

/// The runs of a week, with rest where there is no duty.
fn runs(week: usize) -> Vec<(&'static str, usize)> {
    let mut runs = Vec::new();
    let mut reached = 0;
    for (day, (hour, duty)) in duties(week).into_iter().enumerate() {
        let later = 5 * ((3 * week + 2 * day) % 7);
        let start = DAY * day + hour + later;
        runs.push(("rest", start - reached));
        reached = start;
        for run in duty.split(", ") {
            let (name, minutes) = run.split_once(' ').expect("a name and minutes");
            let minutes = minutes.parse().expect("minutes");
            runs.push((name, minutes));
            reached += minutes;
        }
    }
    runs.push(("rest", 7 * DAY - reached));
    runs
}

/// The year as bracket text.
pub fn text() -> String {
    let line = |(name, minutes): (&str, usize)| format!("({name} {minutes})\n");
    let week = |week| {
        let lines: String = runs(week).into_iter().map(line).collect();
        format!("(week\n{lines})\n")
    };
    let weeks: String = (0..WEEKS).map(week).collect();
    format!("(recording\n{weeks})\n")
}

#[allow(dead_code)]
fn main() -> io::Result<()> {
    io::stdout().lock().write_all(text().as_bytes())
}
