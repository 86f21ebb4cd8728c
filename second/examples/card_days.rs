//! The card records of examples/, from a list of their changes:
//! `cargo run --example card_days week > ../examples/card_week.days`, and `unknown`.

use std::io::{self, Write};

/// The first week of examples/week.txt as a card has it. A line is a change: the
/// hour and minute, the bits s, c and p where they are set, and the activity.
/// 00:00 begins a day.
pub const WEEK: &str = "
    00:00 --- rest   Monday
    05:00 --- work
    05:20 --- drive
    09:45 --- rest
    10:30 --- drive
    13:50 --- work
    14:40 --- rest
    00:00 --- rest   Tuesday, with a second driver
    05:30 -c- work
    05:45 -c- drive
    08:45 sc- avail
    09:25 -c- drive
    10:55 -c- rest
    11:40 -c- work
    12:10 -c- drive
    15:00 --- drive  alone from here on, and still driving
    16:00 --- work
    16:25 --- rest
    00:00 --- rest   Wednesday
    06:00 --- drive
    08:30 --- rest
    08:45 --- drive
    10:45 --- rest
    11:15 --- drive
    15:45 --- work
    16:45 --- rest
    00:00 --- rest   Thursday
    05:45 --- work
    06:15 --- drive
    10:15 --- rest
    11:00 --- drive
    14:30 --- rest
    14:50 --- work
    16:20 --- drive
    17:20 --- work
    17:40 --- rest
    00:00 --- rest   Friday
    06:00 --- work
    06:20 --- drive
    10:50 --- rest
    11:35 --- drive
    14:05 --- work
    14:50 -cp rest   the card is out, the weekend entered by hand
    00:00 -cp rest   Saturday
    00:00 -cp rest   Sunday
";

/// A day on which the card was out for an hour, and nobody said what was done.
pub const UNKNOWN: &str = "
    00:00 --- rest
    05:00 --- drive
    09:00 --p rest
    10:00 --- drive
    13:00 --- rest
";

/// The bytes of the changes listed.
pub fn days(list: &str) -> Vec<u8> {
    let lines = list.lines().filter(|line| !line.trim().is_empty());
    lines.flat_map(|line| change(line).to_be_bytes()).collect()
}

fn change(line: &str) -> u16 {
    let mut columns = line.split_whitespace();
    let mut column = || columns.next().expect("a time, bits and an activity");
    let (hour, minute) = column().split_once(':').expect("an hour and a minute");
    let number = |digits: &str| digits.parse::<u16>().expect("a number");
    let bit = |number: u16, letter: char| 2 * number + u16::from(letter != '-');
    let bits = column().chars().fold(0, bit);
    let activity = match column() {
        "rest" => 0,
        "avail" => 1,
        "work" => 2,
        "drive" => 3,
        other => panic!("no activity is written {other}"),
    };
    bits << 13 | activity << 11 | (60 * number(hour) + number(minute))
}

#[allow(dead_code)]
fn main() -> io::Result<()> {
    let list = match std::env::args().nth(1).as_deref() {
        Some("week") => WEEK,
        Some("unknown") => UNKNOWN,
        _ => panic!("card_days week, card_days unknown"),
    };
    io::stdout().lock().write_all(&days(list))
}
