//! The card records of examples/ are what their program makes, and the week is
//! the first one of examples/week.txt.

#[path = "../examples/card_days.rs"]
mod card_days;

use std::fs;

use card_days::{days, UNKNOWN, WEEK};
use second::recording::minutes;
use second::{card, text, Refusal};

fn example(name: &str) -> Vec<u8> {
    let folder = concat!(env!("CARGO_MANIFEST_DIR"), "/../examples");
    fs::read(format!("{folder}/{name}")).expect(name)
}

#[test]
fn made_again() {
    assert_eq!(days(WEEK), example("card_week.days"));
    assert_eq!(days(UNKNOWN), example("card_unknown.days"));
}

#[test]
fn the_week_of_the_text() {
    let read = card::parse(&days(WEEK)).expect("the week is of the form");
    let told = text::parse(&example("week.txt")).expect("the text is of the form");
    assert_eq!(minutes(&read).len(), 10_080);
    assert_eq!(minutes(&read), minutes(&told)[..10_080]);
}

/// Written again the bits s, c and p are zero, and the driving of Tuesday
/// afternoon is one change.
#[test]
fn the_week_written_again() {
    let read = card::parse(&days(WEEK)).expect("the week is of the form");
    let mut lent = [0; 200];
    let length = card::write(&read, &mut lent).expect("the days are whole");
    let kept = WEEK.lines().filter(|line| !line.contains("still driving"));
    let mut plain = days(&kept.collect::<Vec<_>>().join("\n"));
    plain.iter_mut().step_by(2).for_each(|high| *high &= 0x1F);
    assert_eq!(lent[..length], plain);
    assert_eq!(length + 2, days(WEEK).len());
}

#[test]
fn the_unknown_hour() {
    let refused = card::parse(&days(UNKNOWN));
    assert_eq!(refused, Err(Refusal::UnknownActivity));
}
