//! The cases of the document under "On the edge", by the verdict and by plain
//! enumeration.

mod shorthand;

use second::print::print;
use second::reading::{standings, Entry, Standing};
use second::recording::{minutes, Recording};
use second::verdict::Outcome;
use second::Limits;
use shorthand::{around, judged, plainly, span, times, words};

fn pass(shorthand: &str) {
    shorthand::assert_pass(shorthand);
    assert!(
        matches!(plainly(shorthand), Outcome::Pass(_)),
        "{shorthand}"
    );
}

fn breach(shorthand: &str, minute: i64, article: u8) {
    shorthand::assert_breach(shorthand, minute, article);
    assert_eq!(
        plainly(shorthand),
        Outcome::Breach { minute, article },
        "{shorthand}"
    );
}

#[test]
fn empty_and_one_drive() {
    pass("");
    pass("d270");
    breach("d271", 271, 1);
}

#[test]
fn breaks() {
    pass("d135 r15 d135 r30 d270");
    breach("d135 r14 d135 r30 d270", 315, 1);
    breach("d135 r30 d135 r15 d1", 316, 1);
    breach("d270 a45 d1", 316, 1);
}

#[test]
fn long_days() {
    pass("w900");
    breach("w901", 901, 5);
    breach("w900 r539 w1", 1_440, 5);
    pass("w900 r540 w1");
}

#[test]
fn reduced_daily_rests() {
    pass(&(times(3, "w840 r600") + "w1"));
    breach(&(times(4, "w840 r600") + "w1"), 5_761, 6);
}

#[test]
fn six_days() {
    pass(&times(6, "w780 r660"));
    breach(&(times(6, "w780 r660") + "w1"), 8_641, 6);
}

#[test]
fn debts() {
    let limits = Limits::document();
    for (own, debt) in [(1_440, 1_260), (2_699, 1), (2_700, 0)] {
        assert_eq!(limits.weekly_debt(own), debt);
        let minutes = minutes(&words(&format!("r{own} w1")));
        let recording = Recording::new(&minutes, &limits);
        let standing = match debt {
            0 => Standing::RegularWeekly,
            debt => Standing::ReducedWeekly { debt },
        };
        let found = standings(&recording, &[Entry::weekly(0, 0)]);
        assert_eq!(found, Some(vec![(standing, own)]));
    }
}

/// "Figure 1 of source document 000": from Saturday 00:00 to Monday 20:00,
/// three times from Sunday 00:00 to Tuesday 20:00, then in the sixth week from
/// Monday 20:00 to Wednesday 17:00. "work in the last minute of the sixth week:
/// breach 60,480, 8."
#[test]
fn figure_1() {
    let week = 10_080;
    let at = |week_number: i64, day: i64, hour: i64| week * week_number + 1_440 * day + 60 * hour;
    let mut rests = vec![span(at(0, 5, 0), at(1, 0, 20))];
    for number in 1..4 {
        rests.push(span(at(number, 6, 0), at(number + 1, 1, 20)));
    }
    rests.push(span(at(5, 0, 20), at(5, 2, 17)));
    let lengths: Vec<i64> = rests.iter().map(|rest| rest.length() / 60).collect();
    assert_eq!(lengths, [68, 68, 68, 68, 45]);
    let recording = around(&rests, 6 * week);
    assert_eq!(judged(&recording), Err((60_480, 6)));
    let shorter = around(&rests, 6 * week - 1);
    assert!(judged(&shorter).is_ok());
}

#[test]
fn the_printed_example() {
    let input = b"(recording\n(week\n(drive 240)\n(rest 660)\n(work 60)\n)\n)\n";
    let output = "(verdict\n(minutes 960)\n(judged 960)\n(reading\n(daily 240 900)\n)\n)\n";
    assert_eq!(print(input), output);
}
