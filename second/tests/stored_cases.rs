//! The stored output of the case program over the verified verdict
//! (crates/cases_verdict), line by line. The recordings are said again here,
//! and this program answers for them.

mod shorthand;

use second::fixed;
use second::reading::{self, bytes, entries, Entry};
use second::spans::{breach_spans, Weeks};
use second::verdict::{first_reading, verdict, Verdict};
use shorthand::{attempt, days, general_figure, tight_days, tight_weeks, times, words};

const STORED: &str = include_str!("../../crates/cases_verdict/stdout");

/// The lines so far.
#[derive(Default)]
struct Lines(String);

impl Lines {
    fn push(&mut self, name: &str, answer: &str) {
        self.0 += &format!("{name}: {answer}\n");
    }

    fn case(&mut self, name: &str, shorthand: &str) {
        let words = words(shorthand);
        let mut reading = [9; 3_948];
        let written = first_reading(&words, &mut reading).unwrap_or(0);
        self.push(name, &(told(&words) + &shown(&reading[..written])));
    }

    fn runs(&mut self, shorthand: &str) {
        self.case(shorthand, shorthand);
    }

    fn repeated(&mut self, count: usize, day: &str, then: &str) {
        let name = format!("{count} times ({day}), {then}");
        self.case(&name, &(times(count, day) + then));
    }

    /// The verdict, and the first broken article of a stretch.
    fn first(&mut self, name: &str, shorthand: &str, m: usize) {
        let in_order = ["none", "6.1", "6.2", "6.3", "7", "8.2"];
        let answer = told(&words(shorthand));
        let first = match fixed::article_test(&words(shorthand), m) {
            Ok(place) => format!("first {}", in_order[usize::from(place)]),
            Err(refusal) => format!("refused {}", refusal.number()),
        };
        self.push(name, &format!("{answer}; {first}"));
    }

    fn weeks(&mut self, name: &str, rests: &[u32]) {
        self.case(name, &tight_weeks(rests));
    }

    fn tested(&mut self, name: &str, shorthand: &str, reading: &[Entry]) {
        let rule = reading::test(&words(shorthand), &bytes(reading)).expect("no refusal");
        self.push(name, &format!("rule {rule}"));
    }

    /// The verdict, and what the first reading answers with so many bytes lent.
    fn lent(&mut self, shorthand: &str, lent: usize) {
        let words = words(shorthand);
        let mut reading = [9; 12];
        let answer = match first_reading(&words, &mut reading[..lent]) {
            Ok(written) => format!("{written} bytes"),
            Err(refusal) => format!("refused {}", refusal.number()),
        };
        let name = format!("{shorthand} into {lent}");
        let verdict = told(&words);
        self.push(&name, &format!("{verdict}; {answer},{}", shown(&reading)));
    }

    /// The spans of weeks that are a breach, in a list of so many records.
    fn spans(&mut self, name: &str, shorthand: &str, room: usize) {
        let mut list = vec![Weeks { first: 0, last: 0 }; room];
        let span = |span: &Weeks| format!(" {}-{}", span.first, span.last);
        let answer = match breach_spans(&words(shorthand), &mut list) {
            Ok(count) => "spans".to_string() + &list[..count].iter().map(span).collect::<String>(),
            Err(refusal) => format!("refused {}", refusal.number()),
        };
        self.push(&format!("{name} in a list of {room}"), &answer);
    }
}

/// What the verdict answers.
fn told(words: &[u32]) -> String {
    let articles = ["7", "6.1", "6.2", "6.3", "8.2", "8"];
    match verdict(words) {
        Ok(Verdict::Pass) => "pass".into(),
        Ok(Verdict::Breach { minute, article }) => {
            let article = articles[usize::from(article) - 1];
            format!("breach {minute}, {article}")
        }
        Err(refusal) => format!("refused {}", refusal.number()),
    }
}

/// A letter for a daily rest, kind, week and carrier for any other entry.
fn shown(reading: &[u8]) -> String {
    let entry = |entry: &Entry| match (entry.kind, entry.week, entry.carrier) {
        (0, 0, 0) => " d".into(),
        (kind, week, carrier) => format!(" {kind}/{week}/{carrier}"),
    };
    entries(reading).iter().map(entry).collect()
}

fn edges(lines: &mut Lines) {
    lines.case("empty", "");
    for shorthand in [
        "d270",
        "d271",
        "d135 r15 d135 r30 d270",
        "d135 r14 d135 r30 d270",
        "d135 r30 d135 r15 d1",
        "d270 a45 d1",
        "w900",
        "w901",
        "w900 r539 w1",
        "w900 r540 w1",
    ] {
        lines.runs(shorthand);
    }
    let short = |count| times(count, "w840 r600") + "w1";
    lines.case("3 times (w840 r600), w1", &short(3));
    lines.case("4 times (w840 r600), w1", &short(4));
    let six_days = times(6, "w780 r660");
    lines.case("6 times (w780 r660)", &six_days);
    lines.case("6 times (w780 r660), w1", &(six_days + "w1"));
}

fn first_parts(lines: &mut Lines) {
    for shorthand in [
        "r15 d270 r30 d1",
        "r30 d270 r30 d1",
        "r44 d270 r44 d1",
        "w60 a60 r15 d270 r30 d1",
        "r15 d1 r15 d269 r30 d1",
        "r15 d1 r14 d269 r30 d1",
        "d1 r45 w60 r15 d270 r30 d1",
        "d1 r15 d1 r30 a60 r15 d270 r30 d1",
        "d1 r45 d1 r15 d269 r30 d1",
        "d1 r15 d1 r45 d270 r30 d1",
        "d1 r15 d1 r30 d270 r30 d1",
    ] {
        lines.runs(shorthand);
    }
}

fn orders(lines: &mut Lines) {
    for (shorthand, m) in [
        ("d270 r45 d60 r45 d271", 691),
        ("d270 r45 d270 r255 d61", 901),
        ("w630 d271", 901),
        ("d270 r45 d60 r255 d271", 901),
        ("d271 d330", 600),
        ("d271 d330", 601),
        ("w900", 900),
        ("w900", 901),
    ] {
        lines.first(shorthand, shorthand, m);
    }
    let first_week = times(3, "d255 r45 d255 r660") + "d255 r45 d255 r5880 ";
    for (name, longer, ordinary, then, m) in [
        ("6.2 and 6.3", 2, 4, "d1", 17_761),
        ("6.2, 6.3 and 8.2", 2, 4, "w900 d1", 18_661),
        ("6.2, 6.3 and 7", 0, 5, "d270 r45 d120 r660 d271", 17_671),
        ("all five", 1, 4, "d270 r45 d60 r255 d271", 17_311),
    ] {
        let longer = times(longer, "d270 r45 d270 r45 d60 r660");
        let ordinary = times(ordinary, "d270 r45 d270 r660");
        let shorthand = format!("{first_week}{longer}{ordinary}{then}");
        lines.first(name, &shorthand, m);
    }
}

fn split_days(lines: &mut Lines) {
    lines.repeated(4, "w300 r180 w360 r600", "w1");
    lines.repeated(4, "w300 r179 w361 r600", "w1");
    lines.repeated(4, "w100 r539 w101 r600", "w1");
    lines.repeated(4, "w100 r540 w101 r600", "w1");
    lines.repeated(4, "w100 r180 w100 r200 w260 r600", "w1");
    lines.runs("r180 w660 r600 w840 r600 w840 r600 w840 r600 w1");
    lines.runs("r179 w661 r600 w840 r600 w840 r600 w840 r600 w1");
    lines.repeated(3, "w840 r600", "w300 r180 w360 r600 w1");
    lines.repeated(3, "w840 r600", "w300 r180 w300 r660 w840 r600 w1");
    lines.repeated(4, "w840 r600", "w300 r180 w1");
    lines.repeated(4, "w300 r180 w420 r600", "w1");
    lines.repeated(4, "w300 r180 w421 r600", "w1");
}

fn articles(lines: &mut Lines) {
    let day = "d270 r45 d270 r660";
    lines.runs("d270 r45 d270 r45 d60");
    lines.runs("d270 r45 d270 r45 d61");
    for last in ["d120", "d121"] {
        let name = format!("6 times ({day}), {last}");
        lines.case(&name, &(times(6, day) + last));
    }
    let two_weeks = times(4, day) + "d270 r45 d270 r4515 " + &times(5, day);
    lines.case("5400 minutes of driving in two weeks", &two_weeks);
    lines.case("5401 minutes of driving in two weeks", &(two_weeks + "d1"));
    lines.runs("r20160 w1");
}

fn figures(lines: &mut Lines) {
    let figure_1 = [
        &days(4, "w60 r660 w720 r4080"),
        &days(5, "w240 r4080"),
        &days(4, "w240 r4080"),
        &days(4, "w240 r4080"),
        &days(5, "w60 r660 w720 r2700"),
        &days(4, "w420"),
    ];
    lines.case("figure 1", &figure_1.map(String::as_str).concat());
    let figure_2 = general_figure(6);
    let with_sixth = |sixth| [&figure_2[..5], &[sixth]].concat();
    lines.weeks("figure 2", &figure_2);
    lines.weeks("figure 3, five weeks", &figure_2[..5]);
    lines.weeks("figure 3", &with_sixth(4020));
    lines.weeks("figure 3, 46 hours in the sixth week", &with_sixth(2760));
    lines.weeks("figure 3, a minute less", &with_sixth(2759));
    lines.weeks("figure 4, five weeks", &figure_2[1..]);
    lines.weeks("figure 4", &[&figure_2[1..], &[3960]].concat());
    for (payment, carrier) in [
        ("the hour left", 0),
        ("paid by the fourth week", 19),
        ("paid by the fifth week", 25),
        ("paid by the sixth week", 32),
    ] {
        let name = format!("figure 5, {payment}");
        lines.tested(&name, &tight_weeks(&figure_2), &attempt(carrier));
    }
    let figure_6 = general_figure(12);
    lines.weeks("figure 6, twelve weeks", &figure_6);
    lines.weeks("figure 6 without the first week", &figure_6[1..]);
    lines.weeks("figure 6 without the last week", &figure_6[..11]);
    lines.weeks("figure 6, eleven weeks", &general_figure(11));
    let spare = [
        "w60 r2640 ",
        &days(5, "w240 r2700"),
        &days(5, "w180 r2700"),
        &days(5, "w180 r2700"),
        &days(5, "w180 r1440"),
        &days(5, "w60 r660 w720 r2700"),
        &days(5, "w120"),
    ];
    let name = "figure 2, daily rests with minutes to spare";
    lines.case(name, &spare.concat());
}

fn weeks_and_debts(lines: &mut Lines) {
    let before = [
        days(5, "w180 r2700"),
        days(5, "w480 r2700"),
        days(4, "w480 r2700 w840"),
    ];
    lines.case("a Sunday rest for the week before", &before.concat());
    let after = [
        "w60 r2700 ",
        &days(4, "w720 r2700"),
        &days(5, "w60 r660 w480 r2700"),
        &days(4, "w60 r660 w720"),
    ];
    lines.case("a Sunday rest for the week after", &after.concat());
    lines.weeks("1440, paid from 3960", &[1440, 2700, 1440, 3960]);
    lines.weeks("1440, paid from 3959", &[1440, 2700, 1440, 3959]);
    lines.weeks("2699, paid from 2701", &[2699, 2700, 1440, 2701]);
    lines.weeks("2699, due at S", &[2699, 2700, 1440, 2700]);
    lines.weeks("2700", &[2700, 2700, 1440, 2700]);
    let a_minute_less = tight_weeks(&[2699, 2700, 1440]) + "w60 r2700 " + &tight_days(2) + "w599";
    lines.case("2699, due a minute after S", &a_minute_less);
    let three = [
        days(4, "w240 r2640"),
        tight_days(3) + "w480 r2700 ",
        tight_days(3) + "w480 r1440 ",
        tight_days(2) + "w900 ",
    ];
    let fourth = |then| three.concat() + then;
    lines.case("a carrier that ends at due", &fourth("r2760 w1"));
    lines.case("a carrier that ends a minute late", &fourth("r2761 w1"));
}

fn refusals(lines: &mut Lines) {
    lines.runs("w5 r0");
    lines.runs("r0 w534241");
    lines.runs("r60000 w474240");
    lines.runs("r60000 w474241 r0");
    lines.lent("w10 r600 w10 r600 w1", 7);
    lines.lent("w10 r600 w10 r600 w1", 8);
    lines.lent("w10 r600 w10 r600 w1", 12);
    lines.lent("w10 r600 w901", 3);
    lines.lent("w10 r600 w901", 4);
    lines.lent("w10 r600 w901", 12);
    lines.lent("r15 d270 r30 d1", 0);
    lines.lent("w10 r600 w0", 3);
    lines.lent("w900", 0);
}

fn spans(lines: &mut Lines) {
    lines.spans("empty", "", 0);
    let figure_2 = general_figure(6);
    lines.spans("figure 2", &tight_weeks(&figure_2), 1);
    lines.spans("figure 2", &tight_weeks(&figure_2), 0);
    lines.spans("figure 3, five weeks", &tight_weeks(&figure_2[..5]), 0);
    lines.spans("figure 4, five weeks", &tight_weeks(&figure_2[1..]), 0);
    let twice = tight_weeks(&[figure_2.as_slice(), &figure_2].concat());
    lines.spans("figure 2 twice", &twice, 3);
    lines.spans("figure 2 twice", &twice, 2);
    let day = "d270 r45 d270 r660 ";
    let fortnight = times(4, day) + "d270 r45 d270 r4515 " + &times(5, day);
    lines.spans("5400 minutes of driving in two weeks", &fortnight, 12);
    lines.spans(
        "5401 minutes of driving in two weeks",
        &(fortnight + "d1"),
        12,
    );
    for (shorthand, room) in [
        ("d271 r9809 d271", 2),
        ("d271 r9809 d271", 1),
        ("d271 r9809 d271 r9809 d270", 12),
        ("w900 r9300 w780", 0),
        ("w900 r9300 w781", 1),
        ("w900 r9180 w901", 1),
        ("w900 r9180 w900", 0),
        ("r10079 w1", 0),
        ("r10079 w902", 1),
        ("w901", 0),
        ("w901", 1),
        ("w901 r0", 0),
        ("r60000 w474241", 0),
    ] {
        lines.spans(shorthand, shorthand, room);
    }
}

#[test]
fn stored_answers() {
    let mut lines = Lines::default();
    edges(&mut lines);
    first_parts(&mut lines);
    orders(&mut lines);
    split_days(&mut lines);
    articles(&mut lines);
    figures(&mut lines);
    weeks_and_debts(&mut lines);
    refusals(&mut lines);
    spans(&mut lines);
    for (stored, answered) in STORED.lines().zip(lines.0.lines()) {
        assert_eq!(stored, answered);
    }
    assert_eq!(STORED, lines.0);
}
