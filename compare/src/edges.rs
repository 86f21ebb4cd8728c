//! The cases of "On the edge", and recordings at the edge of each number of the
//! documents, with readings to test them by.

use second::reading::{bytes, Entry};
use second::recording::{weigh, Span};

use crate::recordings::{driving_days, driving_week};
use crate::shorthand::{around, attempt, days, general_figure, span, tight_weeks, times, words};

/// A recording, and readings of it that are worth testing.
pub struct Edge {
    pub words: Vec<u32>,
    pub readings: Vec<Vec<u8>>,
}

fn edge(shorthand: &str) -> Edge {
    read(shorthand, &[])
}

/// With readings, each given as kind, week and carrier, entry by entry.
fn read(shorthand: &str, readings: &[&[u16]]) -> Edge {
    let reading = |numbers: &&[u16]| {
        let entry = |three: &[u16]| Entry {
            kind: three[0] as u8,
            week: three[1] as u8,
            carrier: three[2],
        };
        let entries: Vec<Entry> = numbers.chunks_exact(3).map(entry).collect();
        bytes(&entries)
    };
    Edge {
        words: words(shorthand),
        readings: readings.iter().map(reading).collect(),
    }
}

fn whole(words: Vec<u32>) -> Edge {
    Edge {
        words,
        readings: Vec::new(),
    }
}

/// "On the edge", the cases of requests 2 and 3, and the figures of source document
/// 000.
pub fn on_the_edge() -> Vec<Edge> {
    let mut edges: Vec<Edge> = [
        "",
        "d270",
        "d271",
        "d135 r15 d135 r30 d270",
        "d135 r14 d135 r30 d270",
        "d135 r30 d135 r15 d1",
        "d270 a45 d1",
        "r15 d270 r30 d1",
        "w900",
        "w901",
        "w900 r539 w1",
        "w900 r540 w1",
        "d240 r660 w60",
    ]
    .map(edge)
    .into();
    for count in [3, 4] {
        edges.push(edge(&(times(count, "w840 r600") + "w1")));
    }
    edges.push(edge(&(times(4, "w300 r180 w360 r600") + "w1")));
    for tail in ["", "w1"] {
        edges.push(edge(&(times(6, "w780 r660") + tail)));
    }
    for own in [1_440, 2_699, 2_700] {
        edges.push(read(&format!("r{own} w1"), &[&[1, 0, 0], &[0, 0, 0]]));
    }
    edges.extend([60_480, 60_479].map(|total| whole(around(&figure_1(), total))));
    edges.extend(figures());
    edges
}

/// Figure 1 of source document 000: from Saturday 00:00 to Monday 20:00, three
/// times from Sunday 00:00 to Tuesday 20:00, then in the sixth week from Monday
/// 20:00 to Wednesday 17:00.
fn figure_1() -> Vec<Span> {
    let at = |week: i64, day: i64, hour: i64| 10_080 * week + 1_440 * day + 60 * hour;
    let mut rests = vec![span(at(0, 5, 0), at(1, 0, 20))];
    rests.extend((1..4).map(|week| span(at(week, 6, 0), at(week + 1, 1, 20))));
    rests.push(span(at(5, 0, 20), at(5, 2, 17)));
    rests
}

/// Figures 2 to 6, and the figure 1 of the case program, whose days differ.
fn figures() -> Vec<Edge> {
    let mut edges = vec![edge(
        &[
            days(4, "w60 r660 w720 r4080"),
            days(5, "w240 r4080"),
            days(4, "w240 r4080"),
            days(4, "w240 r4080"),
            days(5, "w60 r660 w720 r2700"),
            days(4, "w420"),
        ]
        .concat(),
    )];
    for weeks in 6..=12 {
        let rests = general_figure(weeks);
        for part in [&rests[..], &rests[1..], &rests[..weeks - 1]] {
            edges.push(edge(&tight_weeks(part)));
        }
    }
    let figure_2 = general_figure(6);
    for sixth in [2700 + 60 + 1260, 2700 + 60, 2700 + 59] {
        edges.push(edge(&tight_weeks(&[&figure_2[..5], &[sixth]].concat())));
    }
    edges.push(edge(&tight_weeks(&[&figure_2[1..], &[3960]].concat())));
    let readings = [0, 19, 25, 32].map(|carrier| bytes(&attempt(carrier)));
    edges.push(Edge {
        words: words(&tight_weeks(&figure_2)),
        readings: readings.into(),
    });
    edges
}

/// Each number of the document a minute under, at and over its edge.
pub fn constants() -> Vec<Edge> {
    let mut edges = totals();
    edges.extend(late_weeks());
    for change in [-1, 0, 1] {
        edges.extend(fixed_rules(change));
        edges.extend(broken_at_once(change));
        edges.extend(first_parts(change));
        edges.extend(earlier_rests(change));
        edges.extend(loads(change));
        edges.extend(readings(change));
        edges.extend(weekly_rests(change));
        edges.extend(weeks(change));
        edges.extend(far_carriers(change));
        edges.extend(whole_days(change));
    }
    edges
}

/// 534,240 minutes, in one word and in many; words of no minutes and huge ones; 987 long
/// rests. Twelve weeks and a minute more; 223 long rests, as many as a byte can number,
/// and one more of each.
fn totals() -> Vec<Edge> {
    let mut edges = Vec::new();
    for minutes in [120_960, 120_961, 534_239, 534_240, 534_241] {
        edges.push(whole(vec![4 * minutes]));
        edges.push(whole(vec![4 * (minutes - 1), 7]));
    }
    edges.extend([
        whole(vec![0]),
        whole(vec![3]),
        whole(vec![u32::MAX]),
        whole(vec![u32::MAX; 8]),
        whole(vec![4 * 534_240, 0]),
        whole(vec![4 * 534_241, 0]),
        whole(vec![0, 4 * 534_241]),
        edge("r533340 w900"),
        edge("r533339 w901"),
        edge("r20160 w1"),
        edge("w1 r540"),
        edge("r270 r270 w1"),
        edge(&times(990, "r540")),
    ]);
    for rests in [223, 224, 255, 256, 257, 987, 988] {
        edges.push(edge(&times(rests, "r540 w1")));
    }
    edges.push(edge(&times(987, "r540 w1").replacen("r540", "r813", 1)));
    for minutes in [534_240, 534_241] {
        edges.push(whole(vec![4; minutes]));
    }
    edges.push(whole([4, 6].repeat(267_120)));
    edges
}

/// A weekly rest over 51 weeks and into the next, counted in weeks about 11, 16 and 51 and
/// in weeks that no recording has; another in week 52; a breach in each of 53 weeks.
fn late_weeks() -> Vec<Edge> {
    let words = around(&[span(60, 516_080), span(524_500, 527_200)], 527_300);
    let rests = weigh(&words).map_or(0, |measure| measure.long_rests);
    let counted = [0, 11, 12, 15, 16, 50, 51, 52, 53, 67, 115, 255];
    let readings = counted.map(|week| {
        let mut entries = vec![Entry::daily(); rests];
        entries[0] = Entry::weekly(week, 0);
        entries[rests - 1] = Entry::weekly(52, 0);
        bytes(&entries)
    });
    vec![
        Edge {
            words,
            readings: readings.into(),
        },
        edge(&times(53, "d271 r9809")),
    ]
}

/// A reduced weekly rest, number 253, that 255 and 256 alone can pay back by themselves;
/// with carriers on both sides of them, off by 256, and with their bytes exchanged.
fn far_carriers(change: i64) -> Vec<Edge> {
    let week = |weekly: i64, rests: [i64; 10]| {
        let day = |rest| format!("w{} r{rest} ", 730 - rest);
        let work = 2_780 - weekly;
        rests.map(day).concat() + &format!("w{work} r{weekly} ")
    };
    let (most, least) = (660, 540);
    let plain = [
        least, least, least, most, most, most, most, most, most, most,
    ];
    let mut paying = [most; 10];
    paying[..5].copy_from_slice(&[least, 720 + change, 720, least, least]);
    let shorthand = [
        week(2_700, plain).repeat(22),
        week(2_640, plain),
        week(2_700, paying),
        week(2_700, plain).repeat(3),
        "w1".into(),
    ];
    let carriers = [0, 254, 255, 256, 257, 264, 511, 512, 65_280, 1, 65_535, 253];
    let readings = carriers.map(|carrier| {
        let mut entries: Vec<Entry> = (1..=27 * 11)
            .map(|number: u16| match number % 11 {
                0 => Entry::weekly((number / 11 - 1) as u8, 0),
                _ => Entry::daily(),
            })
            .collect();
        entries[252].carrier = carrier;
        bytes(&entries)
    });
    vec![Edge {
        words: words(&shorthand.concat()),
        readings: readings.into(),
    }]
}

/// Rules 1 to 5.
fn fixed_rules(change: i64) -> Vec<Edge> {
    let at = |edge: i64| edge + change;
    let day = |driving: i64| format!("d270 r45 d{} r45 d60", driving - 330);
    let extended = format!("{} r600", day(541));
    // 3,360 minutes of driving by minute 7,200, and 1,530 from the next Monday on.
    let days = |count, driving| times(count, &(day(driving) + " r660"));
    let week = days(2, 600) + &days(3, 540);
    let fortnight = format!("{week}{} r2880 {}", day(540), days(3, 510));
    [
        format!("d{}", at(270)),
        format!("d270 r{} d1", at(45)),
        format!("d100 r15 d170 r{} d1", at(30)),
        format!("d100 r{} d170 r30 d1", at(15)),
        format!("d100 r{} d170 r30 d270", at(30)),
        format!("d100 r15 d100 r{} d270 r30 d1", at(45)),
        day(at(600)),
        format!("{}{}", times(2, &extended), day(at(540))),
        format!("r{} w1 {}{}", at(7_616), times(2, &extended), day(541)),
        format!("{week}{} r660 d{}", day(530), at(10)),
        format!("{fortnight}{}", day(at(510))),
        format!("w{} r540 w1", at(900)),
        format!("w900 r540 w{}", at(900)),
        format!("w900 r{} w1", at(540)),
        format!("w400 r{} w1", at(499)),
    ]
    .iter()
    .map(|shorthand| edge(shorthand))
    .collect()
}

/// Days that break two or three of articles 6(1), 7 and 8(2) at one minute; and days
/// that break some or none of them at the minute at which 6(2) or 6(3) is broken, or both.
fn broken_at_once(change: i64) -> Vec<Edge> {
    let at = |edge: i64| edge + change;
    let extended = times(2, "d270 r45 d270 r45 d1 r600");
    let mut edges: Vec<Edge> = [
        format!("d165 r45 d165 r45 d{}", at(271)),
        format!("d165 r45 d{} r45 d272", at(165)),
        format!("{extended}d200 r45 d{} r45 d272", at(70)),
        format!("w210 d165 r45 d165 r45 d{}", at(271)),
        format!("w{} d165 r45 d165 r45 d272", at(210)),
        format!("w{} d200 r45 d200 r45 d202", at(210)),
        format!("w{} d272", at(630)),
    ]
    .iter()
    .map(|shorthand| edge(shorthand))
    .collect();
    for (day, driven) in [
        ("d2", 1),
        ("w900 d2", 1),
        ("d272", 271),
        ("w630 d272", 271),
        ("d200 r45 d200 r45 d202", 601),
        ("w210 d200 r45 d200 r45 d202", 601),
        ("d165 r45 d165 r45 d272", 601),
        ("w210 d165 r45 d165 r45 d272", 601),
    ] {
        let day = words(day);
        let days = |minutes: i64| [driving_days(minutes as u32), day.clone()].concat();
        let weeks = |first, second| [driving_week(first as u32), days(second)].concat();
        edges.extend([
            whole(days(at(3_361 - driven))),
            whole(weeks(at(3_000), 2_401 - driven)),
            whole(weeks(at(2_040), 3_361 - driven)),
            whole(weeks(2_040 - change, at(3_361 - driven))),
        ]);
    }
    edges
}

/// Rests before setting off, at the start and after a break; and a minute after.
fn first_parts(change: i64) -> Vec<Edge> {
    let at = |edge: i64| edge + change;
    let mut edges = Vec::new();
    for before in [
        "",
        "w10",
        "a10",
        "d100 r45 w10",
        "d100 r45 a10",
        "d100 r15 d10 r30 w10",
        "d100 r600 w10",
    ] {
        for runs in [
            format!("r{} d270 r30 d1", at(15)),
            format!("r{} d270 r30 d1", at(30)),
            format!("r{} d270 r30 d1", at(44)),
            format!("r15 d270 r{} d1", at(30)),
            format!("r15 d{} r30 d1", at(270)),
            format!("d1 r{} d269 r30 d1", at(15)),
            format!("r15 d1 r{} d269 r30 d1", at(15)),
            format!("r15 w1 r{} d270 r30 d1", at(30)),
        ] {
            edges.push(edge(&format!("{before} {runs}")));
        }
    }
    edges
}

/// Days of three hours, then nine: the rest of three hours at its edges, in the day,
/// in another and at minute 0; and the later one, by its length and by its start.
fn earlier_rests(change: i64) -> Vec<Edge> {
    let at = |edge: i64| edge + change;
    let counted = |count| times(count, "w840 r600");
    let mut edges: Vec<Edge> = [
        format!("w300 r{} w360 r600", at(180)),
        format!("w1 r{} w659 r600", at(180)),
        format!("w658 r{} w1 r600", at(180)),
        format!("w100 r{} w200 r600", at(539)),
        format!("w300 r180 w{} r600", at(360)),
        format!("w300 r180 w{} r600", at(420)),
        format!("w300 r179 w{} r600", at(421)),
        format!("w300 r179 w{} r700", at(301)),
        format!("w300 r180 w{} r700", at(300)),
        format!("w300 r180 w360 r{}", at(540)),
        format!("w300 r180 w300 r{}", at(660)),
        format!("w300 r179 w301 r{}", at(660)),
        format!("w100 r{} w200 r179 w181 r600", at(180)),
        format!("w300 r90 r{} w360 r600", at(90)),
        format!("w300 r90 w1 r{} w359 r600", at(90)),
        format!("w300 a{} w360 r600", at(180)),
    ]
    .iter()
    .map(|day| edge(&(times(4, day) + "w1")))
    .collect();
    for day in [
        format!("w300 r{} w360", at(180)),
        format!("w100 r{} w200", at(539)),
        format!("r{} w660", at(180)),
        format!("r{} w300", at(539)),
    ] {
        edges.push(edge(&format!("{day} r600 {}w1", counted(3))));
        edges.push(edge(&format!("{day} r600 {}w1", counted(4))));
        edges.push(edge(&format!("{}w1 {day} r600 w1", counted(3))));
        edges.push(edge(&format!("{}w1 {day} r600 w1", counted(4))));
        edges.push(edge(&format!("{}w1 {day} r600", counted(3))));
    }
    for length in [at(1_440), 1_500, at(2_700)] {
        let shorthand = format!("{}w300 r{} w360 r{length} w1", counted(3), at(180));
        let weekly = [&[0; 9][..], &[1, 0, 0]].concat();
        edges.push(read(&shorthand, &[&[0; 12], &weekly]));
    }
    edges
}

/// A weekly rest, a day whose rest pays back what that lacks, and days whose rests
/// count.
fn loads(change: i64) -> Vec<Edge> {
    let mut edges = Vec::new();
    for (weekly, debt) in [(2_699, 1), (2_640, 60), (1_440, 1_260)] {
        for (day, own) in [
            ("w300 r180 w360", 540),
            ("w300 r179 w361", 540),
            ("w100 r539 w201", 540),
            ("w300 r180 w300", 660),
            ("w300 r179 w301", 660),
            ("w300 r180 w420", 600),
        ] {
            let days = times(3, "w840 r600");
            let shorthand = format!("r{weekly} {day} r{} {days}w1", own + debt + change);
            let carried = [&[1, 0, 2][..], &[0; 12]].concat();
            let unpaid = [&[1, 0, 0][..], &[0; 12]].concat();
            edges.push(read(&shorthand, &[&carried, &unpaid, &[0; 15]]));
        }
    }
    edges
}

/// Rules 6 to 9, by readings.
fn readings(change: i64) -> Vec<Edge> {
    let at = |edge: i64| edge + change;
    let one: [&[u16]; 11] = [
        &[0, 0, 0],
        &[1, 0, 0],
        &[2, 0, 0],
        &[255, 0, 0],
        &[0, 1, 0],
        &[0, 0, 1],
        &[1, 1, 0],
        &[1, 0, 1],
        &[1, 0, 2],
        &[0, 0, 256],
        &[1, 0, 256],
    ];
    let two: [&[u16]; 9] = [
        &[0, 0, 0, 0, 0, 0],
        &[1, 0, 2, 0, 0, 0],
        &[1, 0, 2, 1, 0, 0],
        &[1, 0, 3, 1, 0, 0],
        &[1, 0, 1, 1, 0, 0],
        &[1, 0, 0, 1, 0, 1],
        &[1, 0, 2, 1, 0, 2],
        &[1, 0, 258, 1, 0, 0],
        &[1, 0, 512, 1, 0, 0],
    ];
    let three: [&[u16]; 3] = [
        &[1, 0, 2, 1, 0, 0, 1, 1, 0],
        &[1, 0, 2, 1, 0, 3, 1, 1, 0],
        &[1, 0, 0, 1, 0, 3, 1, 1, 0],
    ];
    let carried = [&[1, 0, 2][..], &[0; 12]].concat();
    vec![
        read(&format!("w1 r{} w1", at(1_440)), &one),
        read(&format!("w1 r{} w1", at(2_700)), &one),
        read(&format!("r1440 w1 r{} w1", at(1_800)), &two),
        read(&format!("r1440 w1 r{} w1", at(2_700)), &two),
        read(&format!("r{} w1 r5000 w1", at(2_700)), &two),
        read(&format!("w1 r2699 w1 r{} w1", at(2_701)), &two),
        read(&format!("r1440 w1 r{} w1 r6000 w1", at(3_960)), &three),
        read(
            &format!("r1440 w1 r{} w1 {}w1", at(1_920), times(3, "w780 r600")),
            &[&carried],
        ),
        edge(&(times(4, &format!("w780 r{}", at(660))) + "w1")),
        edge(&(times(4, &format!("w{} r700", at(780))) + "w1")),
        edge(&format!(
            "{}w600 r{} {}w1",
            times(3, "w800 r640"),
            at(1_440),
            times(3, "w800 r640")
        )),
    ]
}

/// Rules 6, 8, 10 and 11: where weekly rests lie.
fn weekly_rests(change: i64) -> Vec<Edge> {
    let at = |edge: i64| edge + change;
    let owed = [
        span(5_000, 6_440),
        span(14_000, 16_700),
        span(24_000, 25_440),
    ];
    let unpaid = [&owed[..], &[span(34_000, 36_700)]].concat();
    let end = at(40_320);
    let paid = [&owed[..], &[span(30_500, 31_940), span(end - 3_960, end)]].concat();
    let shared = [
        span(5_000, 6_440),
        span(14_000, 16_700),
        span(24_000, 26_400),
        span(30_500, 33_200),
        span(36_000, 36_000 + at(2_100)),
        span(41_500, 42_940),
        span(48_900, 50_340),
        span(58_000, 60_700),
    ];
    let from_a_last_minute = [
        span(4_000, at(10_080)),
        span(10_700, at(20_160)),
        span(20_200, at(30_240)),
    ];
    let reduced = [span(7_000, 9_699), span(17_000, at(19_700))];
    let over_a_week = [
        span(at(10_080), 20_160),
        span(28_000, 30_700),
        span(38_000, 40_700),
    ];
    let gap = at(8_640);
    let between = [span(2_000, 4_700), span(4_700 + gap, 7_400 + gap)];
    [
        around(&unpaid, at(40_320)),
        around(&paid, 44_000),
        around(&shared, 60_800),
        around(&from_a_last_minute, 30_300),
        around(&reduced, 20_300),
        around(&[span(8_000, 11_600)], at(20_160)),
        around(&[span(8_000, 20_200), span(28_000, 30_700)], at(40_320)),
        around(&over_a_week, 41_000),
        around(&[span(at(8_640), 11_400)], 11_500),
        around(&between, 7_500 + gap),
    ]
    .map(whole)
    .into()
}

/// Weeks that are judged apart: a breach about a Monday 00:00, a rest cut there, as much
/// driving as two weeks may have, and a fault in the first week, the last or each.
fn weeks(change: i64) -> Vec<Edge> {
    let at = |edge: i64| edge + change;
    let mut edges: Vec<Edge> = [
        format!("r{} d271", at(9_810)),
        format!("r{} d541", at(9_810)),
        format!("r{} w901", at(9_180)),
        format!("r{} w901", at(10_080)),
        format!("w901 r{}", at(9_179)),
        format!("w901 r{} w901", at(9_179)),
        format!("r{} d271 r9809 d271 r9809 d271", at(9_809)),
        times(12, &format!("d271 r{}", 9_809 - change.abs())),
        format!("w{}", at(10_080)),
        format!("w{}", at(20_160)),
    ]
    .iter()
    .map(|shorthand| edge(shorthand))
    .collect();
    let driven = |weeks: [i64; 3]| weeks.map(|driving| driving_week(driving as u32)).concat();
    edges.extend(
        [
            driven([2_700, at(2_700), 2_700]),
            driven([at(2_700), 2_700, at(2_700)]),
            driven([2_040, at(3_360), 2_040]),
            around(&[span(9_080, 10_080 + at(540))], 20_160),
            around(&[span(8_640, at(11_520))], 20_160),
            around(&[span(at(8_640), 11_520)], 20_160),
            around(&[span(7_380, 10_080), span(at(17_460), 20_160)], 30_240),
            around(&[span(8_640, 12_780), span(17_460, at(20_160))], at(30_240)),
        ]
        .map(whole),
    );
    edges
}

/// Days of 1,440 minutes, and changes about midnight.
fn whole_days(change: i64) -> Vec<Edge> {
    let at = |edge: i64| edge + change;
    [
        format!("w{}", at(1_440)),
        format!("r{}", at(2_880)),
        format!("r{} w1", at(1_439)),
        format!("r{}", at(1_728)),
        format!("w{}", at(1_920)),
        format!("r{}", at(2_160)),
        format!("w{} d{}", at(1_440), 1_440 - change),
        format!("w{} w{}", at(1_440), 1_440 - change),
        format!("a{} r2 w{}", at(1_439), 1_439 - change),
        times(at(60_480) as usize, "r1 w1"),
    ]
    .iter()
    .map(|shorthand| edge(shorthand))
    .collect()
}

/// Card records at the edge of the form: their changes, and a byte left over.
pub fn card_records() -> Vec<(Vec<u16>, Vec<u8>)> {
    let at = |minute: u16, code: u16| code << 11 | minute;
    let (unknown, late) = (1 << 13, at(1_440, 1));
    let mut records = vec![
        vec![],
        vec![at(0, 1), at(0, 1)],
        vec![at(0, 2), at(0, 0), at(0, 0), at(1, 3)],
        vec![at(0, 3), at(1_439, 3), at(0, 3)],
        vec![unknown, late],
        vec![late, unknown],
        vec![at(0, 0), unknown | late],
        vec![unknown, at(5, 1), at(5, 1)],
        (0..32_768)
            .map(|number| at(number % 1_440, number % 4))
            .collect(),
    ];
    // Every bit above the minute, at minute 0 and later.
    for bits in 0..32 {
        records.push(vec![bits << 11]);
        records.push(vec![at(0, 0), bits << 11 | 600, at(0, 1)]);
    }
    for minute in [1, 2, 255, 256, 1_023, 1_024, 1_438, 1_439, 1_440, 2_047] {
        records.push(vec![at(minute, 0)]);
        records.push(vec![at(0, 0), at(minute, 1)]);
        for second in [minute - 1, minute, minute + 1] {
            records.push(vec![at(0, 0), at(minute, 1), at(second % 2_048, 2)]);
        }
    }
    for days in [84, 85, 370, 371, 372, 373] {
        let whole = vec![at(0, 2); days];
        records.push(whole.clone());
        records.push([&whole[..], &[at(1, 0)]].concat());
        for fault in [unknown, late] {
            records.push([&whole[1..], &[fault]].concat());
            records.push([&[fault], &whole[1..]].concat());
        }
    }
    let left_over = [vec![], vec![0], vec![255]];
    let with = |record: Vec<u16>| left_over.clone().map(|rest| (record.clone(), rest));
    records.into_iter().flat_map(with).collect()
}

/// Texts at the edge of the form.
pub fn texts() -> Vec<String> {
    let recording = |weeks: &str| format!("(recording\n{weeks})\n");
    let week = |runs: &str| format!("(week\n{runs})\n");
    let one_week = |runs: &str| recording(&week(runs));
    let full = week("(rest 10080)\n");
    let mut texts = vec![
        String::new(),
        "\n".into(),
        ")\n".into(),
        "(recording\n".into(),
        "(recording\n)".into(),
        "(recording\n)\n\n".into(),
        recording(""),
        recording(&week("")),
        recording("(rest 1)\n"),
        recording(&week(&week("(rest 1)\n"))),
        one_week("(rest 3)\n(rest 3)\n(drive 1)\n"),
        one_week("(drive 240)\n(rest 660)\n(work 60)\n"),
        one_week(&"(avail 1)\n".repeat(10_080)),
        one_week(&"(avail 1)\n".repeat(10_081)),
        one_week("(Rest 1)\n"),
        one_week("(driving 1)\n"),
        one_week(" (rest 1)\n"),
        one_week("(rest  1)\n"),
    ];
    for number in [
        "0",
        "1",
        "9",
        "10",
        "01",
        "00",
        "",
        " ",
        "-1",
        "+1",
        "1 ",
        "1.0",
        "x",
        "1x",
        "1\t",
        "1\r",
        "10079",
        "10080",
        "10081",
        "99999",
        "100800",
        "4294967297",
        "18446744073709551617",
        "0x10",
    ] {
        texts.push(one_week(&format!("(rest {number})\n")));
    }
    for weeks in [1, 11, 12, 13, 52, 53, 54] {
        texts.push(recording(&full.repeat(weeks)));
        texts.push(recording(
            &(full.repeat(weeks - 1) + &week("(work 10079)\n")),
        ));
    }
    for second in [10_079, 10_080, 10_081] {
        let uneven = week(&format!("(rest {})\n(work 1)\n", second - 1));
        texts.push(recording(&uneven));
        texts.push(recording(&(uneven.clone() + &full)));
        texts.push(recording(&(full.clone() + &uneven)));
    }
    texts
}
