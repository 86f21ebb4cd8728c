//! Request 6 of document 02, "Weeks that pass alone": "Judge every span of consecutive
//! weeks by itself, from a Monday to a Sunday (or to N in the last week), as a
//! recording of its own, the whole included. Write out each span that is a breach while
//! no shorter span inside it is one, as a record of its first and last week, by first
//! week, then last. Each such span appears just one time. The answer is their number,
//! and 14 follows 1 and 2 where the lent list is too short."

mod shorthand;

use second::dice::Dice;
use second::fast::Judge;
use second::grow;
use second::plain;
use second::print::print_spans;
use second::recording::{minutes, total_minutes, word, Activity, Recording};
use second::small;
use second::spans::{self, all_spans, breach_spans, found, Terms, Weeks};
use second::verdict::{verdict, Verdict};
use second::{text, Limits, Refusal};
use shorthand::{driving_days, general_figure, tight_weeks, times, words};

const fn weeks(first: u32, last: u32) -> Weeks {
    Weeks { first, last }
}

/// What a lent list holds before.
const LENT: Weeks = weeks(77, 7);

/// The spans that are written; the rest of the list stays.
fn written(words: &[u32]) -> Vec<Weeks> {
    let mut list = [LENT; 54];
    let count = breach_spans(words, &mut list).expect("no refusal");
    assert!(list[count..].iter().all(|&record| record == LENT));
    list[..count].to_vec()
}

fn assert_spans(shorthand: &str, expected: &[Weeks]) {
    assert_eq!(written(&words(shorthand)), expected, "{shorthand}");
}

fn assert_breach(shorthand: &str, minute: i64, article: u8) {
    let breach = Verdict::Breach { minute, article };
    assert_eq!(verdict(&words(shorthand)), Ok(breach), "{shorthand}");
}

fn assert_pass(shorthand: &str) {
    assert_eq!(verdict(&words(shorthand)), Ok(Verdict::Pass), "{shorthand}");
}

/// "A fleet manager sees two good halves and a bad whole, as in figures 2 to 5 of
/// source document 000."
#[test]
fn figures_2_to_5() {
    let figure = general_figure(6);
    let (first_five, last_five) = (tight_weeks(&figure[..5]), tight_weeks(&figure[1..]));
    assert_breach(&tight_weeks(&figure), 60_480, 6);
    assert_pass(&first_five);
    assert_pass(&last_five);
    assert_spans(&tight_weeks(&figure), &[weeks(0, 5)]);
    assert_spans(&first_five, &[]);
    assert_spans(&last_five, &[]);
    // A possible sixth week that makes the whole lawful, and a minute less of it.
    assert_spans(&(first_five.clone() + &tight_weeks(&[2_760])), &[]);
    assert_spans(&(first_five + &tight_weeks(&[2_759])), &[weeks(0, 5)]);
    // A possible week after the last five; and a good week before the figure.
    assert_spans(&(last_five + &tight_weeks(&[3_960])), &[]);
    let later = [&[2_700], &figure[..]].concat();
    assert_spans(&tight_weeks(&later), &[weeks(1, 6)]);
}

/// Figure 6, "legal when week A or week B is erased". And figure 2 twice: in between,
/// the 21 hours of the fifth week are due before a week can take them.
#[test]
fn longer_figures() {
    for count in 6..=12 {
        let last = count as u32 - 1;
        assert_spans(&tight_weeks(&general_figure(count)), &[weeks(0, last)]);
    }
    let figure = general_figure(6);
    let twice = [&figure[..], &figure[..]].concat();
    let found = [weeks(0, 5), weeks(4, 7), weeks(6, 11)];
    assert_spans(&tight_weeks(&twice), &found);
}

/// A week of five days, with these runs at first.
fn office_week(first: &str) -> String {
    let minutes = total_minutes(&words(first));
    let days = times(4, "r720 w240 d240 r45 d195");
    format!("{first} {days} r{} ", 10_080 - minutes - 4 * 1_440)
}

#[test]
fn a_breach_in_each_of_two_weeks() {
    let good = office_week("w240 d240 r45 d195");
    let (drive, day) = (office_week("w240 d271 r209"), office_week("w901 r540"));
    assert_spans(&good, &[]);
    assert_spans(&times(12, &good), &[]);
    let each: Vec<Weeks> = (0..12).map(|week| weeks(week, week)).collect();
    for bad in [&drive, &day] {
        assert_spans(bad, &each[..1]);
        assert_spans(&(bad.clone() + bad), &each[..2]);
        assert_spans(&(good.clone() + bad), &each[1..2]);
        assert_spans(&(bad.clone() + &good), &each[..1]);
        assert_spans(&(bad.clone() + &good + bad), &[each[0], each[2]]);
        assert_spans(&times(12, bad), &each);
    }
    assert_spans(&(day + &good + &good + &drive), &[each[0], each[3]]);
    // At a week's last minute.
    let sunday = "r9809 d271";
    assert_spans(sunday, &[weeks(0, 0)]);
    assert_spans(&times(2, sunday), &[weeks(0, 0), weeks(1, 1)]);
}

/// 6(3): two weeks that are a breach together. Spans may share a week.
#[test]
fn a_breach_of_two_weeks_together() {
    // Five days of 540 minutes: 5,400 in two weeks. And a week with a minute more.
    let full = times(5, "d270 r45 d270 r855") + "r2880 ";
    let more = times(4, "d270 r45 d270 r855") + "d270 r45 d270 r45 d1 r809 r2880 ";
    let good = full.clone() + &full;
    assert_spans(&(good.clone() + &good), &[]);
    assert_spans(&more, &[]);
    let (before, after) = (weeks(0, 1), weeks(1, 2));
    assert_spans(&(full.clone() + &more), &[before]);
    assert_spans(&(more.clone() + &full), &[before]);
    assert_spans(&(full.clone() + &more + &good), &[before, after]);
    assert_spans(&(full + "r10080 " + &more), &[]);
}

/// A first week and a second one, together lawful; the second alone with this breach
/// or none.
fn assert_lawful_whole(first: &str, second: &str, breach: Option<(i64, u8)>) {
    let whole = format!("{first} {second}");
    assert_eq!(total_minutes(&words(first)), 10_080);
    assert_pass(&whole);
    match breach {
        Some((minute, article)) => {
            assert_breach(second, minute, article);
            assert_spans(&whole, &[weeks(1, 1)]);
        }
        None => {
            assert_pass(second);
            assert_spans(&whole, &[]);
        }
    }
}

/// The whole is lawful. The rest before the Monday had 540 minutes or more, and what
/// is left of it is no long rest: the day of the later week alone runs from its
/// Monday 00:00.
#[test]
fn a_daily_rest_cut_at_monday() {
    let before = times(5, "w600 r840") + "r2340 ";
    for (left, work, later_week) in [
        (300, 600, false),
        (300, 601, true),
        (300, 900, true),
        (539, 361, false),
        (539, 362, true),
        (540, 362, false),
        (540, 900, false),
    ] {
        let alone = format!("r{left} w{work}");
        let breach = later_week.then_some((901, 5));
        assert_lawful_whole(&format!("{before} r540"), &alone, breach);
    }
}

/// A weekly rest that begins on Saturday; of it so many minutes are left on Monday,
/// and six days follow. With less than 24 hours the later week alone has no weekly
/// rest within six days.
#[test]
fn a_weekly_rest_cut_at_monday() {
    let days = times(5, "w780 r660") + "w780 ";
    for (left, later_week) in [(1_438, true), (1_439, true), (1_440, false)] {
        let alone = format!("r{left} {days}");
        let breach = later_week.then_some((8_641, 6));
        assert_lawful_whole(&format!("{days} r2100"), &alone, breach);
    }
}

/// A break of 45 minutes, 30 of them on Sunday: the 15 that are left are no first part,
/// as no driving has been done since minute 0 (request 2).
#[test]
fn a_break_cut_at_monday() {
    let sunday = "r9780 d270 r30";
    assert_lawful_whole(sunday, "r15 d270 r30", None);
    assert_lawful_whole(sunday, "r15 d135 r15 d135 r30 d1", None);
    assert_spans(&format!("{sunday} r15 d270 r30 d1"), &[weeks(1, 1)]);
    // Less than a break: the sum goes on over the Monday, and alone it does not.
    assert_spans(&format!("{sunday} r14 d270"), &[weeks(0, 1)]);
}

/// "(or to N in the last week)"
#[test]
fn a_part_of_a_week_at_the_end() {
    let week = "r10080 ";
    for (part, expected) in [
        ("d270", &[][..]),
        ("d271", &[weeks(1, 1)]),
        ("w900", &[]),
        ("w901", &[weeks(1, 1)]),
        ("w901 r9178", &[weeks(1, 1)]),
        ("w901 r9179", &[weeks(1, 1)]),
        ("w901 r9180", &[weeks(1, 1)]),
        ("r10079 w1", &[]),
    ] {
        assert_spans(&format!("{week}{part}"), expected);
    }
    // Of the drive over the Monday each part is lawful, and not the whole.
    assert_spans("r9945 d270", &[]);
    assert_spans("r9945 d271", &[weeks(0, 1)]);
    assert_spans("r9945 d405", &[weeks(0, 1)]);
    // The part of a week is a breach alone: the longer span holds a shorter one.
    assert_spans("r9945 d406", &[weeks(1, 1)]);
    assert_spans("r9945 d271 r9000 d271", &[weeks(1, 1)]);
    // In the last week but one, with a part of a week after it.
    assert_spans("r10080 d271 r9809 w1", &[weeks(1, 1)]);
    assert_spans("d271 r9809 w1", &[weeks(0, 0)]);
}

/// "as many weeks as are begun": none past the end.
#[test]
fn whole_weeks() {
    assert_spans("w10079", &[weeks(0, 0)]);
    assert_spans("w10080", &[weeks(0, 0)]);
    assert_spans("w10081", &[weeks(0, 0)]);
    assert_spans("w10980", &[weeks(0, 0)]);
    assert_spans("w10981", &[weeks(0, 0), weeks(1, 1)]);
    let each: Vec<Weeks> = (0..53).map(|week| weeks(week, week)).collect();
    for count in 1..=53 {
        assert_spans(&format!("w{}", 10_080 * count), &each[..count]);
        assert_spans(&format!("r{}", 10_080 * count), &[]);
    }
    // A breach at the very last minute of a week, and at the first of the next.
    assert_spans("r9809 d271", &[weeks(0, 0)]);
    assert_spans("r9810 d271", &[weeks(0, 1)]);
}

/// A recording of no minutes has no weeks.
#[test]
fn no_minutes() {
    assert_eq!(breach_spans(&[], &mut []), Ok(0));
    assert_spans("", &[]);
    let limits = Limits::document();
    assert_eq!(spans::plain(&[], &limits, |_| true), []);
    assert_eq!(print_spans(b"(recording\n)\n"), "(spans\n)\n");
}

/// The spans into lists of every length: "writes from its start, leaves what lies
/// beyond"; "14 ... where the lent list is too short".
#[test]
fn lent_lists() {
    for (shorthand, expected) in [
        ("r20160 w900", &[][..]),
        (
            "w20160 r20160 w901",
            &[weeks(0, 0), weeks(1, 1), weeks(4, 4)],
        ),
        (&tight_weeks(&general_figure(7)), &[weeks(0, 6)]),
    ] {
        for length in 0..15 {
            let mut list = vec![LENT; length];
            let answer = breach_spans(&words(shorthand), &mut list);
            let mut after = vec![LENT; length];
            if length < expected.len() {
                assert_eq!(answer, Err(Refusal::SpanListTooShort));
            } else {
                assert_eq!(answer, Ok(expected.len()));
                after[..expected.len()].copy_from_slice(expected);
            }
            assert_eq!(list, after, "{shorthand} into {length}");
        }
    }
    assert_eq!(Refusal::SpanListTooShort.number(), 14);
}

/// "14 follows 1 and 2"
#[test]
fn words_at_fault() {
    for (shorthand, number) in [
        ("r0", 1),
        ("w901 r0", 1),
        ("w20160 d0", 1),
        ("r0 w534241", 1),
        ("w534241", 2),
        ("w534241 r0", 2),
        ("w901 w533340", 2),
        ("w901 w1073741823", 2),
    ] {
        for length in [0, 1, 53, 54] {
            let mut list = vec![LENT; length];
            let answer = breach_spans(&words(shorthand), &mut list);
            assert_eq!(answer.map_err(Refusal::number), Err(number), "{shorthand}");
            assert_eq!(list, vec![LENT; length]);
        }
    }
    assert_eq!(
        breach_spans(&words("w901 r533339"), &mut []),
        Err(Refusal::SpanListTooShort)
    );
}

#[test]
fn pages() {
    let page = |shorthand: &str| {
        let words = words(shorthand);
        let mut bytes = vec![0; 65_536];
        let length = text::write(&words, &mut bytes).expect("room enough");
        print_spans(&bytes[..length])
    };
    assert_eq!(page("w900"), "(spans\n)\n");
    assert_eq!(page("w901"), "(spans\n(weeks 0 0)\n)\n");
    assert_eq!(
        page("w901 r9179 r9945 d271"),
        "(spans\n(weeks 0 0)\n(weeks 1 2)\n)\n"
    );
    let year: String = (0..53)
        .map(|week| format!("(weeks {week} {week})\n"))
        .collect();
    assert_eq!(page("w534240"), format!("(spans\n{year})\n"));
    let refused = |number| format!("(verdict\n(refused {number})\n)\n");
    assert_eq!(print_spans(b""), refused(8));
    assert_eq!(print_spans(b"(recording\n)"), refused(8));
    assert_eq!(print_spans(&[0; 65_536]), refused(8));
    assert_eq!(print_spans(&[0; 65_537]), refused(9));
}

/// "by first week, then last. Each such span appears just one time": as no span lies
/// inside another, both the first weeks and the last ones rise.
fn assert_rising(spans: &[Weeks]) {
    for pair in spans.windows(2) {
        assert!(pair[0].first < pair[1].first, "{spans:?}");
        assert!(pair[0].last < pair[1].last, "{spans:?}");
    }
    assert!(spans.iter().all(|weeks| weeks.first <= weeks.last));
}

/// What a comparison has met.
#[derive(Debug)]
struct Met {
    recordings: usize,
    /// By the number of weeks begun.
    begun: [usize; 54],
    /// Those with so many spans.
    answers: [usize; 54],
    /// The spans by their number of weeks.
    counts: [usize; 54],
    /// Those with a span though the whole is lawful.
    lawful_whole: usize,
    /// Those answered in another way where each shortest breach of a Monday is
    /// written, where spans are judged from minute 0, or where a part of a week is
    /// left out.
    others: [usize; 3],
}

const OTHERS: [Terms; 3] = [
    Terms {
        none_inside: false,
        ..Terms::request()
    },
    Terms {
        by_itself: false,
        ..Terms::request()
    },
    Terms {
        part_week: false,
        ..Terms::request()
    },
];

impl Met {
    fn new() -> Met {
        Met {
            recordings: 0,
            begun: [0; 54],
            answers: [0; 54],
            counts: [0; 54],
            lawful_whole: 0,
            others: [0; 3],
        }
    }

    fn spans(&mut self, words: &[u32], limits: &Limits, spans: &[Weeks]) {
        let total = total_minutes(words);
        self.recordings += 1;
        self.begun[(total as usize).div_ceil(limits.week as usize)] += 1;
        self.answers[spans.len()] += 1;
        for weeks in spans {
            self.counts[weeks.count() as usize] += 1;
        }
        let lawful = Judge::new(words, limits).is_lawful(total);
        self.lawful_whole += usize::from(lawful && !spans.is_empty());
        for (count, terms) in self.others.iter_mut().zip(&OTHERS) {
            *count += usize::from(found(terms, words, limits) != spans);
        }
        // A breach of the whole lies in some span.
        assert!(lawful || !spans.is_empty());
    }
}

/// The spans one verdict a Monday finds, against every span judged by plain
/// enumeration, under small numbers.
#[test]
fn small_recordings() {
    let mut dice = Dice::new(61);
    let mut met = Met::new();
    while met.recordings < 6_000 {
        let limits = small::limits(&mut dice);
        let words = match dice.below(3) {
            0 => small::recording(&mut dice, &limits, 12),
            1 => tight(&mut dice, &limits, 12),
            _ => small_words(&mut dice),
        };
        let minutes = minutes(&words);
        if total_minutes(&words) > limits.total
            || plain::readings(&Recording::new(&minutes, &limits)) > 2_000.0
        {
            continue;
        }
        let expected = spans::plain(&minutes, &limits, |own| {
            plain::first_lawful(&Recording::new(own, &limits)).is_none()
        });
        let spans = found(&Terms::request(), &words, &limits);
        assert_eq!(spans, expected, "{limits:?} {words:?}");
        assert_rising(&spans);
        met.spans(&words, &limits, &spans);
    }
    println!("{met:?}");
    assert!(met.begun[1..7].iter().all(|&count| count > 100));
    assert!(met.answers[0] > 1_000 && met.answers[1] > 1_000);
    assert!(met.answers[2..5].iter().all(|&count| count > 50));
    assert!(met.counts[1..4].iter().all(|&count| count > 100));
    assert!(met.lawful_whole > 100);
    assert!(met.others.iter().all(|&count| count > 500));
}

/// A small recording with its rests shortened as far as it stays lawful, or too far.
fn tight(dice: &mut Dice, limits: &Limits, most_rests: u32) -> Vec<u32> {
    let (lawful, too_far) = small::tight(dice, limits, most_rests);
    too_far.filter(|_| dice.one_in(2)).unwrap_or(lawful)
}

/// Any runs, with more or less rest.
fn small_words(dice: &mut Dice) -> Vec<u32> {
    let most = dice.between(2, 9);
    let rest = dice.between(1, 12);
    let runs = dice.below(40);
    (0..runs)
        .map(|_| 4 * dice.between(1, most) + dice.weighted(&[rest, 1, 2, 1]) as u32)
        .collect()
}

/// A kind of recording, and how many of it.
type Kind = (u64, fn(&mut Dice) -> Vec<u32>);

const KINDS: [Kind; 12] = [
    (120, grow::random_words),
    (80, grow::ordinary),
    (20, grow::split),
    (100, grow::grown),
    (40, grow::scarce),
    (6, |dice| grow::hard(dice, 20)),
    (2, |dice| grow::climbed(dice, 8, 100)),
    (150, |dice| small::recording(dice, &Limits::document(), 60)),
    (150, driving_days),
    (4, |dice| grow::ordinary_of_weeks(dice, 53)),
    (1, |dice| grow::grown_through(dice, 53)),
    (1, |dice| grow::scarce_of_weeks(dice, 53)),
];

/// Recordings of every kind, most of up to twelve weeks, as they are and without their first
/// minutes, with their words in pieces, against every span judged by itself: by plain
/// enumeration where it can follow, and by the search.
#[test]
fn recordings_of_any_size() {
    let limits = Limits::document();
    let mut dice = Dice::new(62);
    let mut met = Met::new();
    let mut plainly = 0;
    for (count, grow) in KINDS {
        for seed in 0..count {
            let words = grow(&mut Dice::new(seed));
            if second::recording::weigh(&words).is_err() {
                continue;
            }
            let minutes = minutes(&words);
            let moved = dice.below(10_080).min(minutes.len() as u32) as usize;
            for minutes in [&minutes[..], &minutes[moved..]] {
                let words = pieces(&mut dice, minutes);
                let expected = spans::plain(minutes, &limits, |own| {
                    let breach = is_breach(own, &limits);
                    if own.len() <= 10_080 {
                        let recording = Recording::new(own, &limits);
                        if plain::readings(&recording) <= 100.0 {
                            assert_eq!(plain::first_lawful(&recording).is_none(), breach);
                            plainly += 1;
                        }
                    }
                    breach
                });
                let spans = written(&words);
                assert_eq!(spans, expected, "{words:?}");
                assert_rising(&spans);
                met.spans(&words, &limits, &spans);
            }
        }
    }
    println!("{met:?}, {plainly} weeks by plain enumeration");
    assert!(plainly > 4_000);
    assert!(met.begun[1..13].iter().all(|&count| count > 20) && met.begun[12] > 200);
    assert!(met.answers[..5].iter().all(|&count| count > 20) && met.answers[12] > 0);
    assert!(met.counts[1..13].iter().all(|&count| count > 0));
    assert!(met.lawful_whole > 50);
    assert!(met.others.iter().all(|&count| count > 100));
}

fn is_breach(minutes: &[Activity], limits: &Limits) -> bool {
    let runs = minutes.chunk_by(|one, other| one == other);
    let words: Vec<u32> = runs.map(|run| word(run.len() as u32, run[0])).collect();
    !Judge::new(&words, limits).is_lawful(minutes.len() as i64)
}

/// Words of these minutes, some runs in more than one word.
fn pieces(dice: &mut Dice, minutes: &[Activity]) -> Vec<u32> {
    let mut words = Vec::new();
    for run in minutes.chunk_by(|one, other| one == other) {
        let mut left = run.len() as u32;
        while left > 0 {
            let piece = if dice.one_in(3) {
                dice.between(1, left)
            } else {
                left
            };
            words.push(word(piece, run[0]));
            left -= piece;
        }
    }
    words
}

/// A span that is written is a breach, and stays one with more weeks after it; what
/// holds no such span passes. With more weeks before it, it may pass.
#[test]
fn the_spans_by_their_verdicts() {
    let limits = Limits::document();
    let (mut breaches, mut passes, mut passes_around) = (0, 0, 0);
    for seed in 0..100 {
        let words = grow::grown(&mut Dice::new(seed));
        let minutes = minutes(&words);
        let spans = written(&words);
        for weeks in all_spans(minutes.len().div_ceil(10_080) as u32) {
            let start = 10_080 * weeks.first as usize;
            let end = 10_080 * (weeks.last as usize + 1);
            let breach = is_breach(&minutes[start..end.min(minutes.len())], &limits);
            let within = |inside: &&Weeks| weeks.first <= inside.first && inside.last <= weeks.last;
            match spans.iter().find(within) {
                Some(inside) if inside.first == weeks.first => {
                    assert!(breach, "{seed} {weeks:?}");
                    breaches += 1;
                }
                Some(_) => passes_around += usize::from(!breach),
                None => {
                    assert!(!breach, "{seed} {weeks:?}");
                    passes += 1;
                }
            }
        }
    }
    println!("{breaches} breaches, {passes} passes, {passes_around} around a breach");
    assert!(breaches > 200 && passes > 1_000 && passes_around > 100);
}
