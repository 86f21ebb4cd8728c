//! The desk and the second program side by side on the same recordings. Their answers must be equal.
//!
//! The desk is asked as by a caller who wants the reading too: for the first reading and, where there is none, for the verdict; and for the
//! verdict alone, as lane staff do. The breach spans are asked for on twelve weeks and on years, ordinary and hard ones.
//!
//! Without a word: the time of both on each kind of recording, and of reading and writing a card. `files FOLDER` writes the recordings into a
//! file for each kind, in the folder `judged`, and in `spans` those whose breach spans are asked for. `count desk FILE`, `count verdict FILE` or
//! `count second FILE` judges those of a file once each; `count spans FILE`, `count spans_second FILE` and `count mondays FILE` are for the breach
//! spans; `card card_read desk 84` and its like read or write each card of so many days once: bench/run counts their instructions.

mod card;
mod desk;
mod files;
mod spans;

use std::env::args;
use std::fs::create_dir_all;
use std::hint::black_box;
use std::path::Path;
use std::process::exit;
use std::time::Instant;

use hours_desk::Refusal;
use second::dice::Dice;
use second::fast::Judge;
use second::grow;
use second::recording::{total_minutes, word, Activity};
use second::verdict::Outcome;
use second::Limits;

const SLOW: [&str; 2] = [
    include_str!("../recordings/slow_breach.txt"),
    include_str!("../recordings/slow_pass.txt"),
];

const DEEP: [&str; 1] = [include_str!("../recordings/deep.txt")];

const YEAR: [&str; 5] = [
    include_str!("../recordings/year_climb5.txt"),
    include_str!("../recordings/year_climb7.txt"),
    include_str!("../recordings/year_dense.txt"),
    include_str!("../recordings/year_pass5.txt"),
    include_str!("../recordings/year_scarce.txt"),
];

/// Bytes enough for any reading.
const READING: usize = 4 * hours_desk::LONG_RESTS_AT_MOST;

/// The weeks of a year on the desk.
const WEEKS: u32 = hours_desk::WEEKS_AT_MOST as u32;

fn main() {
    let words: Vec<String> = args().skip(1).collect();
    let words: Vec<&str> = words.iter().map(String::as_str).collect();
    match words[..] {
        [] => times(),
        ["files", folder] => write_files(Path::new(folder)),
        ["count", name, file] => {
            let recordings = files::read(Path::new(file));
            recordings.iter().for_each(|words| counted(name, words));
        }
        ["card", name, program, days] => {
            let days = days.parse().expect("a number of days");
            card::times(card::call(name, program), days);
        }
        _ => {
            eprintln!(
                "bench, bench files FOLDER, bench count NAME FILE, bench card NAME PROGRAM DAYS"
            );
            exit(2);
        }
    }
}

fn write_files(folder: &Path) {
    let (kinds, weeks) = (kinds(), by_weeks());
    let spans = spanned(&kinds, &weeks);
    let judged: Vec<Kind> = kinds.into_iter().chain(weeks).collect();
    for (part, kinds) in [("judged", judged), ("spans", spans)] {
        let part = folder.join(part);
        create_dir_all(&part).expect("the folder can be made");
        for (kind, recordings) in kinds {
            files::write(&part.join(kind), &recordings);
        }
    }
}

fn times() {
    let kinds = kinds();
    println!("microseconds  recordings passes  desk median    most  second median    most  ratio of medians");
    let timed: Vec<Timed> = (kinds.iter())
        .map(|(kind, recordings)| time(kind, recordings))
        .collect();
    for (name, days) in CARDS {
        let times = |program| sorted(card::times(card::call(name, program), days));
        let (ours, theirs) = (times("desk"), times("second"));
        line(&format!("{name}{days}"), "-", &ours, &theirs);
    }
    println!("\nverdict alone recordings passes      median    mean    most  ratio to the desk above, medians, means");
    timed.iter().for_each(|timed| println!("{}", timed.alone));
    let most = timed.iter().map(|timed| timed.most).fold(0.0, f64::max);
    println!("\nthe largest time of the desk on a recording: {most:.0} microseconds, where a second is asked for");
    println!("\nbreach spans  recordings  spans  desk median    most  second median    most  ratio of medians  by Mondays, median    most  desk to these, medians, means");
    for (kind, recordings) in spanned(&kinds, &by_weeks()) {
        spans::time(&kind, &recordings);
    }
}

/// What is done with cards, and of how many days they are.
const CARDS: [(&str, usize); 4] = [
    ("card_read", 84),
    ("card_write", 84),
    ("card_read", 371),
    ("card_write", 371),
];

/// The kinds whose breach spans are asked for, and on how many recordings at most.
const SPANS: [(&str, usize); 6] = [
    ("weeks12", 20),
    ("hard", 40),
    ("deep", 1),
    ("weeks53", 5),
    ("hard53", 3),
    ("deep53", 1),
];

fn spanned(kinds: &[Kind], weeks: &[Kind]) -> Vec<Kind> {
    let found = SPANS.map(|(name, most)| {
        let mut all = kinds.iter().chain(weeks);
        let (kind, recordings) = all.find(|(kind, _)| kind == name).expect("a kind by name");
        let count = most.min(recordings.len());
        (kind.clone(), recordings[..count].to_vec())
    });
    found.into()
}

/// Calls the function that is counted by this name.
fn counted(name: &str, words: &[u32]) {
    match name {
        "desk" => counted_desk(words, &mut [0; READING]),
        "verdict" => counted_verdict(words),
        "second" => counted_second(words),
        "spans" => spans::counted_spans(words),
        "spans_second" => spans::counted_spans_second(words),
        "mondays" => spans::counted_mondays(&spans::mondays(words)),
        _ => panic!("nothing is counted by {name}"),
    }
}

type Kind = (String, Vec<Vec<u32>>);

fn kind(name: &str, count: u64, grow: impl Fn(&mut Dice) -> Vec<u32>) -> Kind {
    let recordings = (0..count).map(|seed| grow(&mut Dice::new(seed))).collect();
    (name.to_owned(), recordings)
}

/// Ordinary weeks; such weeks with many days of three hours of rest, then nine; grown rest by rest while lawful; grown to be hard; many
/// rests just over 24 hours and few that can pay back; climbed to make the front of a sweep wide; the stored recordings that a search is
/// slow on, and the one on which it goes deepest. All of twelve weeks at most; and years.
fn kinds() -> Vec<Kind> {
    let mut found = vec![
        kind("ordinary", 400, grow::ordinary),
        kind("split", 100, grow::split),
        kind("grown", 200, grow::grown),
        kind("hard", 40, |dice| grow::hard(dice, 150)),
        kind("scarce", 100, grow::scarce),
        kind("climbed", 20, |dice| grow::climbed(dice, 8, 400)),
        ("slow".to_owned(), SLOW.map(stored).into()),
        ("deep".to_owned(), DEEP.map(stored).into()),
    ];
    found.extend(years());
    found
}

/// Years of the same sorts; the stored ones; the deep one carried on to a year; and the most long rests that there can be.
fn years() -> Vec<Kind> {
    vec![
        kind("ordinary53", 20, |dice| grow::ordinary_weeks(dice, WEEKS)),
        kind("grown53", 10, |dice| grow::grown_through(dice, WEEKS)),
        kind("hard53", 6, |dice| grow::hard_of_weeks(dice, 20, WEEKS)),
        kind("scarce53", 6, |dice| grow::scarce_of_weeks(dice, WEEKS)),
        ("year".to_owned(), YEAR.map(stored).into()),
        ("deep53".to_owned(), vec![deep_year()]),
        ("rests987".to_owned(), vec![most_long_rests()]),
    ]
}

/// The recording of a stored text.
fn stored(text: &str) -> Vec<u32> {
    second::text::parse(text.as_bytes()).expect("a stored text is of the form")
}

/// Long rests of nine hours with a minute of work after each.
fn most_long_rests() -> Vec<u32> {
    worked_after(540).repeat(hours_desk::LONG_RESTS_AT_MOST)
}

/// The deep recording and, as in its last weeks, eight rests of eleven hours, three of nine and one of 45, over and over.
fn deep_year() -> Vec<u32> {
    let mut words = stored(DEEP[0]);
    let mut total = total_minutes(&words);
    for number in 7.. {
        let rest = match number % 12 {
            0..=7 => 660,
            8..=10 => 540,
            _ => 2_700,
        };
        total += i64::from(rest) + 1;
        if total > second::limits::MOST_MINUTES {
            break;
        }
        words.extend(worked_after(rest));
    }
    words
}

/// A rest of so many minutes, and a minute of work.
fn worked_after(rest: u32) -> [u32; 2] {
    [word(rest, Activity::Rest), word(1, Activity::Work)]
}

/// The weeks of the table, from one to a year.
fn table_weeks() -> impl Iterator<Item = u32> {
    (1..=12).chain([16, 20, 26, 32, 40, 46, WEEKS])
}

/// Ordinary recordings of so many weeks; and of twelve, and of a year, with each word cut into four.
fn by_weeks() -> Vec<Kind> {
    let whole = table_weeks().map(|weeks| {
        kind(&format!("weeks{weeks:02}"), 20, move |dice| {
            grow::ordinary_weeks(dice, weeks)
        })
    });
    let in_parts = [12, WEEKS].map(|weeks| {
        kind(&format!("weeks{weeks}cut"), 20, move |dice| {
            let words = grow::ordinary_weeks(dice, weeks);
            words.iter().flat_map(cut).collect()
        })
    });
    whole.chain(in_parts).collect()
}

/// The same minutes in up to four words.
fn cut(word: &u32) -> Vec<u32> {
    let (minutes, activity) = (word / 4, word % 4);
    (0..4)
        .map(|part| (minutes + part) / 4)
        .filter(|&part| part > 0)
        .map(|part| 4 * part + activity)
        .collect()
}

#[inline(never)]
#[no_mangle]
pub fn counted_desk(words: &[u32], reading: &mut [u8]) {
    let read = black_box(hours_desk::first_reading(words, reading));
    if read == Err(Refusal::NoLawfulReading) {
        let _ = black_box(hours_desk::verdict(words));
    }
}

#[inline(never)]
#[no_mangle]
pub fn counted_verdict(words: &[u32]) {
    let _ = black_box(hours_desk::verdict(words));
}

#[inline(never)]
#[no_mangle]
pub fn counted_second(words: &[u32]) {
    black_box(Judge::new(words, &Limits::document()).outcome());
}

/// The line of the verdict alone, and the desk's largest time.
struct Timed {
    alone: String,
    most: f64,
}

/// Prints the line of a kind, and gives the rest.
fn time(kind: &str, recordings: &[Vec<u32>]) -> Timed {
    let limits = Limits::document();
    let (mut ours, mut alone, mut theirs) = (Vec::new(), Vec::new(), Vec::new());
    let mut passes = 0;
    for words in recordings {
        let mut reading = [0; READING];
        let before = Instant::now();
        let ours_says = desk::outcome(words, &mut reading);
        ours.push(before.elapsed().as_secs_f64() * 1e6);
        let before = Instant::now();
        let alone_says = hours_desk::verdict(words);
        alone.push(before.elapsed().as_secs_f64() * 1e6);
        let before = Instant::now();
        let theirs_says = Judge::new(words, &limits).outcome();
        theirs.push(before.elapsed().as_secs_f64() * 1e6);
        let first: &[u8] = match &theirs_says {
            Outcome::Pass(first) => first,
            Outcome::Breach { .. } => &[],
        };
        let alone_says = alone_says.map(|verdict| desk::with_reading(verdict, first));
        for says in [ours_says, alone_says] {
            if says.as_ref() != Ok(&theirs_says) {
                println!("{kind}: {words:?}\n  desk {says:?}\n  second {theirs_says:?}");
                exit(1);
            }
        }
        passes += usize::from(matches!(theirs_says, Outcome::Pass(_)));
    }
    let (ours, alone) = (sorted(ours), sorted(alone));
    line(kind, &passes.to_string(), &ours, &sorted(theirs));
    let n = alone.len();
    let most = ours[n - 1];
    let alone = format!(
        "{kind:13} {n:10} {passes:>6} {:11.0} {:7.0} {:7.0} {:33.2}, {:5.2}",
        alone[n / 2],
        mean(&alone),
        alone[n - 1],
        alone[n / 2] / ours[n / 2],
        mean(&alone) / mean(&ours),
    );
    Timed { alone, most }
}

fn mean(times: &[f64]) -> f64 {
    times.iter().sum::<f64>() / times.len() as f64
}

fn sorted(mut times: Vec<f64>) -> Vec<f64> {
    times.sort_by(f64::total_cmp);
    times
}

fn line(kind: &str, passes: &str, ours: &[f64], theirs: &[f64]) {
    let n = ours.len();
    println!(
        "{kind:13} {n:10} {passes:>6} {:12.0} {:7.0} {:14.0} {:7.0} {:17.2}",
        ours[n / 2],
        ours[n - 1],
        theirs[n / 2],
        theirs[n - 1],
        ours[n / 2] / theirs[n / 2],
    );
}
