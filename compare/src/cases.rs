//! All inputs of the comparison, kind by kind, from fixed seeds.

use second::dice::Dice;
use second::grow;

use crate::cards;
use crate::edges;
use crate::inputs::{self, Room, Try};
use crate::moves;
use crate::recordings;
use crate::weeks;
use crate::years;

/// How many recordings of each kind, and how many readings for the entry and the moves.
pub struct Plan {
    pub random: u64,
    pub few_days: u64,
    pub breaks: u64,
    pub split_rests: u64,
    pub much_driving: u64,
    pub ordinary: u64,
    pub grown: u64,
    /// Of each grown recording, so many cuts and as many changed ones.
    pub stages: u64,
    pub hard: u64,
    pub scarce: u64,
    pub climbed: u64,
    /// Of the stored recordings, which are hard for a search, the first so many.
    pub stored: usize,
    /// Of the recordings of several weeks, which are for the breach spans alone, so many
    /// of the kind that takes the longest, and of others by their share.
    pub weeks: u64,
    /// Of the recordings of 13 to 53 weeks, so many of the kind that takes the longest,
    /// and of others by their share.
    pub years: u64,
    pub entries: u64,
    pub moves: u64,
}

/// The recordings that a search is slow on, and the one on which it goes deepest.
const STORED: [&str; 3] = [
    include_str!("../../bench/recordings/slow_breach.txt"),
    include_str!("../../bench/recordings/slow_pass.txt"),
    include_str!("../../bench/recordings/deep.txt"),
];

/// What the comparison does with each input; whether it goes on.
pub type Visit<'a> = &'a mut dyn FnMut(&'static str, Try) -> bool;

/// A recording, readings of it that are worth testing, and the dice by which
/// its inputs are made.
pub struct Recorded<'a> {
    pub words: &'a [u32],
    pub readings: &'a [Vec<u8>],
    pub dice: &'a mut Dice,
}

/// What is done with each recording; whether it goes on.
pub type VisitRecording<'a> = &'a mut dyn FnMut(&'static str, Recorded) -> bool;

/// Visits the inputs; whether it came to the end.
pub fn each(plan: &Plan, visit: Visit) -> bool {
    texts(visit)
        && card_records(visit)
        && each_entry(plan, visit)
        && each_move(plan, visit)
        && each_recording(plan, &mut |kind, recorded| {
            let Recorded {
                words,
                readings,
                dice,
            } = recorded;
            all(kind, inputs::of_recording(dice, words, readings), visit)
        })
        && each_weeks(plan, visit)
}

/// Visits the recordings, the shorter kinds first; whether it came to the end.
pub fn each_recording(plan: &Plan, visit: VisitRecording) -> bool {
    edges_of_the_document(visit)
        && recordings_of(plan.random, 1, "random words", recordings::random, visit)
        && recordings_of(plan.few_days, 2, "few days", recordings::few_days, visit)
        && few_days_changed(plan, visit)
        && recordings_of(plan.breaks, 9, "breaks", recordings::breaks, visit)
        && split_rests(plan, visit)
        && much_driving(plan, visit)
        && recordings_of(plan.ordinary, 4, "ordinary weeks", grow::ordinary, visit)
        && grown(plan, visit)
        && recordings_of(plan.hard, 6, "hard", |dice| grow::hard(dice, 150), visit)
        && recordings_of(plan.scarce, 7, "scarce", grow::scarce, visit)
        && recordings_of(plan.climbed, 8, "climbed", climbed, visit)
        && stored(plan, visit)
        && each_year(plan, visit)
}

fn all(kind: &'static str, tries: Vec<Try>, visit: Visit) -> bool {
    tries.into_iter().all(|attempt| visit(kind, attempt))
}

/// Visits one recording that has no readings of its own.
fn one(kind: &'static str, words: &[u32], dice: &mut Dice, visit: VisitRecording) -> bool {
    let readings = &[];
    visit(
        kind,
        Recorded {
            words,
            readings,
            dice,
        },
    )
}

/// Climbed to make the front of a sweep wide.
fn climbed(dice: &mut Dice) -> Vec<u32> {
    grow::climbed(dice, 8, 400)
}

fn stored(plan: &Plan, visit: VisitRecording) -> bool {
    let mut dice = Dice::new(104);
    STORED.iter().take(plan.stored).all(|text| {
        let words = second::text::parse(text.as_bytes()).expect("a stored text is of the form");
        one("stored", &words, &mut dice, visit)
    })
}

fn edges_of_the_document(visit: VisitRecording) -> bool {
    let mut dice = Dice::new(101);
    let kinds = [
        ("on the edge", edges::on_the_edge()),
        ("numbers at their edge", edges::constants()),
    ];
    kinds.into_iter().all(|(kind, edges)| {
        edges.iter().all(|edge| {
            let recorded = Recorded {
                words: &edge.words,
                readings: &edge.readings,
                dice: &mut dice,
            };
            visit(kind, recorded)
        })
    })
}

fn texts(visit: Visit) -> bool {
    let mut dice = Dice::new(102);
    edges::texts().into_iter().all(|text| {
        let text = text.into_bytes();
        let mut tries: Vec<Try> = (Room::ALL.into_iter())
            .map(|room| inputs::reading(&mut dice, room, text.clone()))
            .collect();
        inputs::of_text(&mut dice, &text, &mut tries);
        all("texts at their edge", tries, visit)
    })
}

fn card_records(visit: Visit) -> bool {
    let mut dice = Dice::new(105);
    edges::card_records().into_iter().all(|(changes, rest)| {
        let record = [cards::bytes(&changes), rest].concat();
        let mut tries: Vec<Try> = (Room::ALL.into_iter())
            .map(|room| cards::reading(&mut dice, room, record.clone()))
            .collect();
        cards::of_record(&mut dice, &changes, &mut tries);
        all("cards at their edge", tries, visit)
    })
}

fn each_entry(plan: &Plan, visit: Visit) -> bool {
    let mut dice = Dice::new(103);
    (0..plan.entries).all(|_| all("readings", inputs::entries(&mut dice), visit))
}

fn each_move(plan: &Plan, visit: Visit) -> bool {
    let mut dice = Dice::new(106);
    (0..plan.moves).all(|_| all("readings", moves::moves(&mut dice), visit))
}

/// Recordings of 13 to 53 weeks.
fn each_year(plan: &Plan, visit: VisitRecording) -> bool {
    let mut kinds = (30..).zip(years::KINDS);
    kinds.all(|(seed, kind)| {
        let count = kind.share * plan.years;
        recordings_of(count, seed, kind.name, kind.make, visit)
    })
}

/// Recordings of several weeks, and the stored ones, for the breach spans alone.
fn each_weeks(plan: &Plan, visit: Visit) -> bool {
    let visit = &mut |kind, recorded: Recorded| {
        let tries = inputs::spans_of_recording(recorded.dice, recorded.words);
        all(kind, tries, visit)
    };
    let mut kinds = (12..).zip(weeks::KINDS);
    kinds.all(|(seed, kind)| {
        let count = kind.share * plan.weeks;
        recordings_of(count, seed, kind.name, kind.make, visit)
    }) && stored(plan, visit)
}

fn recordings_of(
    count: u64,
    seed: u64,
    kind: &'static str,
    make: impl Fn(&mut Dice) -> Vec<u32>,
    visit: VisitRecording,
) -> bool {
    (0..count).all(|number| {
        let mut dice = Dice::new(1_000_000 * seed + number);
        let words = make(&mut dice);
        let words = with_rests(&mut dice, words);
        one(kind, &words, &mut dice, visit)
    })
}

/// With rests before setting off, and with rests of three hours or more, now and then.
fn with_rests(dice: &mut Dice, words: Vec<u32>) -> Vec<u32> {
    let words = recordings::setting_off(dice, words);
    recordings::three_hours(dice, words)
}

/// Days of three hours, then nine, and such days changed.
fn split_rests(plan: &Plan, visit: VisitRecording) -> bool {
    let make = |dice: &mut Dice| {
        let words = recordings::split_rests(dice);
        match dice.below(4) {
            0 => recordings::changed(dice, &words),
            _ => words,
        }
    };
    recordings_of(plan.split_rests, 10, "split rests", make, visit)
}

fn much_driving(plan: &Plan, visit: VisitRecording) -> bool {
    let make = recordings::much_driving;
    recordings_of(plan.much_driving, 11, "much driving", make, visit)
}

fn few_days_changed(plan: &Plan, visit: VisitRecording) -> bool {
    let make = |dice: &mut Dice| {
        let words = recordings::few_days(dice);
        recordings::changed(dice, &words)
    };
    recordings_of(plan.few_days, 3, "few days, changed", make, visit)
}

/// Recordings grown rest by rest up to twelve weeks, as they were while they
/// grew, and changed.
fn grown(plan: &Plan, visit: VisitRecording) -> bool {
    (0..plan.grown).all(|number| {
        let mut dice = Dice::new(5_000_000 + number);
        let words = grow::grown(&mut dice);
        one("grown", &words, &mut dice, visit)
            && (0..plan.stages).all(|_| {
                let cut = recordings::cut(&mut dice, &words);
                let cut = with_rests(&mut dice, cut);
                let changed = recordings::changed(&mut dice, &words);
                let changed = with_rests(&mut dice, changed);
                one("while growing", &cut, &mut dice, visit)
                    && one("grown, changed", &changed, &mut dice, visit)
            })
    })
}
