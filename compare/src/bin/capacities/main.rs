//! The verdict and the first reading with fronts of 0, 1, 3 and 32 entries against
//! the second program: the same answers and the same buffers, whatever fits into a
//! front. The first difference ends it, with the smallest input that still shows it.
//!
//! What takes too long is left out with fronts of 0 or 1 entries, where nearly
//! all is asked of the search behind them; the table says how many were. With the
//! word `answer` the program answers questions from its input: it starts itself
//! so, to be able to end a search.

mod process;
mod table;

use std::cell::RefCell;
use std::process::exit;
use std::time::{Duration, Instant};

use compare::cases::{self, Plan};
use compare::difference::Difference;
use compare::inputs::{verdicts_of_recording, Try};
use compare::operation::{second, Answer, Input, Operation, BREACH, NO_LAWFUL_READING};
use compare::shrink;
use process::{Asked, Call, Library};
use table::Table;

/// How many entries the fronts have.
const CAPACITIES: [u32; 4] = [0, 1, 3, 32];

/// What an answer may take before it is left out, where it may be.
const LEFT_OUT_AFTER: Duration = Duration::from_secs(1);

/// What it may take elsewhere, on a slow machine too.
const FAULT_AFTER: Duration = Duration::from_secs(60);

/// Whether an answer may be too slow: with next to no front, on recordings that
/// are made to be hard.
fn may_be_left_out(entries: u32, kind: &str) -> bool {
    entries <= 1 && ["hard", "scarce", "climbed", "stored"].contains(&kind)
}

const PLAN: Plan = Plan {
    random: 500,
    few_days: 500,
    breaks: 200,
    split_rests: 300,
    much_driving: 100,
    ordinary: 300,
    grown: 60,
    stages: 5,
    hard: 20,
    scarce: 100,
    climbed: 24,
    stored: 3,
    weeks: 0,
    years: 1,
    entries: 0,
    moves: 0,
};

/// The edges alone, and few recordings of some days.
const SELF_TEST: Plan = Plan {
    random: 0,
    few_days: 20,
    breaks: 0,
    split_rests: 0,
    much_driving: 0,
    ordinary: 0,
    grown: 0,
    stages: 0,
    hard: 0,
    scarce: 0,
    climbed: 0,
    stored: 0,
    weeks: 0,
    years: 0,
    entries: 0,
    moves: 0,
};

fn main() {
    if std::env::args().nth(1).as_deref() == Some("answer") {
        process::answer_all();
        return;
    }
    let began = Instant::now();
    let mut library = Library::start();
    self_test(&mut library);
    let mut table = Table::default();
    if let Err(fault) = compare_all(&PLAN, &mut library, None, &mut table) {
        println!("{fault}");
        exit(1);
    }
    table.print();
    println!(
        "{} answers, no difference, {:.0} seconds",
        table.answers(),
        began.elapsed().as_secs_f64()
    );
}

type Change = fn(&mut Answer);

/// Answers to a call changed on purpose.
struct Falsified {
    call: Call,
    change: Change,
}

/// Compares all answers of a plan, up to the first fault, which is told. Of the two
/// operations on a recording the one that takes less is asked first: on a breach the
/// first reading, on a pass the verdict. Where it is left out, so is the other.
fn compare_all(
    plan: &Plan,
    library: &mut Library,
    falsified: Option<&Falsified>,
    table: &mut Table,
) -> Result<(), String> {
    let mut fault = None;
    cases::each_recording(plan, &mut |kind, recorded| {
        let row = table.row(kind);
        row.recordings += 1;
        let mut tries: Vec<(Try, Answer)> = verdicts_of_recording(recorded.dice, recorded.words)
            .into_iter()
            .map(|attempt| {
                let theirs = second(attempt.operation, &attempt.input);
                (attempt, theirs)
            })
            .collect();
        tries.sort_by_key(|(_, theirs)| theirs.told.is_ok());
        row.answers += tries.len();
        for (column, entries) in row.columns.iter_mut().zip(CAPACITIES) {
            let slow = may_be_left_out(entries, kind);
            let mut too_slow = false;
            for (attempt, theirs) in &tries {
                if too_slow && theirs.is_judged() {
                    column.left_out += 1;
                    continue;
                }
                let before = Instant::now();
                let question = Question {
                    call: Call {
                        operation: attempt.operation,
                        entries,
                    },
                    limit: if slow { LEFT_OUT_AFTER } else { FAULT_AFTER },
                    falsified,
                };
                match question.ask(library, &attempt.input) {
                    Asked::Answered(ours) if ours == *theirs => {
                        column.most = column.most.max(before.elapsed());
                    }
                    Asked::TooSlow if slow => {
                        column.left_out += 1;
                        too_slow = true;
                    }
                    wrong => {
                        let shown = question.shown(library, attempt.input.clone(), wrong);
                        fault = Some(format!("{kind}, {}:\n{shown}", attempt.variant));
                        return false;
                    }
                }
            }
        }
        true
    });
    fault.map_or(Ok(()), Err)
}

/// How the library is asked.
struct Question<'a> {
    call: Call,
    limit: Duration,
    falsified: Option<&'a Falsified>,
}

impl Question<'_> {
    fn ask(&self, library: &mut Library, input: &Input) -> Asked {
        let mut asked = library.ask(self.call, input, self.limit);
        let falsified = self.falsified.filter(|wrong| wrong.call == self.call);
        if let (Asked::Answered(answer), Some(wrong)) = (&mut asked, falsified) {
            (wrong.change)(answer);
        }
        asked
    }

    /// What went wrong; a difference on the smallest input found.
    fn shown(&self, library: &mut Library, input: Input, wrong: Asked) -> String {
        let entries = self.call.entries;
        match wrong {
            Asked::Answered(ours) => {
                let difference = self.smallest(library, input, ours);
                format!("fronts of {entries} entries, {difference}")
            }
            Asked::TooSlow => {
                let seconds = self.limit.as_secs();
                let words = &input.words;
                format!("fronts of {entries} entries, no answer in {seconds} seconds: {words:?}")
            }
            Asked::Ended => {
                let words = &input.words;
                format!("fronts of {entries} entries, the library ended on {words:?}")
            }
        }
    }

    fn smallest(&self, library: &mut Library, input: Input, ours: Answer) -> Difference {
        let operation = self.call.operation;
        let library = RefCell::new(library);
        let differing = |input: &Input| {
            let theirs = second(operation, input);
            match self.ask(&mut library.borrow_mut(), input) {
                Asked::Answered(ours) if ours != theirs => Some((ours, theirs)),
                _ => None,
            }
        };
        let differs = |input: &Input| differing(input).is_some();
        let smaller = shrink::smallest(operation, input.clone(), &differs);
        let (input, (ours, theirs)) = match differing(&smaller) {
            Some(answers) => (smaller, answers),
            None => {
                let theirs = second(operation, &input);
                (input, (ours, theirs))
            }
        };
        Difference {
            operation,
            input,
            ours,
            theirs,
        }
    }
}

/// Each answer that is wrong on purpose must be noticed, at every capacity.
fn self_test(library: &mut Library) {
    let (verdict, first_reading) = (Operation::Verdict, Operation::FirstReading);
    let wrongs: [(&str, Operation, Change); 4] = [
        ("a breach a minute late", verdict, |answer| {
            if let Ok([BREACH, minute, _]) = answer.told.as_deref_mut() {
                *minute += 1;
            }
        }),
        (
            "a reading with another last byte",
            first_reading,
            |answer| {
                if let Ok([written]) = answer.told.as_deref() {
                    if let Some(last) = answer.lent_bytes[..*written as usize].last_mut() {
                        *last ^= 1;
                    }
                }
            },
        ),
        ("a byte beyond the reading", first_reading, |answer| {
            if let Ok([written]) = answer.told.as_deref() {
                if let Some(byte) = answer.lent_bytes.get_mut(*written as usize) {
                    *byte = 0;
                }
            }
        }),
        ("a byte written on refusal 13", first_reading, |answer| {
            if answer.told == Err(NO_LAWFUL_READING) {
                if let Some(byte) = answer.lent_bytes.first_mut() {
                    *byte = 0;
                }
            }
        }),
    ];
    for (name, operation, change) in wrongs {
        for entries in CAPACITIES {
            let call = Call { operation, entries };
            let falsified = Falsified { call, change };
            let told = compare_all(&SELF_TEST, library, Some(&falsified), &mut Table::default());
            let fault = told.expect_err("a wrong answer is noticed");
            let operation = operation.name();
            let difference = format!("fronts of {entries} entries, a difference in {operation}");
            assert!(fault.contains(&difference), "{name}: {fault}");
        }
        println!("noticed: {name}");
    }
    println!();
}
