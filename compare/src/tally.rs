//! What the comparison has met.

use std::collections::BTreeSet;

use second::reading::entries;

use crate::inputs::{Room, Try};
use crate::mistake::REQUESTS;
use crate::moves;
use crate::operation::{Answer, Operation, BREACH};
use crate::spans;

/// The inputs that the first readings, the breach spans and the moves are compared on at
/// least with each buffer, and the breach spans by number.
const EACH_ROW: usize = 500;

/// The same of breach spans by length.
const EACH_LENGTH: usize = 200;

/// The same of lawful readings that are tested or written, by what the old form has not.
const EACH_BEYOND: usize = 50;

const BEYOND: [&str; 2] = ["with a week over 11", "with a carrier over 255"];

/// A number for each operation.
type Counts = [usize; Operation::ALL.len()];

/// Inputs by operation, in rows by kind, in the order in which they came.
#[derive(Default)]
struct Table(Vec<(&'static str, Counts)>);

impl Table {
    fn count(&mut self, row: &'static str, operation: Operation) {
        let at = self.0.iter().position(|known| known.0 == row);
        let at = at.unwrap_or_else(|| {
            self.0.push((row, Counts::default()));
            self.0.len() - 1
        });
        self.0[at].1[operation as usize] += 1;
    }

    fn counted(&self, row: &str, operation: Operation) -> usize {
        let at = self.0.iter().find(|known| known.0 == row);
        at.map_or(0, |(_, counts)| counts[operation as usize])
    }

    /// These rows, where they have fewer inputs of an operation than asked for.
    fn too_few(&self, operation: Operation, rows: &[&str], at_least: usize) -> Vec<String> {
        let mut too_few = Vec::new();
        for row in rows {
            let count = self.counted(row, operation);
            if count < at_least {
                too_few.push(format!("{}: {row} {count} times", operation.name()));
            }
        }
        too_few
    }

    fn sums(&self) -> Counts {
        let mut sums = Counts::default();
        for (_, counts) in &self.0 {
            for (sum, count) in sums.iter_mut().zip(counts) {
                *sum += count;
            }
        }
        sums
    }

    fn print(&self, title: &str) {
        print!("{title:26}");
        for operation in Operation::ALL {
            print!("{:>10}", operation.short_name());
        }
        println!();
        for (row, counts) in &self.0 {
            print!("{row:26}");
            for &count in counts {
                match count {
                    0 => print!("{:>10}", "-"),
                    _ => print!("{count:10}"),
                }
            }
            println!();
        }
    }
}

#[derive(Default)]
pub struct Tally {
    kinds: Table,
    variants: Table,
    /// By whether a mistake about a request would show.
    mistakes: [Table; REQUESTS.len()],
    /// Answers by the number and the lengths of their spans.
    spans: Table,
    /// Lawful readings by what the old form does not have.
    readings: Table,
    /// The refusals, rules, places and articles that each operation answered with.
    told: BTreeSet<(usize, String)>,
}

impl Tally {
    pub fn count(&mut self, kind: &'static str, attempt: &Try, answer: &Answer) {
        let operation = attempt.operation;
        self.kinds.count(kind, operation);
        self.variants.count(attempt.variant, operation);
        for (table, request) in self.mistakes.iter_mut().zip(REQUESTS) {
            for mistake in request.mistakes {
                if let Some(row) = mistake.row(operation, &attempt.input, answer) {
                    table.count(row, operation);
                }
            }
        }
        if operation == Operation::BreachSpans {
            for row in spans::rows(answer) {
                self.spans.count(row, operation);
            }
        }
        for row in beyond_the_old_form(attempt, answer) {
            self.readings.count(row, operation);
        }
        self.told
            .insert((operation as usize, class(operation, answer)));
    }

    pub fn inputs(&self) -> usize {
        self.kinds.sums().iter().sum()
    }

    pub fn print(&self) {
        self.kinds.print("recordings and others");
        println!();
        self.variants.print("beside them");
        println!();
        for (table, request) in self.mistakes.iter().zip(REQUESTS) {
            table.print(request.title);
            println!();
        }
        self.spans.print("spans that are a breach");
        println!();
        self.readings.print("lawful readings");
        println!();
        print!("{:26}", "inputs");
        for sum in self.kinds.sums() {
            print!("{sum:10}");
        }
        println!();
    }

    /// The operations with fewer inputs than asked for, also in a row of a mistake, with
    /// a buffer for a reading or for spans, by spans, or by what has no old form, and the
    /// answers that were never met.
    pub fn missing(&self, at_least: usize) -> Vec<String> {
        let mut missing = Vec::new();
        for (operation, sum) in Operation::ALL.into_iter().zip(self.kinds.sums()) {
            if sum < at_least {
                missing.push(format!("{}: {sum} inputs", operation.name()));
            }
            for class in classes(operation) {
                if !self.told.contains(&(operation as usize, class.clone())) {
                    missing.push(format!("{}: {class}", operation.name()));
                }
            }
        }
        for (table, request) in self.mistakes.iter().zip(REQUESTS) {
            for mistake in request.mistakes {
                for &operation in mistake.judging {
                    let rows = mistake.rows();
                    missing.extend(table.too_few(operation, &rows, request.at_least));
                }
            }
        }
        for room in Room::ALL {
            let rows = [room.name(), room.name_in_a_breach()];
            for (operation, rows) in [
                (Operation::FirstReading, &rows[..]),
                (Operation::BreachSpans, &rows[..1]),
                (Operation::WidenReading, &rows[..1]),
                (Operation::NarrowReading, &rows[..1]),
            ] {
                missing.extend(self.variants.too_few(operation, rows, EACH_ROW));
            }
        }
        let no_old_form = moves::NO_OLD_FORM;
        let too_few = (self.variants).too_few(Operation::NarrowReading, &no_old_form, EACH_ROW);
        missing.extend(too_few);
        for operation in [Operation::ReadingTest, Operation::FirstReading] {
            let too_few = (self.readings).too_few(operation, &BEYOND, EACH_BEYOND);
            missing.extend(too_few);
        }
        for (rows, at_least) in [(spans::NUMBERS, EACH_ROW), (spans::LENGTHS, EACH_LENGTH)] {
            let too_few = self.spans.too_few(Operation::BreachSpans, &rows, at_least);
            missing.extend(too_few);
        }
        missing
    }
}

/// The rows of a lawful reading that is tested or written.
fn beyond_the_old_form(attempt: &Try, answer: &Answer) -> Vec<&'static str> {
    let reading = match (attempt.operation, answer.told.as_deref()) {
        (Operation::ReadingTest, Ok([0])) => &attempt.input.bytes[..],
        (Operation::FirstReading, Ok([written])) => &answer.lent_bytes[..*written as usize],
        _ => &[],
    };
    let entries = entries(reading);
    let late = entries.iter().any(|entry| entry.week > 11);
    let far = entries.iter().any(|entry| entry.carrier > 255);
    let rows = BEYOND.into_iter().zip([late, far]);
    rows.filter(|row| row.1).map(|row| row.0).collect()
}

/// What kind of answer it is: a refusal, a rule, a place, an article or a pass, or so
/// many spans.
fn class(operation: Operation, answer: &Answer) -> String {
    match (&answer.told, operation) {
        (Err(number), _) => format!("refusal {number}"),
        (Ok(values), Operation::FixedTest | Operation::ReadingTest) => {
            format!("rule {}", values[0])
        }
        (Ok(values), Operation::ArticleTest) => format!("place {}", values[0]),
        (Ok(values), Operation::Verdict) => match values[..] {
            [BREACH, _, article] => format!("article {article}"),
            _ => "pass".into(),
        },
        (Ok(values), Operation::BreachSpans) => spans::number(values[0]).into(),
        (Ok(_), _) => "answer".into(),
    }
}

/// Every kind of answer that an operation has.
fn classes(operation: Operation) -> Vec<String> {
    let refusals = operation.refusals().iter();
    let refusals = refusals.map(|number| format!("refusal {number}"));
    let answers: Vec<String> = match operation {
        Operation::FixedTest => (0..=5).map(|rule| format!("rule {rule}")).collect(),
        Operation::ArticleTest => (0..=5).map(|place| format!("place {place}")).collect(),
        Operation::ReadingTest => (0..=11).map(|rule| format!("rule {rule}")).collect(),
        Operation::Verdict => (1..=6)
            .map(|article| format!("article {article}"))
            .chain(["pass".into()])
            .collect(),
        Operation::BreachSpans => spans::NUMBERS.map(String::from).into(),
        _ => vec!["answer".into()],
    };
    refusals.chain(answers).collect()
}
