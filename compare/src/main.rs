//! The desk against the second program: every operation of documents 01 and 02,
//! on inputs from fixed seeds, lent buffers whole. The first difference ends it,
//! with the smallest input that still shows it.

mod desk;
mod self_test;

use std::process::exit;
use std::time::Instant;

use compare::cases::{self, Plan};
use compare::difference::{compared, smallest};
use compare::operation::second;
use compare::tally::Tally;
use desk::desk;

/// The inputs that each operation is compared on at least.
const AT_LEAST: usize = 20_000;

fn main() {
    let began = Instant::now();
    self_test::run();
    let plan = Plan {
        random: 9_000,
        few_days: 5_000,
        breaks: 4_000,
        split_rests: 4_000,
        much_driving: 3_000,
        ordinary: 1_500,
        grown: 240,
        stages: 5,
        hard: 30,
        scarce: 200,
        climbed: 60,
        stored: 3,
        weeks: 120,
        years: 15,
        entries: 20_000,
        moves: 24_000,
    };
    let mut tally = Tally::default();
    let ended = cases::each(&plan, &mut |kind, attempt| {
        let operation = attempt.operation;
        match compared(desk, second, operation, &attempt.input) {
            Ok(answer) => {
                tally.count(kind, &attempt, &answer);
                true
            }
            Err(difference) => {
                println!("{kind}, {}:", attempt.variant);
                println!("{}", smallest(desk, second, difference));
                false
            }
        }
    });
    if !ended {
        exit(1);
    }
    tally.print();
    let missing = tally.missing(AT_LEAST);
    if !missing.is_empty() {
        println!("not met: {}", missing.join("; "));
        exit(1);
    }
    println!(
        "{} inputs, no difference, {:.0} seconds",
        tally.inputs(),
        began.elapsed().as_secs_f64()
    );
}
