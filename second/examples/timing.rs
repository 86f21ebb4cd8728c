//! The time a verdict takes, alone and with its reading, on each kind of recording.

use std::time::Instant;

use second::dice::Dice;
use second::fast::Judge;
use second::grow;
use second::verdict::Verdict;
use second::Limits;

fn main() {
    report(
        "ordinary",
        (0..400).map(|seed| grow::ordinary(&mut Dice::new(seed))),
    );
    report(
        "split",
        (0..200).map(|seed| grow::split(&mut Dice::new(seed))),
    );
    report(
        "grown",
        (0..200).map(|seed| grow::grown(&mut Dice::new(seed))),
    );
    report(
        "hard",
        (0..20).map(|seed| grow::hard(&mut Dice::new(seed), 150)),
    );
    report(
        "scarce",
        (0..400).map(|seed| grow::scarce(&mut Dice::new(seed))),
    );
    report(
        "climbed",
        (0..40).map(|seed| grow::climbed(&mut Dice::new(seed), 8, 400)),
    );
    report(
        "ordinary years",
        (0..100).map(|seed| grow::ordinary_weeks(&mut Dice::new(seed), 53)),
    );
    report(
        "grown years",
        (0..20).map(|seed| grow::grown_through(&mut Dice::new(seed), 53)),
    );
    report(
        "hard years",
        (0..6).map(|seed| grow::hard_of_weeks(&mut Dice::new(seed), 20, 53)),
    );
    report(
        "scarce years",
        (0..100).map(|seed| grow::scarce_of_weeks(&mut Dice::new(seed), 53)),
    );
    report(
        "climbed years",
        (0..10).map(|seed| grow::climbed_of_weeks(&mut Dice::new(seed), 8, 100, 53)),
    );
}

/// Prints the median and the most of time and steps.
fn report(name: &str, recordings: impl Iterator<Item = Vec<u32>>) {
    let limits = Limits::document();
    let mut alone = Vec::new();
    let mut times = Vec::new();
    let mut steps = Vec::new();
    let mut passes = 0;
    let mut rests = 0;
    for words in recordings {
        let before = Instant::now();
        let verdict = Judge::new(&words, &limits).verdict();
        alone.push(before.elapsed().as_secs_f64() * 1e6);
        let before = Instant::now();
        let mut judge = Judge::new(&words, &limits);
        judge.outcome();
        times.push(before.elapsed().as_secs_f64() * 1e6);
        steps.push(judge.steps);
        passes += usize::from(verdict == Verdict::Pass);
        rests = rests.max(judge.long_rests());
    }
    alone.sort_by(f64::total_cmp);
    times.sort_by(f64::total_cmp);
    steps.sort();
    let count = times.len();
    println!(
        "{name}: {count} recordings ({passes} pass, at most {rests} long rests): \
         microseconds median {:.0}, most {:.0}; with the reading median {:.0}, most {:.0}; \
         steps median {}, most {}",
        alone[count / 2],
        alone[count - 1],
        times[count / 2],
        times[count - 1],
        steps[count / 2],
        steps[count - 1],
    );
}
