//! The comparison against programs that are wrong on purpose: each must be
//! noticed, and shrunk to a small input.

use second::card::{changes, Change};
use second::fast::Judge;
use second::reading::{bytes, entries, Entry, ENTRY_BYTES};
use second::recording::{total_minutes, word};
use second::runs::runs;
use second::spans::{breach_spans, Weeks};
use second::stored::STORED_ENTRY_BYTES;
use second::verdict::{verdict, Verdict};
use second::Limits;

use compare::article_order;
use compare::cases::{self, Plan};
use compare::difference::{compared, smallest, Difference};
use compare::first_part;
use compare::operation::{
    answer, outcome_answer, placed, second, Answer, Input, Operation, Program, NO_LAWFUL_READING,
    NO_OLD_FORM, SPAN_LIST_TOO_SHORT,
};
use compare::reading_order;
use compare::spans;
use compare::split_rest;

use crate::desk::desk;

/// A wrong program, the operations that must notice it, each by itself, and how many
/// words and bytes are passed at most where the smallest difference shows.
struct Wrong {
    name: &'static str,
    program: Program,
    noticed_by: &'static [Operation],
    most_words: usize,
    most_bytes: usize,
}

const WRONG: [Wrong; 39] = [
    Wrong {
        name: "rule 10 a minute late",
        program: |operation, input| rule_10_a_minute_late(Operation::Verdict, operation, input),
        noticed_by: &[Operation::Verdict],
        most_words: 13,
        most_bytes: 0,
    },
    Wrong {
        name: "rule 10 a minute late",
        program: |operation, input| {
            rule_10_a_minute_late(Operation::FirstReading, operation, input)
        },
        noticed_by: &[Operation::FirstReading],
        most_words: 4,
        most_bytes: 0,
    },
    Wrong {
        name: "rule 8 a week late",
        program: |operation, input| rule_8_a_week_late(Operation::Verdict, operation, input),
        noticed_by: &[Operation::Verdict],
        most_words: 60,
        most_bytes: 0,
    },
    Wrong {
        name: "rule 8 a week late",
        program: |operation, input| rule_8_a_week_late(Operation::FirstReading, operation, input),
        noticed_by: &[Operation::FirstReading],
        most_words: 8,
        most_bytes: 0,
    },
    Wrong {
        name: "a byte beyond the text",
        program: a_byte_beyond_the_text,
        noticed_by: &[Operation::WriteText],
        most_words: 0,
        most_bytes: 0,
    },
    Wrong {
        name: "a refusal told as an answer",
        program: refusal_5_as_an_answer,
        noticed_by: &[Operation::FixedTest],
        most_words: 0,
        most_bytes: 0,
    },
    Wrong {
        name: "a carrier that is not later",
        program: a_carrier_that_is_not_later,
        noticed_by: &[Operation::ReadingTest],
        most_words: 2,
        most_bytes: 4,
    },
    Wrong {
        name: "no change at a midnight that changes nothing",
        program: no_change_at_midnight,
        noticed_by: &[Operation::WriteCard],
        most_words: 1,
        most_bytes: 0,
    },
    Wrong {
        name: "refusal 12 before 11",
        program: refusal_12_before_11,
        noticed_by: &[Operation::ReadCard],
        most_words: 0,
        most_bytes: 2,
    },
    Wrong {
        name: "equal changes joined",
        program: equal_changes_joined,
        noticed_by: &[Operation::ReadCard],
        most_words: 0,
        most_bytes: 4,
    },
    Wrong {
        name: "a first part before any driving",
        program: |operation, input| first_part::ANY_REST.program(operation, input),
        noticed_by: first_part::ANY_REST.judging,
        most_words: 4,
        most_bytes: 0,
    },
    Wrong {
        name: "a first part by driving before the sum was cleared",
        program: |operation, input| first_part::SINCE_MINUTE_0.program(operation, input),
        noticed_by: first_part::SINCE_MINUTE_0.judging,
        most_words: 7,
        most_bytes: 0,
    },
    Wrong {
        name: "nine hours that count after three",
        program: |operation, input| split_rest::NEVER.program(operation, input),
        noticed_by: split_rest::NEVER.judging,
        most_words: 10,
        most_bytes: 16,
    },
    Wrong {
        name: "nine hours that three of a day before free",
        program: |operation, input| split_rest::ANY_DAY.program(operation, input),
        noticed_by: split_rest::ANY_DAY.judging,
        most_words: 12,
        most_bytes: 20,
    },
    Wrong {
        name: "the place of the smallest rule",
        program: |operation, input| article_order::BY_NUMBER.program(operation, input),
        noticed_by: article_order::BY_NUMBER.judging,
        most_words: 1,
        most_bytes: 0,
    },
    Wrong {
        name: "refusal 13 before 4",
        program: refusal_13_before_4,
        noticed_by: &[Operation::FirstReading],
        most_words: 2,
        most_bytes: 0,
    },
    Wrong {
        name: "a byte written on refusal 13",
        program: a_byte_written_on_refusal_13,
        noticed_by: &[Operation::FirstReading],
        most_words: 1,
        most_bytes: 0,
    },
    Wrong {
        name: "a span with a shorter one inside",
        program: |operation, input| spans::WITH_ONE_INSIDE.program(operation, input),
        noticed_by: spans::WITH_ONE_INSIDE.judging,
        most_words: 3,
        most_bytes: 0,
    },
    Wrong {
        name: "spans judged from minute 0 on",
        program: |operation, input| spans::NOT_BY_ITSELF.program(operation, input),
        noticed_by: spans::NOT_BY_ITSELF.judging,
        most_words: 3,
        most_bytes: 0,
    },
    Wrong {
        name: "a part of a week left out",
        program: |operation, input| spans::NO_PART_WEEK.program(operation, input),
        noticed_by: spans::NO_PART_WEEK.judging,
        most_words: 1,
        most_bytes: 0,
    },
    Wrong {
        name: "the whole left out",
        program: the_whole_left_out,
        noticed_by: &[Operation::BreachSpans],
        most_words: 60,
        most_bytes: 0,
    },
    Wrong {
        name: "a record written on refusal 14",
        program: a_record_written_on_refusal_14,
        noticed_by: &[Operation::BreachSpans],
        most_words: 3,
        most_bytes: 0,
    },
    Wrong {
        name: "a total of twelve weeks",
        program: a_total_of_twelve_weeks,
        noticed_by: &[
            Operation::Weigh,
            Operation::List,
            Operation::FixedTest,
            Operation::ArticleTest,
            Operation::ReadingTest,
            Operation::WriteText,
            Operation::WriteCard,
            Operation::Verdict,
            Operation::FirstReading,
            Operation::BreachSpans,
        ],
        most_words: 1,
        most_bytes: 4,
    },
    Wrong {
        name: "a text of twelve weeks",
        program: a_text_of_twelve_weeks,
        noticed_by: &[Operation::ReadText],
        most_words: 0,
        most_bytes: 286,
    },
    Wrong {
        name: "a card of twelve weeks",
        program: a_card_of_twelve_weeks,
        noticed_by: &[Operation::ReadCard],
        most_words: 0,
        most_bytes: 170,
    },
    Wrong {
        name: "a total one over",
        program: a_total_one_over,
        noticed_by: &[Operation::Weigh, Operation::Verdict],
        most_words: 1,
        most_bytes: 0,
    },
    Wrong {
        name: "twelve spans at most",
        program: twelve_spans_at_most,
        noticed_by: &[Operation::BreachSpans],
        most_words: 26,
        most_bytes: 0,
    },
    Wrong {
        name: "223 long rests at most",
        program: |operation, input| fewer_long_rests(223, operation, input),
        noticed_by: &[Operation::List],
        most_words: 2 * 224,
        most_bytes: 0,
    },
    Wrong {
        name: "a week's low four bits",
        program: a_weeks_low_four_bits,
        noticed_by: &[Operation::ReadingTest],
        most_words: 2,
        most_bytes: 4,
    },
    Wrong {
        name: "a carrier's low byte alone",
        program: |operation, input| other_carriers(|carrier| carrier % 256, operation, input),
        noticed_by: &[Operation::ReadingTest],
        most_words: 2,
        most_bytes: 4,
    },
    Wrong {
        name: "a carrier's high byte first",
        program: |operation, input| other_carriers(u16::swap_bytes, operation, input),
        noticed_by: &[Operation::ReadingTest],
        most_words: 4,
        most_bytes: 8,
    },
    Wrong {
        name: "readings in the order of their bytes",
        program: |operation, input| reading_order::BY_BYTES.program(operation, input),
        noticed_by: reading_order::BY_BYTES.judging,
        most_words: 600,
        most_bytes: 0,
    },
    Wrong {
        name: "entries of three bytes",
        program: entries_of_three_bytes,
        noticed_by: &[Operation::Entry, Operation::EntryRefusal],
        most_words: 0,
        most_bytes: 4,
    },
    Wrong {
        name: "moved with the carrier's high byte first",
        program: moved_with_the_high_byte_first,
        noticed_by: &[Operation::WidenReading, Operation::NarrowReading],
        most_words: 0,
        most_bytes: 4,
    },
    Wrong {
        name: "moved back without the carrier's high byte",
        program: |operation, input| moved_back(|_, _| true, operation, input),
        noticed_by: &[Operation::NarrowReading],
        most_words: 0,
        most_bytes: 4,
    },
    Wrong {
        name: "a week of 12 moved back",
        program: |operation, input| {
            moved_back(
                |week, carrier| week <= 12 && carrier <= 255,
                operation,
                input,
            )
        },
        noticed_by: &[Operation::NarrowReading],
        most_words: 0,
        most_bytes: 4,
    },
    Wrong {
        name: "refusal 15 before 4",
        program: refusal_15_before_4,
        noticed_by: &[Operation::NarrowReading],
        most_words: 0,
        most_bytes: 4,
    },
    Wrong {
        name: "refusal 4 before 6",
        program: refusal_4_before_6,
        noticed_by: &[Operation::WidenReading, Operation::NarrowReading],
        most_words: 0,
        most_bytes: 5,
    },
    Wrong {
        name: "an entry written on refusal 15",
        program: an_entry_written_on_refusal_15,
        noticed_by: &[Operation::NarrowReading],
        most_words: 0,
        most_bytes: 8,
    },
];

/// A recording that stays longer than this is not made smaller: it takes too long.
const LONG: usize = 100;

/// The edges alone, and few recordings of each other kind.
const PLAN: Plan = Plan {
    random: 50,
    few_days: 50,
    breaks: 20,
    split_rests: 20,
    much_driving: 20,
    ordinary: 5,
    grown: 0,
    stages: 0,
    hard: 0,
    scarce: 0,
    climbed: 0,
    stored: 0,
    weeks: 2,
    years: 1,
    entries: 50,
    moves: 400,
};

pub fn run() {
    for wrong in &WRONG {
        for &operation in wrong.noticed_by {
            let found = noticed(wrong, operation);
            let (words, bytes) = (found.input.words.len(), found.input.bytes.len());
            assert!(
                words <= wrong.most_words && bytes <= wrong.most_bytes,
                "{}: {words} words and {bytes} bytes are left\n{found}",
                wrong.name
            );
            let by = match words {
                0..=LONG => found.shown(),
                _ => format!("{words} words"),
            };
            let name = wrong.name;
            println!("noticed in {}: {name}, by {by}", operation.name());
        }
    }
    println!();
}

/// The first difference of an operation from a wrong program, on the smallest input.
fn noticed(wrong: &Wrong, operation: Operation) -> Box<Difference> {
    let mut first = None;
    cases::each(&PLAN, &mut |_, attempt| {
        if attempt.operation == operation {
            first = compared(desk, wrong.program, operation, &attempt.input).err();
        }
        first.is_none()
    });
    let first = first.expect(wrong.name);
    match wrong.most_words {
        0..=LONG => smallest(desk, wrong.program, first),
        _ => first,
    }
}

/// 8,641 minutes between weekly rests.
fn rule_10_a_minute_late(wrong: Operation, operation: Operation, input: &Input) -> Answer {
    let limits = Limits {
        between_weekly_rests: 8_641,
        ..Limits::document()
    };
    judged_by(&limits, wrong, operation, input)
}

/// A debt due a week late.
fn rule_8_a_week_late(wrong: Operation, operation: Operation, input: &Input) -> Answer {
    let limits = Limits {
        due_weeks: 5,
        ..Limits::document()
    };
    judged_by(&limits, wrong, operation, input)
}

/// The second program with other numbers in the verdict or in the first reading alone.
fn judged_by(limits: &Limits, wrong: Operation, operation: Operation, input: &Input) -> Answer {
    let answer = second(operation, input);
    if operation != wrong || !answer.is_judged() {
        return answer;
    }
    let outcome = Judge::new(&input.words, limits).outcome();
    outcome_answer(operation, &outcome, input)
}

/// The byte after the text set to 0.
fn a_byte_beyond_the_text(operation: Operation, input: &Input) -> Answer {
    let mut answer = second(operation, input);
    if let (Operation::WriteText, Ok(values)) = (operation, &answer.told) {
        if let Some(byte) = answer.lent_bytes.get_mut(values[0] as usize) {
            *byte = 0;
        }
    }
    answer
}

fn refusal_5_as_an_answer(operation: Operation, input: &Input) -> Answer {
    let mut answer = second(operation, input);
    if operation == Operation::FixedTest && answer.told == Err(5) {
        answer.told = Ok(vec![5]);
    }
    answer
}

/// Rule 6 without "the carrier is 0 or a later long rest": as if it were 0.
fn a_carrier_that_is_not_later(operation: Operation, input: &Input) -> Answer {
    let mut input = input.clone();
    if operation == Operation::ReadingTest {
        let mut entries = entries(&input.bytes);
        for (number, entry) in (1..).zip(&mut entries) {
            if entry.carrier <= number {
                entry.carrier = 0;
            }
        }
        input.bytes = with_the_rest(bytes(&entries), &input.bytes);
    }
    second(operation, &input)
}

/// These bytes, and after them those that were left over.
fn with_the_rest(bytes: Vec<u8>, before: &[u8]) -> Vec<u8> {
    [&bytes, &before[bytes.len()..]].concat()
}

/// A written day without its change at minute 0, where the activity is that of the
/// minute before.
fn no_change_at_midnight(operation: Operation, input: &Input) -> Answer {
    let mut answer = second(operation, input);
    if let (Operation::WriteCard, Ok(values)) = (operation, &mut answer.told) {
        let length = values[0] as usize;
        let mut kept = Vec::new();
        let mut before = None;
        for change in changes(&answer.lent_bytes[..length]) {
            if change.minute() > 0 || before != Some(change.activity()) {
                kept.extend(change.0.to_be_bytes());
            }
            before = Some(change.activity());
        }
        values[0] = kept.len() as u64;
        kept.extend(&input.lent_bytes[kept.len()..]);
        answer.lent_bytes = kept;
    }
    answer
}

/// Unknown activity refused also where the record is not of the form.
fn refusal_12_before_11(operation: Operation, input: &Input) -> Answer {
    let mut answer = second(operation, input);
    let unknown = changes(&input.bytes).any(Change::is_unknown);
    if operation == Operation::ReadCard && unknown {
        answer.told = Err(12);
    }
    answer
}

/// One word for changes of one activity in a row.
fn equal_changes_joined(operation: Operation, input: &Input) -> Answer {
    let mut answer = second(operation, input);
    if let (Operation::ReadCard, Ok(values)) = (operation, &mut answer.told) {
        let read = &answer.lent_words[..values[0] as usize];
        let joined: Vec<u32> = (runs(read).iter())
            .map(|run| word(run.span.length() as u32, run.activity))
            .collect();
        values[0] = joined.len() as u64;
        answer.lent_words = [&joined, &input.lent_words[joined.len()..]].concat();
    }
    answer
}

/// A breach told so also where the buffer is too short.
fn refusal_13_before_4(operation: Operation, input: &Input) -> Answer {
    let mut answer = second(operation, input);
    let too_short = operation == Operation::FirstReading && answer.told == Err(4);
    if too_short && verdict(&input.words) != Ok(Verdict::Pass) {
        answer.told = Err(NO_LAWFUL_READING);
    }
    answer
}

/// The first byte of the buffer set to 0, though there is no lawful reading.
fn a_byte_written_on_refusal_13(operation: Operation, input: &Input) -> Answer {
    let mut answer = second(operation, input);
    if answer.told == Err(NO_LAWFUL_READING) {
        if let Some(byte) = answer.lent_bytes.first_mut() {
            *byte = 0;
        }
    }
    answer
}

/// No span where several weeks are a breach, and no fewer of them.
fn the_whole_left_out(operation: Operation, input: &Input) -> Answer {
    let mut answer = second(operation, input);
    let weeks = spans::weeks(&input.words);
    let together = || {
        let mut list = [Weeks { first: 0, last: 0 }];
        let told = breach_spans(&input.words, &mut list);
        told == Ok(1) && list[0].count() as usize == weeks
    };
    if operation == Operation::BreachSpans && weeks > 1 && together() {
        answer.told = Ok(vec![0]);
        answer.lent_words = input.lent_words.clone();
        answer.lent_ends = input.lent_ends.clone();
    }
    answer
}

/// The first record set to 0, though there are more spans than records.
fn a_record_written_on_refusal_14(operation: Operation, input: &Input) -> Answer {
    let mut answer = second(operation, input);
    if answer.told == Err(SPAN_LIST_TOO_SHORT) {
        if let Some(first) = answer.lent_words.first_mut() {
            *first = 0;
        }
    }
    answer
}

/// What an operation says that turns the input away.
fn refused(number: u8, input: &Input) -> Answer {
    answer(Err(number), input.clone())
}

/// Refusal 2 from 120,961 minutes on.
fn a_total_of_twelve_weeks(operation: Operation, input: &Input) -> Answer {
    let right = second(operation, input);
    let weighed = operation.refusals().starts_with(&[1, 2]) && !matches!(right.told, Err(1 | 2));
    if weighed && total_minutes(&input.words) > 120_960 {
        return refused(2, input);
    }
    right
}

/// Refusal 8 to a text of more.
fn a_text_of_twelve_weeks(operation: Operation, input: &Input) -> Answer {
    let lines = input.bytes.split(|&byte| byte == b'\n');
    let weeks = lines.filter(|line| *line == b"(week").count();
    match operation {
        Operation::ReadText if weeks > 12 => refused(8, input),
        _ => second(operation, input),
    }
}

/// Refusal 2 to a record of 85 days.
fn a_card_of_twelve_weeks(operation: Operation, input: &Input) -> Answer {
    let right = second(operation, input);
    let is_day = |change: &Change| change.minute() == 0;
    let known = operation == Operation::ReadCard && !matches!(right.told, Err(11 | 12));
    if known && changes(&input.bytes).filter(is_day).count() > 84 {
        return refused(2, input);
    }
    right
}

/// A minute over the total taken for its last one.
fn a_total_one_over(operation: Operation, input: &Input) -> Answer {
    let right = second(operation, input);
    if right.told == Err(2) && total_minutes(&input.words) == 534_241 {
        let mut shorter = input.clone();
        let last = shorter.words.len() - 1;
        shorter.words[last] -= 4;
        return second(operation, &shorter);
    }
    right
}

/// The first twelve spans alone.
fn twelve_spans_at_most(operation: Operation, input: &Input) -> Answer {
    first_records(12, Operation::BreachSpans, operation, input)
}

/// The first long rests alone.
fn fewer_long_rests(most: usize, operation: Operation, input: &Input) -> Answer {
    first_records(most, Operation::List, operation, input)
}

/// The answer of an operation with no more than so many records.
fn first_records(most: usize, wrong: Operation, operation: Operation, input: &Input) -> Answer {
    let mut answer = second(operation, input);
    if operation != wrong {
        return answer;
    }
    if let Ok(values) = &mut answer.told {
        if values[0] > most as u64 {
            values[0] = most as u64;
            answer.lent_words[most..].copy_from_slice(&input.lent_words[most..]);
            answer.lent_ends[most..].copy_from_slice(&input.lent_ends[most..]);
        }
    }
    answer
}

/// The second program on a reading with other entries in the reading test.
fn other_entries(change: impl Fn(&mut Entry), operation: Operation, input: &Input) -> Answer {
    let mut input = input.clone();
    if operation == Operation::ReadingTest {
        let mut entries = entries(&input.bytes);
        entries.iter_mut().for_each(change);
        input.bytes = with_the_rest(bytes(&entries), &input.bytes);
    }
    second(operation, &input)
}

/// A week of 16 or more taken for one before it.
fn a_weeks_low_four_bits(operation: Operation, input: &Input) -> Answer {
    other_entries(|entry| entry.week %= 16, operation, input)
}

fn other_carriers(change: fn(u16) -> u16, operation: Operation, input: &Input) -> Answer {
    let change = |entry: &mut Entry| entry.carrier = change(entry.carrier);
    other_entries(change, operation, input)
}

/// The entry and its companion as of the old form.
fn entries_of_three_bytes(operation: Operation, input: &Input) -> Answer {
    let (Operation::Entry | Operation::EntryRefusal) = operation else {
        return second(operation, input);
    };
    let (bytes, number) = (&input.bytes, input.number);
    let told = match number {
        _ if bytes.len() % STORED_ENTRY_BYTES > 0 => Err(6),
        _ if number == 0 || number > bytes.len() / STORED_ENTRY_BYTES => Err(7),
        _ if operation == Operation::EntryRefusal => Ok(vec![]),
        _ => {
            let place = STORED_ENTRY_BYTES * (number - 1);
            Ok(placed(bytes, &bytes[place..place + STORED_ENTRY_BYTES]))
        }
    };
    answer(told, input.clone())
}

/// Moved over with 0 for the low byte; moved back by the high byte, with refusal 15 where
/// the low one is not 0.
fn moved_with_the_high_byte_first(operation: Operation, input: &Input) -> Answer {
    let mut input = input.clone();
    let exchange = |reading: &mut [u8]| {
        let entries = reading.chunks_exact_mut(ENTRY_BYTES);
        entries.for_each(|entry| entry.swap(2, 3));
    };
    if operation == Operation::NarrowReading {
        exchange(&mut input.bytes);
    }
    let mut answer = second(operation, &input);
    if let (Operation::WidenReading, Ok(values)) = (operation, &answer.told) {
        exchange(&mut answer.lent_bytes[..values[0] as usize]);
    }
    answer
}

/// The move back of every reading whose weeks and carriers are like this, a carrier by its
/// low byte.
fn moved_back(fits: fn(u8, u16) -> bool, operation: Operation, input: &Input) -> Answer {
    let mut answer = second(operation, input);
    let entries = entries(&input.bytes);
    let all_fit = entries.iter().all(|entry| fits(entry.week, entry.carrier));
    if answer.told == Err(NO_OLD_FORM) && all_fit {
        let old = (entries.iter())
            .flat_map(|entry| [entry.kind, entry.week, entry.carrier as u8])
            .collect::<Vec<u8>>();
        answer.lent_bytes[..old.len()].copy_from_slice(&old);
        answer.told = Ok(vec![old.len() as u64]);
    }
    answer
}

/// What has no old form refused so also where the target is short.
fn refusal_15_before_4(operation: Operation, input: &Input) -> Answer {
    let mut answer = second(operation, input);
    let short = operation == Operation::NarrowReading && answer.told == Err(4);
    let mut entries = entries(&input.bytes).into_iter();
    if short && entries.any(|entry| entry.week > 11 || entry.carrier > 255) {
        answer.told = Err(NO_OLD_FORM);
    }
    answer
}

/// A short target told so also where the count does not divide into entries.
fn refusal_4_before_6(operation: Operation, input: &Input) -> Answer {
    let mut answer = second(operation, input);
    let need = match operation {
        Operation::WidenReading => input.bytes.len() / STORED_ENTRY_BYTES * ENTRY_BYTES,
        Operation::NarrowReading => input.bytes.len() / ENTRY_BYTES * STORED_ENTRY_BYTES,
        _ => return answer,
    };
    if answer.told == Err(6) && input.lent_bytes.len() < need {
        answer.told = Err(4);
    }
    answer
}

/// The entries before the one that has no old form, though the reading is refused.
fn an_entry_written_on_refusal_15(operation: Operation, input: &Input) -> Answer {
    let mut answer = second(operation, input);
    if answer.told == Err(NO_OLD_FORM) {
        let entries = entries(&input.bytes).into_iter();
        let written = entries.take_while(|entry| entry.week <= 11 && entry.carrier <= 255);
        let old = written.flat_map(|entry| [entry.kind, entry.week, entry.carrier as u8]);
        for (byte, old) in answer.lent_bytes.iter_mut().zip(old) {
            *byte = old;
        }
    }
    answer
}
