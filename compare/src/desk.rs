//! What the desk answers.

use compare::operation::{answer, one, placed, Answer, Input, Operation, BREACH, PASS};

pub fn desk(operation: Operation, input: &Input) -> Answer {
    let mut after = input.clone();
    let (words, bytes, number) = (&input.words, &input.bytes, input.number);
    let told = match operation {
        Operation::Weigh => hours_desk::weigh(words).map(|measure| {
            [measure.total, measure.judged_end, measure.long_rests]
                .map(u64::from)
                .to_vec()
        }),
        Operation::List => desk_list(words, &mut after.lent_words, &mut after.lent_ends).map(one),
        Operation::FixedTest => hours_desk::fixed_test(words, number as u32).map(one),
        Operation::ArticleTest => hours_desk::article_test(words, number as u32).map(one),
        Operation::ReadingTest => hours_desk::reading_test(words, bytes).map(one),
        Operation::Entry => hours_desk::entry(bytes, number).map(|part| placed(bytes, part)),
        Operation::EntryRefusal => match hours_desk::entry_refusal(bytes, number) {
            None => Ok(vec![]),
            Some(refusal) => Err(refusal),
        },
        Operation::ReadText => hours_desk::read_text(bytes, &mut after.lent_words).map(one),
        Operation::WriteText => hours_desk::write_text(words, &mut after.lent_bytes).map(one),
        Operation::ReadCard => hours_desk::read_card(bytes, &mut after.lent_words).map(one),
        Operation::WriteCard => hours_desk::write_card(words, &mut after.lent_bytes).map(one),
        Operation::Verdict => hours_desk::verdict(words).map(|verdict| match verdict {
            hours_desk::Verdict::Pass => vec![PASS],
            hours_desk::Verdict::Breach { minute, article } => {
                vec![BREACH, minute.into(), article.into()]
            }
        }),
        Operation::FirstReading => hours_desk::first_reading(words, &mut after.lent_bytes).map(one),
        Operation::BreachSpans => {
            desk_spans(words, &mut after.lent_words, &mut after.lent_ends).map(one)
        }
        Operation::WidenReading => hours_desk::widen_reading(bytes, &mut after.lent_bytes).map(one),
        Operation::NarrowReading => {
            hours_desk::narrow_reading(bytes, &mut after.lent_bytes).map(one)
        }
    };
    answer(told.map_err(hours_desk::Refusal::number), after)
}

/// The records' starts and ends go to a list, and come back whatever the answer.
fn desk_list(
    words: &[u32],
    starts: &mut [u32],
    ends: &mut [u32],
) -> Result<usize, hours_desk::Refusal> {
    let mut list: Vec<hours_desk::Span> = (starts.iter().zip(ends.iter()))
        .map(|(&start, &end)| hours_desk::Span { start, end })
        .collect();
    let told = hours_desk::list_long_rests(words, &mut list);
    for (index, span) in list.iter().enumerate() {
        starts[index] = span.start;
        ends[index] = span.end;
    }
    told
}

/// In the same way the first and the last weeks.
fn desk_spans(
    words: &[u32],
    firsts: &mut [u32],
    lasts: &mut [u32],
) -> Result<usize, hours_desk::Refusal> {
    let mut list: Vec<hours_desk::Weeks> = (firsts.iter().zip(lasts.iter()))
        .map(|(&first, &last)| hours_desk::Weeks { first, last })
        .collect();
    let told = hours_desk::breach_spans(words, &mut list);
    for (index, weeks) in list.iter().enumerate() {
        firsts[index] = weeks.first;
        lasts[index] = weeks.last;
    }
    told
}
