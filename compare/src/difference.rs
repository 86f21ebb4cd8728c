//! A difference between two programs, and how it is shown.

use std::fmt;

use second::card::{changes, Change};
use second::reading::{entries, Entry, ENTRY_BYTES};
use second::stored::STORED_ENTRY_BYTES;

use crate::operation::{Answer, Input, Operation, Program};
use crate::shrink;

/// The document's letters of the activities, by their codes.
const LETTERS: [char; 4] = ['r', 'a', 'w', 'd'];

/// An input on which two programs differ, with both answers.
pub struct Difference {
    pub operation: Operation,
    pub input: Input,
    pub ours: Answer,
    pub theirs: Answer,
}

/// The answer that both programs give, or their difference.
pub fn compared(
    ours: Program,
    theirs: Program,
    operation: Operation,
    input: &Input,
) -> Result<Answer, Box<Difference>> {
    let (ours, theirs) = (ours(operation, input), theirs(operation, input));
    if ours == theirs {
        return Ok(ours);
    }
    Err(Box::new(Difference {
        operation,
        input: input.clone(),
        ours,
        theirs,
    }))
}

/// A difference of these programs on the smallest input found.
pub fn smallest(ours: Program, theirs: Program, found: Box<Difference>) -> Box<Difference> {
    let operation = found.operation;
    let differs = |input: &Input| ours(operation, input) != theirs(operation, input);
    let input = shrink::smallest(operation, found.input.clone(), &differs);
    compared(ours, theirs, operation, &input)
        .err()
        .unwrap_or(found)
}

impl Difference {
    /// The recording, as in the document: "d, r, a, w are driving, rest,
    /// availability, work."
    pub fn recording(&self) -> String {
        if self.input.words.is_empty() {
            return "no words".into();
        }
        let letter = |word: u32| LETTERS[(word % 4) as usize];
        let words = self.input.words.iter();
        let runs = words.map(|&word| format!("{}{}", letter(word), word / 4));
        runs.collect::<Vec<_>>().join(" ")
    }
}

impl Difference {
    /// The changes of a card record: the bits s, c, p where they are set, the
    /// activity's letter and the minute; and a byte that is left over.
    fn card(&self) -> String {
        if self.input.bytes.is_empty() {
            return "no days".into();
        }
        let shown = |change: Change| {
            let bit = |bit, letter| if change.0 & bit == 0 { '-' } else { letter };
            let bits = [
                bit(Change::SLOT, 's'),
                bit(Change::CREW, 'c'),
                bit(Change::CARD_OUT, 'p'),
            ];
            let activity = LETTERS[change.activity().code() as usize];
            format!("{}{activity}{}", String::from_iter(bits), change.minute())
        };
        let mut parts: Vec<String> = changes(&self.input.bytes).map(shown).collect();
        if self.input.bytes.len() % 2 == 1 {
            parts.push("a byte".into());
        }
        parts.join(" ")
    }

    /// Kind, week and carrier of each entry that is passed, and the bytes left over.
    fn entries(&self) -> String {
        let bytes = &self.input.bytes;
        let (entry_bytes, entries): (usize, Vec<Entry>) = match self.operation {
            Operation::WidenReading => (STORED_ENTRY_BYTES, stored_entries(bytes)),
            _ => (ENTRY_BYTES, entries(bytes)),
        };
        let shown = |entry: &Entry| format!("{}-{}-{}", entry.kind, entry.week, entry.carrier);
        let mut parts: Vec<String> = entries.iter().map(shown).collect();
        match bytes.len() % entry_bytes {
            0 if parts.is_empty() => parts.push("no entries".into()),
            0 => {}
            1 => parts.push("a byte".into()),
            over => parts.push(format!("{over} bytes")),
        }
        parts.join(" ")
    }

    /// What the operation is shown on: the recording, the card record or the entries.
    pub fn shown(&self) -> String {
        match self.operation {
            Operation::ReadCard => self.card(),
            Operation::Entry
            | Operation::EntryRefusal
            | Operation::WidenReading
            | Operation::NarrowReading => self.entries(),
            _ => self.recording(),
        }
    }
}

impl fmt::Display for Difference {
    fn fmt(&self, to: &mut fmt::Formatter) -> fmt::Result {
        let input = &self.input;
        writeln!(to, "a difference in {}", self.operation.name())?;
        writeln!(to, "  recording {}", self.recording())?;
        writeln!(to, "  words     {:?}", input.words)?;
        if self.operation == Operation::ReadText {
            writeln!(
                to,
                "  text      {:?}",
                String::from_utf8_lossy(&input.bytes)
            )?;
        }
        if self.operation == Operation::ReadCard {
            writeln!(to, "  changes   {}", self.card())?;
        }
        if let Operation::WidenReading | Operation::NarrowReading = self.operation {
            writeln!(to, "  entries   {}", self.entries())?;
        }
        writeln!(to, "  bytes     {:?}", input.bytes)?;
        writeln!(to, "  number    {}", input.number)?;
        writeln!(
            to,
            "  lent      {}",
            lent(&input.lent_bytes, &input.lent_words, &input.lent_ends)
        )?;
        writeln!(to, "  desk      {}", answered(&self.ours))?;
        write!(to, "  second    {}", answered(&self.theirs))
    }
}

/// The entries of a reading of the old form.
fn stored_entries(bytes: &[u8]) -> Vec<Entry> {
    let entry = |three: &[u8]| Entry {
        kind: three[0],
        week: three[1],
        carrier: three[2].into(),
    };
    bytes.chunks_exact(STORED_ENTRY_BYTES).map(entry).collect()
}

fn answered(answer: &Answer) -> String {
    let told = match &answer.told {
        Ok(values) => format!("answers {values:?}"),
        Err(number) => format!("refuses {number}"),
    };
    let lent = lent(&answer.lent_bytes, &answer.lent_words, &answer.lent_ends);
    format!("{told}, lent {lent}")
}

fn lent(bytes: &[u8], words: &[u32], ends: &[u32]) -> String {
    format!("bytes {bytes:?}, words {words:?}, ends {ends:?}")
}
