//! Bracket text: its reader and its writer.

use crate::limits::{Limits, MOST_WEEKS};
use crate::recording::{self, word, Activity};
use crate::refusal::Refusal;
use crate::runs::{cut_at_weeks, runs};

/// The names of the activities, by their codes: "A run is `(rest n)`,
/// `(avail n)`, `(work n)` or `(drive n)`."
const NAMES: [&str; 4] = ["rest", "avail", "work", "drive"];

/// Reading text: "8, not of the form below; then 9, fewer words lent than run
/// lines. It writes one word a run line, leaves later words, and gives their
/// count."
pub fn read(text: &[u8], words: &mut [u32]) -> Result<usize, Refusal> {
    let found = parse(text).ok_or(Refusal::TextForm)?;
    if words.len() < found.len() {
        return Err(Refusal::TooFewWords);
    }
    words[..found.len()].copy_from_slice(&found);
    Ok(found.len())
}

/// The words of a text of the right form, one a run line.
pub fn parse(text: &[u8]) -> Option<Vec<u32>> {
    let mut reader = Reader {
        lines: lines(text)?,
        next: 0,
    };
    let words = reader.recording()?;
    (reader.next == reader.lines.len()).then_some(words)
}

/// "line by line; each ends in byte 10"
fn lines(text: &[u8]) -> Option<Vec<&[u8]>> {
    let mut lines: Vec<&[u8]> = text.split(|&byte| byte == b'\n').collect();
    let after_the_last = lines.pop()?;
    after_the_last.is_empty().then_some(lines)
}

/// "The reader goes through the text line by line."
struct Reader<'a> {
    lines: Vec<&'a [u8]>,
    next: usize,
}

impl Reader<'_> {
    /// "`(recording`, then 0 to 12 weeks, then `)`." Request 7: "text to 53 weeks".
    /// "Every week but the last sums to 10,080; the last to at most that."
    fn recording(&mut self) -> Option<Vec<u32>> {
        let limits = Limits::document();
        let mut words = Vec::new();
        let mut sums = Vec::new();
        self.expect(b"(recording")?;
        while !self.at(b")") {
            sums.push(self.week(&mut words)?);
        }
        self.expect(b")")?;
        let (last, others) = match sums.split_last() {
            Some((&last, others)) => (last, others),
            None => (0, &[][..]),
        };
        let sums_hold = last <= limits.week && others.iter().all(|&sum| sum == limits.week);
        (sums.len() <= MOST_WEEKS && sums_hold).then_some(words)
    }

    /// "A week is `(week`, one or more runs, `)`." Gives the sum of its minutes.
    fn week(&mut self, words: &mut Vec<u32>) -> Option<i64> {
        let mut sum = 0;
        self.expect(b"(week")?;
        while !self.at(b")") {
            let (activity, minutes) = run(self.lines.get(self.next)?)?;
            self.next += 1;
            sum += i64::from(minutes);
            words.push(word(minutes, activity));
        }
        self.expect(b")")?;
        (sum > 0).then_some(sum)
    }

    fn at(&self, line: &[u8]) -> bool {
        self.lines.get(self.next) == Some(&line)
    }

    fn expect(&mut self, line: &[u8]) -> Option<()> {
        let found = self.at(line);
        self.next += 1;
        found.then_some(())
    }
}

/// The activity and the minutes of a run line.
fn run(line: &[u8]) -> Option<(Activity, u32)> {
    let inside = line.strip_prefix(b"(")?.strip_suffix(b")")?;
    let space = inside.iter().position(|&byte| byte == b' ')?;
    let (name, number) = (&inside[..space], &inside[space + 1..]);
    let code = NAMES.iter().position(|known| known.as_bytes() == name)?;
    Some((Activity::ALL[code], decimal(number)?))
}

/// "n decimal from 1 to 10080 without leading zeros"
fn decimal(digits: &[u8]) -> Option<u32> {
    let well_formed = digits.iter().all(u8::is_ascii_digit)
        && matches!(digits.first(), Some(b'1'..=b'9'))
        && digits.len() <= 5;
    if !well_formed {
        return None;
    }
    let value = |number: u32, &digit: &u8| 10 * number + u32::from(digit - b'0');
    let number = digits.iter().fold(0, value);
    (number <= 10_080).then_some(number)
}

/// Writing text: "1, 2; then 10, too few bytes. ... Bytes beyond the text stay;
/// the answer is its length."
pub fn write(words: &[u32], bytes: &mut [u8]) -> Result<usize, Refusal> {
    recording::total(words, &Limits::document())?;
    let text = bracket_text(words);
    if bytes.len() < text.len() {
        return Err(Refusal::TooFewBytes);
    }
    bytes[..text.len()].copy_from_slice(text.as_bytes());
    Ok(text.len())
}

/// "Equal neighbours are joined and runs cut at week ends."
fn bracket_text(words: &[u32]) -> String {
    let limits = Limits::document();
    let mut text = String::from("(recording\n");
    let mut reached = 0;
    for run in runs(words) {
        for piece in cut_at_weeks(run.span, &limits) {
            if piece.start % limits.week == 0 {
                text.push_str("(week\n");
            }
            let name = NAMES[run.activity.code() as usize];
            text.push_str(&format!("({name} {})\n", piece.length()));
            reached = piece.end;
            if reached % limits.week == 0 {
                text.push_str(")\n");
            }
        }
    }
    if reached % limits.week != 0 {
        text.push_str(")\n");
    }
    text.push_str(")\n");
    text
}
