//! The library in a process of its own, which is ended with a search that takes
//! too long.

use std::io::{self, Read, Write};
use std::process::{Child, ChildStdin, ChildStdout, Command, Stdio};
use std::sync::mpsc::{channel, Receiver, RecvTimeoutError, Sender};
use std::time::Duration;

use compare::operation::{answer, Answer, Input, Operation, BREACH, PASS};

/// The verdict or the first reading, with fronts of so many entries.
#[derive(Clone, Copy, PartialEq, Eq)]
pub struct Call {
    pub operation: Operation,
    pub entries: u32,
}

/// What came of a question.
pub enum Asked {
    Answered(Answer),
    TooSlow,
    /// The process ended.
    Ended,
}

/// A code of `desk_verdict` or `desk_first_reading`, as in interface/desk.h, and the
/// buffer after it.
type Coded = (u64, Vec<u8>);

/// The process that calls the library.
pub struct Library {
    process: Child,
    questions: ChildStdin,
    answers: Receiver<Coded>,
}

impl Library {
    pub fn start() -> Library {
        let program = std::env::current_exe().expect("the program has a path");
        let mut process = Command::new(program)
            .arg("answer")
            .stdin(Stdio::piped())
            .stdout(Stdio::piped())
            .spawn()
            .expect("the program can be started");
        let questions = process.stdin.take().expect("its input is piped");
        let output = process.stdout.take().expect("its output is piped");
        let (sender, answers) = channel();
        std::thread::spawn(move || pass_on(output, sender));
        Library {
            process,
            questions,
            answers,
        }
    }

    /// The answer to a call, if it comes in time.
    pub fn ask(&mut self, call: Call, input: &Input, limit: Duration) -> Asked {
        let sent = write_question(&mut self.questions, call, input);
        let came = match sent {
            Ok(()) => self.answers.recv_timeout(limit),
            Err(_) => Err(RecvTimeoutError::Disconnected),
        };
        let (code, lent_bytes) = match came {
            Ok(coded) => coded,
            Err(error) => {
                *self = Library::start();
                return match error {
                    RecvTimeoutError::Timeout => Asked::TooSlow,
                    RecvTimeoutError::Disconnected => Asked::Ended,
                };
            }
        };
        let after = Input {
            lent_bytes,
            ..input.clone()
        };
        Asked::Answered(answer(told(call.operation, code), after))
    }
}

/// The process ends with it, also in the middle of a search.
impl Drop for Library {
    fn drop(&mut self) {
        let _ = self.process.kill();
        let _ = self.process.wait();
    }
}

/// An answer is at least one unit, a breach two; less is a refusal.
const UNIT: u64 = 1 << 56;

/// The values of a code, or the number of its refusal; a code that the desk does
/// not have stands for itself.
fn told(operation: Operation, code: u64) -> Result<Vec<u64>, u8> {
    let value = code % UNIT;
    match (code / UNIT, operation) {
        (0, _) => u8::try_from(value).map_or(Ok(vec![code]), Err),
        (1, Operation::FirstReading) => Ok(vec![value]),
        (1, _) if value == 0 => Ok(vec![PASS]),
        (2, Operation::Verdict) => Ok(vec![BREACH, value / 8, value % 8]),
        _ => Ok(vec![code]),
    }
}

/// The operation, entries, the counts of words and of bytes, and those: four bytes
/// a number.
fn write_question(to: &mut impl Write, call: Call, input: &Input) -> io::Result<()> {
    let (words, reading) = (&input.words, &input.lent_bytes);
    let operation = call.operation as u32;
    let head = [
        operation,
        call.entries,
        words.len() as u32,
        reading.len() as u32,
    ];
    let numbers = head.iter().chain(words);
    let mut bytes: Vec<u8> = numbers.flat_map(|number| number.to_le_bytes()).collect();
    bytes.extend(reading);
    to.write_all(&bytes)?;
    to.flush()
}

fn read_question(from: &mut impl Read) -> io::Result<(Call, Vec<u32>, Vec<u8>)> {
    let call = Call {
        operation: Operation::ALL[read_number(from)? as usize],
        entries: read_number(from)?,
    };
    let (words, bytes) = (read_number(from)?, read_number(from)?);
    let words: io::Result<_> = (0..words).map(|_| read_number(from)).collect();
    Ok((call, words?, read_bytes(from, bytes)?))
}

fn read_number(from: &mut impl Read) -> io::Result<u32> {
    let mut bytes = [0; 4];
    from.read_exact(&mut bytes)?;
    Ok(u32::from_le_bytes(bytes))
}

fn read_bytes(from: &mut impl Read, count: u32) -> io::Result<Vec<u8>> {
    let mut bytes = vec![0; count as usize];
    from.read_exact(&mut bytes)?;
    Ok(bytes)
}

/// The code, the count of bytes, and those.
fn write_answer(to: &mut impl Write, code: u64, reading: &[u8]) -> io::Result<()> {
    let count = (reading.len() as u32).to_le_bytes();
    to.write_all(&[&code.to_le_bytes()[..], &count, reading].concat())?;
    to.flush()
}

fn read_answer(from: &mut impl Read) -> io::Result<Coded> {
    let low = read_number(from)?;
    let high = read_number(from)?;
    let count = read_number(from)?;
    Ok((
        u64::from(high) << 32 | u64::from(low),
        read_bytes(from, count)?,
    ))
}

/// Passes answers on as they come, until the process ends.
fn pass_on(mut output: ChildStdout, to: Sender<Coded>) {
    while let Ok(coded) = read_answer(&mut output) {
        if to.send(coded).is_err() {
            return;
        }
    }
}

/// Answers questions by the library until there are no more.
pub fn answer_all() {
    let (mut questions, mut answers) = (io::stdin().lock(), io::stdout().lock());
    while let Ok((call, words, mut reading)) = read_question(&mut questions) {
        let code = match call.operation {
            Operation::FirstReading => first_reading(&words, &mut reading, call.entries),
            _ => verdict(&words, call.entries),
        };
        if write_answer(&mut answers, code, &reading).is_err() {
            return;
        }
    }
}

extern "C" {
    fn capacity_verdict(words: *const u32, words_count: usize, entries: u32) -> u64;

    fn capacity_first_reading(
        words: *const u32,
        words_count: usize,
        reading: *mut u8,
        reading_count: usize,
        entries: u32,
    ) -> u64;
}

/// The verdict with fronts of so many entries. A slice is what the library asks
/// for, as in interface/desk.h; it takes any content and any number of entries.
fn verdict(words: &[u32], entries: u32) -> u64 {
    unsafe { capacity_verdict(words.as_ptr(), words.len(), entries) }
}

/// The first reading, in the same way.
fn first_reading(words: &[u32], reading: &mut [u8], entries: u32) -> u64 {
    unsafe {
        capacity_first_reading(
            words.as_ptr(),
            words.len(),
            reading.as_mut_ptr(),
            reading.len(),
            entries,
        )
    }
}
