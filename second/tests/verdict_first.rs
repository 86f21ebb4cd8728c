//! Request 5 of document 02, "Verdict first, reading on request": "one operation
//! gives pass or breach with minute and article, the other writes the first lawful
//! reading. ... Together they say what the single one did wherever it didn't refuse
//! 4. The first turns away 1 and 2 only; the second turns away 1, 2 and 4, then 13
//! when the verdict is a breach."

mod shorthand;

use second::dice::Dice;
use second::fast::Judge;
use second::grow;
use second::plain;
use second::recording::{minutes, Recording};
use second::small;
use second::verdict::{first_reading, verdict, Outcome, Verdict};
use second::{Limits, Refusal};
use shorthand::{driving_days, times, words};

/// What the single verdict of document 01 answers.
#[derive(Clone, Copy, Debug, PartialEq, Eq)]
enum Single {
    Pass { written: usize },
    Breach { minute: i64, article: u8 },
}

/// What it goes by where the words weigh: k, and the first lawful reading or the
/// breach.
struct Judged {
    k: usize,
    outcome: Outcome,
    /// Whether by plain enumeration.
    plainly: bool,
}

/// The number of the refusal of the words: "Words are taken in order and the first
/// word at fault decides: 1, its minutes are 0; else 2, the total passes 120,960."
/// Request 7: "The total rises to 534,240 minutes".
fn refusal(words: &[u32]) -> Option<u8> {
    let mut total = 0;
    for word in words {
        let minutes = u64::from(word / 4);
        total += minutes;
        if minutes == 0 {
            return Some(1);
        }
        if total > 534_240 {
            return Some(2);
        }
    }
    None
}

fn judged(words: &[u32]) -> Result<Judged, u8> {
    if let Some(number) = refusal(words) {
        return Err(number);
    }
    let limits = Limits::document();
    let minutes = minutes(words);
    let recording = Recording::new(&minutes, &limits);
    let plainly = minutes.len() <= 2_500 && plain::readings(&recording) <= 500.0;
    Ok(Judged {
        k: recording.long_rests.len(),
        outcome: if plainly {
            plain::outcome(&recording)
        } else {
            Judge::new(words, &limits).outcome()
        },
        plainly,
    })
}

/// The single verdict of document 01, a refusal by its number: "1, 2; then 4, the
/// reading buffer is under 3 × k bytes. ... A pass writes the first lawful reading
/// into the first 3 × k bytes; the rest stays. A breach writes nothing and gives the
/// least m without a lawful reading, and its article." Request 7: "Counts of 3 × k
/// become 4 × k".
fn single(judged: &Result<Judged, u8>, reading: &mut [u8]) -> Result<Single, u8> {
    let judged = judged.as_ref().map_err(|&number| number)?;
    if reading.len() < 4 * judged.k {
        return Err(4);
    }
    match &judged.outcome {
        Outcome::Pass(first) => {
            reading[..4 * judged.k].copy_from_slice(first);
            Ok(Single::Pass {
                written: 4 * judged.k,
            })
        }
        &Outcome::Breach { minute, article } => Ok(Single::Breach { minute, article }),
    }
}

/// What a comparison has met.
#[derive(Debug, Default)]
struct Met {
    recordings: usize,
    /// Those whose outcome is by plain enumeration.
    plainly: usize,
    /// Of the verdict: passes, breaches by article, refusals by number.
    passes: usize,
    breaches: [usize; 7],
    verdicts_refused: [usize; 14],
    /// Of the first reading: those written, of them those with an entry other than
    /// daily and those with bytes left, and refusals by number.
    written: usize,
    weekly: usize,
    longer: usize,
    readings_refused: [usize; 14],
    /// Buffers too short where the verdict is a breach.
    short_breaches: usize,
}

impl Met {
    fn verdict(&mut self, verdict: Result<Verdict, u8>) {
        self.recordings += 1;
        match verdict {
            Ok(Verdict::Pass) => self.passes += 1,
            Ok(Verdict::Breach { article, .. }) => self.breaches[usize::from(article)] += 1,
            Err(number) => self.verdicts_refused[usize::from(number)] += 1,
        }
    }

    fn reading(&mut self, first: Result<usize, u8>, buffer: &[u8]) {
        match first {
            Ok(written) => {
                self.written += 1;
                self.weekly += usize::from(buffer[..written].contains(&1));
                self.longer += usize::from(written < buffer.len());
            }
            Err(number) => self.readings_refused[usize::from(number)] += 1,
        }
    }
}

/// The two operations, the second for buffers of several lengths, against the single
/// one. Each buffer is filled with any bytes and compared whole.
fn compare(words: &[u32], dice: &mut Dice, met: &mut Met) {
    let judged = judged(words);
    let verdict = verdict(words).map_err(Refusal::number);
    met.verdict(verdict);
    met.plainly += usize::from(judged.as_ref().is_ok_and(|judged| judged.plainly));
    for length in lengths(&judged, dice) {
        let lent: Vec<u8> = (0..length).map(|_| dice.below(256) as u8).collect();
        let (mut by_single, mut by_first) = (lent.clone(), lent.clone());
        let said = single(&judged, &mut by_single);
        let first = first_reading(words, &mut by_first).map_err(Refusal::number);
        assert_eq!(by_first, by_single, "{words:?} into {length}");
        let expected = match said {
            Ok(Single::Pass { written }) => (Ok(Verdict::Pass), Ok(written)),
            Ok(Single::Breach { minute, article }) => {
                (Ok(Verdict::Breach { minute, article }), Err(13))
            }
            // The verdict is held by the longer buffers.
            Err(4) => (verdict, Err(4)),
            Err(number) => (Err(number), Err(number)),
        };
        assert_eq!((verdict, first), expected, "{words:?} into {length}");
        if first.is_err() {
            assert_eq!(by_first, lent, "{words:?} into {length}");
        }
        met.reading(first, &by_first);
        let breach = matches!(verdict, Ok(Verdict::Breach { .. }));
        met.short_breaches += usize::from(breach && first == Err(4));
    }
}

/// Empty, short by one, exact, a little longer and longer.
fn lengths(judged: &Result<Judged, u8>, dice: &mut Dice) -> Vec<usize> {
    let exact = judged.as_ref().map_or(0, |judged| 4 * judged.k);
    let little = dice.between(1, 4) as usize;
    let much = dice.between(5, 4_000) as usize;
    let mut lengths = vec![0, exact.saturating_sub(1), exact];
    lengths.dedup();
    lengths.extend([exact + little, exact + much]);
    lengths
}

/// The first minutes of a recording.
fn cut(words: &[u32], minutes: u32) -> Vec<u32> {
    let mut left = minutes;
    let mut kept = Vec::new();
    for word in words {
        let taken = left.min(word / 4);
        if taken < word / 4 {
            kept.extend((taken > 0).then_some(4 * taken + word % 4));
            break;
        }
        kept.push(*word);
        left -= taken;
    }
    kept
}

/// The words with one of no minutes among them, one that fills the total or passes it,
/// or both.
fn at_fault(dice: &mut Dice, words: &[u32]) -> Vec<u32> {
    let total: u64 = words.iter().map(|word| u64::from(word / 4)).sum();
    let full = 534_240_u64.saturating_sub(total) as u32;
    let long = match dice.below(4) {
        0 => u32::MAX / 4,
        more => full + more - 1,
    };
    let faults: &[u32] = match dice.below(3) {
        0 => &[0],
        1 => &[long],
        _ => &[0, long],
    };
    let mut words = words.to_vec();
    for minutes in faults {
        let place = dice.between(0, words.len() as u32) as usize;
        words.insert(place, 4 * minutes + dice.below(4));
    }
    words
}

/// A small recording with its rests shortened as far as it stays lawful, or too far.
fn tight(dice: &mut Dice, limits: &Limits, most_rests: u32) -> Vec<u32> {
    let (lawful, too_far) = small::tight(dice, limits, most_rests);
    too_far.filter(|_| dice.one_in(2)).unwrap_or(lawful)
}

/// A kind of recording, and how many of it.
type Kind = (u64, fn(&mut Dice) -> Vec<u32>);

const KINDS: [Kind; 14] = [
    (1_500, grow::random_words),
    (400, grow::ordinary),
    (100, grow::split),
    (150, grow::grown),
    (100, grow::scarce),
    (10, |dice| grow::hard(dice, 20)),
    (4, |dice| grow::climbed(dice, 8, 100)),
    (500, |dice| small::recording(dice, &Limits::document(), 40)),
    (100, |dice| tight(dice, &Limits::document(), 20)),
    (1_200, driving_days),
    (300, |dice| grow::random_words_of_weeks(dice, 53)),
    (40, |dice| grow::ordinary_of_weeks(dice, 53)),
    (6, |dice| grow::grown_through(dice, 53)),
    (6, |dice| grow::scarce_of_weeks(dice, 53)),
];

/// Recordings of every kind, their beginnings, which are short enough for plain
/// enumeration, and the same with words at fault.
#[test]
fn together_they_say_what_the_single_one_did() {
    let mut dice = Dice::new(51);
    let mut met = Met::default();
    for (count, grow) in KINDS {
        for seed in 0..count {
            let words = grow(&mut Dice::new(seed));
            let beginning = cut(&words, dice.between(0, 2_500));
            compare(&words, &mut dice, &mut met);
            compare(&beginning, &mut dice, &mut met);
            let words = if dice.one_in(2) { words } else { beginning };
            let faulty = at_fault(&mut dice, &words);
            compare(&faulty, &mut dice, &mut met);
        }
    }
    println!("{met:?}");
    assert!(met.recordings > 10_000 && met.plainly > 2_000);
    assert!(met.passes > 2_000);
    assert!(met.breaches[1..].iter().all(|&count| count > 50));
    assert!(met.written > 5_000 && met.weekly > 1_000 && met.longer > 2_000);
    assert!(met.short_breaches > 1_000);
    assert_eq!(often(met.verdicts_refused), [1, 2]);
    assert_eq!(often(met.readings_refused), [1, 2, 4, 13]);
}

/// The numbers met, each of them often.
fn often(counts: [usize; 14]) -> Vec<usize> {
    let met: Vec<usize> = (0..14).filter(|&number| counts[number] > 0).collect();
    assert!(met.iter().all(|&number| counts[number] > 1_000));
    met
}

/// The judge's verdict and first reading under small numbers, against plain
/// enumeration.
#[test]
fn small_recordings() {
    let mut dice = Dice::new(52);
    let (mut passes, mut breaches) = (0, [0; 7]);
    while passes < 4_000 {
        let limits = small::limits(&mut dice);
        let words = match dice.below(3) {
            0 => small::recording(&mut dice, &limits, 9),
            1 => tight(&mut dice, &limits, 9),
            _ => small_words(&mut dice),
        };
        let minutes = minutes(&words);
        let recording = Recording::new(&minutes, &limits);
        if plain::readings(&recording) > 500.0 {
            continue;
        }
        let mut judge = Judge::new(&words, &limits);
        let answers = (judge.verdict(), judge.first_reading(recording.total()));
        let expected = match plain::outcome(&recording) {
            Outcome::Pass(first) => {
                passes += 1;
                (Verdict::Pass, Some(first))
            }
            Outcome::Breach { minute, article } => {
                breaches[usize::from(article)] += 1;
                (Verdict::Breach { minute, article }, None)
            }
        };
        assert_eq!(answers, expected, "{limits:?} {words:?}");
    }
    println!("{passes} passes, breaches by article {breaches:?}");
    assert!(breaches[1..].iter().all(|&count| count > 20));
}

/// Any runs, many of them of driving.
fn small_words(dice: &mut Dice) -> Vec<u32> {
    let most = dice.between(2, 9);
    let runs = dice.below(30);
    (0..runs)
        .map(|_| 4 * dice.between(1, most) + dice.weighted(&[3, 1, 1, 5]) as u32)
        .collect()
}

const PASS: Result<Verdict, u8> = Ok(Verdict::Pass);

const fn breach(minute: i64, article: u8) -> Result<Verdict, u8> {
    Ok(Verdict::Breach { minute, article })
}

/// Both operations; the reading, or the refusal's number, into a buffer of so many
/// bytes.
fn check(shorthand: &str, lent: usize, said: Result<Verdict, u8>, reading: Result<&[u8], u8>) {
    let words = words(shorthand);
    assert_eq!(
        verdict(&words).map_err(Refusal::number),
        said,
        "{shorthand}"
    );
    let mut expected: Vec<u8> = (0..lent).map(|place| 0x80 | place as u8).collect();
    let mut buffer = expected.clone();
    let first = first_reading(&words, &mut buffer).map_err(Refusal::number);
    let written = reading.map(|bytes| {
        expected[..bytes.len()].copy_from_slice(bytes);
        bytes.len()
    });
    assert_eq!(first, written, "{shorthand} into {lent}");
    assert_eq!(buffer, expected, "{shorthand} into {lent}");
}

#[test]
fn passes() {
    check("", 0, PASS, Ok(&[]));
    check("", 5, PASS, Ok(&[]));
    check("w900", 0, PASS, Ok(&[]));
    // The rest is open, so k is 0.
    check("w10 r534230", 0, PASS, Ok(&[]));
    let two_rests = "w10 r600 w10 r600 w1";
    check(two_rests, 8, PASS, Ok(&[0; 8]));
    check(two_rests, 12, PASS, Ok(&[0; 8]));
    let weekly = times(5, "w780 r660") + "w780 r2700 w1";
    let reading = [&[0; 20][..], &[1, 0, 0, 0]].concat();
    check(&weekly, 24, PASS, Ok(&reading));
    check(&weekly, 3_948, PASS, Ok(&reading));
}

/// A pass needs no buffer; the reading does.
#[test]
fn a_short_buffer() {
    for lent in 0..8 {
        check("w10 r600 w10 r600 w1", lent, PASS, Err(4));
    }
}

/// "then 13 when the verdict is a breach": 4 comes before it.
#[test]
fn breaches() {
    let days = |count| times(count, "d270 r45 d270 r660");
    for (shorthand, minute, article, k) in [
        ("r15 d270 r30 d1", 316, 1, 0),
        ("d271", 271, 1, 0),
        ("d270 r45 d270 r45 d61", 691, 2, 0),
        (&(days(6) + "d121"), 7_591, 3, 6),
        (
            &(days(4) + "d270 r45 d270 r4515 " + &days(5) + "d1"),
            16_306,
            4,
            10,
        ),
        ("w901", 901, 5, 0),
        ("w10 r600 w901", 1_511, 5, 1),
        ("w901 r600 w1", 901, 5, 1),
        ("r60000 w474240", 60_901, 5, 1),
        (&(times(4, "w840 r600") + "w1"), 5_761, 6, 4),
        (&(times(6, "w780 r660") + "w1"), 8_641, 6, 6),
    ] {
        for lent in 0..4 * k {
            check(shorthand, lent, breach(minute, article), Err(4));
        }
        for lent in 4 * k..4 * k + 5 {
            check(shorthand, lent, breach(minute, article), Err(13));
        }
    }
}

/// The first word at fault decides, before the buffer and the breach are looked at.
#[test]
fn words_at_fault() {
    for (shorthand, number) in [
        ("r0", 1),
        ("w5 r0", 1),
        ("r0 w534241", 1),
        ("r60000 w474240 d0", 1),
        ("w10 r600 w901 d0", 1),
        ("w10 r600 w10 r600 d0 w1", 1),
        ("w534241", 2),
        ("w534241 r0", 2),
        ("r60000 w474241 r0", 2),
        ("w10 r600 w901 r532730", 2),
        ("w10 r600 w10 r600 w1073741823", 2),
    ] {
        for lent in [0, 3, 4, 8, 9] {
            check(shorthand, lent, Err(number), Err(number));
        }
    }
    check("w10 r600 w901 r532729", 3, breach(1_511, 5), Err(4));
    check("w10 r600 w901 r532729", 4, breach(1_511, 5), Err(13));
}
