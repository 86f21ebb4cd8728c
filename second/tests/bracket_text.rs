//! Bracket text: round trips, damage, and what the desk program prints.

mod shorthand;

use second::dice::Dice;
use second::grow;
use second::print::print;
use second::recording::{minutes, total_minutes};
use second::runs::runs;
use second::text::{read, write};
use second::Refusal;
use shorthand::{times, words};

fn written(words: &[u32]) -> Vec<u8> {
    let mut text = vec![0; 200_000];
    let length = write(words, &mut text).expect("no refusal");
    text.truncate(length);
    text
}

fn read_all(text: &[u8]) -> Result<Vec<u32>, Refusal> {
    let mut words = vec![0; text.len()];
    let count = read(text, &mut words)?;
    words.truncate(count);
    Ok(words)
}

fn refused(text: &str) -> bool {
    read_all(text.as_bytes()) == Err(Refusal::TextForm)
}

/// A recording of one week with these lines.
fn one_week(lines: &str) -> String {
    format!("(recording\n(week\n{lines})\n)\n")
}

#[test]
fn round_trips() {
    let mut dice = Dice::new(21);
    for round in 0..2_000 {
        let words = match round % 2 {
            0 => grow::ordinary(&mut dice),
            _ => grow::random_words(&mut dice),
        };
        let mut text = vec![b'#'; 200_000];
        let length = match write(&words, &mut text) {
            Ok(length) => length,
            Err(refusal) => {
                assert_eq!(Some(refusal), second::recording::weigh(&words).err());
                assert!(text.iter().all(|&byte| byte == b'#'));
                continue;
            }
        };
        assert!(text[length..].iter().all(|&byte| byte == b'#'));
        let again = read_all(&text[..length]).expect("written text has the form");
        assert_eq!(minutes(&words), minutes(&again));
        assert_eq!(written(&again), text[..length]);
    }
}

#[test]
fn joined_and_cut() {
    assert_eq!(written(&[]), b"(recording\n)\n");
    assert_eq!(
        written(&words("r1 r2 a3 w4 w5 d6")),
        one_week("(rest 3)\n(avail 3)\n(work 9)\n(drive 6)\n").as_bytes()
    );
    assert_eq!(
        written(&words("r10079 r2 w1")),
        b"(recording\n(week\n(rest 10080)\n)\n(week\n(rest 1)\n(work 1)\n)\n)\n"
    );
    assert_eq!(
        written(&words("w10080")),
        one_week("(work 10080)\n").as_bytes()
    );
    let year = format!("(recording\n{})\n", "(week\n(rest 10080)\n)\n".repeat(53));
    assert_eq!(written(&words("r534240")), year.as_bytes());
}

#[test]
fn one_word_a_run_line() {
    let text = one_week("(rest 3)\n(rest 3)\n(drive 1)\n");
    let mut words = [77; 4];
    assert_eq!(read(text.as_bytes(), &mut words), Ok(3));
    assert_eq!(words, [12, 12, 7, 77]);
    let mut few = [77; 2];
    assert_eq!(read(text.as_bytes(), &mut few), Err(Refusal::TooFewWords));
    assert_eq!(few, [77; 2]);
    // The form comes first.
    let damaged = one_week("(rest 3)\n(rest 3)\n(drive 0)\n");
    assert_eq!(read(damaged.as_bytes(), &mut few), Err(Refusal::TextForm));
    assert_eq!(read(b"(recording\n)\n", &mut []), Ok(0));
}

#[test]
fn writing_refusals_in_order() {
    let mut bytes = [b'#'; 40];
    let recording = words("w60");
    let length = written(&recording).len();
    assert_eq!(write(&recording, &mut bytes[..length]), Ok(length));
    let mut short = vec![b'#'; length - 1];
    assert_eq!(write(&recording, &mut short), Err(Refusal::TooFewBytes));
    assert!(short.iter().all(|&byte| byte == b'#'));
    assert_eq!(write(&[0], &mut []), Err(Refusal::NoMinutes));
    assert_eq!(write(&[u32::MAX], &mut []), Err(Refusal::TotalPassed));
}

#[test]
fn damaged_numbers() {
    for number in ["1", "9", "10", "10080"] {
        assert!(
            !refused(&one_week(&format!("(rest {number})\n"))),
            "{number}"
        );
    }
    let wrong = [
        "0",
        "01",
        "00",
        "",
        " ",
        "-1",
        "+1",
        "1 ",
        " 1",
        "1.0",
        "x",
        "1x",
        "10081",
        "99999",
        "100800",
        "4294967297",
        "18446744073709551617",
        "0x10",
        "1\t",
        "1\r",
    ];
    for number in wrong {
        assert!(
            refused(&one_week(&format!("(rest {number})\n"))),
            "{number:?}"
        );
    }
}

#[test]
fn damaged_lines() {
    let good = one_week("(rest 10)\n(work 5)\n");
    assert!(!refused(&good));
    // Every byte left out, doubled or changed makes another text; it is
    // refused unless only a number has changed.
    for (index, byte) in good.bytes().enumerate() {
        let mut without = good.clone().into_bytes();
        without.remove(index);
        let mut doubled = good.clone().into_bytes();
        doubled.insert(index, byte);
        let number_changes = byte.is_ascii_digit();
        assert!(number_changes || read_all(&without).is_err(), "{index}");
        assert!(number_changes || read_all(&doubled).is_err(), "{index}");
        for other in 0..=255 {
            let mut changed = good.clone().into_bytes();
            changed[index] = other;
            let same = other == byte || number_changes && other.is_ascii_digit();
            assert!(same || read_all(&changed).is_err(), "{index} {other}");
        }
    }
    for end in 0..good.len() {
        assert!(refused(&good[..end]), "{end}");
    }
    for text in [
        "",
        "\n",
        ")\n",
        "(recording\n",
        "(recording\n)",
        "(recording\n)\n\n",
    ] {
        assert!(refused(text), "{text:?}");
    }
    assert!(refused(&format!("{good}{good}")));
    assert!(refused(&format!("{good} ")));
    assert!(refused(&good.replace('\n', "\r\n")));
    assert!(refused("(recording\n(week\n)\n)\n"));
    assert!(refused("(recording\n(week\n(week\n(rest 1)\n)\n)\n)\n"));
    assert!(refused("(recording\n(rest 1)\n)\n"));
    assert!(refused(&one_week("(Rest 1)\n")));
    assert!(refused(&one_week("(driving 1)\n")));
}

#[test]
fn weeks_and_their_sums() {
    let full = "(week\n(rest 10080)\n)\n";
    let recording = |weeks: &str| format!("(recording\n{weeks})\n");
    assert!(!refused(&recording(&full.repeat(53))));
    assert!(refused(&recording(&full.repeat(54))));
    let half = "(week\n(rest 10079)\n(work 1)\n)\n";
    assert!(!refused(&recording(&format!("{half}{full}"))));
    let short = "(week\n(rest 10079)\n)\n";
    assert!(!refused(&recording(&format!("{full}{short}"))));
    assert!(refused(&recording(&format!("{short}{full}"))));
    let long = "(week\n(rest 10080)\n(work 1)\n)\n";
    assert!(refused(&recording(long)));
    assert!(refused(&recording(&format!("{long}{full}"))));
}

/// Any bytes: cut, changed and shuffled texts are read or refused, and what is
/// read is written the same way up to joined neighbours.
#[test]
fn random_damage() {
    let mut dice = Dice::new(22);
    let mut read_again = 0;
    for _ in 0..20_000 {
        let mut text = written(&grow::ordinary(&mut dice));
        for _ in 0..dice.between(0, 2) {
            let index = dice.below(text.len() as u32) as usize;
            match dice.below(3) {
                0 => text[index] = dice.below(256) as u8,
                1 => {
                    text.remove(index);
                }
                _ => text.insert(index, b"()\n 0123456789"[dice.below(14) as usize]),
            }
        }
        if let Ok(words) = read_all(&text) {
            let lines = text.split(|&byte| byte == b'\n');
            let run_lines = lines.filter(|line| line.contains(&b' ')).count();
            assert_eq!(run_lines, words.len());
            assert_eq!(runs(&read_all(&written(&words)).unwrap()), runs(&words));
            read_again += 1;
        }
    }
    assert!(read_again > 1_000 && read_again < 19_000);
}

#[test]
fn printed_verdicts() {
    let printed = |shorthand: &str| print(&written(&words(shorthand)));
    assert_eq!(
        printed(""),
        "(verdict\n(minutes 0)\n(judged 0)\n(reading\n)\n)\n"
    );
    assert_eq!(
        printed("w10 r2700 w5 r8 r9"),
        "(verdict\n(minutes 2732)\n(judged 2715)\n(reading\n(daily 10 2710)\n)\n)\n"
    );
    let breaches = [
        ("d271", 271, "7"),
        ("d270 r45 d270 r45 d61", 691, "6.1"),
        ("w901", 901, "8.2"),
    ];
    for (shorthand, minute, article) in breaches {
        let total = total_minutes(&words(shorthand));
        let text = format!("(verdict\n(minutes {total})\n(breach {minute} {article})\n)\n");
        assert_eq!(printed(shorthand), text);
    }
    assert_eq!(
        printed(&(times(6, "w780 r660") + "w1")),
        "(verdict\n(minutes 8641)\n(breach 8641 8)\n)\n"
    );
    // A weekly rest is needed here, in week 0 or 1; week 0 comes first.
    assert_eq!(
        printed("w700 r8900 w900 r1000 w1"),
        "(verdict\n(minutes 11501)\n(judged 11501)\n(reading\n\
         (weekly 700 9600 0 0)\n(daily 10500 11500)\n)\n)\n"
    );
}

#[test]
fn printed_refusals() {
    assert_eq!(print(b""), "(verdict\n(refused 8)\n)\n");
    assert_eq!(print(&[0; 65_536]), "(verdict\n(refused 8)\n)\n");
    assert_eq!(print(&[0; 65_537]), "(verdict\n(refused 9)\n)\n");
}

/// A text of just as many bytes as the desk program takes, and one of a byte
/// more.
#[test]
fn printed_at_the_most_bytes() {
    let text = |avails: usize| {
        let avails = "(avail 1)\n".repeat(avails);
        one_week(&format!("{avails}{}", "(rest 1)\n".repeat(7_275)))
    };
    assert_eq!(text(4).len(), 65_536);
    assert!(print(text(4).as_bytes()).starts_with("(verdict\n(minutes 7279)\n(judged 4)\n"));
    let over = text(4) + "\n";
    assert_eq!(print(over.as_bytes()), "(verdict\n(refused 9)\n)\n");
}
