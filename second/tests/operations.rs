//! What the operations turn away, in which order, and what they leave alone.

mod shorthand;

use second::entry::{entry, entry_refusal};
use second::reading;
use second::verdict::{first_reading, verdict, Verdict};
use second::Refusal;
use shorthand::words;

const NO_MINUTES: u32 = 3;

#[test]
fn verdict_refusals_in_order() {
    let recording = words("w10 r600 w10 r600 w1");
    let mut short = [7; 7];
    assert_eq!(verdict(&recording), Ok(Verdict::Pass));
    assert_eq!(
        first_reading(&recording, &mut short),
        Err(Refusal::ReadingBufferTooShort)
    );
    let at_fault = [&recording[..], &[NO_MINUTES]].concat();
    let too_long = [&recording[..], &[u32::MAX, NO_MINUTES]].concat();
    for (recording, refusal) in [
        (at_fault, Refusal::NoMinutes),
        (too_long, Refusal::TotalPassed),
    ] {
        assert_eq!(verdict(&recording), Err(refusal));
        assert_eq!(first_reading(&recording, &mut short), Err(refusal));
    }
    assert_eq!(short, [7; 7]);
}

#[test]
fn a_reading_is_written_alone() {
    let recording = words("w10 r600 w10 r600 w1");
    let mut buffer = [7; 10];
    assert_eq!(first_reading(&recording, &mut buffer), Ok(8));
    assert_eq!(buffer, [0, 0, 0, 0, 0, 0, 0, 0, 7, 7]);
    assert_eq!(first_reading(&[], &mut []), Ok(0));
}

#[test]
fn a_breach_writes_nothing() {
    let recording = words("w10 r600 w901");
    let breach = Verdict::Breach {
        minute: 1_511,
        article: 5,
    };
    assert_eq!(verdict(&recording), Ok(breach));
    let mut buffer = [7; 4];
    assert_eq!(
        first_reading(&recording, &mut buffer),
        Err(Refusal::NoLawfulReading)
    );
    // A short buffer is seen first, though the recording is a breach.
    assert_eq!(
        first_reading(&recording, &mut buffer[..3]),
        Err(Refusal::ReadingBufferTooShort)
    );
    assert_eq!(buffer, [7; 4]);
}

#[test]
fn reading_test_refusals_in_order() {
    let recording = words("w10 r600 w901");
    assert_eq!(reading::test(&recording, &[0; 4]), Ok(5));
    for count in [0, 1, 2, 3, 5, 8] {
        let reading = vec![0; count];
        assert_eq!(
            reading::test(&recording, &reading),
            Err(Refusal::ReadingByteCount)
        );
    }
    assert_eq!(reading::test(&[NO_MINUTES], &[0]), Err(Refusal::NoMinutes));
    assert_eq!(reading::test(&[u32::MAX], &[0]), Err(Refusal::TotalPassed));
}

#[test]
fn the_smallest_broken_rule() {
    // Rules 1 and 5 are broken, and the reading breaks rule 6.
    assert_eq!(
        reading::test(&words("d271 w700 r600 w1"), &[2, 0, 0, 0]),
        Ok(1)
    );
    assert_eq!(reading::test(&words("w971 r600 w1"), &[2, 0, 0, 0]), Ok(5));
    assert_eq!(reading::test(&words("w900 r600 w1"), &[2, 0, 0, 0]), Ok(6));
}

#[test]
fn entries() {
    let reading = [1, 2, 3, 4, 5, 6, 7, 8];
    assert_eq!(entry(&reading, 1), [1, 2, 3, 4]);
    assert_eq!(entry(&reading, 2), [5, 6, 7, 8]);
    assert!(std::ptr::eq(entry(&reading, 2), &reading[4..8]));
    assert_eq!(entry_refusal(&reading, 2), 0);
    for number in [0, 3, usize::MAX] {
        assert!(entry(&reading, number).is_empty());
        assert_eq!(entry_refusal(&reading, number), 7);
    }
    for count in [1, 2, 3, 5, 6, 7] {
        assert!(entry(&reading[..count], 0).is_empty());
        assert_eq!(entry_refusal(&reading[..count], 0), 6);
        assert_eq!(entry_refusal(&reading[..count], 1), 6);
    }
    assert_eq!(entry_refusal(&[], 1), 7);
}
