//! The figures of source document 000 as recordings, with the answers that the
//! source and document 01 give. Figure 1 is among the cases of "On the edge".
//!
//! Figures 2 to 6 give the hours of rest week by week and leave daily rests
//! aside (the source's remark 1). Document 01 lets a daily rest pay back, so
//! here no daily rest has minutes to spare.

mod shorthand;

use second::reading::{self, bytes};
use shorthand::{attempt, general_figure, judged, tight_weeks, words};

fn assert_pass(rests: &[u32]) {
    shorthand::assert_pass(&tight_weeks(rests));
}

/// At the end of the last week: until then what is owed is due later, and the
/// last two weeks are not judged together.
fn assert_breach_at_the_end(rests: &[u32]) {
    let end = 10_080 * rests.len() as i64;
    assert_eq!(judged(&words(&tight_weeks(rests))), Err((end, 6)));
}

/// "Illegal interval of six consecutive weeks"
#[test]
fn figure_2() {
    assert_eq!(general_figure(6), [2640, 2700, 2700, 2700, 1440, 2700]);
    assert_breach_at_the_end(&general_figure(6));
}

/// "First five weeks of the example represented in Figure 2, together with a
/// possible sixth week that would make the whole interval legal": one that
/// takes the hour of the first week and the 21 of the fifth, or only the hour.
#[test]
fn figure_3() {
    let five = &general_figure(6)[..5];
    let with_sixth = |minutes| [five, &[minutes]].concat();
    assert_pass(five);
    assert_pass(&with_sixth(2700 + 60 + 1260));
    assert_pass(&with_sixth(2700 + 60));
    assert_breach_at_the_end(&with_sixth(2700 + 59));
}

/// "Last five weeks of the interval represented in Figure 2, together with a
/// possible sixth week that would make the whole interval legal"
#[test]
fn figure_4() {
    let five = &general_figure(6)[1..];
    assert_pass(five);
    assert_pass(&[five, &[2700 + 1260]].concat());
}

/// "The same interval of Figure 2, with an attempt to assign compensations
/// (dashed lines) that ultimately fails": the third week pays the first one's
/// hour, and every week that could pay the third one's breaks a rule.
#[test]
fn figure_5() {
    let recording = words(&tight_weeks(&general_figure(6)));
    let rule = |carrier| reading::test(&recording, &bytes(&attempt(carrier)));
    // Left unpaid; by the fourth week, beside the third; by the fifth, which
    // has no hour to give; by the sixth, beside the fifth.
    assert_eq!(rule(0), Ok(8));
    assert_eq!(rule(19), Ok(11));
    assert_eq!(rule(25), Ok(7));
    assert_eq!(rule(32), Ok(11));
}

/// "General example of an illegal interval that is legal when week A or week B
/// is erased."
#[test]
fn figure_6() {
    for weeks in (6..=12).chain([26, 53]) {
        let rests = general_figure(weeks);
        assert_breach_at_the_end(&rests);
        assert_pass(&rests[1..]);
        assert_pass(&rests[..weeks - 1]);
    }
}
