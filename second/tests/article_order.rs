//! Request 4 of document 02, "Article order": "let the work go in the regulation's
//! order, articles 6(1), 6(2), 6(3), 7, 8(2). It shows in an operation beside the
//! fixed test, with its inputs and refusals, that answers 0 or the place, 1 to 5, of
//! the first of these broken. The fixed test's answer and the article reported when
//! several break at one minute are chosen as before."

mod shorthand;

use second::broken::Broken;
use second::dice::Dice;
use second::fixed;
use second::grow;
use second::recording::{minutes, Recording};
use second::runs::Course;
use second::small;
use second::Limits;
use shorthand::{assert_breach, driving_days, times, words};

const REST: u32 = 0;
const DRIVING: u32 = 3;

/// The five in the regulation's order.
const ARTICLES: [&str; 5] = ["6.1", "6.2", "6.3", "7", "8.2"];

/// The places in it of rules 1 to 5.
const PLACES: [usize; 5] = [4, 1, 2, 3, 5];

/// The activity code of each minute.
fn codes(words: &[u32]) -> Vec<u32> {
    let run = |word: &u32| vec![word % 4; *word as usize / 4];
    words.iter().flat_map(run).collect()
}

/// From a minute to another, the second not included.
type Part = (usize, usize);

fn length((start, end): Part) -> i64 {
    (end - start) as i64
}

/// The fixed rules a third time, over the gaps between the minutes that are not rest.
struct Stretch<'a> {
    limits: &'a Limits,
    codes: &'a [u32],
    /// The driving before each minute, and that of the whole.
    driving_before: Vec<i64>,
    /// The rests that are not open.
    rests: Vec<Part>,
    /// From P to the next long rest's start, or to S.
    days: Vec<Part>,
}

impl Stretch<'_> {
    fn new<'a>(codes: &'a [u32], limits: &'a Limits) -> Stretch<'a> {
        let mut driving_before = vec![0];
        for code in codes {
            let driving = driving_before[driving_before.len() - 1];
            driving_before.push(driving + i64::from(*code == DRIVING));
        }
        let mut rests = Vec::new();
        let mut judged_end = 0;
        for minute in (0..codes.len()).filter(|&minute| codes[minute] != REST) {
            if judged_end < minute {
                rests.push((judged_end, minute));
            }
            judged_end = minute + 1;
        }
        let mut days = Vec::new();
        let mut day_start = 0;
        for &rest in &rests {
            if length(rest) >= limits.long_rest {
                days.push((day_start, rest.0));
                day_start = rest.1;
            }
        }
        days.push((day_start, judged_end));
        Stretch {
            limits,
            codes,
            driving_before,
            rests,
            days,
        }
    }

    fn driving(&self, (start, end): Part) -> i64 {
        self.driving_before[end] - self.driving_before[start]
    }

    /// Article by article.
    fn broken(&self) -> [bool; 5] {
        [
            self.breaks_6_1(),
            self.breaks_6_2(),
            self.breaks_6_3(),
            self.breaks_7(),
            self.breaks_8_2(),
        ]
    }

    /// A day over 600, or more than two over 540 that begin in one week.
    fn breaks_6_1(&self) -> bool {
        let over = |limit: i64| {
            let days = self.days.iter();
            days.filter(move |day| self.driving(**day) > limit)
        };
        let weeks: Vec<usize> = over(self.limits.ordinary_day_driving)
            .map(|(start, _)| start / self.limits.week as usize)
            .collect();
        let in_one = |week: &usize| weeks.iter().filter(|other| *other == week).count();
        over(self.limits.day_driving).next().is_some()
            || weeks
                .iter()
                .any(|week| in_one(week) > self.limits.extended_days)
    }

    /// The driving of each week, and of an empty one after them.
    fn weeks(&self) -> Vec<i64> {
        let driving = |week: &[u32]| week.iter().filter(|&&code| code == DRIVING).count() as i64;
        let weeks = self.codes.chunks(self.limits.week as usize).map(driving);
        weeks.chain([0]).collect()
    }

    /// A week over 3,360.
    fn breaks_6_2(&self) -> bool {
        let most = self.weeks().into_iter().max();
        most > Some(self.limits.week_driving)
    }

    /// A week and the next over 5,400.
    fn breaks_6_3(&self) -> bool {
        let weeks = self.weeks();
        let mut two_weeks = weeks.windows(2).map(|two| two[0] + two[1]);
        two_weeks.any(|driving| driving > self.limits.fortnight_driving)
    }

    /// Too much driving from minute 0 or a rest that clears the sum to the next such
    /// rest or to the end.
    fn breaks_7(&self) -> bool {
        let mut cleared = 0;
        let mut parts = Vec::new();
        for (index, &rest) in self.rests.iter().enumerate() {
            let second_part =
                length(rest) >= self.limits.second_part && self.has_first_part(cleared, index);
            if length(rest) >= self.limits.full_break || second_part {
                parts.push((cleared, rest.0));
                cleared = rest.1;
            }
        }
        parts.push((cleared, self.codes.len()));
        let mut driving = parts.into_iter().map(|part| self.driving(part));
        driving.any(|driving| driving > self.limits.unbroken_driving)
    }

    /// Whether a rest before this one, since the sum was last cleared, is a first part.
    fn has_first_part(&self, cleared: usize, index: usize) -> bool {
        let before = self.rests[..index].iter().rev();
        before
            .take_while(|rest| rest.0 >= cleared)
            .filter(|rest| length(**rest) >= self.limits.first_part)
            .any(|rest| self.driving((cleared, rest.0)) > 0)
    }

    /// A day longer than 900.
    fn breaks_8_2(&self) -> bool {
        let mut lengths = self.days.iter().map(|day| length(*day));
        lengths.any(|length| length > self.limits.day_length)
    }
}

/// Whether an answer is 0 and none of these is broken, or else the place of one that
/// is, and none before it is.
fn names_the_first(answer: u8, order: [bool; 5]) -> bool {
    match usize::from(answer) {
        0 => !order.contains(&true),
        place @ 1..=5 => order[place - 1] && !order[..place - 1].contains(&true),
        _ => false,
    }
}

/// Holds the number of the fixed test and the place against what is broken, article
/// by article.
fn check(rule: u8, place: u8, broken: [bool; 5]) {
    let by_rule = PLACES.map(|place| broken[place - 1]);
    assert!(names_the_first(rule, by_rule), "rule {rule} of {broken:?}");
    assert!(
        names_the_first(place, broken),
        "place {place} of {broken:?}"
    );
    assert_eq!(rule == 0, place == 0);
}

/// The stretches compared, by what is broken in them, and those in which the orders
/// name different articles.
#[derive(Debug, Default)]
struct Met {
    broken: [usize; 32],
    orders_differ: usize,
}

impl Met {
    fn stretch(&mut self, rule: u8, place: u8, broken: [bool; 5]) {
        self.broken[set(broken)] += 1;
        let differs = rule > 0 && PLACES[usize::from(rule) - 1] != usize::from(place);
        self.orders_differ += usize::from(differs);
    }

    /// How many of the 32 sets of articles.
    fn sets(&self) -> usize {
        self.broken.iter().filter(|&&count| count > 0).count()
    }
}

/// A number for each set of articles.
fn set(broken: [bool; 5]) -> usize {
    (0..5)
        .map(|index| usize::from(broken[index]) << index)
        .sum()
}

/// Every stretch of small recordings: the plain account, the one by runs and the
/// third way; what either order picks; and the first breach.
#[test]
fn every_stretch_of_small_recordings() {
    let mut dice = Dice::new(41);
    let mut met = Met::default();
    let mut at_one_minute = [0; 32];
    for _ in 0..5_000 {
        let limits = small::limits(&mut dice);
        let words = if dice.one_in(3) {
            small::recording(&mut dice, &limits, 8)
        } else {
            small_words(&mut dice)
        };
        let (codes, minutes) = (codes(&words), minutes(&words));
        let whole = Recording::new(&minutes, &limits);
        let course = Course::new(&words, &limits);
        let mut first = None;
        for m in 0..=codes.len() {
            let broken = Stretch::new(&codes[..m], &limits).broken();
            let plain = whole.stretch(m);
            let (rule, place) = (fixed::broken_rule(&plain), fixed::broken_article(&plain));
            check(rule, place, broken);
            let account = Broken::by_article(broken);
            assert_eq!(fixed::broken(&plain), account, "{limits:?} {words:?} {m}");
            let fast = course.broken(m as i64);
            assert_eq!(fast, account, "{limits:?} {words:?} {m}");
            check(fast.smallest_rule(), fast.first_article(), broken);
            met.stretch(rule, place, broken);
            if rule > 0 && first.is_none() {
                at_one_minute[set(broken)] += 1;
                first = Some((m as i64, rule));
            }
        }
        let breach = course.first_fixed_breach();
        let breach = breach.map(|breach| (breach.minute, breach.rule));
        assert_eq!(breach, first, "{limits:?} {words:?}");
    }
    println!("{met:?}, at one minute {at_one_minute:?}");
    assert!(met.sets() == 32 && met.orders_differ > 10_000);
    let several = (0..32_usize).filter(|set| set.count_ones() > 1);
    assert!(several.filter(|&set| at_one_minute[set] > 0).count() > 10);
}

/// Any runs, many of them of driving.
fn small_words(dice: &mut Dice) -> Vec<u32> {
    let most = dice.between(2, 9);
    let runs = dice.below(40);
    (0..runs)
        .map(|_| {
            let activity = dice.weighted(&[3, 1, 1, 5]) as u32;
            4 * dice.between(1, most) + activity
        })
        .collect()
}

/// The two operations and the account by runs against the third way, for a stretch
/// under the documents' numbers.
fn compare(words: &[u32], codes: &[u32], course: &Course, m: usize, met: &mut Met) {
    let broken = Stretch::new(&codes[..m], course.limits).broken();
    let rule = fixed::test(words, m).expect("no refusal");
    let place = fixed::article_test(words, m).expect("no refusal");
    check(rule, place, broken);
    let fast = course.broken(m as i64);
    assert_eq!(fast, Broken::by_article(broken), "{words:?} {m}");
    met.stretch(rule, place, broken);
}

/// 0, the whole, some others, and for each article the last stretch that keeps it
/// and the first that breaks it.
fn stretches(dice: &mut Dice, course: &Course) -> Vec<usize> {
    let total = course.total as u32;
    let mut stretches = vec![0, total];
    for index in 0..5 {
        let (mut kept, mut broken) = (0, total);
        while broken > kept + 1 {
            let middle = (kept + broken) / 2;
            if by_article(course.broken(middle.into()))[index] {
                broken = middle;
            } else {
                kept = middle;
            }
        }
        stretches.extend([kept, broken]);
    }
    stretches.extend((0..6).map(|_| dice.between(0, total)));
    stretches.sort();
    stretches.dedup();
    stretches.into_iter().map(|m| m as usize).collect()
}

fn by_article(broken: Broken) -> [bool; 5] {
    [
        broken.article_6_1,
        broken.article_6_2,
        broken.article_6_3,
        broken.article_7,
        broken.article_8_2,
    ]
}

/// The same words with more driving, and now and then a rest cut to less than 540.
fn driven_more(dice: &mut Dice, words: &[u32]) -> Vec<u32> {
    let often = dice.between(1, 6);
    let changed = |word: &u32| match word % 4 {
        REST if word / 4 > 540 && dice.one_in(20) => 4 * dice.between(1, 539) + REST,
        1 | 2 if dice.one_in(often) => 4 * (word / 4) + DRIVING,
        _ => *word,
    };
    words.iter().map(changed).collect()
}

/// Ordinary and grown recordings, as they are and with more driving; days with much
/// driving; and any words.
#[test]
fn stretches_of_grown_recordings() {
    let limits = Limits::document();
    let mut dice = Dice::new(42);
    let mut met = Met::default();
    let mut recordings = Vec::new();
    for seed in 0..30 {
        recordings.push(grow::ordinary(&mut Dice::new(seed)));
        recordings.push(grow::grown(&mut Dice::new(seed)));
    }
    for index in 0..recordings.len() {
        let more = driven_more(&mut dice, &recordings[index]);
        recordings.push(more);
    }
    recordings.extend((0..200).map(|seed| driving_days(&mut Dice::new(seed))));
    for seed in 0..1_000 {
        let any = grow::random_words(&mut Dice::new(seed));
        if refusal(&any, 0).is_none() {
            recordings.push(any);
        }
    }
    for words in &recordings {
        let codes = codes(words);
        let course = Course::new(words, &limits);
        for m in stretches(&mut dice, &course) {
            compare(words, &codes, &course, m, &mut met);
        }
    }
    println!("{} recordings, {met:?}", recordings.len());
    assert!(met.broken[0] > 1_000 && met.sets() > 24 && met.orders_differ > 1_000);
}

/// The number of the refusal: "1, its minutes are 0; else 2, the total passes
/// 120,960", by request 7 534,240; "then 5, m is over N".
fn refusal(words: &[u32], m: usize) -> Option<u8> {
    let mut total = 0;
    for word in words {
        let minutes = *word as usize / 4;
        total += minutes;
        if minutes == 0 {
            return Some(1);
        }
        if total > 534_240 {
            return Some(2);
        }
    }
    (m > total).then_some(5)
}

#[test]
fn refusals_of_the_fixed_test() {
    let both = |words: &[u32], m: usize| {
        let place = fixed::article_test(words, m).map_err(|refusal| refusal.number());
        let rule = fixed::test(words, m).map_err(|refusal| refusal.number());
        (rule, place)
    };
    let no_minutes = DRIVING;
    for (recording, m, number) in [
        (vec![no_minutes], 0, 1),
        (vec![no_minutes], usize::MAX, 1),
        (vec![4 * 534_240, no_minutes], usize::MAX, 1),
        (vec![4 * 534_241, no_minutes], 0, 2),
        (vec![u32::MAX], usize::MAX, 2),
        (words("d270 d1"), 272, 5),
        (words("d270 d1"), usize::MAX, 5),
        (vec![], 1, 5),
    ] {
        assert_eq!(both(&recording, m), (Err(number), Err(number)));
    }
    assert_eq!(both(&[], 0), (Ok(0), Ok(0)));
    let mut met = [0; 6];
    for seed in 0..3_000 {
        let mut dice = Dice::new(seed);
        let words = grow::random_words(&mut dice);
        let total: usize = words.iter().map(|word| *word as usize / 4).sum();
        for m in [0, total / 2, total, total + 1, usize::MAX] {
            let (rule, place) = both(&words, m);
            let number = refusal(&words, m);
            assert_eq!(rule.err(), number, "{words:?} {m}");
            assert_eq!(place.err(), number, "{words:?} {m}");
            assert_eq!(rule == Ok(0), place == Ok(0), "{words:?} {m}");
            met[usize::from(number.unwrap_or(0))] += 1;
        }
    }
    println!("answers and refusals {met:?}");
    assert!([0, 1, 2, 5].iter().all(|&number| met[number] > 500));
}

/// A day of 540 minutes of driving, 1,245 with its rest.
const ORDINARY: &str = "d270 r45 d270 r660";

/// A day of 600, 1,350 with its rest.
const EXTENDED: &str = "d270 r45 d270 r45 d60 r660";

/// A first week with so much driving, and a weekly rest up to its end.
fn first_week(driving: u32) -> String {
    match driving {
        2_040 => times(3, "d255 r45 d255 r660") + "d255 r45 d255 r5880 ",
        2_700 => times(4, ORDINARY) + "d270 r45 d270 r4515 ",
        _ => panic!("no such week"),
    }
}

/// The days of a week with so much driving, to which a last one is lacking.
fn week(driving: u32) -> String {
    match driving {
        2_100 => times(3, ORDINARY) + "d240 r45 d240 r660 ",
        2_430 => times(4, ORDINARY) + "d270 r660 ",
        2_700 => times(5, ORDINARY),
        2_760 => times(1, EXTENDED) + &times(4, ORDINARY),
        3_090 => times(5, ORDINARY) + "d270 r45 d120 r660 ",
        3_360 => times(2, EXTENDED) + &times(4, ORDINARY),
        _ => panic!("no such week"),
    }
}

/// A recording whose last minute breaks these articles, and no earlier one any; the
/// number of the fixed test there, and the place.
struct Case {
    shorthand: String,
    minute: usize,
    articles: &'static str,
    rule: u8,
    place: u8,
}

impl Case {
    fn broken(&self) -> [bool; 5] {
        let broken: Vec<&str> = self.articles.split_whitespace().collect();
        ARTICLES.map(|article| broken.contains(&article))
    }
}

/// Every set of the five at one minute: the driving of two weeks and of the last one,
/// and a last day that breaks it.
fn cases() -> Vec<Case> {
    let mut cases = Vec::new();
    let mut case = |before: &[u32], last_day: &str, minute, articles, rule, place| {
        let before = match *before {
            [first, second] => first_week(first) + &week(second),
            [only] => week(only),
            _ => String::new(),
        };
        cases.push(Case {
            shorthand: before + last_day,
            minute,
            articles,
            rule,
            place,
        });
    };
    case(&[], "d270 r45 d270 r45 d61", 691, "6.1", 2, 1);
    case(&[], "d271", 271, "7", 1, 4);
    case(&[], "w901", 901, "8.2", 5, 5);
    case(&[], "d270 r45 d60 r45 d271", 691, "6.1 7", 1, 1);
    case(&[], "d270 r45 d270 r255 d61", 901, "6.1 8.2", 2, 1);
    case(&[], "w630 d271", 901, "7 8.2", 1, 4);
    case(&[], "d270 r45 d60 r255 d271", 901, "6.1 7 8.2", 1, 1);

    case(&[3_360], "d1", 7_681, "6.2", 3, 2);
    case(&[3_360], "w900 d1", 8_581, "6.2 8.2", 3, 2);
    case(&[3_090], "d271", 7_591, "6.2 7", 1, 2);
    case(&[3_090], "w630 d271", 8_221, "6.2 7 8.2", 1, 2);
    let (day, late) = ("d270 r45 d270 r45 d61", "d270 r45 d270 r255 d61");
    case(&[2_760], day, 7_021, "6.1 6.2", 2, 1);
    case(&[2_760], late, 7_231, "6.1 6.2 8.2", 2, 1);
    let (drive, late_drive) = ("d270 r45 d60 r45 d271", "d270 r45 d60 r255 d271");
    case(&[2_760], drive, 7_021, "6.1 6.2 7", 1, 1);
    case(&[2_760], late_drive, 7_231, "6.1 6.2 7 8.2", 1, 1);

    case(&[2_700, 2_700], "d1", 16_306, "6.3", 4, 3);
    case(&[2_700, 2_700], "w900 d1", 17_206, "6.3 8.2", 4, 3);
    case(&[2_700, 2_430], "d271", 16_261, "6.3 7", 1, 3);
    case(&[2_700, 2_430], "w630 d271", 16_891, "6.3 7 8.2", 1, 3);
    case(&[2_700, 2_100], day, 15_691, "6.1 6.3", 2, 1);
    case(&[2_700, 2_100], late, 15_901, "6.1 6.3 8.2", 2, 1);
    case(&[2_700, 2_100], drive, 15_691, "6.1 6.3 7", 1, 1);
    case(&[2_700, 2_100], late_drive, 15_901, "6.1 6.3 7 8.2", 1, 1);

    case(&[2_040, 3_360], "d1", 17_761, "6.2 6.3", 3, 2);
    case(&[2_040, 3_360], "w900 d1", 18_661, "6.2 6.3 8.2", 3, 2);
    case(&[2_040, 3_090], "d271", 17_671, "6.2 6.3 7", 1, 2);
    case(&[2_040, 3_090], "w630 d271", 18_301, "6.2 6.3 7 8.2", 1, 2);
    case(&[2_040, 2_760], day, 17_101, "6.1 6.2 6.3", 2, 1);
    case(&[2_040, 2_760], late, 17_311, "6.1 6.2 6.3 8.2", 2, 1);
    case(&[2_040, 2_760], drive, 17_101, "6.1 6.2 6.3 7", 1, 1);
    case(
        &[2_040, 2_760],
        late_drive,
        17_311,
        "6.1 6.2 6.3 7 8.2",
        1,
        1,
    );

    // By the third day of a week over 540.
    let two_days = times(2, "d270 r45 d270 r45 d1 r600");
    cases.push(Case {
        shorthand: two_days + "d270 r45 d271",
        minute: 3_048,
        articles: "6.1 7",
        rule: 1,
        place: 1,
    });
    cases
}

/// At the minute and one before, where nothing is broken. "The fixed test's answer
/// and the article reported when several break at one minute are chosen as before."
#[test]
fn several_at_one_minute() {
    let limits = Limits::document();
    let mut met = [0; 32];
    for case in cases() {
        let (shorthand, minute) = (&case.shorthand, case.minute);
        let words = words(shorthand);
        let codes = codes(&words);
        assert_eq!(codes.len(), minute, "{shorthand}");
        let course = Course::new(&words, &limits);
        for (m, rule, place, broken) in [
            (minute, case.rule, case.place, case.broken()),
            (minute - 1, 0, 0, [false; 5]),
        ] {
            let by_minutes = Stretch::new(&codes[..m], &limits).broken();
            assert_eq!(by_minutes, broken, "{shorthand}: {m}");
            assert_eq!(by_article(course.broken(m as i64)), broken, "{shorthand}");
            assert_eq!(fixed::test(&words, m), Ok(rule), "{shorthand}: {m}");
            let answer = fixed::article_test(&words, m);
            assert_eq!(answer, Ok(place), "{shorthand}: {m}");
            check(rule, place, broken);
        }
        assert_breach(shorthand, minute as i64, case.rule);
        met[set(case.broken())] += 1;
    }
    assert!(met[1..].iter().all(|&count| count > 0));
}

/// The cases with one run a minute shorter or longer.
#[test]
fn a_minute_beside_the_cases() {
    let limits = Limits::document();
    let mut met = Met::default();
    for case in cases() {
        let words = words(&case.shorthand);
        let last_days = words.len().saturating_sub(16);
        for index in last_days..words.len() {
            for change in [words[index] - 4, words[index] + 4] {
                let mut changed = words.clone();
                changed[index] = change;
                changed.retain(|word| word / 4 > 0);
                let codes = codes(&changed);
                let course = Course::new(&changed, &limits);
                compare(&changed, &codes, &course, codes.len(), &mut met);
            }
        }
    }
    println!("{met:?}");
    assert!(met.sets() == 32 && met.orders_differ > 200);
}

/// What is broken stays so, and the first of it is not what broke first.
#[test]
fn articles_broken_one_after_another() {
    let two_weeks = first_week(2_700) + &week(2_700);
    let another = "d270 r45 d270 r660 d271";
    for (shorthand, answers) in [
        (
            "d271 d330".to_string(),
            &[(270, 0, 0), (271, 1, 4), (600, 1, 4), (601, 1, 1)][..],
        ),
        (
            "w901 d271 d330".to_string(),
            &[
                (900, 0, 0),
                (901, 5, 5),
                (1_171, 5, 5),
                (1_172, 1, 4),
                (1_501, 1, 4),
                (1_502, 1, 1),
            ],
        ),
        (
            "d270 r45 d270 r45 d61 w210 r540 w900 r45 d271".to_string(),
            &[
                (690, 0, 0),
                (691, 2, 1),
                (901, 2, 1),
                (2_656, 2, 1),
                (2_657, 1, 1),
            ],
        ),
        (
            two_weeks + another,
            &[
                (16_305, 0, 0),
                (16_306, 4, 3),
                (17_670, 4, 3),
                (17_671, 3, 2),
                (17_820, 3, 2),
                (17_821, 1, 2),
            ],
        ),
    ] {
        let words = words(&shorthand);
        for &(m, rule, place) in answers {
            assert_eq!(fixed::test(&words, m), Ok(rule), "{shorthand}: {m}");
            let answer = fixed::article_test(&words, m);
            assert_eq!(answer, Ok(place), "{shorthand}: {m}");
        }
    }
}

/// "only the list of minutes counts"
#[test]
fn equal_neighbours() {
    for (shorthand, joined) in [
        ("d270 r45 d60 r45 d270 d1", "d270 r45 d60 r45 d271"),
        ("w600 w30 d1 d270", "w630 d271"),
    ] {
        let (apart, joined) = (words(shorthand), words(joined));
        for m in 0..=codes(&joined).len() {
            let place = fixed::article_test(&apart, m);
            assert_eq!(place, fixed::article_test(&joined, m), "{shorthand}: {m}");
        }
    }
}
