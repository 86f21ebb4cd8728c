//! A model of fronts, for recordings that are climbed to be wide: the sets of
//! states that a sweep over the long rests has to keep.
//!
//! A state is what the choices for the rests so far (daily or weekly, in which
//! week, which debts are paid back) mean for the later ones. A front has the
//! states that no other makes needless. No verdict rests on it.

use crate::limits::Limits;
use crate::recording::Span;
use crate::runs::LongRest;

/// What a reduced weekly rest owes. Debts are kept in the order of their dues.
#[derive(Clone, Copy, PartialEq, Eq)]
struct Debt {
    amount: i64,
    /// The latest end of its carrier.
    due: i64,
}

/// The weekly rests counted in a week, as far as rule 11 tells them apart: up
/// to two, and up to one regular one.
#[derive(Clone, Copy, Default)]
struct Counted {
    weekly: u8,
    regular: u8,
}

impl Counted {
    /// "A week of rest minutes only counts as holding exactly one regular
    /// weekly rest."
    const WEEK_OF_REST: Counted = Counted {
        weekly: 1,
        regular: 1,
    };

    fn with(self, regular: bool) -> Counted {
        Counted {
            weekly: (self.weekly + 1).min(2),
            regular: self.regular.max(u8::from(regular)),
        }
    }

    fn at_least(self, other: Counted) -> bool {
        self.weekly >= other.weekly && self.regular >= other.regular
    }
}

#[derive(Clone)]
struct State {
    /// The end of the last weekly rest, or 0.
    weekly_end: i64,
    /// The daily rests since then that count under rule 9.
    shortened: usize,
    /// The weekly rests of the week before, and of the week reached.
    before: Counted,
    now: Counted,
    debts: Vec<Debt>,
}

impl State {
    /// Whether the other is needless beside this one: what completes the other
    /// completes this one too.
    fn at_least(&self, other: &State) -> bool {
        self.weekly_end >= other.weekly_end
            && self.shortened <= other.shortened
            && self.before.at_least(other.before)
            && self.now.at_least(other.now)
            && lie_within(&self.debts, &other.debts)
    }
}

/// Whether each debt has one of the others to itself that is no less and due no
/// later. They stand in the order of their dues, so each takes the smallest that
/// will do. There are never 64: a debt is due within four weeks, and weekly
/// rests are a day apart.
fn lie_within(debts: &[Debt], others: &[Debt]) -> bool {
    if debts.len() > others.len() {
        return false;
    }
    let mut taken = 0_u64;
    debts.iter().all(|debt| {
        let free = (0..others.len()).filter(|&place| {
            let other = others[place];
            taken >> place & 1 == 0 && other.due <= debt.due && other.amount >= debt.amount
        });
        match free.min_by_key(|&place| others[place].amount) {
            Some(place) => taken |= 1 << place,
            None => return false,
        }
        true
    })
}

/// The states after the rests so far that no other makes needless.
#[derive(Clone)]
pub struct Front {
    limits: Limits,
    /// S, as it will be: what is due after it need not be paid back.
    judged_end: i64,
    /// The end of the last rest.
    reached: i64,
    states: Vec<State>,
}

impl Front {
    /// Before the first rest of a recording that will be judged to this end.
    pub fn new(judged_end: i64) -> Front {
        Front {
            limits: Limits::document(),
            judged_end,
            reached: 0,
            states: vec![State {
                weekly_end: 0,
                shortened: 0,
                before: Counted::default(),
                now: Counted::default(),
                debts: Vec::new(),
            }],
        }
    }

    /// How many states it has.
    pub fn width(&self) -> usize {
        self.states.len()
    }

    /// The front after one more long rest. It is given up, and `None`, where it
    /// would be wider than this.
    pub fn after(&self, rest: LongRest, widest: usize) -> Option<Front> {
        let mut next = Front {
            reached: rest.span.end,
            states: Vec::new(),
            ..*self
        };
        let step = self.step(rest);
        for state in &self.states {
            step.each_successor(state, &mut |found| next.put(found));
            if next.width() > widest {
                return None;
            }
        }
        Some(next)
    }

    /// Whether the judged end can follow the last rest: some state owes nothing
    /// and keeps rules 10 and 11 up to there.
    pub fn closes(&self) -> bool {
        let end = Span {
            start: self.judged_end,
            end: self.judged_end,
        };
        let step = self.step(self.rest(end));
        (self.states.iter()).any(|state| state.debts.is_empty() && step.reach(state).is_some())
    }

    /// The next long rest, after a day without any rest of 180 to 539 minutes.
    pub fn rest(&self, span: Span) -> LongRest {
        LongRest {
            span,
            previous_end: self.reached,
            earlier_rest: false,
        }
    }

    fn step(&self, long_rest: LongRest) -> Step<'_> {
        Step {
            limits: &self.limits,
            rest: long_rest.span,
            long_rest,
            judged_end: self.judged_end,
        }
    }

    /// Keeps the state unless another makes it needless, and drops those that
    /// it makes needless.
    fn put(&mut self, state: State) {
        if self.states.iter().any(|known| known.at_least(&state)) {
            return;
        }
        self.states.retain(|known| !state.at_least(known));
        self.states.push(state);
    }
}

/// A rest, and what its choices go by.
struct Step<'a> {
    limits: &'a Limits,
    rest: Span,
    /// The same rest, with what rule 9 asks of it.
    long_rest: LongRest,
    judged_end: i64,
}

impl Step<'_> {
    /// Each state after the rest: whichever debts it pays back, daily or weekly,
    /// in whichever of its weeks.
    fn each_successor(&self, state: &State, found: &mut dyn FnMut(State)) {
        let in_time = state.debts.iter().all(|debt| self.rest.end <= debt.due);
        if let Some(reached) = self.reach(state).filter(|_| in_time) {
            let owing_nothing = State {
                debts: Vec::new(),
                ..reached
            };
            self.pay(owing_nothing, &state.debts, self.rest.length(), found);
        }
    }

    /// The state at the start of the rest, if rules 10 and 11 hold up to there.
    fn reach(&self, state: &State) -> Option<State> {
        if self.rest.start - state.weekly_end > self.limits.between_weekly_rests {
            return None;
        }
        let from = self.limits.week_of(self.long_rest.previous_end);
        let to = self.limits.week_of(self.rest.start);
        self.pass_weeks(state.clone(), from, to)
    }

    /// Each way to pay back some of these debts and to keep the others.
    fn pay(&self, state: State, debts: &[Debt], own: i64, found: &mut dyn FnMut(State)) {
        let Some((&debt, later)) = debts.split_first() else {
            self.read(&state, own, found);
            return;
        };
        if own - debt.amount >= self.limits.daily_rest {
            self.pay(state.clone(), later, own - debt.amount, found);
        }
        let mut kept = state;
        kept.debts.push(debt);
        self.pay(kept, later, own, found);
    }

    /// The rest as a daily one, and as a weekly one in each of its weeks.
    fn read(&self, state: &State, own: i64, found: &mut dyn FnMut(State)) {
        let limits = self.limits;
        let (first, last) = (
            limits.week_of(self.rest.start),
            limits.week_of(self.rest.end - 1),
        );
        let after = limits.week_of(self.rest.end);
        let shortened = self.long_rest.is_shortened(own, limits);
        let daily = State {
            shortened: state.shortened + usize::from(shortened),
            ..state.clone()
        };
        if daily.shortened <= limits.reduced_daily_rests {
            (self.pass_weeks(daily, first, after).into_iter()).for_each(&mut *found);
        }
        if own < limits.weekly_rest {
            return;
        }
        for week in first..=last {
            let mut weekly = self.weekly(state, week, own);
            weekly = weekly.and_then(|weekly| self.pass_weeks(weekly, week, after));
            weekly.into_iter().for_each(&mut *found);
        }
    }

    /// As a weekly rest of this week, up to that week.
    fn weekly(&self, state: &State, week: i64, own: i64) -> Option<State> {
        let first = self.limits.week_of(self.rest.start);
        let mut weekly = self.pass_weeks(state.clone(), first, week)?;
        let (amount, due) = (self.limits.weekly_debt(own), self.limits.due(week));
        weekly.weekly_end = self.rest.end;
        weekly.shortened = 0;
        weekly.now = weekly.now.with(amount == 0);
        if amount > 0 && due <= self.judged_end {
            let place = weekly.debts.partition_point(|debt| debt.due <= due);
            weekly.debts.insert(place, Debt { amount, due });
        }
        Some(weekly)
    }

    /// The state moved on from one week to a later one, if rule 11 holds on the
    /// way.
    fn pass_weeks(&self, mut state: State, from: i64, to: i64) -> Option<State> {
        for week in from..to {
            let all_rest = self.rest.start <= self.limits.week * week
                && self.limits.week * (week + 1) <= self.rest.end;
            if all_rest {
                state.now = Counted::WEEK_OF_REST;
            }
            let weekly = state.before.weekly + state.now.weekly;
            let regular = state.before.regular + state.now.regular;
            if week > 0 && (weekly < 2 || regular < 1) {
                return None;
            }
            state.before = state.now;
            state.now = Counted::default();
        }
        Some(state)
    }
}
