//! The search for readings that keep rules 6 to 11.
//!
//! It goes through the long rests in order and leaves carriers undecided: a
//! reduced weekly rest leaves a `Debt`, and each later rest chooses which
//! debts it pays back. What the choices so far mean for the later rests is a
//! `State`. States are compared: one that is at least as good as another in
//! everything can be completed whenever the other can, by the same choices. So
//! the search remembers, for each rest, states that cannot be completed and
//! states that can.

use crate::limits::Limits;
use crate::reading::Entry;
use crate::runs::LongRest;

/// What a reduced weekly rest owes.
#[derive(Clone, Copy, Debug, PartialEq, Eq)]
struct Debt {
    amount: i64,
    /// The latest end of its carrier.
    due: i64,
    /// The number of the long rest that has to pay it back, 0 while any may.
    carrier: usize,
}

/// The weekly rests counted in a week, as far as rule 11 can tell them apart:
/// up to two, and up to one regular one.
#[derive(Clone, Copy, Debug, Default, PartialEq, Eq)]
struct Tally {
    weekly: u8,
    regular: u8,
}

impl Tally {
    const FULL: Tally = Tally {
        weekly: 2,
        regular: 1,
    };

    fn with(self, regular: bool) -> Tally {
        Tally {
            weekly: (self.weekly + 1).min(2),
            regular: self.regular.max(u8::from(regular)),
        }
    }

    fn at_least(self, other: Tally) -> bool {
        self.weekly >= other.weekly && self.regular >= other.regular
    }
}

/// What the choices for the rests before a position mean for those from it on.
#[derive(Clone, Debug, PartialEq, Eq)]
struct State {
    /// The end of the last weekly rest, or 0.
    weekly_end: i64,
    /// The daily rests since then that count under rule 9.
    reduced_daily_rests: usize,
    /// The tally of the week before the one in which the next rest starts (S,
    /// after the last rest).
    previous: Tally,
    /// The tally of that week itself.
    current: Tally,
    /// What must still be paid back.
    debts: Vec<Debt>,
}

impl State {
    /// Whether every completion of `other` completes this state too.
    fn at_least(&self, other: &State) -> bool {
        self.weekly_end >= other.weekly_end
            && self.reduced_daily_rests <= other.reduced_daily_rests
            && self.previous.at_least(other.previous)
            && self.current.at_least(other.current)
            && owes_no_more(&self.debts, &other.debts)
    }
}

/// How many debts are compared with others, at most.
const MOST_COMPARED: usize = 16;

/// Whether each of these debts finds its place within one of the others: where
/// the other is paid back, these can be. (A no may be wrong and costs time
/// only; a yes is right.)
fn owes_no_more(debts: &[Debt], others: &[Debt]) -> bool {
    if others.len() > MOST_COMPARED || total(debts) > total(others) {
        return debts.is_empty();
    }
    let mut room = [0; MOST_COMPARED];
    for (room, other) in room.iter_mut().zip(others) {
        *room = other.amount;
    }
    debts.iter().all(|debt| {
        let fits = |&place: &usize| {
            let other = others[place];
            room[place] >= debt.amount
                && other.due <= debt.due
                && (debt.carrier == 0 || debt.carrier == other.carrier)
        };
        let tightest = (0..others.len())
            .filter(fits)
            .min_by_key(|&place| room[place]);
        match tightest {
            Some(place) => {
                room[place] -= debt.amount;
                true
            }
            None => false,
        }
    })
}

/// A way in which a rest can pay debts back.
#[derive(Clone, Default)]
struct Payment {
    paid: Vec<Debt>,
    left: Vec<Debt>,
}

impl Payment {
    fn amount(&self) -> i64 {
        total(&self.paid)
    }
}

fn total(debts: &[Debt]) -> i64 {
    debts.iter().map(|debt| debt.amount).sum()
}

/// Every set of debts that fits in the room.
fn payments(debts: &[Debt], room: i64) -> Vec<Payment> {
    let mut found = Vec::new();
    if room >= 0 {
        pay(debts, room, None, &mut Payment::default(), &mut found);
    }
    found
}

/// The sets of debts that fit in the room and leave no debt that would still
/// fit: to owe less is always at least as good.
fn largest_payments(debts: &[Debt], room: i64) -> Vec<Payment> {
    let mut found = Vec::new();
    if room >= 0 {
        let least_left = Some(i64::MAX);
        pay(debts, room, least_left, &mut Payment::default(), &mut found);
    }
    found
}

/// Decides the debts one by one. `least_left`, where it is asked for, is the
/// least debt left so far: a set is given up when that would fit in the end.
fn pay(
    debts: &[Debt],
    room: i64,
    least_left: Option<i64>,
    payment: &mut Payment,
    found: &mut Vec<Payment>,
) {
    if least_left.is_some_and(|least| room - total(debts) >= least) {
        return;
    }
    let Some((&debt, later)) = debts.split_first() else {
        found.push(payment.clone());
        return;
    };
    if debt.amount <= room {
        payment.paid.push(debt);
        pay(later, room - debt.amount, least_left, payment, found);
        payment.paid.pop();
    }
    let least_left = least_left.map(|least| least.min(debt.amount));
    payment.left.push(debt);
    pay(later, room, least_left, payment, found);
    payment.left.pop();
}

/// One recording, or stretch, that keeps rules 1 to 5, and what has been found
/// out about it.
pub struct Search<'a> {
    limits: &'a Limits,
    rests: &'a [LongRest],
    /// S
    judged_end: i64,
    /// "A week of rest minutes only", for each week.
    rest_weeks: Vec<bool>,
    /// For each position, states that cannot be completed.
    hopeless: Vec<Vec<State>>,
    /// For each position, states that can be completed.
    hopeful: Vec<Vec<State>>,
    /// How many states have been looked at.
    pub steps: u64,
}

impl<'a> Search<'a> {
    pub fn new(limits: &'a Limits, rests: &'a [LongRest], judged_end: i64) -> Search<'a> {
        let weeks = limits.week_of(judged_end);
        let rest_week = |week: i64| {
            rests.iter().any(|rest| {
                rest.span.start <= limits.week * week && limits.week * (week + 1) <= rest.span.end
            })
        };
        Search {
            limits,
            rests,
            judged_end,
            rest_weeks: (0..weeks).map(rest_week).collect(),
            hopeless: vec![Vec::new(); rests.len()],
            hopeful: vec![Vec::new(); rests.len()],
            steps: 0,
        }
    }

    /// Whether there is a reading that keeps rules 6 to 11. The later weeks are
    /// asked first, each from the best state there is: if they cannot be
    /// completed from that, nothing can.
    pub fn exists(&mut self) -> bool {
        for position in self.first_rests_of_weeks().into_iter().rev() {
            if !self.completes(position, &self.best_state(position)) {
                return false;
            }
        }
        match self.start() {
            Some(state) => self.completes(0, &state),
            None => false,
        }
    }

    /// The first reading that keeps rules 6 to 11, entry by entry: each entry
    /// is the first after which the later rests can be completed.
    pub fn first_reading(&mut self) -> Option<Vec<Entry>> {
        if !self.exists() {
            return None;
        }
        let mut state = self.start()?;
        let mut entries = Vec::new();
        for position in 0..self.rests.len() {
            let (entry, next) = self
                .first_entry(position, &state)
                .expect("a state that can be completed has a first entry");
            entries.push(entry);
            state = next;
        }
        Some(entries)
    }

    /// The first entry of this rest after which the others can be completed,
    /// where all debts of the state have their carriers.
    fn first_entry(&mut self, position: usize, state: &State) -> Option<(Entry, State)> {
        let (own, left) = self.without_promised(position, state);
        if let Some(next) = self.daily(position, state, own, left.clone()) {
            if self.completes(position + 1, &next) {
                return Some((Entry::daily(), next));
            }
        }
        for week in self.weeks_of(position) {
            let undecided = self.weekly(position, state, week, own, left.clone(), 0);
            let Some(next) = undecided.filter(|next| self.completes(position + 1, next)) else {
                continue;
            };
            if next.debts.iter().all(|debt| debt.carrier != 0) {
                return Some((Entry::weekly(week as u8, 0), next));
            }
            for carrier in self.carriers(position, week) {
                let decided = self.weekly(position, state, week, own, left.clone(), carrier);
                if let Some(next) = decided.filter(|next| self.completes(position + 1, next)) {
                    return Some((Entry::weekly(week as u8, carrier as u16), next));
                }
            }
        }
        None
    }

    /// The later rests that end no later than the due of a debt of this week.
    fn carriers(&self, position: usize, week: i64) -> std::ops::RangeInclusive<usize> {
        let due = self.limits.due(week);
        let last = self.rests.partition_point(|rest| rest.span.end <= due);
        position + 2..=last
    }

    /// Whether the rests from this position on can be chosen such that rules 6
    /// to 11 hold.
    fn completes(&mut self, position: usize, state: &State) -> bool {
        self.steps += 1;
        if position == self.rests.len() {
            return self.closes(state);
        }
        if self.is_too_late(position, state) {
            return false;
        }
        if self.hopeful[position]
            .iter()
            .any(|known| state.at_least(known))
        {
            return true;
        }
        if self.hopeless[position]
            .iter()
            .any(|known| known.at_least(state))
        {
            return false;
        }
        let completes = self
            .successors(position, state)
            .iter()
            .any(|next| self.completes(position + 1, next));
        self.remember(position, state, completes);
        completes
    }

    fn remember(&mut self, position: usize, state: &State, completes: bool) {
        if completes {
            self.hopeful[position].retain(|known| !known.at_least(state));
            self.hopeful[position].push(state.clone());
        } else {
            self.hopeless[position].retain(|known| !state.at_least(known));
            self.hopeless[position].push(state.clone());
        }
    }

    /// After the last rest: nothing is owed, and rule 10 holds up to S.
    fn closes(&self, state: &State) -> bool {
        state.debts.is_empty()
            && self.judged_end - state.weekly_end <= self.limits.between_weekly_rests
    }

    /// Rule 10 is broken at this rest whatever it is, or some debts have no
    /// carriers left that end in time.
    fn is_too_late(&self, position: usize, state: &State) -> bool {
        let rest = self.rests[position].span;
        rest.start - state.weekly_end > self.limits.between_weekly_rests
            || !(state.debts.iter()).all(|debt| self.has_places(position, &state.debts, debt.due))
    }

    /// Whether the debts due by this minute may find their places in the rests
    /// that end by then: a rest holds no more of them than fit in beside the
    /// least own of a daily rest, were each as small as the smallest.
    fn has_places(&self, position: usize, debts: &[Debt], due: i64) -> bool {
        let amounts = (debts.iter())
            .filter(|debt| debt.due <= due)
            .map(|debt| debt.amount);
        let smallest = amounts.clone().min().unwrap_or(1);
        let places: i64 = (self.rests[position..].iter())
            .take_while(|rest| rest.span.end <= due)
            .map(|rest| (rest.span.length() - self.limits.daily_rest).max(0) / smallest)
            .sum();
        amounts.count() as i64 <= places
    }

    /// Every state after this rest that no other one makes needless.
    fn successors(&self, position: usize, state: &State) -> Vec<State> {
        let (room, debts) = self.without_promised(position, state);
        let (open, promised): (Vec<Debt>, Vec<Debt>) =
            debts.into_iter().partition(|debt| debt.carrier == 0);
        let mut found = Vec::new();
        let full = self.rests[position].full_portion(self.limits);
        for least in [full, self.limits.daily_rest] {
            for payment in largest_payments(&open, room - least) {
                let own = room - payment.amount();
                let left = joined(payment.left, &promised);
                found.extend(self.daily(position, state, own, left));
            }
        }
        for week in self.weeks_of(position) {
            for payment in self.weekly_payments(week, &open, room) {
                let own = room - payment.amount();
                let left = joined(payment.left, &promised);
                found.extend(self.weekly(position, state, week, own, left, 0));
            }
        }
        found
    }

    /// The payments worth trying at a weekly rest counted in this week: those
    /// that keep it regular, then those that make it reduced.
    fn weekly_payments(&self, week: i64, open: &[Debt], room: i64) -> Vec<Payment> {
        let regular_room = room - self.limits.regular_weekly_rest;
        let reduced_room = room - self.limits.weekly_rest;
        let mut found = largest_payments(open, regular_room);
        if self.limits.due(week) > self.judged_end {
            found.extend(largest_payments(open, reduced_room));
        } else {
            let reduced = payments(open, reduced_room).into_iter();
            found.extend(reduced.filter(|payment| self.is_worth_a_debt(payment, week, room)));
        }
        found
    }

    /// Whether a payment makes the rest reduced, with a debt that must be paid,
    /// and may still be the right one. What it pays is then only put off, so a
    /// smaller payment can be better or worse. But a debt that falls due with
    /// the rest's own is no harder to pay apart from it: the payment is
    /// needless if it adds the whole of such a debt to its own.
    fn is_worth_a_debt(&self, payment: &Payment, week: i64, room: i64) -> bool {
        let own_debt = self.limits.weekly_debt(room - payment.amount());
        let due = self.limits.due(week);
        own_debt > 0 && (payment.paid.iter()).all(|debt| debt.due < due || debt.amount > own_debt)
    }

    /// The state after a daily rest, if rules 7, 9 and 11 hold so far.
    fn daily(&self, position: usize, state: &State, own: i64, debts: Vec<Debt>) -> Option<State> {
        let rest = self.rests[position];
        let reduced = rest.is_shortened(own, self.limits);
        let next = State {
            reduced_daily_rests: state.reduced_daily_rests + usize::from(reduced),
            debts,
            ..*state
        };
        let holds = own >= self.limits.daily_rest
            && next.reduced_daily_rests <= self.limits.reduced_daily_rests;
        let from = self.limits.week_of(rest.span.start);
        self.pass_weeks(next, from, self.week_after(position))
            .filter(|_| holds)
    }

    /// The state after a weekly rest counted in this week, if rules 6, 7, 8, 10
    /// and 11 hold so far. Its debt, if it has one that must be paid, is left
    /// to this carrier, or to any for 0.
    fn weekly(
        &self,
        position: usize,
        state: &State,
        week: i64,
        own: i64,
        mut debts: Vec<Debt>,
        carrier: usize,
    ) -> Option<State> {
        let rest = self.rests[position].span;
        if own < self.limits.weekly_rest
            || rest.start - state.weekly_end > self.limits.between_weekly_rests
        {
            return None;
        }
        let amount = self.limits.weekly_debt(own);
        let due = self.limits.due(week);
        if amount > 0 && (carrier != 0 || due <= self.judged_end) {
            let debt = Debt {
                amount,
                due,
                carrier,
            };
            debts.push(debt);
        }
        let next = State {
            weekly_end: rest.end,
            reduced_daily_rests: 0,
            debts,
            ..*state
        };
        let from = self.limits.week_of(rest.start);
        let mut next = self.pass_weeks(next, from, week)?;
        next.current = next.current.with(amount == 0);
        self.pass_weeks(next, week, self.week_after(position))
    }

    /// Moves the tallies on from one week to a later one; `None` if rule 11 is
    /// broken by a week that ends on the way and the week before it.
    fn pass_weeks(&self, mut state: State, from: i64, to: i64) -> Option<State> {
        for week in from..to {
            if week > 0 && !self.two_weeks_hold(week - 1, state.previous, state.current) {
                return None;
            }
            state.previous = state.current;
            state.current = Tally::default();
        }
        Some(state)
    }

    /// Rule 11: "at least two weekly rests counted, one of them regular".
    fn two_weeks_hold(&self, week: i64, first: Tally, second: Tally) -> bool {
        let first = self.tally(week, first);
        let second = self.tally(week + 1, second);
        first.weekly + second.weekly >= 2 && first.regular + second.regular >= 1
    }

    /// "A week of rest minutes only counts as holding exactly one regular
    /// weekly rest, however many are counted in it."
    fn tally(&self, week: i64, counted: Tally) -> Tally {
        if self.rest_weeks[week as usize] {
            Tally {
                weekly: 1,
                regular: 1,
            }
        } else {
            counted
        }
    }

    /// The state before the first rest, if rule 11 holds up to it.
    fn start(&self) -> Option<State> {
        let state = State {
            weekly_end: 0,
            reduced_daily_rests: 0,
            previous: Tally::default(),
            current: Tally::default(),
            debts: Vec::new(),
        };
        self.pass_weeks(state, 0, self.week_before(0))
    }

    /// A state that is at least as good as any other before this rest.
    fn best_state(&self, position: usize) -> State {
        State {
            weekly_end: self.rests[position].span.start,
            reduced_daily_rests: 0,
            previous: Tally::FULL,
            current: Tally::FULL,
            debts: Vec::new(),
        }
    }

    /// The length that the debts promised to this rest leave it, and the debts
    /// that are not promised to it.
    fn without_promised(&self, position: usize, state: &State) -> (i64, Vec<Debt>) {
        let (here, others): (Vec<Debt>, Vec<Debt>) =
            (state.debts.iter()).partition(|debt| debt.carrier == position + 1);
        let load: i64 = here.iter().map(|debt| debt.amount).sum();
        (self.rests[position].span.length() - load, others)
    }

    /// The weeks in which a weekly rest can be counted; none if it is too
    /// short to be one.
    fn weeks_of(&self, position: usize) -> std::ops::Range<i64> {
        let rest = self.rests[position].span;
        let first = self.limits.week_of(rest.start);
        if rest.length() < self.limits.weekly_rest {
            return first..first;
        }
        first..self.limits.week_of(rest.end - 1) + 1
    }

    /// The week in which the rest at this position starts; that of S after the
    /// last.
    fn week_before(&self, position: usize) -> i64 {
        match self.rests.get(position) {
            Some(rest) => self.limits.week_of(rest.span.start),
            None => self.limits.week_of(self.judged_end),
        }
    }

    fn week_after(&self, position: usize) -> i64 {
        self.week_before(position + 1)
    }

    /// The positions whose rest is the first to start in its week.
    fn first_rests_of_weeks(&self) -> Vec<usize> {
        (0..self.rests.len())
            .filter(|&position| {
                position == 0 || self.week_before(position - 1) < self.week_before(position)
            })
            .collect()
    }
}

/// The debts of both lists.
fn joined(mut debts: Vec<Debt>, others: &[Debt]) -> Vec<Debt> {
    debts.extend_from_slice(others);
    debts
}
