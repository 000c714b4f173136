//! Hill climbing to states that are dear to ask: they stay in form, whether calls would reach them
//! or not.

use crate::instants::Interval;
use crate::predicates::{normal, Predicate, Term, GREATEST_NAME};
use crate::random::Random;
use crate::state::{Datum, State, DATUM_TERMS, ENTRY_TERMS, MOST_DATA, MOST_ENTRIES};

/// How far to climb.
#[derive(Clone, Copy)]
pub struct Climb {
    pub seed: u64,
    /// So many states to start from; the dearest after a tenth of the steps goes on.
    pub starts: u64,
    pub steps: usize,
}

/// The own name; terms have those below it.
const OWN: u32 = GREATEST_NAME;
/// Ends lie below it.
const SPAN: u64 = 64;

impl Climb {
    /// The dearest state that was found, by what a state's bytes cost.
    pub fn worst(self, mut cost: impl FnMut(&[u8]) -> f64) -> State {
        let starts = (0..self.starts).map(|start| {
            let mut random = Random::new(self.seed + start);
            let state = first(&mut random);
            climbed(&mut random, state, self.steps / 10, &mut cost)
        });
        let (best, _) = starts.max_by(|a, b| a.1.total_cmp(&b.1)).expect("a start");
        climbed(&mut Random::new(!self.seed), best, self.steps, &mut cost).0
    }
}

/// A state after so many steps, of which those are taken that make it no cheaper, and its cost.
fn climbed(
    random: &mut Random,
    mut state: State,
    steps: usize,
    cost: &mut impl FnMut(&[u8]) -> f64,
) -> (State, f64) {
    let mut dearest = cost(&state.bytes());
    for step in 0..steps {
        if step % 32 == 0 {
            // A time that was long by chance would stop the climb.
            dearest = dearest.min(cost(&state.bytes()));
        }
        let mut other = state.clone();
        for _ in 0..random.pick(&[1, 1, 1, 2, 4]) {
            change(random, &mut other);
        }
        let bytes = other.bytes();
        if cost(&bytes) >= dearest {
            let again = cost(&bytes);
            if again >= dearest {
                (state, dearest) = (other, again);
            }
        }
    }
    (state, dearest)
}

/// A state with all places in use, its terms of sizes that differ from start to start.
fn first(random: &mut Random) -> State {
    let mut state = State::fresh(OWN, 0, 0);
    let most = 1 + random.below(4);
    state.held = (0..MOST_DATA).map(|_| datum(random, most)).collect();
    let entries = random.pick(&[0, 4, MOST_ENTRIES, MOST_ENTRIES]);
    state.entries = (0..entries).map(|_| predicate(random, most, ENTRY_TERMS)).collect();
    state
}

fn datum(random: &mut Random, most: u64) -> Datum {
    Datum { interval: interval(random), predicate: predicate(random, most, DATUM_TERMS) }
}

fn interval(random: &mut Random) -> Interval {
    let (one, other) = (random.below(SPAN), random.below(SPAN));
    let (one, other) = (super::end_within(random, one), super::end_within(random, other));
    Interval { left: one.min(other), right: one.max(other) }
}

/// So many terms at most, each of so many names at most.
fn predicate(random: &mut Random, most: u64, count: usize) -> Predicate {
    let terms: Vec<Term> = (0..count).map(|_| term(random, most)).collect();
    in_form(&terms, count)
}

fn term(random: &mut Random, most: u64) -> Term {
    (0..1 + random.below(most)).fold(0, |t, _| t | 1 << random.below(OWN.into()))
}

/// The terms in normal form, so many at most; there is one that is not empty.
fn in_form(terms: &[Term], count: usize) -> Predicate {
    let mut terms = normal(terms);
    terms.truncate(count);
    Predicate::of(&terms)
}

/// One change to an entry, to a datum or to how many there are.
fn change(random: &mut Random, state: &mut State) {
    match random.below(8) {
        0..=3 if !state.entries.is_empty() => {
            let place = random.index(state.entries.len());
            let other = random.pick(&state.entries);
            let p = &mut state.entries[place];
            *p = changed(random, p, &other, ENTRY_TERMS);
        }
        4 | 5 if !state.held.is_empty() => {
            let place = random.index(state.held.len());
            let other = random.pick(&state.held).predicate;
            let p = &mut state.held[place].predicate;
            *p = changed(random, p, &other, DATUM_TERMS);
        }
        6 if !state.held.is_empty() => {
            let place = random.index(state.held.len());
            state.held[place].interval = interval(random);
        }
        _ => count(random, state),
    }
}

/// A predicate with one term more, less or other, or another whole one.
fn changed(random: &mut Random, p: &Predicate, other: &Predicate, count: usize) -> Predicate {
    let mut terms = p.to_vec();
    let most = 1 + random.below(4);
    let place = random.index(terms.len());
    match random.below(6) {
        0 => return in_form(other, count),
        1 => return predicate(random, most, count),
        2 if terms.len() > 1 => drop(terms.remove(place)),
        3 => terms[place] = term(random, most),
        4 => terms[place] = random.pick(other),
        // The highest masks would be cut, so one goes for the one that comes.
        _ if terms.len() == count => terms[place] = term(random, most),
        _ => terms.push(term(random, most)),
    }
    in_form(&terms, count)
}

/// A datum or an entry more or less.
fn count(random: &mut Random, state: &mut State) {
    let most = 1 + random.below(4);
    match random.below(4) {
        0 if state.held.len() < MOST_DATA => state.held.push(datum(random, most)),
        1 if state.entries.len() < MOST_ENTRIES => {
            state.entries.push(predicate(random, most, ENTRY_TERMS));
        }
        2 if state.held.len() > 1 => {
            let place = random.index(state.held.len());
            state.held.remove(place);
        }
        _ if !state.entries.is_empty() => {
            let place = random.index(state.entries.len());
            state.entries.remove(place);
        }
        _ => {}
    }
}
