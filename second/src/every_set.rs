//! Asking and fewest failures as document 01 words them ("Asking"): every set within the limit is
//! tried. Slow, and so short that it can be read against the paper; `asking` is compared with it.
//!
//! Letters as in `predicates`: s is a set of failed names.

use crate::asking::GREATEST_LIMIT;
use crate::instants::Instants;
use crate::predicates::{names_within, sets, Term};
use crate::state::State;

/// The instants that count for s: it makes every entry true, and each held interval whose
/// predicate it leaves false contains them.
pub fn counting(s: Term, state: &State) -> Instants {
    if !state.entries.iter().all(|entry| entry.holds(s)) {
        return Instants::Empty;
    }
    let left_false = state.held.iter().filter(|datum| !datum.predicate.holds(s));
    left_false.fold(Instants::All, |instants, datum| instants.meet(datum.interval))
}

/// The sets within the limit that can differ in what counts: a state in form has no term with the
/// own name, and names of no term within the limit change nothing.
fn sets_for(state: &State, limit: u32) -> Vec<Term> {
    let data = state.held.iter().map(|datum| &datum.predicate);
    let names = names_within(data.chain(&state.entries), limit);
    sets(names & !(1 << state.own), limit)
}

/// The answer over a state: all that counts for some set within the limit, and the gaps. None is
/// 'contradicted', all is 'open': where no set leaves all instants, each one's are bounded.
pub fn ask(state: &State, limit: u32) -> Instants {
    let sets = sets_for(state, limit).into_iter();
    sets.fold(Instants::Empty, |all, s| all.join(counting(s, state)))
}

/// The smallest set within the greatest limit for which an instant counts, and of those the least
/// mask; none is 'over'.
pub fn fewest(state: &State) -> Option<Term> {
    let sets = sets_for(state, GREATEST_LIMIT).into_iter();
    let mut counts = sets.filter(|&s| counting(s, state) != Instants::Empty);
    // In the order of the sets the smallest come first, and of those the least mask.
    counts.next()
}
