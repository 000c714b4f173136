//! Ends by their order alone. The steps of receiving compare ends and choose among them, no more:
//! in a state that has whole microseconds in their place, each end's rank among all, the same comes
//! of a receipt without delay. So fractions are checked by what whole microseconds do.

use crate::instants::{split, Instant, Interval};
use crate::state::State;

/// The ends, rising, equal ones once.
pub struct Ranks(Vec<Instant>);

impl Ranks {
    /// Of a state's ends and those of one interval more.
    pub fn of(state: &State, more: Interval) -> Ranks {
        let intervals = state.held.iter().map(|datum| datum.interval).chain([more]);
        let mut ends: Vec<Instant> = intervals.flat_map(|i| [i.left, i.right]).collect();
        ends.sort_unstable();
        ends.dedup();
        Ranks(ends)
    }

    /// The interval of the ranks.
    pub fn lowered(&self, interval: Interval) -> Interval<u64> {
        let rank = |end: Instant| self.0.binary_search(&end).expect("one of the ends") as u64;
        Interval { left: rank(interval.left), right: rank(interval.right) }
    }

    /// The interval that has these ranks.
    fn raised(&self, ranks: Interval) -> Interval {
        let end = |rank: Instant| self.0[split(rank).0 as usize];
        Interval { left: end(ranks.left), right: end(ranks.right) }
    }

    /// The state with ranks for ends.
    pub fn lowered_state(&self, state: &State) -> State {
        with_intervals(state, |interval| self.lowered(interval).exact())
    }

    /// The state whose ends have these ranks.
    pub fn raised_state(&self, state: &State) -> State {
        with_intervals(state, |ranks| self.raised(ranks))
    }
}

fn with_intervals(state: &State, change: impl Fn(Interval) -> Interval) -> State {
    let mut state = state.clone();
    for datum in &mut state.held {
        datum.interval = change(datum.interval);
    }
    state
}
