//! The claims that a state makes, as the search for failed names wants them: its entries and its
//! held data, those with the fewest terms first. An entry has to be explained in any case, a datum
//! where its interval lacks an instant.
//!
//! Several claims are a mask, claim i being the bit of value 2^i.

use crate::instants::{Instant, Interval, GREATEST_INSTANT};
use crate::predicates::{Term, ALL_NAMES, NAMES};
use crate::state::{self, Head, ENTRY_TERMS, MOST_DATA, MOST_ENTRIES, STATE_BYTES};

const MOST: usize = MOST_DATA + MOST_ENTRIES;
// A mask has a bit for each of them.
const _: () = assert!(MOST <= u64::BITS as usize);

/// The terms of a claim that have no more names than the limit.
#[derive(Clone, Copy, Default)]
struct Claim {
    /// Those of one name, as one mask.
    alone: Term,
    /// Those of several names: their places among all of them.
    from: u16,
    to: u16,
}

impl Claim {
    /// The terms in a field of a state's bytes.
    fn of(field: &[u8], limit: u32, several: &mut Vec<Term>) -> Claim {
        let mut alone = 0;
        let from = several.len() as u16;
        for t in state::terms(field) {
            if t.is_power_of_two() {
                alone |= t;
            } else if t.count_ones() <= limit {
                several.push(t);
            }
        }
        Claim { alone, from, to: several.len() as u16 }
    }

    fn count(self) -> usize {
        self.alone.count_ones() as usize + usize::from(self.to - self.from)
    }
}

/// The names or the claims of a mask, as places.
pub fn places(mut mask: u64) -> impl Iterator<Item = usize> {
    std::iter::from_fn(move || {
        let place = mask.trailing_zeros() as usize;
        mask &= mask.wrapping_sub(1);
        (place < 64).then_some(place)
    })
}

pub struct Claims {
    claims: [Claim; MOST],
    /// Of the data.
    intervals: [Interval; MOST],
    several: Vec<Term>,
    /// By name: the claims that it explains alone.
    explains: [u64; NAMES as usize],
    pub entries: u64,
    pub data: u64,
}

impl Claims {
    /// The claims of a state in form, as they matter within a limit.
    pub fn of(bytes: &[u8; STATE_BYTES], limit: u32) -> Claims {
        let Head { held, entries, .. } = Head::of(bytes);
        let (mut read, mut several) = ([Claim::default(); MOST], vec![]);
        let fields = state::entry_rows(bytes)[..entries].iter().map(|row| &row[..]);
        let data = &state::data_rows(bytes)[..held];
        let fields = fields.chain(data.iter().map(state::terms_field));
        for (claim, field) in read.iter_mut().zip(fields) {
            *claim = Claim::of(field, limit, &mut several);
        }
        let mut claims = Claims::none(several);
        let read = &read[..entries + held];
        for (place, (&rank, &claim)) in ranks(read).iter().zip(read).enumerate() {
            claims.enter(rank.into(), claim);
            match place.checked_sub(entries) {
                None => claims.entries |= 1 << rank,
                Some(i) => {
                    claims.data |= 1 << rank;
                    claims.intervals[usize::from(rank)] = state::ends(&data[i]);
                }
            }
        }
        claims
    }

    fn none(several: Vec<Term>) -> Claims {
        Claims {
            claims: [Claim::default(); MOST],
            intervals: [Interval { left: 0, right: 0 }; MOST],
            several,
            explains: [0; NAMES as usize],
            entries: 0,
            data: 0,
        }
    }

    /// Enters a claim at its rank.
    fn enter(&mut self, rank: usize, claim: Claim) {
        self.claims[rank] = claim;
        for n in places(claim.alone.into()) {
            self.explains[n] |= 1 << rank;
        }
    }

    /// The names that each explain a claim.
    pub fn alone(&self, i: usize) -> Term {
        self.claims[i].alone
    }

    /// The claim's terms of several names.
    pub fn several(&self, i: usize) -> &[Term] {
        let Claim { from, to, .. } = self.claims[i];
        &self.several[from.into()..to.into()]
    }

    /// The claims that one of the names explains alone.
    pub fn explained_by(&self, names: Term) -> u64 {
        places(names.into()).fold(0, |claims, n| claims | self.explains[n])
    }

    /// Whether s explains a claim that none of its names explains alone.
    pub fn holds(&self, i: usize, s: Term) -> bool {
        self.several(i).iter().any(|t| t & !s == 0)
    }

    /// The names that each explain such a claim beside those of s; all where s does.
    pub fn alone_beside(&self, i: usize, s: Term) -> Term {
        self.several(i).iter().fold(self.alone(i), |names, t| {
            let more = t & !s;
            let one = if more & more.wrapping_sub(1) == 0 { more } else { 0 };
            names | one | if more == 0 { ALL_NAMES } else { 0 }
        })
    }

    /// The data whose left end is this instant or a later one.
    pub fn from_left(&self, x: Instant) -> u64 {
        places(self.data).fold(0, |late, i| late | u64::from(x <= self.intervals[i].left) << i)
    }

    /// The entries, and the data that do not contain this instant.
    pub fn without(&self, x: Instant) -> u64 {
        places(self.data).fold(self.entries, |without, i| {
            let Interval { left, right } = self.intervals[i];
            without | u64::from(x < left || right < x) << i
        })
    }

    /// The greatest left end of some data.
    pub fn greatest_left(&self, data: u64) -> Instant {
        places(data).fold(0, |left, i| left.max(self.intervals[i].left))
    }

    /// The left ends, rising, equal ones once.
    pub fn lefts(&self) -> Vec<Instant> {
        let mut lefts: Vec<Instant> = places(self.data).map(|i| self.intervals[i].left).collect();
        lefts.sort_unstable();
        lefts.dedup();
        lefts
    }

    /// Sees the intervals from the greatest end, so that right ends are left ones.
    pub fn mirror(&mut self) {
        for i in places(self.data) {
            let Interval { left, right } = self.intervals[i];
            self.intervals[i] =
                Interval { left: GREATEST_INSTANT - right, right: GREATEST_INSTANT - left };
        }
    }
}

/// By how many terms they have, the fewest first.
fn ranks(claims: &[Claim]) -> [u8; MOST] {
    let (mut starts, mut ranks) = ([0; ENTRY_TERMS + 2], [0; MOST]);
    for claim in claims {
        starts[claim.count() + 1] += 1;
    }
    for count in 1..starts.len() {
        starts[count] += starts[count - 1];
    }
    for (rank, claim) in ranks.iter_mut().zip(claims) {
        *rank = starts[claim.count()];
        starts[claim.count()] += 1;
    }
    ranks
}
