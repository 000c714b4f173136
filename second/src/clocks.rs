//! The sender's clock (document 02, W-201): test (20) of document 002, 3.3.2, and what is saved of a
//! sender's readings.
//!
//! Letters as in the request: a is the sender's clock reading, b the own one, w the half width.

use crate::state::GREATEST_DRIFT;

/// a, b and w lie from 0 to this one.
pub const GREATEST_CLOCK: u64 = (1 << 43) - 1;

/// The readings of one receipt: the message was sent at a on the sender's clock, at b give or take
/// w on the own one.
#[derive(Clone, Copy, Debug, PartialEq, Eq)]
pub struct Triple {
    pub a: u64,
    pub b: u64,
    pub w: u64,
}

impl Triple {
    pub fn of(a: u64, b: u64, w: u64) -> Triple {
        Triple { a, b, w }
    }

    fn fits(self) -> bool {
        [self.a, self.b, self.w].iter().all(|&number| number <= GREATEST_CLOCK)
    }

    /// a − b + w.
    pub fn ahead(self) -> i128 {
        i128::from(self.a) - i128::from(self.b) + i128::from(self.w)
    }

    /// b − a + w.
    pub fn behind(self) -> i128 {
        i128::from(self.b) - i128::from(self.a) + i128::from(self.w)
    }
}

/// What the host gives with a receipt: the triple, and the sender's drift in parts per million.
#[derive(Clone, Copy, Debug, PartialEq, Eq)]
pub struct Readings {
    pub triple: Triple,
    pub drift: u32,
}

impl Readings {
    pub fn of(a: u64, b: u64, w: u64, drift: u32) -> Readings {
        Readings { triple: Triple { a, b, w }, drift }
    }

    /// Whether every number is in its range.
    pub fn fit(self) -> bool {
        self.triple.fits() && self.drift <= GREATEST_DRIFT
    }
}

/// By how much the left side of test (20) is above the right one, both times 1,000,000. The drifts
/// are the sum of both clocks'; a b below the other counts by its distance.
pub fn excess(first: Triple, second: Triple, drifts: u32) -> i128 {
    let [a1, b1, w1] = [first.a, first.b, first.w].map(i128::from);
    let [a2, b2, w2] = [second.a, second.b, second.w].map(i128::from);
    let left = ((b2 - b1).abs() - (a2 - a1)).abs() * 1_000_000;
    let right = i128::from(drifts) * (a2 - a1).abs() + 1_000_000 * (w1 + w2);
    left - right
}

/// The three triples that are saved of a sender.
#[derive(Clone, Copy, Debug, PartialEq, Eq)]
pub struct Saved {
    pub previous: Triple,
    /// The one with the largest a − b + w.
    pub ahead: Triple,
    /// The one with the largest b − a + w.
    pub behind: Triple,
}

impl Saved {
    pub fn first(triple: Triple) -> Saved {
        Saved { previous: triple, ahead: triple, behind: triple }
    }

    /// With a later triple: on a tie the earlier one stays.
    pub fn with(self, new: Triple) -> Saved {
        Saved {
            previous: new,
            ahead: if new.ahead() > self.ahead.ahead() { new } else { self.ahead },
            behind: if new.behind() > self.behind.behind() { new } else { self.behind },
        }
    }

    /// In the order of the state's bytes.
    pub fn triples(self) -> [Triple; 3] {
        [self.previous, self.ahead, self.behind]
    }

    /// What test (20) comes to against each of the three; above 0 is a violation.
    pub fn excesses(self, new: Triple, drifts: u32) -> [i128; 3] {
        self.triples().map(|old| excess(old, new, drifts))
    }

    /// Whether the new triple violates test (20) against one of the three.
    pub fn violated_by(self, new: Triple, drifts: u32) -> bool {
        self.excesses(new, drifts).iter().any(|&excess| excess > 0)
    }
}
