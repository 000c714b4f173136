//! Instants and intervals (document 01, "Instants, names, predicates"; document 02, W-205), and the
//! instants that are left to true time.
//!
//! Messages and answers have whole microseconds; all else counts millionths of them, in one wide
//! number.

/// A whole count of millionths of a microsecond, negative ones too.
pub type Instant = i128;

/// So many of them are a microsecond.
pub const MILLION: Instant = 1_000_000;
/// Stored ends lie from 0 to this one, in whole microseconds.
pub const GREATEST_END: u64 = (1 << 58) - 1;
/// The same as an instant: with a fraction it would be past the greatest.
pub const GREATEST_INSTANT: Instant = GREATEST_END as Instant * MILLION;

/// The instant of whole microseconds and millionths beyond them.
pub fn joined(whole: u64, millionths: u32) -> Instant {
    Instant::from(whole) * MILLION + Instant::from(millionths)
}

/// Whole microseconds and the millionths beyond them, of an instant that is not negative and can be
/// stored, or is less than a microsecond past that. By long division with digits of 32 bits, since
/// wide numbers are slow to divide.
pub fn split(x: Instant) -> (u64, u32) {
    const BY: u64 = MILLION as u64;
    let high = (x >> 32) as u64;
    let low = high % BY << 32 | u64::from(x as u32);
    ((high / BY << 32) + low / BY, (low % BY) as u32)
}

/// Whether the fraction alone tells two stored ends apart.
pub fn by_fraction(one: Instant, other: Instant) -> bool {
    // Most are further apart, and seen to be without a division.
    one != other && (one - other).abs() < MILLION && split(one).0 == split(other).0
}

/// From `left` to `right`, both included.
#[derive(Clone, Copy, Debug, PartialEq, Eq)]
pub struct Interval<End = Instant> {
    pub left: End,
    pub right: End,
}

/// In whole microseconds, as messages have it.
impl Interval<u64> {
    /// The interval of two ends; none if left is above right or an end cannot be stored.
    pub fn of_ends(left: u64, right: u64) -> Option<Interval<u64>> {
        (left <= right && right <= GREATEST_END).then_some(Interval { left, right })
    }

    /// The ends being centre less and plus half width; none if an end cannot be stored.
    pub fn of_centre(centre: u64, half: u64) -> Option<Interval<u64>> {
        Interval::of_ends(centre.checked_sub(half)?, centre.checked_add(half)?)
    }

    /// The same in millionths.
    pub fn exact(self) -> Interval {
        Interval { left: joined(self.left, 0), right: joined(self.right, 0) }
    }
}

impl Interval {
    /// Left plus least and right plus greatest; none if an end would pass the greatest one.
    pub fn advanced(self, least: Instant, greatest: Instant) -> Option<Interval> {
        let Interval { left, right } = self;
        let aged = Interval { left: left + least, right: right + greatest };
        (aged.left.max(aged.right) <= GREATEST_INSTANT).then_some(aged)
    }

    /// In whole microseconds, as answers and messages round it: left down and right up.
    pub fn rounded(self) -> Interval<u64> {
        Interval { left: split(self.left).0, right: split(self.right + MILLION - 1).0 }
    }

    /// Whether the two have no instant in common.
    pub fn disjoint(self, other: Interval) -> bool {
        self.right < other.left || other.right < self.left
    }

    /// Whether every instant of this one is in the other.
    pub fn within(self, other: Interval) -> bool {
        other.left <= self.left && self.right <= other.right
    }

    /// The intersection of two that are not disjoint.
    pub fn meet(self, other: Interval) -> Interval {
        Interval { left: self.left.max(other.left), right: self.right.min(other.right) }
    }
}

/// Instants that true time may have: negative ones too, so a single interval never leaves all of
/// them.
#[derive(Clone, Copy, Debug, PartialEq, Eq)]
pub enum Instants {
    Empty,
    All,
    /// From the first to the second, both included.
    Between(Instant, Instant),
}

impl Instants {
    /// Those that are in the interval too.
    pub fn meet(self, Interval { left, right }: Interval) -> Instants {
        match self {
            Instants::Empty => Instants::Empty,
            Instants::All => Instants::Between(left, right),
            Instants::Between(a, b) if a.max(left) > b.min(right) => Instants::Empty,
            Instants::Between(a, b) => Instants::Between(a.max(left), b.min(right)),
        }
    }

    /// Those that an advance by a whole count of millionths from least to greatest leads to.
    pub fn advanced(self, least: Instant, greatest: Instant) -> Instants {
        match self {
            Instants::Between(a, b) => Instants::Between(a + least, b + greatest),
            same => same,
        }
    }

    /// From the least to the greatest of both; a gap belongs to it.
    pub fn join(self, other: Instants) -> Instants {
        match (self, other) {
            (Instants::Empty, one) | (one, Instants::Empty) => one,
            (Instants::Between(a, b), Instants::Between(c, d)) => {
                Instants::Between(a.min(c), b.max(d))
            }
            _ => Instants::All,
        }
    }

    /// Whether each of them is in the other.
    pub fn within(self, other: Instants) -> bool {
        match (self, other) {
            (Instants::Empty, _) | (_, Instants::All) => true,
            (Instants::Between(a, b), Instants::Between(c, d)) => c <= a && b <= d,
            _ => false,
        }
    }
}
