//! What was seen of a monitor: what became of its receipts, and how it answered.

use crate::asking::{ANSWER_BYTES, GREATEST_LIMIT};
use crate::instants::{Instant, MILLION};
use crate::refusal;
use crate::state::{MOST_DATA, MOST_ENTRIES};
use std::collections::BTreeMap;

const LIMITS: usize = GREATEST_LIMIT as usize + 1;

#[derive(Clone, Debug, Default, PartialEq, Eq)]
pub struct Seen {
    /// Receipts by their number; 0 is taken.
    pub numbers: BTreeMap<u32, u64>,
    /// Refused receipts that would have brought a higher epoch.
    pub rises_refused: u64,
    /// By limit.
    pub answers: [Answers; LIMITS],
    /// At the end.
    pub held: usize,
    pub entries: usize,
    /// Advances and delays that were within their bounds, and those that were not.
    pub kept: u64,
    pub strayed: u64,
}

/// The answers at one limit.
#[derive(Clone, Debug, Default, PartialEq, Eq)]
pub struct Answers {
    /// How far apart the ends of those were that had ends, in microseconds.
    pub widths: Vec<u64>,
    /// Where no more names have failed than the limit, by what is in the asked monitor's book, and
    /// it has not lied itself: none can be wrong.
    pub promised: Counts,
    pub others: Counts,
}

#[derive(Clone, Copy, Debug, Default, PartialEq, Eq)]
pub struct Counts {
    pub open: u64,
    /// Between two ends, with true time inside.
    pub inside: u64,
    /// Between two ends, with true time outside.
    pub outside: u64,
    pub contradicted: u64,
}

impl Counts {
    pub fn asked(self) -> u64 {
        self.open + self.inside + self.wrong()
    }

    pub fn wrong(self) -> u64 {
        self.outside + self.contradicted
    }

    pub fn and(self, other: Counts) -> Counts {
        Counts {
            open: self.open + other.open,
            inside: self.inside + other.inside,
            outside: self.outside + other.outside,
            contradicted: self.contradicted + other.contradicted,
        }
    }
}

impl Answers {
    /// All of them.
    pub fn all(&self) -> Counts {
        self.promised.and(self.others)
    }

    /// The median width, of those that had ends.
    pub fn width(&self) -> Option<u64> {
        let mut widths = self.widths.clone();
        widths.sort_unstable();
        widths.get(widths.len() / 2).copied()
    }
}

impl Seen {
    /// Enters whether an advance or a delay was within its bounds.
    pub fn keeps(&mut self, within: bool) {
        self.kept += u64::from(within);
        self.strayed += u64::from(!within);
    }

    /// Enters a receipt's number, and whether it came with a higher epoch.
    pub fn received(&mut self, number: u32, rise: bool) {
        *self.numbers.entry(number).or_default() += 1;
        self.rises_refused += u64::from(rise && number != refusal::TAKEN);
    }

    /// Enters an answer's bytes: kind, left and right (document 01, "State bytes").
    pub fn answered(&mut self, limit: u32, out: [u8; ANSWER_BYTES], time: Instant, promised: bool) {
        let [kind, left, right] =
            std::array::from_fn(|i| u64::from_le_bytes(*out[8 * i..].first_chunk().expect("8")));
        let answers = &mut self.answers[limit as usize];
        let counts = if promised { &mut answers.promised } else { &mut answers.others };
        let ends = [left, right].map(|end| Instant::from(end) * MILLION);
        match kind {
            0 => counts.contradicted += 1,
            1 => counts.open += 1,
            _ if ends[0] <= time && time <= ends[1] => counts.inside += 1,
            _ => counts.outside += 1,
        }
        if kind > 1 {
            answers.widths.push(right - left);
        }
    }

    pub fn receipts(&self) -> u64 {
        self.numbers.values().sum()
    }

    /// How many receipts had a number.
    pub fn number(&self, number: u32) -> u64 {
        self.numbers.get(&number).copied().unwrap_or(0)
    }

    /// Those that cannot be wrong, at all limits.
    pub fn promised(&self) -> Counts {
        self.answers.iter().fold(Counts::default(), |sum, answers| sum.and(answers.promised))
    }

    /// The others, at all limits.
    pub fn others(&self) -> Counts {
        self.answers.iter().fold(Counts::default(), |sum, answers| sum.and(answers.others))
    }

    /// Whether all places for data were in use at the end, and all for entries.
    pub fn full(&self) -> [bool; 2] {
        [self.held == MOST_DATA, self.entries == MOST_ENTRIES]
    }

    /// What was seen of all of them; what they had at the end is left out.
    pub fn sum(all: &[Seen]) -> Seen {
        let mut sum = Seen::default();
        for seen in all {
            for (&number, count) in &seen.numbers {
                *sum.numbers.entry(number).or_default() += count;
            }
            sum.rises_refused += seen.rises_refused;
            sum.kept += seen.kept;
            sum.strayed += seen.strayed;
            for (into, from) in sum.answers.iter_mut().zip(&seen.answers) {
                into.widths.extend(&from.widths);
                into.promised = into.promised.and(from.promised);
                into.others = into.others.and(from.others);
            }
        }
        sum
    }
}
