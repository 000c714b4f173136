//! Names, terms and predicates (document 01, "Instants, names, predicates").
//!
//! A predicate is the sum of a slice's terms; no terms means false. Letters as in the definitions:
//! n a name, s a set of failed names, t and u terms, p and q predicates.

use crate::state::ENTRY_TERMS;
use std::fmt;
use std::ops::Deref;

/// A set of names as a mask, name n being the bit of value 2^n. As a term it says that all its
/// names have failed, so the empty one is true.
pub type Term = u32;

/// Names are 0 to this one.
pub const GREATEST_NAME: u32 = 28;
/// How many names there are.
pub const NAMES: u32 = GREATEST_NAME + 1;
/// The term of all names.
pub const ALL_NAMES: Term = (1 << NAMES) - 1;

/// Whether every name of t is in s.
fn within(t: Term, s: Term) -> bool {
    t & !s == 0
}

/// Whether the failed names s make p true: s contains one of its terms.
pub fn holds(s: Term, p: &[Term]) -> bool {
    p.iter().any(|&t| within(t, s))
}

/// The sets of at most so many of the names: smaller ones first, those of one size by rising masks.
pub fn sets(names: Term, most: u32) -> Vec<Term> {
    let (mut all, mut largest) = (vec![0], vec![0]);
    for _ in 0..most {
        // A set is its highest name and a smaller set below that name.
        let highest = (0..=GREATEST_NAME).map(|n| 1 << n).filter(|name| names & name != 0);
        let with =
            |name: Term| largest.iter().take_while(move |&&s| s < name).map(move |s| s | name);
        largest = highest.flat_map(with).collect();
        all.extend(&largest);
    }
    all
}

/// The names of the terms that a set of at most so many names can contain. A set without all other
/// names makes the same predicates true.
pub fn names_within<'a>(predicates: impl Iterator<Item = &'a Predicate>, most: u32) -> Term {
    let terms = predicates.flat_map(|p| p.iter());
    terms.filter(|t| t.count_ones() <= most).fold(0, |names, t| names | t)
}

/// How many names the smallest term has; false has none.
pub fn degree(p: &[Term]) -> Option<u32> {
    p.iter().map(|t| t.count_ones()).min()
}

/// Whether each term of p contains some term of q.
pub fn implies(p: &[Term], q: &[Term]) -> bool {
    p.iter().all(|&t| holds(t, q))
}

/// p without the terms that name n; in normal form if p is.
pub fn struck(n: u32, p: &[Term]) -> Vec<Term> {
    p.iter().copied().filter(|t| t >> n & 1 == 0).collect()
}

/// p or q, in normal form.
pub fn sum(p: &[Term], q: &[Term]) -> Vec<Term> {
    normal(&[p, q].concat())
}

/// The normal form of p: masks strictly rising as numbers, no term containing another.
pub fn normal(p: &[Term]) -> Vec<Term> {
    let mut terms = p.to_vec();
    let count = normal_to_front(&mut terms);
    terms.truncate(count);
    terms
}

/// Brings the normal form to the front of the slice, and gives how many terms it has.
fn normal_to_front(p: &mut [Term]) -> usize {
    p.sort_unstable();
    let mut count = 0;
    // A term has no higher mask than one that contains it, so only those already kept can lie in t.
    for i in 0..p.len() {
        let t = p[i];
        if !holds(t, &p[..count]) {
            p[count] = t;
            count += 1;
        }
    }
    count
}

/// Whether p is in normal form. All pairs are looked at, which is faster than stopping.
pub fn is_normal(p: &[Term]) -> bool {
    let rises = p.windows(2).fold(true, |all, pair| all & (pair[0] < pair[1]));
    // Where masks rise, only an earlier term can lie in a later one.
    let holds_none = |i: usize| p[..i].iter().fold(true, |all, &u| all & !within(u, p[i]));
    rises & (1..p.len()).fold(true, |all, i| all & holds_none(i))
}

/// A predicate of up to as many terms as an entry has, held in place. It reads as the slice of its terms.
#[derive(Clone, Copy, PartialEq, Eq)]
pub struct Predicate {
    count: usize,
    /// The names that make it true alone.
    alone: Term,
    /// Zero behind the terms.
    terms: [Term; Predicate::MOST_TERMS],
}

impl Predicate {
    pub const MOST_TERMS: usize = ENTRY_TERMS;

    /// The terms as they are.
    pub fn of(p: &[Term]) -> Predicate {
        let mut terms = [0; Predicate::MOST_TERMS];
        terms[..p.len()].copy_from_slice(p);
        Predicate::of_array(p.len(), terms)
    }

    /// The first so many terms of an array that is zero behind them.
    pub fn of_array(count: usize, terms: [Term; Predicate::MOST_TERMS]) -> Predicate {
        Predicate { count, alone: names_alone(&terms[..count]), terms }
    }

    /// p or q, in normal form.
    pub fn sum(p: &[Term], q: &[Term]) -> Predicate {
        let mut terms = [0; Predicate::MOST_TERMS];
        let all = &mut terms[..p.len() + q.len()];
        all[..p.len()].copy_from_slice(p);
        all[p.len()..].copy_from_slice(q);
        let count = normal_to_front(all);
        all[count..].fill(0);
        Predicate::of_array(count, terms)
    }

    /// What is left of it once these names have failed: each term says it of its others alone. In
    /// normal form.
    pub fn after(&self, failed: Term) -> Predicate {
        let mut terms = self.terms;
        let all = &mut terms[..self.count];
        all.iter_mut().for_each(|t| *t &= !failed);
        let count = normal_to_front(all);
        all[count..].fill(0);
        Predicate::of_array(count, terms)
    }

    /// As for slices; most sets that make it true have a name that does so alone.
    pub fn holds(&self, s: Term) -> bool {
        s & self.alone != 0 || holds(s, self)
    }

    /// As for slices; most pairs differ already in what a name does alone.
    pub fn implies(&self, other: &Predicate) -> bool {
        within(self.alone, other.alone) && implies(self, other)
    }
}

/// The names that make p true alone.
fn names_alone(p: &[Term]) -> Term {
    p.iter().fold(0, |names, &t| match t {
        0 => ALL_NAMES,
        _ if t.is_power_of_two() => names | t,
        _ => names,
    })
}

impl Deref for Predicate {
    type Target = [Term];

    fn deref(&self) -> &[Term] {
        &self.terms[..self.count]
    }
}

impl fmt::Debug for Predicate {
    fn fmt(&self, f: &mut fmt::Formatter) -> fmt::Result {
        self[..].fmt(f)
    }
}
