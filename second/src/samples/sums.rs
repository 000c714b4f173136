//! Seeded sums of terms to put in normal form: with equal masks, with chains of terms that contain
//! each other, with the empty term, and with any number of terms to strike.

use crate::predicates::{Term, ALL_NAMES, NAMES};
use crate::random::Random;
use crate::state::{DATUM_TERMS, ENTRY_TERMS};

/// A sum in two parts of at most as many terms as a datum has. Its terms come in any order.
pub fn parts(random: &mut Random) -> [Vec<Term>; 2] {
    let parts = match random.below(9) {
        0 | 1 => crossed(random),
        2 => around_a_name(random),
        _ => cut(random),
    };
    let places = random.below(NAMES.into()) as u32;
    parts.map(|part| part.into_iter().map(|t| turned(t, places)).collect())
}

/// A sum of any kind, cut anywhere.
fn cut(random: &mut Random) -> [Vec<Term>; 2] {
    let count = random.index(ENTRY_TERMS + 1);
    let mut sum = match random.below(6) {
        0 => any(random, count),
        1 => repeated(random, count),
        2 => chained(random, count),
        3 => with_empty(random, count),
        4 => struck_but_one(random),
        _ => struck_but_some(random),
    };
    shuffle(random, &mut sum);
    let (least, most) = (sum.len().saturating_sub(DATUM_TERMS), sum.len().min(DATUM_TERMS));
    let rest = sum.split_off(least + random.index(most - least + 1));
    [sum, rest]
}

/// Terms of few names often contain each other, those of many names seldom.
fn any(random: &mut Random, count: usize) -> Vec<Term> {
    let names = random.pick(&[2, 3, 4, 5, 6, 8, 12, NAMES, NAMES]).into();
    (0..count).map(|_| super::term(random, names)).collect()
}

/// A few masks, each as often as it comes.
fn repeated(random: &mut Random, count: usize) -> Vec<Term> {
    let few = 1 + random.index(8);
    let masks = any(random, few);
    (0..count).map(|_| random.pick(&masks)).collect()
}

/// Each term contains the one before it, or an earlier one; now and then a chain begins.
fn chained(random: &mut Random, count: usize) -> Vec<Term> {
    let mut sum = vec![];
    for _ in 0..count {
        let last = sum.last().copied().unwrap_or(0);
        let earlier = if sum.is_empty() { 0 } else { random.pick(&sum) };
        sum.push(random.pick(&[last, last, last, earlier, earlier, 0]) | small(random, 2));
    }
    sum
}

/// The empty term among others.
fn with_empty(random: &mut Random, count: usize) -> Vec<Term> {
    let mut sum = if random.once_in(2) { any(random, count) } else { chained(random, count) };
    sum.truncate(ENTRY_TERMS - 1);
    sum.push(0);
    sum
}

/// The most terms, all but one to be struck: by a small term, by equal masks or by the empty term.
fn struck_but_one(random: &mut Random) -> Vec<Term> {
    let t = small(random, 2);
    let (kept, mut sum) = match random.below(3) {
        0 => (t, (1..ENTRY_TERMS).map(|_| t | small(random, 3)).collect()),
        1 => (t, vec![t; ENTRY_TERMS - 1]),
        _ => (0, any(random, ENTRY_TERMS - 1)),
    };
    sum.push(kept);
    sum
}

/// Terms that stay, and any number of others to strike, which contain or repeat one before them.
fn struck_but_some(random: &mut Random) -> Vec<Term> {
    let struck = random.index(ENTRY_TERMS);
    let kept = 1 + random.index(ENTRY_TERMS - struck);
    let mut sum = apart(random, vec![], kept);
    for _ in 0..struck {
        let more = small(random, 3);
        sum.push(random.pick(&sum) | random.pick(&[0, more, more, more]));
    }
    sum
}

/// Two parts in which no term contains another of the same part. Any number of terms contain one of
/// the other part, but not all of either. The second has a single name, such as a sender's.
fn crossed(random: &mut Random) -> [Vec<Term>; 2] {
    let fewer = [(); 2].map(|()| 1 + random.index(DATUM_TERMS));
    let sizes = random.pick(&[[DATUM_TERMS; 2], fewer]);
    let struck = random.index(sizes[0] + sizes[1] - 1);
    let (least, most) = ((struck + 1).saturating_sub(sizes[1]), struck.min(sizes[0] - 1));
    let of_first = least + random.index(most - least + 1);
    let kept = [sizes[0] - of_first, sizes[1] - (struck - of_first)];
    let single = vec![1 << random.below(NAMES.into())];
    let mut second = apart(random, single, kept[1] + kept[0]);
    let first = second.split_off(kept[1]);
    [containing(random, &first, &second, sizes[0]), containing(random, &second, &first, sizes[1])]
}

/// The same, but that any number of the second part's terms have one name, such as a sender's.
fn around_a_name(random: &mut Random) -> [Vec<Term>; 2] {
    let (of_first, struck) = (1 + random.index(DATUM_TERMS), 1 + random.index(DATUM_TERMS));
    let kept = random.index(DATUM_TERMS - struck + 1);
    let (first, second) = (apart(random, vec![], of_first), apart(random, vec![], kept));
    let name = 1 << random.below(NAMES.into());
    [first, containing(random, &second, &[name], kept + struck)]
}

/// So many terms apart: those of one part, and others that contain or repeat one of the other part.
fn containing(random: &mut Random, part: &[Term], other: &[Term], count: usize) -> Vec<Term> {
    let mut part = part.to_vec();
    // Beside a term that is repeated there may be no room for so many.
    let mut trials = 0..16 * count;
    while part.len() < count && trials.next().is_some() {
        let more = small(random, 2);
        let t = random.pick(other) | if random.once_in(32) { 0 } else { more };
        if is_apart(t, &part) {
            part.push(t);
        }
    }
    shuffle(random, &mut part);
    part
}

/// The terms with others that make them so many, none of which contains another.
fn apart(random: &mut Random, mut terms: Vec<Term>, count: usize) -> Vec<Term> {
    while terms.len() < count {
        let t = small(random, 3);
        if is_apart(t, &terms) {
            terms.push(t);
        }
    }
    terms
}

/// Whether t contains none of the terms and lies in none.
fn is_apart(t: Term, terms: &[Term]) -> bool {
    terms.iter().all(|&u| t & u != t && t & u != u)
}

/// A term of one name to so many.
fn small(random: &mut Random, most: u64) -> Term {
    (0..1 + random.below(most)).fold(0, |t, _| t | 1 << random.below(NAMES.into()))
}

/// The term with each name moved up by so many places, the last ones to the front.
fn turned(t: Term, places: u32) -> Term {
    (t << places | t >> (NAMES - places)) & ALL_NAMES
}

fn shuffle(random: &mut Random, terms: &mut [Term]) {
    for i in 1..terms.len() {
        terms.swap(i, random.index(i + 1));
    }
}
