//! Seeded states: in form, whether calls would reach them or not, and damaged ones.

use crate::epochs::GREATEST_EPOCH;
use crate::instants::{Instant, Interval, GREATEST_END};
use crate::predicates::{normal, Predicate, Term, ALL_NAMES, GREATEST_NAME, NAMES};
use crate::random::Random;
use crate::state::{
    clock_at, datum_at, epoch_at, Datum, State, CLOCKS_AT, CLOCK_BYTES, DATA_AT, DATUM_BYTES,
    DATUM_TERMS, DRIFT_AT, ENTRIES_AT, ENTRY_BYTES, ENTRY_COUNT_AT, ENTRY_TERMS, EPOCHS_AT,
    GREATEST_DRIFT, GREATEST_MILLIONTHS, GREATEST_READING, HELD_COUNT_AT, LEFT_MILLIONTHS_AT,
    MOST_DATA, MOST_ENTRIES, OWN_AT, READING_AT, RIGHT_AT, RIGHT_MILLIONTHS_AT, STATE_BYTES,
    TERM_COUNT_AT, TRIPLES_AT,
};

/// Any state in form: data under one predicate, entries that imply each other or data, disjoint
/// data without an entry are all in form.
pub fn in_form(random: &mut Random) -> State {
    let own = random.below(NAMES.into()) as u32;
    let drift = random.below(u64::from(GREATEST_DRIFT) + 1) as u32;
    let reading = random.below(GREATEST_READING + 1);
    let names = random.pick(&[3, 4, 5, 8, NAMES]).into();
    let small = random.once_in(2);
    // Entries of few names would explain most data away.
    let most_entries = random.pick(&[0, MOST_ENTRIES]);
    State {
        own,
        drift: random.pick(&[0, 1, 100, drift, GREATEST_DRIFT]),
        reading: random.pick(&[0, 7, reading, GREATEST_READING - 5, GREATEST_READING]),
        held: (0..count(random, MOST_DATA)).map(|_| datum(random, own, names, small)).collect(),
        entries: (0..count(random, most_entries))
            .map(|_| predicate(random, own, names, ENTRY_TERMS))
            .collect(),
        clocks: super::clocks::clocks(random),
        epochs: super::epochs(random),
    }
}

/// A count up to the most, often near one of its ends.
fn count(random: &mut Random, most: usize) -> usize {
    let any = random.index(most + 1);
    random.pick(&[0, 1, 3, any, most.saturating_sub(1), most]).min(most)
}

fn datum(random: &mut Random, own: u32, names: u64, small: bool) -> Datum {
    let mut end = || if small { random.below(40) } else { super::end(random) };
    let (one, other) = (end(), end());
    // Now and then in one microsecond.
    let other = random.pick(&[one, other, other, other]);
    let (one, other) = (super::end_within(random, one), super::end_within(random, other));
    Datum {
        interval: Interval { left: one.min(other), right: one.max(other) },
        predicate: predicate(random, own, names, DATUM_TERMS),
    }
}

/// 1 term to the most, in normal form, without the own name.
fn predicate(random: &mut Random, own: u32, names: u64, most: usize) -> Predicate {
    let few = random.once_in(2);
    let count = 1 + random.index(if few { 2 } else { 2 * most });
    let others = ALL_NAMES & !(1 << own);
    let terms = (0..count).map(|_| super::term(random, names) & others);
    let mut terms = normal(&terms.filter(|&t| t != 0).collect::<Vec<Term>>());
    terms.truncate(most);
    if terms.is_empty() {
        terms.push(1 << ((own + 1) % NAMES));
    }
    Predicate::of(&terms)
}

// ---- states to ask

/// What a state to ask is drawn from: most data lie around one instant, and few failures often
/// explain the others and the entries.
struct Suspects {
    /// All that terms name.
    names: Vec<u32>,
    /// The first so many of them may have failed.
    failed: usize,
    /// Ends lie in so many microseconds from here on.
    base: u64,
    span: u64,
    instant: Instant,
}

impl Suspects {
    fn new(random: &mut Random, own: u32) -> Suspects {
        let mut others: Vec<u32> = (0..=GREATEST_NAME).filter(|&n| n != own).collect();
        let count = random.pick(&[2, 3, 4, 5, 6, 6, 8, 8, 12, others.len()]);
        let names = (0..count).map(|_| others.swap_remove(random.index(others.len())));
        let names = names.collect();
        let base = random.pick(&[0, 0, 1 << 29, GREATEST_END - 40]);
        // In a single one only the fractions differ.
        let span = random.pick(&[1, 3, 8, 41]);
        let failed = random.index(6).min(count);
        let mut suspects = Suspects { names, failed, base, span, instant: 0 };
        suspects.instant = suspects.end(random);
        suspects
    }

    fn end(&self, random: &mut Random) -> Instant {
        let whole = self.base + random.below(self.span);
        super::end_within(random, whole)
    }

    /// A term of at most so many of the names.
    fn term(&self, random: &mut Random, most: usize) -> Term {
        (0..most).fold(0, |t, _| t | 1 << random.pick(&self.names))
    }

    /// 1 term to the most, in normal form; one of them of failed names if it is to be explained.
    fn predicate(&self, random: &mut Random, most: usize, explained: bool) -> Predicate {
        let any = random.index(most);
        let count = random.pick(&[0, 0, 1, any, 2 * most]);
        // Where single names are terms, they leave few others.
        let sizes = random.pick(&[&[1, 1, 2, 2, 3, 4, 5, 6][..], &[2, 2, 2, 3, 3, 4, 6]]);
        let sizes: Vec<usize> = (0..count).map(|_| random.pick(sizes)).collect();
        let mut terms: Vec<Term> = sizes.iter().map(|&size| self.term(random, size)).collect();
        if explained && self.failed > 0 || terms.is_empty() {
            let failed = &self.names[..self.failed.max(1)];
            let size = random.pick(&[1, 1, 2, 2, 3, 4]);
            terms.push((0..size).fold(0, |t, _| t | 1 << random.pick(failed)));
        }
        let mut terms = normal(&terms);
        while terms.len() > most {
            terms.remove(random.index(terms.len()));
        }
        Predicate::of(&terms)
    }

    /// A datum that the instant is in, or now and then one to be explained.
    fn datum(&self, random: &mut Random) -> Datum {
        let (one, other) = (self.end(random), self.end(random));
        let (mut left, mut right) = (one.min(other), one.max(other));
        let astray = random.once_in(4);
        if !astray {
            (left, right) = (left.min(self.instant), right.max(self.instant));
        }
        let explained = astray && !random.once_in(20);
        Datum {
            interval: Interval { left, right },
            predicate: self.predicate(random, DATUM_TERMS, explained),
        }
    }
}

/// Any state in form, made so that its answers differ. Now and then a predicate is one of those
/// before it, or implies it, or is implied by it.
pub fn to_ask(random: &mut Random) -> State {
    let own = random.below(NAMES.into()) as u32;
    let suspects = Suspects::new(random, own);
    let drift = random.below(u64::from(GREATEST_DRIFT) + 1) as u32;
    let mut state = State::fresh(own, drift, random.below(1_000));
    let most_entries = random.pick(&[0, 3, MOST_ENTRIES]);
    for _ in 0..count(random, most_entries) {
        let explained = !random.once_in(60);
        let p = suspects.predicate(random, ENTRY_TERMS, explained);
        state.entries.push(related(random, p, &state, ENTRY_TERMS));
    }
    for _ in 0..count(random, MOST_DATA) {
        let datum = suspects.datum(random);
        let predicate = related(random, datum.predicate, &state, DATUM_TERMS);
        state.held.push(Datum { predicate, ..datum });
    }
    state.clocks = super::clocks::clocks(random);
    state.epochs = super::epochs(random);
    state
}

/// The predicate; now and then one before it, which may gain one of its terms or lose some.
fn related(random: &mut Random, p: Predicate, state: &State, most: usize) -> Predicate {
    let data = state.held.iter().map(|datum| datum.predicate);
    let before: Vec<Predicate> = data.chain(state.entries.iter().copied()).collect();
    if before.is_empty() || !random.once_in(6) {
        return p;
    }
    let mut terms = random.pick(&before).to_vec();
    match random.below(3) {
        0 => {}
        1 => terms = normal(&[&terms[..], &p[..1]].concat()),
        _ => terms.truncate(1 + random.index(terms.len())),
    }
    terms.truncate(most);
    Predicate::of(&terms)
}

// ---- damage

/// Places of numbers: those of the head, and the first term counts.
const NUMBERS: [usize; 7] = [
    OWN_AT,
    DRIFT_AT,
    READING_AT + 4,
    HELD_COUNT_AT,
    ENTRY_COUNT_AT,
    DATA_AT + TERM_COUNT_AT,
    ENTRIES_AT,
];

/// One damage to the bytes of a state; it may leave them in form.
pub fn damage(random: &mut Random, bytes: &mut [u8]) {
    let at = place(random, bytes);
    let word = word_at(at);
    let small = random.index(MOST_ENTRIES + 2) as u32;
    match random.below(10) {
        0 | 1 => bytes[at] ^= 1 << random.below(8),
        2 => bytes[at] = bytes[at].wrapping_add(random.pick(&[1, 255])),
        3 => put(bytes, word, random.pick(&[0, 1, small, 1 << 28, 1 << 29, u32::MAX])),
        4 => put(bytes, word, random.bits() as u32),
        5 => put(bytes, random.pick(&NUMBERS), small),
        6 => damage_clock(random, bytes),
        7 => damage_epoch(random, bytes),
        8 => damage_fraction(random, bytes),
        _ => {
            let from = word_at(place(random, bytes));
            bytes.copy_within(from..from + 4, word);
        }
    }
}

/// One damage to a name's place: its flag, or a number about the greatest.
pub fn damage_clock(random: &mut Random, bytes: &mut [u8]) {
    let from = clock_at(random.below(NAMES.into()) as u32);
    // The greatest number has ones up to bit 42, which is bit 10 of its high half.
    let (number, high) = (TRIPLES_AT + 8 * random.index(9), random.pick(&[0, 1, 2047, 2048, 4095]));
    match random.below(3) {
        0 => put(bytes, from, random.pick(&[0, 1, 2, 3, 256, 1 << 31])),
        1 => put(bytes, from + number + 4, high),
        _ => bytes[from + random.index(CLOCK_BYTES)] ^= 1 << random.below(8),
    }
}

/// Another epoch, about the greatest or far above it.
pub fn damage_epoch(random: &mut Random, bytes: &mut [u8]) {
    let at = epoch_at(random.below(NAMES.into()) as u32);
    let (most, any) = (GREATEST_EPOCH, random.bits() as u8);
    bytes[at] = random.pick(&[most, most, most + 1, most + 1, 32, 64, 128, 255, any, any & most]);
}

/// Other ends for a datum: a fraction about the greatest or far above it, one where there is no
/// datum, the two fractions or the wholes changed round, both ends in one microsecond, or the right
/// one in the greatest, with or without its fraction.
pub fn damage_fraction(random: &mut Random, bytes: &mut [u8]) {
    let held = usize::from(bytes[HELD_COUNT_AT]).clamp(1, MOST_DATA);
    let (place, any_place) = (random.index(held), random.index(MOST_DATA));
    let row = datum_at(random.pick(&[place, place, place, any_place]));
    let (left, right) = (row + LEFT_MILLIONTHS_AT, row + RIGHT_MILLIONTHS_AT);
    let (most, any) = (GREATEST_MILLIONTHS, random.bits() as u32);
    match random.below(6) {
        0 | 1 => {
            let edges = [0, 1, most - 1, most, most, most + 1, most + 1, most + 2, u32::MAX, any];
            put(bytes, random.pick(&[left, right]), random.pick(&edges));
        }
        2 => (0..4).for_each(|i| bytes.swap(left + i, right + i)),
        3 => bytes.copy_within(row..row + 8, row + RIGHT_AT),
        4 => (0..8).for_each(|i| bytes.swap(row + i, row + RIGHT_AT + i)),
        _ => {
            bytes[row + RIGHT_AT..][..8].copy_from_slice(&GREATEST_END.to_le_bytes());
            put(bytes, right, random.pick(&[0, 0, 1, most, any % (most + 1)]));
        }
    }
}

/// The four bytes of a state that a place is in; the last ones are counted from its end.
fn word_at(place: usize) -> usize {
    (place / 4 * 4).min(STATE_BYTES - 4)
}

/// A place in the head, in the data or entries that are held, in the names' places, among the
/// epochs, or anywhere.
fn place(random: &mut Random, bytes: &[u8]) -> usize {
    let data = DATUM_BYTES * usize::from(bytes[HELD_COUNT_AT]).clamp(1, MOST_DATA);
    let entries = ENTRY_BYTES * usize::from(bytes[ENTRY_COUNT_AT]).clamp(1, MOST_ENTRIES);
    let (clocks, whole) = ((CLOCKS_AT, EPOCHS_AT - CLOCKS_AT), (0, STATE_BYTES));
    let (rows, epochs) =
        ([(DATA_AT, data), (ENTRIES_AT, entries), clocks], (EPOCHS_AT, NAMES as usize));
    let (from, len) = random.pick(&[(0, DATA_AT), rows[0], rows[1], rows[2], epochs, whole]);
    from + random.index(len)
}

fn put(bytes: &mut [u8], at: usize, number: u32) {
    bytes[at..at + 4].copy_from_slice(&number.to_le_bytes());
}
