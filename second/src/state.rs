//! The state and its bytes (document 01, "State bytes"; document 02, W-201, W-204 and W-205).

use crate::clocks::{Saved, Triple, GREATEST_CLOCK};
use crate::epochs::{Epochs, FIRST_EPOCHS, GREATEST_EPOCH};
use crate::instants::{joined, split, Instant, Interval, GREATEST_INSTANT, MILLION};
use crate::predicates::{is_normal, Predicate, Term, ALL_NAMES, GREATEST_NAME, NAMES};
use crate::refusal;

// ---- sizes and places: no other file has their numbers

/// How many bytes a state has.
pub const STATE_BYTES: usize = epoch_at(NAMES);
pub const GREATEST_DRIFT: u32 = 1_000;
pub const GREATEST_READING: u64 = (1 << 58) - 1;
pub const MOST_DATA: usize = 16;
pub const MOST_ENTRIES: usize = 32;
/// A datum has 1 to so many terms.
pub const DATUM_TERMS: usize = 8;
/// An entry has 1 to so many terms: it is the sum of two data's.
pub const ENTRY_TERMS: usize = 2 * DATUM_TERMS;

// In the state.
pub const OWN_AT: usize = 0;
pub const DRIFT_AT: usize = 4;
pub const READING_AT: usize = 8;
pub const HELD_COUNT_AT: usize = 16;
pub const ENTRY_COUNT_AT: usize = 20;
pub const DATA_AT: usize = 24;
pub const ENTRIES_AT: usize = datum_at(MOST_DATA);
pub const CLOCKS_AT: usize = entry_at(MOST_ENTRIES);
pub const EPOCHS_AT: usize = clock_at(NAMES);

// In a datum: its left end's whole microseconds stand first, from the term count on it is as an
// entry, and the millionths of both ends stand last.
pub const RIGHT_AT: usize = 8;
pub const TERM_COUNT_AT: usize = 16;
pub const LEFT_MILLIONTHS_AT: usize = TERM_COUNT_AT + MASKS_AT + MASK_BYTES * DATUM_TERMS;
pub const RIGHT_MILLIONTHS_AT: usize = LEFT_MILLIONTHS_AT + 4;
pub const DATUM_BYTES: usize = RIGHT_MILLIONTHS_AT + 4;
/// A fraction has 0 to so many millionths.
pub const GREATEST_MILLIONTHS: u32 = MILLION as u32 - 1;

// In an entry: its term count stands first.
pub const MASKS_AT: usize = 4;
pub const MASK_BYTES: usize = 4;
pub const ENTRY_BYTES: usize = MASKS_AT + MASK_BYTES * ENTRY_TERMS;

// In a name's place: a flag stands first, then the three triples.
pub const TRIPLES_AT: usize = 4;
pub const TRIPLE_BYTES: usize = 3 * 8;
pub const CLOCK_BYTES: usize = TRIPLES_AT + 3 * TRIPLE_BYTES;

/// Where the datum of a position begins; behind the last one the entries do.
pub const fn datum_at(position: usize) -> usize {
    DATA_AT + DATUM_BYTES * position
}

/// Where the entry of a position begins; behind the last one the names' places do.
pub const fn entry_at(position: usize) -> usize {
    ENTRIES_AT + ENTRY_BYTES * position
}

/// Where the place of a name begins, for what is saved of its clock; behind the last one the epochs
/// do.
pub const fn clock_at(name: u32) -> usize {
    CLOCKS_AT + CLOCK_BYTES * name as usize
}

/// Where an identifier's epoch stands, in one byte; behind the last one the state ends.
pub const fn epoch_at(identifier: u32) -> usize {
    EPOCHS_AT + identifier as usize
}

// The sums as documents 01 and 02 have them.
const _: () = assert!(DATUM_BYTES == 60 && ENTRY_BYTES == 68 && CLOCK_BYTES == 76);
const _: () = assert!(ENTRIES_AT == 984 && CLOCKS_AT == 3_160);
const _: () = assert!(EPOCHS_AT == 5_364 && STATE_BYTES == 5_393);

// ---- states

/// True time is in the interval, or the predicate is true.
#[derive(Clone, Copy, Debug, PartialEq, Eq)]
pub struct Datum {
    pub interval: Interval,
    pub predicate: Predicate,
}

impl Datum {
    /// The datum of two ends in order, in whole microseconds, and of a predicate's terms.
    pub fn of(left: u64, right: u64, p: &[Term]) -> Datum {
        Datum::exact(joined(left, 0), joined(right, 0), p)
    }

    /// The same with ends in millionths.
    pub fn exact(left: Instant, right: Instant, p: &[Term]) -> Datum {
        Datum { interval: Interval { left, right }, predicate: Predicate::of(p) }
    }
}

#[derive(Clone, Debug, PartialEq, Eq)]
pub struct State {
    pub own: u32,
    pub drift: u32,
    pub reading: u64,
    /// Oldest first.
    pub held: Vec<Datum>,
    /// Oldest first.
    pub entries: Vec<Predicate>,
    pub clocks: Clocks,
    /// Those that are known, the own one among them.
    pub epochs: Epochs,
}

/// What is saved of each name's clock; the own one's place is like the others.
pub type Clocks = [Option<Saved>; NAMES as usize];
/// Nothing is saved.
pub const NO_CLOCKS: Clocks = [None; NAMES as usize];

impl State {
    /// A state that holds nothing, every epoch being the first.
    pub fn fresh(own: u32, drift: u32, reading: u64) -> State {
        let (held, entries) = (vec![], vec![]);
        State { own, drift, reading, held, entries, clocks: NO_CLOCKS, epochs: FIRST_EPOCHS }
    }

    /// The same with other epochs for some identifiers.
    pub fn at(mut self, epochs: &[(u32, u8)]) -> State {
        for &(identifier, epoch) in epochs {
            self.epochs[identifier as usize] = epoch;
        }
        self
    }

    /// The state in lent bytes, or 24 and 25 in this order.
    pub fn of(lent: &[u8]) -> Result<State, u32> {
        checked(lent).map(State::decoded)
    }

    /// The state in bytes that are in form.
    pub fn decoded(bytes: &[u8; STATE_BYTES]) -> State {
        let head = Head::of(bytes);
        State {
            own: head.own,
            drift: head.drift,
            reading: head.reading,
            held: data_rows(bytes)[..head.held].iter().map(datum).collect(),
            entries: entry_rows(bytes)[..head.entries].iter().map(|row| predicate(row)).collect(),
            clocks: std::array::from_fn(|name| saved(&clock_rows(bytes)[name])),
            epochs: *epochs(bytes),
        }
    }

    /// Its bytes, into the front of those that are lent.
    pub fn encode(&self, lent: &mut [u8]) {
        let bytes = lent.first_chunk_mut::<STATE_BYTES>().expect("room for a state");
        bytes.fill(0);
        put_u32(bytes, OWN_AT, self.own);
        put_u32(bytes, DRIFT_AT, self.drift);
        put_reading(bytes, self.reading);
        put_u32(bytes, HELD_COUNT_AT, self.held.len() as u32);
        put_u32(bytes, ENTRY_COUNT_AT, self.entries.len() as u32);
        let (data, entries) = bytes.split_at_mut(ENTRIES_AT);
        let (entries, clocks) = entries.split_at_mut(CLOCKS_AT - ENTRIES_AT);
        let (clocks, epochs) = clocks.split_at_mut(EPOCHS_AT - CLOCKS_AT);
        epochs.copy_from_slice(&self.epochs);
        for (row, datum) in data[DATA_AT..].chunks_exact_mut(DATUM_BYTES).zip(&self.held) {
            put_ends(row, datum.interval);
            put_predicate(&mut row[TERM_COUNT_AT..LEFT_MILLIONTHS_AT], &datum.predicate);
        }
        for (row, entry) in entries.chunks_exact_mut(ENTRY_BYTES).zip(&self.entries) {
            put_predicate(row, entry);
        }
        for (row, clock) in clocks.chunks_exact_mut(CLOCK_BYTES).zip(&self.clocks) {
            if let Some(saved) = clock {
                put_saved(row, saved);
            }
        }
    }

    /// Its bytes and nothing more.
    pub fn bytes(&self) -> Vec<u8> {
        let mut bytes = vec![0; STATE_BYTES];
        self.encode(&mut bytes);
        bytes
    }
}

/// The numbers before the data.
pub struct Head {
    pub own: u32,
    pub drift: u32,
    pub reading: u64,
    pub held: usize,
    pub entries: usize,
}

impl Head {
    pub fn of(bytes: &[u8; STATE_BYTES]) -> Head {
        Head {
            own: u32_at(bytes, OWN_AT),
            drift: u32_at(bytes, DRIFT_AT),
            reading: u64_at(bytes, READING_AT),
            held: u32_at(bytes, HELD_COUNT_AT) as usize,
            entries: u32_at(bytes, ENTRY_COUNT_AT) as usize,
        }
    }

    fn in_form(&self) -> bool {
        self.own <= GREATEST_NAME
            && self.drift <= GREATEST_DRIFT
            && self.reading <= GREATEST_READING
            && self.held <= MOST_DATA
            && self.entries <= MOST_ENTRIES
    }
}

/// The bytes of the state that is lent: 24 if they are too few, 25 if they are out of form.
pub fn checked(lent: &[u8]) -> Result<&[u8; STATE_BYTES], u32> {
    let bytes = lent.first_chunk::<STATE_BYTES>().ok_or(refusal::BUFFER)?;
    in_form(bytes).then_some(bytes).ok_or(refusal::STATE)
}

/// Whether ranges, counts and terms are as they should be, and zero is all that is unused.
pub fn in_form(bytes: &[u8; STATE_BYTES]) -> bool {
    let head = Head::of(bytes);
    if !head.in_form() {
        return false;
    }
    let (data, no_data) = data_rows(bytes).split_at(head.held);
    let (entries, no_entries) = entry_rows(bytes).split_at(head.entries);
    all_zero(no_data.as_flattened())
        && all_zero(no_entries.as_flattened())
        && data.iter().all(|row| datum_in_form(row, head.own))
        && entries.iter().all(|row| terms_in_form(row, head.own))
        && clock_rows(bytes).iter().all(clock_in_form)
        && epochs(bytes).iter().fold(true, |all, &epoch| all & (epoch <= GREATEST_EPOCH))
}

fn datum_in_form(row: &[u8; DATUM_BYTES], own: u32) -> bool {
    let Interval { left, right } = ends(row);
    left <= right
        && right <= GREATEST_INSTANT
        && millionths(row).iter().all(|&millionths| millionths <= GREATEST_MILLIONTHS)
        && terms_in_form(terms_field(row), own)
}

/// Whether a count and the masks behind it are: 1 term to as many as there are places, in normal
/// form, none of them empty or naming more than the other names; and zeros in the places left.
fn terms_in_form(field: &[u8], own: u32) -> bool {
    let count = u32_at(field, 0) as usize;
    let places = (field.len() - MASKS_AT) / MASK_BYTES;
    if count == 0 || count > places {
        return false;
    }
    let masks = masks(field);
    let (terms, unused) = masks.split_at(count);
    let names = terms.iter().fold(0, |names, &t| names | t);
    // In normal form only the first term can be empty.
    terms[0] != 0
        && names & !(ALL_NAMES & !(1 << own)) == 0
        && is_normal(terms)
        && unused.iter().fold(0, |any, &mask| any | mask) == 0
}

/// Whether a name's place is: flag 0 and nothing, or flag 1 and nine numbers in their range, in
/// whatever order.
fn clock_in_form(row: &[u8; CLOCK_BYTES]) -> bool {
    // The range ends at a power of 2, so that the bits of all numbers tell.
    let any = row[TRIPLES_AT..].as_chunks().0.iter().fold(0, |any, &n| any | u64::from_le_bytes(n));
    match u32_at(row, 0) {
        0 => any == 0,
        1 => any <= GREATEST_CLOCK,
        _ => false,
    }
}

/// Whether every byte is; all of them are looked at, which is faster than stopping.
fn all_zero(bytes: &[u8]) -> bool {
    bytes.iter().fold(0, |any, &byte| any | byte) == 0
}

// ---- rows

pub fn data_rows(bytes: &[u8; STATE_BYTES]) -> &[[u8; DATUM_BYTES]] {
    bytes[DATA_AT..ENTRIES_AT].as_chunks().0
}

pub fn entry_rows(bytes: &[u8; STATE_BYTES]) -> &[[u8; ENTRY_BYTES]] {
    bytes[ENTRIES_AT..entry_at(MOST_ENTRIES)].as_chunks().0
}

fn clock_rows(bytes: &[u8; STATE_BYTES]) -> &[[u8; CLOCK_BYTES]] {
    bytes[CLOCKS_AT..EPOCHS_AT].as_chunks().0
}

/// The known epochs, by identifier.
pub fn epochs(bytes: &[u8; STATE_BYTES]) -> &Epochs {
    bytes[EPOCHS_AT..].first_chunk().expect("an epoch for each identifier")
}

/// The rows of the held data in bytes that are in form, to change their ends.
pub fn held_rows_mut(bytes: &mut [u8; STATE_BYTES]) -> &mut [[u8; DATUM_BYTES]] {
    let held = Head::of(bytes).held;
    bytes[DATA_AT..datum_at(held)].as_chunks_mut().0
}

/// The held datum at a position in bytes that are in form, 0 being the oldest.
pub fn held_at(bytes: &[u8; STATE_BYTES], position: u64) -> Option<Datum> {
    let held = &data_rows(bytes)[..Head::of(bytes).held];
    held.get(usize::try_from(position).ok()?).map(datum)
}

fn datum(row: &[u8; DATUM_BYTES]) -> Datum {
    Datum { interval: ends(row), predicate: predicate(terms_field(row)) }
}

/// Left and right of a row, whether in order and range or not.
pub fn ends(row: &[u8; DATUM_BYTES]) -> Interval {
    let [left, right] = millionths(row);
    Interval { left: joined(u64_at(row, 0), left), right: joined(u64_at(row, RIGHT_AT), right) }
}

/// The fractions of left and right, as they stand.
fn millionths(row: &[u8; DATUM_BYTES]) -> [u32; 2] {
    [u32_at(row, LEFT_MILLIONTHS_AT), u32_at(row, RIGHT_MILLIONTHS_AT)]
}

pub fn put_ends(row: &mut [u8], Interval { left, right }: Interval) {
    let places = [(left, 0, LEFT_MILLIONTHS_AT), (right, RIGHT_AT, RIGHT_MILLIONTHS_AT)];
    for (end, whole_at, millionths_at) in places {
        let (whole, millionths) = split(end);
        put_u64(row, whole_at, whole);
        put_u32(row, millionths_at, millionths);
    }
}

pub fn put_reading(bytes: &mut [u8; STATE_BYTES], reading: u64) {
    put_u64(bytes, READING_AT, reading);
}

/// The count and the masks in a datum's row, as an entry's row has them.
pub fn terms_field(row: &[u8; DATUM_BYTES]) -> &[u8] {
    &row[TERM_COUNT_AT..LEFT_MILLIONTHS_AT]
}

/// The terms that a count and the masks behind it give, as they stand in bytes that are in form.
pub fn terms(field: &[u8]) -> impl Iterator<Item = Term> + '_ {
    let masks = &field[MASKS_AT..].as_chunks().0[..u32_at(field, 0) as usize];
    masks.iter().map(|&mask| u32::from_le_bytes(mask))
}

/// The same terms as a predicate.
fn predicate(field: &[u8]) -> Predicate {
    Predicate::of_array(u32_at(field, 0) as usize, masks(field))
}

fn put_predicate(field: &mut [u8], p: &[Term]) {
    put_u32(field, 0, p.len() as u32);
    for (place, t) in field[MASKS_AT..].chunks_exact_mut(MASK_BYTES).zip(p) {
        place.copy_from_slice(&t.to_le_bytes());
    }
}

/// The masks behind a count, and zeros where a datum has no more places.
fn masks(field: &[u8]) -> [Term; ENTRY_TERMS] {
    let mut masks = [0; ENTRY_TERMS];
    for (mask, place) in masks.iter_mut().zip(field[MASKS_AT..].as_chunks().0) {
        *mask = u32::from_le_bytes(*place);
    }
    masks
}

/// What is saved in a name's place that is in form.
fn saved(row: &[u8; CLOCK_BYTES]) -> Option<Saved> {
    let [previous, ahead, behind] =
        [0, 1, 2].map(|i| triple(&row[TRIPLES_AT + TRIPLE_BYTES * i..]));
    (u32_at(row, 0) == 1).then_some(Saved { previous, ahead, behind })
}

fn triple(field: &[u8]) -> Triple {
    Triple { a: u64_at(field, 0), b: u64_at(field, 8), w: u64_at(field, 16) }
}

fn put_saved(row: &mut [u8], saved: &Saved) {
    put_u32(row, 0, 1);
    for (field, triple) in row[TRIPLES_AT..].chunks_exact_mut(TRIPLE_BYTES).zip(saved.triples()) {
        put_u64(field, 0, triple.a);
        put_u64(field, 8, triple.b);
        put_u64(field, 16, triple.w);
    }
}

// ---- numbers

fn u32_at(bytes: &[u8], at: usize) -> u32 {
    u32::from_le_bytes(*bytes[at..].first_chunk().expect("four bytes"))
}

fn u64_at(bytes: &[u8], at: usize) -> u64 {
    u64::from_le_bytes(*bytes[at..].first_chunk().expect("eight bytes"))
}

fn put_u32(bytes: &mut [u8], at: usize, number: u32) {
    *bytes[at..].first_chunk_mut().expect("four bytes") = number.to_le_bytes();
}

fn put_u64(bytes: &mut [u8], at: usize, number: u64) {
    *bytes[at..].first_chunk_mut().expect("eight bytes") = number.to_le_bytes();
}
