//! The state's bytes in every call, by both programs: each condition of the form broken on its own,
//! every bit flipped, damaged fractions, damaged places of the senders' clocks, damaged epochs,
//! lengths, and any bytes.

use second::asking::ANSWER_BYTES;
use second::branches::Branches;
use second::calls::Call;
use second::clocks::{Readings, Saved, Triple, GREATEST_CLOCK};
use second::epochs::GREATEST_EPOCH;
use second::instants::{joined, GREATEST_END};
use second::lent::Lent;
use second::message::{Message, MESSAGE_BYTES};
use second::predicates::{Predicate, Term, ALL_NAMES, GREATEST_NAME, NAMES};
use second::random::Random;
use second::samples::{clocks, end_within, epochs, report, states};
use second::state::{
    clock_at, datum_at, entry_at, epoch_at, Datum, State, CLOCK_BYTES, DATUM_BYTES, DATUM_TERMS,
    DRIFT_AT, ENTRY_BYTES, ENTRY_COUNT_AT, ENTRY_TERMS, GREATEST_DRIFT, GREATEST_READING,
    HELD_COUNT_AT, LEFT_MILLIONTHS_AT, MASKS_AT, MASK_BYTES, MOST_DATA, MOST_ENTRIES, OWN_AT,
    READING_AT, RIGHT_AT, RIGHT_MILLIONTHS_AT, STATE_BYTES, TERM_COUNT_AT, TRIPLES_AT,
};
use std::cmp::Ordering;
use std::collections::BTreeMap;

// ---- what is compared

/// Runs a call in both programs on lent bytes, with an output of so many.
fn number(bytes: &[u8], call: &Call, len: usize) -> u32 {
    let mut random = Random::new(len as u64);
    let (mut state, filled) = (Lent::new(bytes, &mut random), random.bytes(len));
    let mut out = Lent::new(&filled, &mut random);
    let number = call.both(&mut state, &mut out, &mut Branches::default());
    number.unwrap_or_else(|fault| panic!("{fault}: {call:?} in {:?}", State::of(bytes)))
}

/// Those that look at the state, with arguments that any state in form takes, unless the readings
/// violate test (20) and there is no place for an entry.
fn sound_calls(bytes: &[u8]) -> [Call; 3] {
    let reading = u64::from_le_bytes(*bytes[READING_AT..].first_chunk().expect("eight bytes"));
    let sender = u32::from(bytes[OWN_AT] == 1) + 1;
    let epoch = bytes[epoch_at(sender)].min(GREATEST_EPOCH);
    let message = Message::of(sender, 0, 9, &[0]).at(&[(sender, epoch)]).bytes();
    let readings = Some(Readings::of(7, 7, GREATEST_CLOCK, GREATEST_DRIFT));
    let receive = |readings| {
        let message = message.clone();
        Call::Receive { least: 0, greatest: 0, readings, message }
    };
    [Call::Age { reading }, receive(None), receive(readings)]
}

/// Those that look at the state, with flaws that are tested later.
fn flawed_calls() -> [Call; 4] {
    let past = Some(Readings::of(u64::MAX, u64::MAX, u64::MAX, u32::MAX));
    [
        Call::Age { reading: GREATEST_READING + 1 },
        Call::Receive { least: 1, greatest: 0, readings: None, message: vec![] },
        Call::Receive { least: 0, greatest: 0, readings: past, message: vec![] },
        Call::Write { position: 99 },
    ]
}

fn refused(bytes: &[u8], wanted: u32) {
    for call in sound_calls(bytes).into_iter().chain(flawed_calls()) {
        assert_eq!(number(bytes, &call, 0), wanted, "{call:?}");
    }
    for len in [0, MESSAGE_BYTES] {
        assert_eq!(number(bytes, &Call::Write { position: 0 }, len), wanted, "monitor_write");
    }
}

/// Out of form, and so in all calls but setting up; too short comes first.
fn out_of_form(bytes: &[u8]) {
    refused(bytes, 25);
    refused(&[bytes, &[1; 9]].concat(), 25);
    refused(&bytes[..STATE_BYTES - 1], 24);
    let set_up = Call::SetUp { own: 5, drift: 100, reading: 1_000, epoch: 0 };
    assert_eq!(number(bytes, &set_up, 0), 0);
}

fn in_form(bytes: &[u8]) {
    let held = bytes[HELD_COUNT_AT].into();
    let [age, receive, with_readings] = sound_calls(bytes);
    for call in [age, receive] {
        assert_eq!(number(bytes, &call, 0), 0, "{call:?}");
    }
    let full = usize::from(bytes[ENTRY_COUNT_AT]) == MOST_ENTRIES;
    let number_with = number(bytes, &with_readings, 0);
    assert!(number_with == 0 || full && number_with == 32, "{with_readings:?}");
    for position in 0..=MOST_DATA as u64 {
        let wanted = if position < held { 0 } else { 23 };
        assert_eq!(number(bytes, &Call::Write { position }, MESSAGE_BYTES), wanted);
    }
}

// ---- states to start with

/// Pairs of name 1 with others: so many terms in normal form, without name 5.
fn terms(count: usize) -> Vec<Term> {
    (8..8 + count).map(|n| 2 | 1 << n).collect()
}

/// Own name 5, with a datum and an entry for each term count.
fn rows(data: &[usize], entries: &[usize]) -> State {
    State {
        held: data.iter().map(|&count| Datum::of(10, 20, &terms(count))).collect(),
        entries: entries.iter().map(|&count| Predicate::of(&terms(count))).collect(),
        ..State::fresh(5, 100, 1_000)
    }
}

fn some() -> State {
    rows(&[DATUM_TERMS, 3, 1], &[ENTRY_TERMS, 2, 1])
}

fn full() -> State {
    rows(&[DATUM_TERMS; MOST_DATA], &[ENTRY_TERMS; MOST_ENTRIES])
}

/// As many rows as there are places, with unused masks.
fn full_of_few() -> State {
    rows(&[3; MOST_DATA], &[2; MOST_ENTRIES])
}

/// With something saved of the names 0, 1 and 28, and at the own name's place.
fn watched() -> State {
    let mut state = some();
    for (name, a) in [(0, 0), (1, 1_000), (5, 5), (28, GREATEST_CLOCK - 9)] {
        let saved = Saved::first(Triple::of(a, a + 2, 8)).with(Triple::of(a + 3, a + 9, 4));
        state.clocks[name] = Some(saved.with(Triple::of(a + 9, a + 8, 4)));
    }
    state
}

/// How many names have something saved there.
const WATCHED: usize = 4;

fn all() -> [State; 5] {
    [State::fresh(0, 0, 0), some(), full(), full_of_few(), watched()]
}

/// The place of a datum's term count.
fn term_count_at(i: usize) -> usize {
    datum_at(i) + TERM_COUNT_AT
}

/// The bytes with others put in.
fn changed(state: &State, at: usize, put: &[u8]) -> Vec<u8> {
    let mut bytes = state.bytes();
    bytes[at..at + put.len()].copy_from_slice(put);
    bytes
}

// ---- in form

#[test]
fn state_all_zero_is_in_form() {
    let zeros = [0; STATE_BYTES];
    in_form(&zeros);
    let message = Message::of(1, 1, 2, &[]).bytes();
    for readings in [None, Some(Readings::of(3, 4, 5, 6))] {
        let message = message.clone();
        let receive = Call::Receive { least: 0, greatest: 0, readings, message };
        assert_eq!(number(&zeros, &receive, 0), 0);
    }
    assert_eq!(number(&zeros, &Call::Age { reading: GREATEST_END }, 0), 0);
}

#[test]
fn state_with_every_count_of_data_and_entries_is_in_form() {
    all().iter().for_each(|state| in_form(&state.bytes()));
    let State { held, entries, .. } = full();
    for count in 0..=MOST_DATA {
        let held = held[..count].to_vec();
        let entries = entries[..count * MOST_ENTRIES / MOST_DATA].to_vec();
        in_form(&State { held, entries, ..full() }.bytes());
        in_form(&rows(&[1; MOST_DATA][..count], &[]).bytes());
    }
    (1..=DATUM_TERMS).for_each(|count| in_form(&rows(&[count], &[]).bytes()));
    (1..=ENTRY_TERMS).for_each(|count| in_form(&rows(&[], &[count]).bytes()));
}

#[test]
fn state_with_numbers_at_their_edges_is_in_form() {
    let (name, drift) = (GREATEST_NAME, GREATEST_DRIFT);
    let edges = [(0, 0, 0), (name, drift, GREATEST_READING), (name, 0, 0), (0, drift, 0)];
    for (own, drift, reading) in edges {
        let all = ALL_NAMES & !(1 << own);
        for (left, right) in [(0, 0), (0, GREATEST_END), (GREATEST_END, GREATEST_END)] {
            let held = vec![Datum::of(left, right, &[all])];
            let entries = vec![Predicate::of(&[all])];
            in_form(&State { held, entries, ..State::fresh(own, drift, reading) }.bytes());
        }
    }
}

#[test]
fn state_that_no_calls_reach_is_in_form() {
    // Two data under one predicate, data that an entry implies, entries that imply each other,
    // disjoint data without an entry.
    let mut state = rows(&[1, 1, 1], &[1, 1, 2]);
    state.held.push(Datum::of(30, 40, &[4]));
    in_form(&state.bytes());
}

#[test]
fn state_any_in_form_is_taken_as_such() {
    for seed in 0..5_000 {
        in_form(&states::in_form(&mut Random::new(seed)).bytes());
    }
}

// ---- each condition broken on its own

#[test]
fn state_own_name_above_28_is_25() {
    let near = (NAMES..NAMES + 5).collect::<Vec<_>>();
    let far = [64, 255, 256, 256 + 5, 65_536 + 5, 1 << 31, u32::MAX];
    for own in [&near[..], &far].concat() {
        for state in all() {
            out_of_form(&changed(&state, OWN_AT, &own.to_le_bytes()));
        }
    }
}

#[test]
fn state_drift_above_1000_is_25() {
    let most = GREATEST_DRIFT;
    for drift in [most + 1, most + 2, 1_024, 65_536, 65_536 + 5, 1 << 31, u32::MAX] {
        for state in all() {
            out_of_form(&changed(&state, DRIFT_AT, &drift.to_le_bytes()));
        }
    }
}

#[test]
fn state_reading_of_2_to_the_58_is_25() {
    for reading in [GREATEST_READING + 1, GREATEST_READING + 2, 1 << 59, 1 << 63, u64::MAX] {
        for state in all() {
            out_of_form(&changed(&state, READING_AT, &reading.to_le_bytes()));
        }
    }
}

#[test]
fn state_held_count_above_16_or_not_that_of_the_rows_is_25() {
    let most = MOST_DATA as u32;
    let put = |state: &State, count: u32| changed(state, HELD_COUNT_AT, &count.to_le_bytes());
    for count in [most + 1, most + 2, 2 * most, 255, 256, 256 + 3, 65_536 + 3, 1 << 31, u32::MAX] {
        for state in all() {
            out_of_form(&put(&state, count));
        }
    }
    (0..most).for_each(|count| out_of_form(&put(&full(), count)));
    for count in [0, 1, 2, 4, 5, most] {
        out_of_form(&put(&some(), count));
    }
}

#[test]
fn state_entry_count_above_32_or_not_that_of_the_rows_is_25() {
    let most = MOST_ENTRIES as u32;
    let put = |state: &State, count: u32| changed(state, ENTRY_COUNT_AT, &count.to_le_bytes());
    for count in [most + 1, most + 2, 2 * most, 255, 256, 256 + 3, 65_536 + 3, 1 << 31, u32::MAX] {
        for state in all() {
            out_of_form(&put(&state, count));
        }
    }
    (0..most).for_each(|count| out_of_form(&put(&full(), count)));
    for count in [0, 1, 2, 4, 5, most] {
        out_of_form(&put(&some(), count));
    }
}

#[test]
fn state_ends_out_of_order_or_range_are_25() {
    let top = GREATEST_END;
    let ends = [
        (21, 20),
        (1, 0),
        (1 << 32, 20),
        (top, top - 1),
        (10, top + 1),
        (top + 1, top + 1),
        (0, 1 << 63),
        (0, u64::MAX),
        (u64::MAX, 20),
        (u64::MAX, u64::MAX),
    ];
    for (left, right) in ends {
        let put = [u64::to_le_bytes(left), u64::to_le_bytes(right)].concat();
        (0..3).for_each(|i| out_of_form(&changed(&some(), datum_at(i), &put)));
        (0..MOST_DATA).for_each(|i| out_of_form(&changed(&full(), datum_at(i), &put)));
    }
}

// ---- fractions

/// The row at a position with these ends: whole microseconds and millionths of each.
fn with_ends(state: &State, i: usize, left: (u64, u32), right: (u64, u32)) -> Vec<u8> {
    let mut bytes = changed(state, datum_at(i), &left.0.to_le_bytes());
    let mut put = |at: usize, number: &[u8]| {
        bytes[datum_at(i) + at..][..number.len()].copy_from_slice(number);
    };
    put(RIGHT_AT, &right.0.to_le_bytes());
    put(LEFT_MILLIONTHS_AT, &left.1.to_le_bytes());
    put(RIGHT_MILLIONTHS_AT, &right.1.to_le_bytes());
    bytes
}

#[test]
fn state_fraction_of_999_999_is_in_form_and_1_000_000_is_25() {
    let (last, past) = (999_999, [1_000_000, 1_000_001, 1 << 20, 1 << 24, 1 << 31, u32::MAX]);
    for state in [some(), full(), watched()] {
        for i in 0..state.held.len() {
            for millionths in [0, 1, 500_000, last] {
                in_form(&with_ends(&state, i, (10, millionths), (20, 0)));
                in_form(&with_ends(&state, i, (10, 0), (20, millionths)));
                in_form(&with_ends(&state, i, (10, millionths), (20, last)));
            }
            for millionths in past {
                out_of_form(&with_ends(&state, i, (10, millionths), (20, 0)));
                out_of_form(&with_ends(&state, i, (10, 0), (20, millionths)));
                // Compared as one number the ends would be in order.
                out_of_form(&with_ends(&state, i, (10, millionths), (u64::from(millionths), 0)));
            }
        }
    }
}

#[test]
fn state_ends_in_one_microsecond_are_compared_by_their_fractions() {
    for whole in [0, 10, 1 << 32, GREATEST_END - 1] {
        for i in 0..3 {
            for (left, right) in [(0, 0), (0, 1), (1, 1), (5, 999_999), (999_999, 999_999)] {
                in_form(&with_ends(&some(), i, (whole, left), (whole, right)));
            }
            for (left, right) in [(1, 0), (2, 1), (999_999, 0), (999_999, 999_998), (256, 255)] {
                out_of_form(&with_ends(&some(), i, (whole, left), (whole, right)));
                in_form(&with_ends(&some(), i, (whole, left), (whole + 1, 0)));
            }
            // The wholes come first.
            out_of_form(&with_ends(&some(), i, (whole + 1, 0), (whole, 999_999)));
        }
    }
}

#[test]
fn state_greatest_end_with_a_fraction_is_25() {
    let top = GREATEST_END;
    for i in 0..3 {
        in_form(&with_ends(&some(), i, (0, 5), (top, 0)));
        in_form(&with_ends(&some(), i, (top, 0), (top, 0)));
        in_form(&with_ends(&some(), i, (top - 1, 999_999), (top, 0)));
        in_form(&with_ends(&some(), i, (top - 1, 999_999), (top - 1, 999_999)));
        for millionths in [1, 2, 500_000, 999_999] {
            out_of_form(&with_ends(&some(), i, (0, 5), (top, millionths)));
            out_of_form(&with_ends(&some(), i, (top, 0), (top, millionths)));
            out_of_form(&with_ends(&some(), i, (top, millionths), (top, millionths)));
            out_of_form(&with_ends(&some(), i, (top, millionths), (top, 0)));
        }
    }
}

#[test]
fn state_fraction_in_an_unused_place_is_25() {
    for state in [State::fresh(0, 0, 0), some()] {
        for i in state.held.len()..MOST_DATA {
            for at in [LEFT_MILLIONTHS_AT, RIGHT_MILLIONTHS_AT] {
                for byte in 0..4 {
                    out_of_form(&changed(&state, datum_at(i) + at + byte, &[1]));
                }
            }
        }
    }
}

#[test]
fn state_fractions_stand_behind_the_masks_of_their_datum() {
    assert_eq!((datum_at(0), datum_at(1), entry_at(0), clock_at(0)), (24, 84, 984, 3_160));
    let state = State { held: vec![Datum::exact(2_000_003, 5_000_258, &[2])], ..some() };
    let mut bytes = state.bytes();
    assert_eq!(bytes[24 + 52..24 + 60], [3, 0, 0, 0, 2, 1, 0, 0]);
    in_form(&bytes);
    bytes[24 + 56..24 + 60].copy_from_slice(&[0x40, 0x42, 0x0f, 0]);
    out_of_form(&bytes);
}

/// What is wrong with a datum's ends, as document 02 words it; or what they are.
#[derive(Clone, Copy, Debug, PartialEq, Eq, PartialOrd, Ord)]
enum Ends {
    /// A fraction above 999,999.
    Range,
    /// Left above right by the whole microseconds.
    Order,
    /// Left above right by the fraction alone.
    OrderByFraction,
    /// Right above the greatest end by its fraction alone.
    PastByFraction,
    /// No datum, and a byte that is not zero.
    Unused,
    /// In order by the fraction alone.
    ByFraction,
    /// The greatest end.
    Greatest,
    /// All others that are in form.
    Sound,
}

impl Ends {
    /// Of the row at a position where so many are held.
    fn of(bytes: &[u8], i: usize, held: usize) -> Ends {
        let row = &bytes[24 + 60 * i..24 + 60 * (i + 1)];
        if i >= held {
            return if row.iter().all(|&byte| byte == 0) { Ends::Sound } else { Ends::Unused };
        }
        let number = |from: usize, to: usize| {
            row[from..to].iter().rev().fold(0, |n, &byte| n << 8 | u64::from(byte))
        };
        let (left, right) = ((number(0, 8), number(52, 56)), (number(8, 16), number(56, 60)));
        match (left.0.cmp(&right.0), left.1.cmp(&right.1)) {
            _ if left.1.max(right.1) > 999_999 => Ends::Range,
            (Ordering::Greater, _) => Ends::Order,
            (Ordering::Equal, Ordering::Greater) => Ends::OrderByFraction,
            _ if right.0 == (1 << 58) - 1 && right.1 > 0 => Ends::PastByFraction,
            _ if right.0 == (1 << 58) - 1 => Ends::Greatest,
            (Ordering::Equal, Ordering::Less) => Ends::ByFraction,
            _ => Ends::Sound,
        }
    }

    fn in_form(self) -> bool {
        matches!(self, Ends::ByFraction | Ends::Greatest | Ends::Sound)
    }
}

/// By what is wrong, where one datum is; by what they are, where all are in form.
#[derive(Default)]
struct DamagedEnds(BTreeMap<Ends, u64>);

impl DamagedEnds {
    /// Counts a state. Whether it is in form.
    fn count(&mut self, bytes: &[u8]) -> bool {
        let held = usize::from(bytes[16]);
        let all: Vec<Ends> = (0..16).map(|i| Ends::of(bytes, i, held)).collect();
        let wrong: Vec<Ends> = all.iter().copied().filter(|ends| !ends.in_form()).collect();
        match wrong[..] {
            [] => {
                let kinds = [Ends::ByFraction, Ends::Greatest, Ends::Sound];
                for kind in kinds.into_iter().filter(|kind| all.contains(kind)) {
                    *self.0.entry(kind).or_default() += 1;
                }
            }
            [ends] => *self.0.entry(ends).or_default() += 1,
            _ => {}
        }
        wrong.is_empty()
    }

    fn check(&self, numbers: &Numbers, enough: u64) {
        report(&format!(
            "200,000 states with damaged fractions: one out of form, or all in form {:?}, numbers \
             {numbers:?}\n",
            self.0
        ));
        for ends in [
            Ends::Range,
            Ends::Order,
            Ends::OrderByFraction,
            Ends::PastByFraction,
            Ends::Unused,
            Ends::ByFraction,
            Ends::Greatest,
            Ends::Sound,
        ] {
            assert!(self.0.get(&ends) >= Some(&enough), "{ends:?}: {:?}", self.0);
        }
        answered_both_ways(numbers, enough);
    }
}

#[test]
fn state_damaged_fractions_are_answered_alike() {
    let mut damaged = DamagedEnds::default();
    let fill = |random: &mut Random, state: &mut State| {
        for _ in state.held.len()..random.index(4) {
            let (low, more) = (random.below(9), random.below(3));
            let (one, other) = (end_within(random, low), end_within(random, low + more));
            let terms = [1 << ((state.own + 1) % NAMES)];
            state.held.push(Datum::exact(one.min(other), one.max(other), &terms));
        }
    };
    let count = |bytes: &[u8], _| damaged.count(bytes);
    let numbers = damaged_are_25(200_000, fill, states::damage_fraction, count);
    damaged.check(&numbers, 1_000);
}

#[test]
fn state_term_count_of_0_is_25() {
    for i in 0..MOST_DATA {
        let mut state = full();
        state.held[i].predicate = Predicate::of(&[]);
        out_of_form(&state.bytes());
    }
    for i in 0..MOST_ENTRIES {
        let mut state = full();
        state.entries[i] = Predicate::of(&[]);
        out_of_form(&state.bytes());
    }
    out_of_form(&rows(&[0], &[]).bytes());
    out_of_form(&rows(&[], &[0]).bytes());
}

#[test]
fn state_term_count_above_8_or_16_is_25() {
    let [in_datum, in_entry] = [DATUM_TERMS, ENTRY_TERMS].map(|most| {
        let most = most as u32;
        [most + 1, most + 2, 2 * most, 255, 256, 256 + most, 65_536 + most, 1 << 31, u32::MAX]
    });
    for count in in_datum.into_iter().chain([2 * DATUM_TERMS as u32 + 1]) {
        for i in [0, 7, MOST_DATA - 1] {
            out_of_form(&changed(&full(), term_count_at(i), &count.to_le_bytes()));
            out_of_form(&changed(&full_of_few(), term_count_at(i), &count.to_le_bytes()));
        }
    }
    for count in in_entry {
        for i in [0, 7, MOST_ENTRIES - 1] {
            out_of_form(&changed(&full(), entry_at(i), &count.to_le_bytes()));
            out_of_form(&changed(&full_of_few(), entry_at(i), &count.to_le_bytes()));
        }
    }
}

#[test]
fn state_ninth_term_that_fits_is_25() {
    // Behind a datum's masks stand its left millionths, which would do as a ninth term, and its
    // right ones as a tenth.
    let ninth = DATUM_TERMS as u32 + 1;
    let few: Vec<Term> = (0..DATUM_TERMS as u32).map(|n| 1 | 2 << n).collect();
    for i in 0..MOST_DATA {
        let mut state = rows(&[1; MOST_DATA], &[ENTRY_TERMS]);
        state.own = GREATEST_NAME;
        state.held[i] = Datum::exact(joined(7, 1 | 2 << 8), joined(9, 1 | 2 << 9), &few);
        in_form(&state.bytes());
        for count in [ninth, ninth + 1, ninth + 2] {
            out_of_form(&changed(&state, term_count_at(i), &count.to_le_bytes()));
        }
    }
    let seventeenth = ENTRY_TERMS as u32 + 1;
    let last = changed(&full(), entry_at(MOST_ENTRIES - 1), &seventeenth.to_le_bytes());
    out_of_form(&last);
    // Behind the last entry stands the flag of name 0, which would do as a seventeenth term.
    let mut state = full();
    state.own = GREATEST_NAME;
    state.entries[MOST_ENTRIES - 1] = Predicate::of(&[2 | 1 << 8]);
    state.clocks[0] = Some(Saved::first(Triple::of(0, 0, 0)));
    in_form(&state.bytes());
    out_of_form(&changed(&state, entry_at(MOST_ENTRIES - 1), &2u32.to_le_bytes()));
    out_of_form(&changed(&state, entry_at(MOST_ENTRIES - 1), &seventeenth.to_le_bytes()));
}

#[test]
fn state_term_count_not_that_of_the_masks_is_25() {
    for count in (1..=DATUM_TERMS as u32).filter(|&count| count != 3) {
        for i in [0, 7, MOST_DATA - 1] {
            out_of_form(&changed(&full_of_few(), term_count_at(i), &count.to_le_bytes()));
        }
    }
    for count in (1..=ENTRY_TERMS as u32).filter(|&count| count != 2) {
        for i in [0, 7, MOST_ENTRIES - 1] {
            out_of_form(&changed(&full_of_few(), entry_at(i), &count.to_le_bytes()));
        }
    }
}

/// The predicate in any place, in a state with few terms elsewhere and in one with many.
fn out_of_form_terms(p: &[Term]) {
    for state in [full(), full_of_few()] {
        for i in (0..MOST_DATA).filter(|_| p.len() <= DATUM_TERMS) {
            let mut state = state.clone();
            state.held[i].predicate = Predicate::of(p);
            out_of_form(&state.bytes());
        }
        for i in [0, 1, MOST_ENTRIES - 2, MOST_ENTRIES - 1] {
            let mut state = state.clone();
            state.entries[i] = Predicate::of(p);
            out_of_form(&state.bytes());
        }
    }
}

#[test]
fn state_empty_term_is_25() {
    out_of_form_terms(&[0]);
    out_of_form_terms(&[0, 2]);
    out_of_form_terms(&[2, 0]);
}

#[test]
fn state_terms_not_in_normal_form_are_25() {
    // Falling, equal, containing; at the front and at the back of all the places.
    for bad in [&[4, 2][..], &[2, 2], &[2, 6], &[4, 6], &[2, 8, 4], &[2, 4, 8, 18]] {
        out_of_form_terms(bad);
    }
    for count in [DATUM_TERMS, ENTRY_TERMS] {
        let swapped = |i: usize, j: usize| {
            let mut terms = terms(count);
            terms.swap(i, j);
            terms
        };
        let last = count - 1;
        out_of_form_terms(&swapped(0, 1));
        out_of_form_terms(&swapped(last - 1, last));
        let mut equal = terms(count);
        equal[last] = equal[last - 1];
        out_of_form_terms(&equal);
        let mut containing = terms(count);
        containing[last] |= containing[0];
        out_of_form_terms(&containing);
        containing[last] = 1 << GREATEST_NAME | containing[last - 1];
        out_of_form_terms(&containing);
    }
}

#[test]
fn state_term_of_2_to_the_29_or_more_is_25() {
    for bit in NAMES..32 {
        out_of_form_terms(&[1 << bit]);
        out_of_form_terms(&[2, 4, 1 << bit]);
        out_of_form_terms(&[2, 4, 1 << bit | 1]);
    }
    out_of_form_terms(&[!(1 << 5)]);
}

#[test]
fn state_term_naming_the_own_is_25() {
    let own = 1 << 5;
    for bad in [&[own][..], &[2, own], &[own, 64], &[2, own | 4], &[own | 1, 64], &[own | 64]] {
        out_of_form_terms(bad);
    }
    // The others may be as they are: only the own name is another one.
    for name in [1u32, 8, 15] {
        out_of_form(&changed(&rows(&[DATUM_TERMS], &[]), OWN_AT, &name.to_le_bytes()));
        out_of_form(&changed(&rows(&[], &[ENTRY_TERMS]), OWN_AT, &name.to_le_bytes()));
    }
    out_of_form(&changed(&rows(&[], &[ENTRY_TERMS]), OWN_AT, &23u32.to_le_bytes()));
    let both = rows(&[DATUM_TERMS], &[ENTRY_TERMS]);
    in_form(&changed(&both, OWN_AT, &GREATEST_NAME.to_le_bytes()));
}

/// Every byte of a place or a mask that is not used.
fn unused(state: &State) -> Vec<usize> {
    let (data, entries) = (datum_at(state.held.len()), entry_at(state.entries.len()));
    let (no_data, no_entries) = (data..datum_at(MOST_DATA), entries..entry_at(MOST_ENTRIES));
    let mut places: Vec<usize> = no_data.chain(no_entries).collect();
    let behind = |count_at: usize, p: &[Term]| count_at + MASKS_AT + MASK_BYTES * p.len();
    for (i, datum) in state.held.iter().enumerate() {
        let masks_end = datum_at(i) + LEFT_MILLIONTHS_AT;
        places.extend(behind(term_count_at(i), &datum.predicate)..masks_end);
    }
    for (i, entry) in state.entries.iter().enumerate() {
        places.extend(behind(entry_at(i), entry)..entry_at(i + 1));
    }
    for name in (0..NAMES).filter(|&name| state.clocks[name as usize].is_none()) {
        // The flag's first byte is left out: with 1 there the place is in use.
        places.extend(clock_at(name) + 1..clock_at(name + 1));
    }
    places
}

#[test]
fn state_any_byte_in_an_unused_place_is_25() {
    let counts = all().map(|state| unused(&state).len());
    let rows = |data: usize, entries: usize| data * DATUM_BYTES + entries * ENTRY_BYTES;
    // By how many masks in the data and in the entries.
    let masks = |data: usize, entries: usize| MASK_BYTES * (data + entries);
    let (d, e) = (DATUM_TERMS, ENTRY_TERMS);
    let in_some = rows(MOST_DATA - 3, MOST_ENTRIES - 3) + masks(d - 3 + d - 1, e - 2 + e - 1);
    let in_few = masks(MOST_DATA * (d - 3), MOST_ENTRIES * (e - 2));
    let clocks = |count: usize| count * (CLOCK_BYTES - 1);
    let in_rows = [rows(MOST_DATA, MOST_ENTRIES), in_some, 0, in_few, in_some];
    let all_names = NAMES as usize;
    let in_clocks = [all_names, all_names, all_names, all_names, all_names - WATCHED].map(clocks);
    assert_eq!(counts, std::array::from_fn(|i| in_rows[i] + in_clocks[i]));
    for state in all() {
        for at in unused(&state) {
            for byte in [1, 128] {
                let bytes = changed(&state, at, &[byte]);
                for call in sound_calls(&bytes) {
                    assert_eq!(number(&bytes, &call, 0), 25, "byte {at}");
                }
                let write = Call::Write { position: 0 };
                assert_eq!(number(&bytes, &write, MESSAGE_BYTES), 25, "byte {at}");
            }
        }
    }
}

// ---- the senders' clocks

#[test]
fn state_clock_flag_above_1_is_25() {
    for flag in [2, 3, 255, 256, 257, 1 << 16, 1 << 31, u32::MAX] {
        for name in 0..NAMES {
            out_of_form(&changed(&State::fresh(5, 0, 0), clock_at(name), &flag.to_le_bytes()));
            out_of_form(&changed(&watched(), clock_at(name), &flag.to_le_bytes()));
        }
    }
}

#[test]
fn state_clock_flag_0_over_triples_is_25() {
    for name in [0, 1, 5, 28] {
        out_of_form(&changed(&watched(), clock_at(name), &[0]));
    }
}

#[test]
fn state_clock_flag_1_over_zeros_is_in_form() {
    for name in 0..NAMES {
        in_form(&changed(&State::fresh(5, 0, 0), clock_at(name), &[1]));
        in_form(&changed(&full(), clock_at(name), &[1]));
    }
}

#[test]
fn state_clock_number_of_2_to_the_43_is_25_and_one_less_is_in_form() {
    let (last, past) = (GREATEST_CLOCK, GREATEST_CLOCK + 1);
    for name in [0, 1, 5, 28] {
        for number in 0..9 {
            let at = clock_at(name) + TRIPLES_AT + 8 * number;
            in_form(&changed(&watched(), at, &last.to_le_bytes()));
            for far in [past, past + 1, 1 << 44, 1 << 48, 1 << 56, 1 << 63, u64::MAX] {
                out_of_form(&changed(&watched(), at, &far.to_le_bytes()));
            }
        }
    }
    let mut state = full();
    state.clocks = [Some(Saved::first(Triple::of(last, last, last))); NAMES as usize];
    in_form(&state.bytes());
}

#[test]
fn state_clock_triples_in_any_order_are_in_form() {
    // No receipts leave them so: neither has the largest sum that it should have.
    let [previous, ahead, behind] = [(9, 0, 9), (0, 9, 0), (9, 0, 0)];
    let [previous, ahead, behind] = [previous, ahead, behind].map(|(a, b, w)| Triple { a, b, w });
    for name in 0..NAMES {
        let mut state = full();
        state.clocks[name as usize] = Some(Saved { previous, ahead, behind });
        in_form(&state.bytes());
    }
}

/// A name's place, byte by byte as document 02 words it: what is wrong with it, or what it is.
#[derive(Clone, Copy, Debug, PartialEq, Eq, PartialOrd, Ord)]
enum Place {
    /// Flag 2 or more.
    Flag,
    /// Flag 0 with a byte set.
    Unsaved,
    /// Flag 1, and numbers past the range, all of them 2^43 itself.
    AtBound,
    /// Flag 1, and another number past the range.
    Past,
    /// Flag 0 and zeros.
    Empty,
    /// Flag 1 and zeros.
    Zeros,
    /// Flag 1 and numbers in the range.
    Saved,
}

impl Place {
    fn of(bytes: &[u8], name: u32) -> Place {
        let (flag, numbers) = bytes[clock_at(name)..][..CLOCK_BYTES].split_at(TRIPLES_AT);
        let zeros = numbers.iter().all(|&byte| byte == 0);
        // A number below 2^43 has three bits in its sixth byte and none behind.
        let past = |number: &[u8]| number[5] > 7 || number[6] > 0 || number[7] > 0;
        let bound = |number: &[u8]| *number == [0, 0, 0, 0, 0, 8, 0, 0];
        let numbers = || numbers.chunks(8);
        match flag {
            [0, 0, 0, 0] if zeros => Place::Empty,
            [0, 0, 0, 0] => Place::Unsaved,
            [1, 0, 0, 0] if zeros => Place::Zeros,
            [1, 0, 0, 0] if !numbers().any(past) => Place::Saved,
            [1, 0, 0, 0] if numbers().filter(|number| past(number)).all(bound) => Place::AtBound,
            [1, 0, 0, 0] => Place::Past,
            _ => Place::Flag,
        }
    }

    fn in_form(self) -> bool {
        matches!(self, Place::Empty | Place::Zeros | Place::Saved)
    }
}

/// One damage to a name's place; it may leave it in form.
fn damage_place(random: &mut Random, bytes: &mut [u8]) {
    let at = clock_at(random.below(NAMES.into()) as u32);
    let about = random.pick(&[GREATEST_CLOCK, GREATEST_CLOCK + 1, GREATEST_CLOCK + 1, 1 << 63]);
    let number = at + TRIPLES_AT + 8 * random.index(9);
    match random.below(5) {
        0 => bytes[at..][..TRIPLES_AT].copy_from_slice(&[1, 0, 0, 0]),
        1 => {
            bytes[at..][..CLOCK_BYTES].fill(0);
            bytes[at] = 1;
        }
        2 => {
            bytes[at] = 1;
            bytes[number..][..8].copy_from_slice(&about.to_le_bytes());
        }
        _ => states::damage_clock(random, bytes),
    }
}

/// What is counted of the damaged states: those with one place out of form, by what is wrong there;
/// and those in form that have such a place, or something saved at the own name's.
#[derive(Default)]
struct Damaged {
    wrong: BTreeMap<Place, u64>,
    right: BTreeMap<Place, u64>,
    own: u64,
}

impl Damaged {
    /// Counts a state. Whether it is in form.
    fn count(&mut self, bytes: &[u8], own: u32) -> bool {
        let places: Vec<Place> = (0..NAMES).map(|name| Place::of(bytes, name)).collect();
        let wrong: Vec<&Place> = places.iter().filter(|place| !place.in_form()).collect();
        match wrong[..] {
            [] => {
                for place in [Place::Empty, Place::Zeros, Place::Saved] {
                    let has = places.contains(&place);
                    *self.right.entry(place).or_default() += u64::from(has);
                }
                self.own += u64::from(places[own as usize] != Place::Empty);
            }
            [place] => *self.wrong.entry(*place).or_default() += 1,
            _ => {}
        }
        wrong.is_empty()
    }

    fn check(&self, numbers: &Numbers, enough: u64) {
        let Damaged { wrong, right, own } = self;
        let text = format!(
            "200,000 states with damaged places: one out of form {wrong:?}, all in form {right:?}, \
             own name's in use {own}, numbers {numbers:?}\n"
        );
        report(&text);
        for place in [Place::Flag, Place::Unsaved, Place::AtBound, Place::Past] {
            assert!(wrong.get(&place) >= Some(&enough), "{place:?}: {wrong:?}");
        }
        for place in [Place::Empty, Place::Zeros, Place::Saved] {
            assert!(right.get(&place) >= Some(&enough), "{place:?}: {right:?}");
        }
        assert!(*own >= enough, "{own}");
        answered_both_ways(numbers, enough);
    }
}

/// By call and number.
type Numbers = [BTreeMap<u32, u64>; Call::NAMES.len()];

/// Seeded states, filled and damaged so, each lent to a call of both programs: 25 comes exactly where
/// the state is not in form.
fn damaged_are_25(
    seeds: u64,
    fill: fn(&mut Random, &mut State),
    damage: fn(&mut Random, &mut [u8]),
    mut in_form: impl FnMut(&[u8], u32) -> bool,
) -> Numbers {
    let mut numbers = Numbers::default();
    let mut filler = Random::new(0);
    let mut lent = Lent::new(&[0; STATE_BYTES], &mut filler);
    let mut out = Lent::new(&[7; ANSWER_BYTES], &mut filler);
    for seed in 0..seeds {
        let mut random = Random::new(seed);
        let mut state = State::fresh(random.below(NAMES.into()) as u32, 9, 9);
        if random.once_in(8) {
            state = states::in_form(&mut random);
            // With room for a violation's entry.
            state.entries.truncate(MOST_ENTRIES - 1);
        }
        fill(&mut random, &mut state);
        let mut bytes = state.bytes();
        for _ in 0..random.pick(&[0, 1, 1, 1, 2, 3]) {
            damage(&mut random, &mut bytes);
        }
        let [age, receive, with_readings] = sound_calls(&bytes);
        let (none, ask, fewest) =
            (Call::Write { position: 99 }, Call::Ask { limit: 0 }, Call::Fewest);
        let call = random.pick(&[&age, &receive, &with_readings, &none, &ask, &fewest]);
        lent.put(&bytes);
        let number = call.both(&mut lent, &mut out, &mut Branches::default());
        let number = number.unwrap_or_else(|fault| panic!("seed {seed}: {fault}: {call:?}"));
        *numbers[call.kind()].entry(number).or_default() += 1;
        let taken = if matches!(call, Call::Write { .. }) { 23 } else { 0 };
        let wanted = if in_form(&bytes, state.own) { taken } else { 25 };
        assert_eq!(number, wanted, "seed {seed}: {call:?}");
    }
    numbers
}

/// Each call but setting up was answered so often in either way.
fn answered_both_ways(numbers: &Numbers, enough: u64) {
    for (name, numbers) in Call::NAMES.iter().zip(numbers).skip(1) {
        assert!(numbers.len() == 2 && numbers.values().all(|&n| n >= enough), "{name}");
    }
}

#[test]
fn state_damaged_clock_places_are_answered_alike() {
    let mut damaged = Damaged::default();
    let fill = |random: &mut Random, state: &mut State| state.clocks = clocks::clocks(random);
    let count = |bytes: &[u8], own| damaged.count(bytes, own);
    let numbers = damaged_are_25(200_000, fill, damage_place, count);
    damaged.check(&numbers, 1_000);
}

// ---- the epochs

/// Every call that looks at the state, with an output that is long enough.
fn every_call(bytes: &[u8]) -> Vec<Call> {
    let questions = [Call::Write { position: 0 }, Call::Ask { limit: 4 }, Call::Fewest];
    sound_calls(bytes).into_iter().chain(flawed_calls()).chain(questions).collect()
}

#[test]
fn state_epoch_of_15_is_in_form_and_16_is_25_in_every_call() {
    for state in all() {
        for identifier in 0..NAMES {
            let at = epoch_at(identifier);
            for epoch in 0..=GREATEST_EPOCH {
                in_form(&changed(&state, at, &[epoch]));
            }
            for epoch in [16, 17, 31, 32, 64, 127, 128, 240, 255] {
                let bytes = changed(&state, at, &[epoch]);
                out_of_form(&bytes);
                for call in every_call(&bytes) {
                    assert_eq!(number(&bytes, &call, MESSAGE_BYTES), 25, "{call:?}");
                }
            }
        }
        in_form(&changed(&state, epoch_at(0), &[GREATEST_EPOCH; NAMES as usize]));
    }
}

#[test]
fn state_epochs_stand_behind_the_clocks_by_identifier() {
    assert_eq!((epoch_at(0), epoch_at(28), STATE_BYTES), (5_364, 5_392, 5_393));
    // The byte before them is the last of a triple, and the one behind them is not looked at.
    out_of_form(&changed(&State::fresh(5, 0, 0), 5_363, &[1]));
    in_form(&[&State::fresh(5, 0, 0).bytes()[..], &[16, 255]].concat());
}

/// What is counted of the states with damaged epochs: those with one out of form, by identifier;
/// the own one's; those with the least value that is; and those in form with the greatest.
#[derive(Default)]
struct DamagedEpochs {
    alone: [u64; NAMES as usize],
    own: u64,
    least: u64,
    greatest: u64,
}

impl DamagedEpochs {
    /// Counts a state. Whether it is in form.
    fn count(&mut self, bytes: &[u8], own: u32) -> bool {
        let epochs = &bytes[5_364..5_393];
        let wrong: Vec<usize> = (0..epochs.len()).filter(|&n| epochs[n] > 15).collect();
        if let [n] = wrong[..] {
            self.alone[n] += 1;
            self.own += u64::from(n == own as usize);
            self.least += u64::from(epochs[n] == 16);
        }
        self.greatest += u64::from(wrong.is_empty() && epochs.contains(&15));
        wrong.is_empty()
    }

    fn check(&self, numbers: &Numbers, enough: u64) {
        let DamagedEpochs { alone, own, least, greatest } = self;
        report(&format!(
            "100,000 states with damaged epochs: one out of form by identifier {alone:?}, the own one's \
             {own}, with 16 {least}, in form with 15 {greatest}, numbers {numbers:?}\n"
        ));
        assert!(alone.iter().chain([own, least, greatest]).all(|&count| count >= enough));
        answered_both_ways(numbers, enough);
    }
}

#[test]
fn state_damaged_epochs_are_answered_alike() {
    let mut damaged = DamagedEpochs::default();
    let fill = |random: &mut Random, state: &mut State| state.epochs = epochs(random);
    let count = |bytes: &[u8], own| damaged.count(bytes, own);
    let numbers = damaged_are_25(100_000, fill, states::damage_epoch, count);
    damaged.check(&numbers, 500);
}

// ---- all bytes

#[test]
fn every_flipped_bit_is_answered_alike() {
    let mut counts = BTreeMap::new();
    for state in all() {
        let whole = state.bytes();
        let mut random = Random::new(0);
        let mut lent = Lent::new(&whole, &mut random);
        let mut out = Lent::new(&[7; MESSAGE_BYTES], &mut random);
        for bit in 0..8 * STATE_BYTES {
            let bytes = changed(&state, bit / 8, &[whole[bit / 8] ^ 1 << (bit % 8)]);
            let [_, receive, with_readings] = sound_calls(&whole);
            let calls = [Call::Age { reading: 2_000 }, receive, with_readings];
            for call in calls.into_iter().chain([Call::Write { position: 0 }]) {
                lent.put(&bytes);
                let number = call.both(&mut lent, &mut out, &mut Branches::default());
                let number = number.unwrap_or_else(|fault| panic!("bit {bit}: {fault}: {call:?}"));
                *counts.entry(number).or_insert(0) += 1;
            }
        }
    }
    assert!(counts[&0] > 1_000 && counts[&25] > 100_000, "{counts:?}");
}

#[test]
fn any_bytes_are_25() {
    for seed in 0..2_000 {
        let mut random = Random::new(seed);
        let more = random.index(9);
        refused(&random.bytes(STATE_BYTES + more), 25);
    }
}

#[test]
fn few_numbers_among_zeros_are_answered_alike() {
    let mut counts = BTreeMap::new();
    // Those of the head, of the first datum and of the first entry; of long ones both halves.
    let head = [OWN_AT, DRIFT_AT, READING_AT, READING_AT + 4, HELD_COUNT_AT, ENTRY_COUNT_AT];
    let masks = [MASKS_AT, MASKS_AT + MASK_BYTES];
    let ends = [0, RIGHT_AT, RIGHT_AT + 4, LEFT_MILLIONTHS_AT, RIGHT_MILLIONTHS_AT];
    let datum = [&ends[..], &[TERM_COUNT_AT]].concat();
    let datum: Vec<usize> = datum.into_iter().map(|at| datum_at(0) + at).collect();
    let datum_masks = masks.map(|at| term_count_at(0) + at);
    let entry = [0, masks[0], masks[1]].map(|at| entry_at(0) + at);
    let clock = [0, TRIPLES_AT, TRIPLES_AT + 4].map(|at| clock_at(3) + at);
    let places = [&head[..], &datum, &datum_masks, &entry, &clock].concat();
    for seed in 0..20_000 {
        let mut random = Random::new(seed);
        let mut bytes = vec![0; STATE_BYTES];
        for _ in 0..1 + random.below(4) {
            let place = random.pick(&places);
            let bound = random.pick(&[2, 3, 10, 30, 1_100]);
            let number = random.below(bound);
            bytes[place..place + 2].copy_from_slice(&(number as u16).to_le_bytes());
        }
        for call in [Call::Age { reading: 1 << 40 }, Call::Write { position: 0 }] {
            *counts.entry(number(&bytes, &call, MESSAGE_BYTES)).or_insert(0) += 1;
        }
    }
    assert!(counts[&0] > 1_000 && counts[&25] > 1_000, "{counts:?}");
}

// ---- lengths

#[test]
fn state_short_is_24_and_longer_is_as_it_is() {
    let about = STATE_BYTES - 32;
    for state in all() {
        let longer = [&state.bytes()[..], &vec![3; 66_000]].concat();
        let sound = sound_calls(&longer).into_iter().chain([Call::Write { position: 0 }]);
        for call in sound.chain(flawed_calls()) {
            let wanted = number(&longer[..STATE_BYTES], &call, MESSAGE_BYTES);
            for len in (0..30).chain(about..about + 70).chain([4_096, 65_536, 65_536 + about]) {
                let got = number(&longer[..len], &call, MESSAGE_BYTES);
                let wanted = if len < STATE_BYTES { 24 } else { wanted };
                assert_eq!(got, wanted, "{call:?}, {len} bytes");
            }
        }
    }
}
