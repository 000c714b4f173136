//! Receiving, by both programs: edges by name. More on delays is in tests/delays.rs, and seeded runs
//! are in tests/runs.rs.

use second::branches::{Branch, Branches};
use second::engine;
use second::instants::{Instant, GREATEST_END, GREATEST_INSTANT};
use second::lent::{compare, Lent};
use second::message::{bytes_of, write, Message};
use second::predicates::{Predicate, Term, GREATEST_NAME, NAMES};
use second::random::Random;
use second::receiving::{self, GREATEST_DELAY};
use second::state::{
    Datum, State, DATUM_TERMS, DRIFT_AT, ENTRY_TERMS, MOST_DATA, MOST_ENTRIES, STATE_BYTES,
};

// ---- what is compared

/// Receives in both programs. Gives the number, the bytes and the branches.
fn receive_in(bytes: &[u8], delays: (u64, u64), message: &[u8]) -> (u32, Vec<u8>, Branches) {
    let mut random = Random::new(message.len() as u64);
    let (mut state, mut none) = (Lent::new(bytes, &mut random), Lent::new(&[], &mut random));
    let (least, greatest) = delays;
    let mut branches = Branches::default();
    let number = compare(
        &mut state,
        &mut none,
        [STATE_BYTES, 0],
        |bytes, _| receiving::call_seen(bytes, least, greatest, None, message, &mut branches),
        |bytes, _| engine::monitor_receive(bytes, least, greatest, message),
    );
    let case = || format!("monitor_receive {delays:?} {message:?} in {:?}", State::of(bytes));
    let number = number.unwrap_or_else(|fault| panic!("{}: {fault}", case()));
    (number, state.bytes().to_vec(), branches)
}

/// Sender, left, right, terms.
type Sent<'a> = (u32, u64, u64, &'a [Term]);
/// Left, right, terms.
type Held<'a> = (u64, u64, &'a [Term]);

fn words(sent: Sent) -> Vec<u32> {
    let (sender, left, right, terms) = sent;
    write(&Message::of(sender, left, right, terms)).to_vec()
}

/// A state of own name 0 and drift 100 with these ends in millionths, under name 1.
fn exact(left: Instant, right: Instant) -> State {
    State { held: vec![Datum::exact(left, right, &[2])], ..state(&[], &[]) }
}

/// A state of own name 0 and drift 100 with these data and entries.
fn state(held: &[Held], entries: &[&[Term]]) -> State {
    State {
        held: held.iter().map(|&(left, right, p)| Datum::of(left, right, p)).collect(),
        entries: entries.iter().map(|p| Predicate::of(p)).collect(),
        ..State::fresh(0, 100, 1_000)
    }
}

// ---- what is expected

/// The state after a taken receipt, and how it came about. Nothing but data and entries changes.
fn taken(before: &State, delays: (u64, u64), message: &[u8]) -> (State, Branches) {
    let bytes = [&before.bytes()[..], &[1, 0, 2]].concat();
    let (number, bytes, branches) = receive_in(&bytes, delays, message);
    assert_eq!(number, 0, "{message:?} in {before:?}");
    assert_eq!(bytes[STATE_BYTES..], [1, 0, 2]);
    let after = State::of(&bytes).expect("a state in form");
    let State { held, entries, .. } = after.clone();
    assert_eq!(after, State { held, entries, ..before.clone() });
    (after, branches)
}

/// The same without delay.
fn received(before: &State, sent: Sent) -> (State, Branches) {
    taken(before, (0, 0), &bytes_of(&words(sent)))
}

/// A receipt without delay makes these data and entries.
fn becomes(before: &State, sent: Sent, held: &[Held], entries: &[&[Term]]) {
    let (after, _) = received(before, sent);
    let wanted = state(held, entries);
    assert_eq!((after.held, after.entries), (wanted.held, wanted.entries));
}

fn stays(before: &State, sent: Sent) {
    assert_eq!(received(before, sent).0, *before);
}

fn refused_bytes(before: &State, delays: (u64, u64), message: &[u8], number: u32) {
    let bytes = [&before.bytes()[..], &[1, 0, 2]].concat();
    let answer = receive_in(&bytes, delays, message);
    assert!((answer.0, &answer.1) == (number, &bytes), "{}, not {number}", answer.0);
}

fn refused(before: &State, delays: (u64, u64), sent: Sent, number: u32) {
    refused_bytes(before, delays, &bytes_of(&words(sent)), number);
}

// ---- states to start with

/// So many data from senders 1, 2 and so on, without terms and all overlapping.
fn overlapping(count: usize) -> State {
    let names: Vec<[Term; 1]> = (1..=count).map(|n| [1 << n]).collect();
    let held: Vec<Held> = names.iter().zip(0..).map(|(p, i)| (i, 1_000 + i, &p[..])).collect();
    state(&held, &[])
}

/// So many entries of two names each, all from 11 on; none implies another.
fn pairs(count: usize) -> Vec<[Term; 2]> {
    let all = (11..NAMES).flat_map(|n| (11..n).map(move |m| [1 << m, 1 << n]));
    all.take(count).collect()
}

/// The state with these entries too.
fn with_entries(mut state: State, entries: &[[Term; 2]]) -> State {
    state.entries.extend(entries.iter().map(|p| Predicate::of(p)));
    state
}

/// The most data and entries.
fn full() -> State {
    with_entries(overlapping(MOST_DATA), &pairs(MOST_ENTRIES))
}

// ---- delays

#[test]
fn receive_delay_600_000_000_is_taken_and_one_more_is_21() {
    let message = bytes_of(&words((1, 10, 20, &[])));
    for (least, left) in [(0, 10_000_000), (1, 10_999_900), (600_000_000, 599_940_010_000_000)] {
        let (after, _) = taken(&state(&[], &[]), (least, 600_000_000), &message);
        assert_eq!(after, exact(left, 600_060_020_000_000));
        refused_bytes(&state(&[], &[]), (least, 600_000_001), &message, 21);
    }
}

#[test]
fn receive_least_delay_above_greatest_is_21_and_equal_is_taken() {
    let most = GREATEST_DELAY;
    for (least, greatest) in [(1, 0), (8, 7), (most, most - 1), (most + 1, 0)] {
        refused(&state(&[], &[]), (least, greatest), (1, 10, 20, &[]), 21);
    }
    let message = bytes_of(&words((1, 10, 20, &[])));
    let grown = [
        (0, 10_000_000, 20_000_000),
        (1, 10_999_900, 21_000_100),
        (7, 16_999_300, 27_000_700),
        (most, 599_940_010_000_000, 600_060_020_000_000),
    ];
    for (delay, left, right) in grown {
        let (after, _) = taken(&state(&[], &[]), (delay, delay), &message);
        assert_eq!(after, exact(left, right));
    }
}

#[test]
fn receive_delays_of_many_bits_are_21() {
    for huge in [1 << 32, (1 << 32) + 5, GREATEST_END + 1, 1 << 63, u64::MAX - 5, u64::MAX] {
        for delays in [(0, huge), (huge, huge), (huge, 0), (huge, 7)] {
            refused(&state(&[], &[]), delays, (1, 10, 20, &[]), 21);
        }
    }
}

#[test]
fn receive_left_gains_the_least_delay_and_right_the_greatest() {
    let message = bytes_of(&words((1, 10, 20, &[])));
    let (after, _) = taken(&state(&[], &[]), (3, 50), &message);
    assert_eq!(after, exact(12_999_700, 70_005_000));
}

// ---- the message

/// A sound message of sender 3 in its words.
fn sound() -> Vec<u32> {
    words((3, 10, 20, &[2, 12]))
}

/// A flawed message for each number from 10 to 17, and for 42.
fn flawed() -> Vec<(u32, Vec<u8>)> {
    // Behind the head the epochs of 1, 2 and 3, then the ends from 4 on, the terms from 8 on.
    let mut changed = [(); 7].map(|()| sound());
    changed[0].truncate(4);
    changed[1][0] |= 1 << 10;
    changed[2][4] ^= 1 << 29;
    changed[3].push(0);
    changed[4][7] ^= 1 << 29;
    changed[5][2] ^= 1;
    changed[6][10] ^= 1;
    let numbers = [10, 12, 11, 13, 14, 42, 15].into_iter();
    let mut flawed: Vec<(u32, Vec<u8>)> =
        numbers.zip(changed.map(|words| bytes_of(&words))).collect();
    flawed.push((16, bytes_of(&words((3, 21, 20, &[2, 12])))));
    flawed.push((17, bytes_of(&words((3, 10, 20, &[12, 2])))));
    flawed
}

#[test]
fn receive_flawed_message_is_10_to_17_or_42_as_in_reading() {
    for (number, message) in flawed() {
        refused_bytes(&state(&[], &[]), (0, 0), &message, number);
        refused_bytes(&full(), (0, 0), &message, number);
    }
}

#[test]
fn receive_length_not_a_multiple_of_4_is_10() {
    let message = bytes_of(&sound());
    for more in 1..4 {
        refused_bytes(&full(), (0, 0), &[&message[..], &[0; 3][..more]].concat(), 10);
        refused_bytes(&full(), (0, 0), &message[..message.len() - more], 10);
    }
    refused_bytes(&full(), (0, 0), &[], 10);
}

#[test]
fn receive_own_name_as_sender_is_18() {
    for own in 0..NAMES {
        let before = State::fresh(own, 0, 0);
        for sender in 0..NAMES {
            let number = if sender == own { 18 } else { 0 };
            let message = bytes_of(&words((sender, 10, 20, &[])));
            assert_eq!(receive_in(&before.bytes(), (0, 0), &message).0, number);
        }
    }
}

#[test]
fn receive_centre_form_is_taken_as_ends_form_is() {
    let words = [(1 << 29) + 1, 1, 4 << 29, (4 << 29) + 15, (5 << 29) + 5];
    let sum = words.iter().fold(0u32, |sum, &word| sum.wrapping_add(word));
    let closed = [&words[..], &[7 << 29 | sum & ((1 << 29) - 1)]].concat();
    let (after, _) = taken(&state(&[], &[]), (0, 0), &bytes_of(&closed));
    assert_eq!(after, state(&[(10, 20, &[2])], &[]));
}

// ---- the order of refusals

#[test]
fn receive_several_flaws_is_the_first_of_24_25_21_and_the_message() {
    let mut broken = full().bytes();
    broken[DRIFT_AT..][..4].fill(255);
    for (number, message) in flawed() {
        for delays in [(0, 0), (1, 0)] {
            assert_eq!(receive_in(&broken[..STATE_BYTES - 1], delays, &message).0, 24);
            assert_eq!(receive_in(&full().bytes()[..STATE_BYTES - 1], delays, &message).0, 24);
            assert_eq!(receive_in(&broken, delays, &message).0, 25);
        }
        refused_bytes(&full(), (1, 0), &message, 21);
        refused_bytes(&full(), (0, GREATEST_DELAY + 1), &message[..message.len() - 1], 21);
        refused_bytes(&full(), (0, GREATEST_DELAY), &message, number);
    }
}

#[test]
fn receive_bad_head_and_opening_word_is_12() {
    let mut words = sound();
    words[0] = 0;
    words[4] = 0;
    refused_bytes(&full(), (0, 0), &bytes_of(&words), 12);
}

#[test]
fn receive_own_sender_and_flaw_is_the_flaw() {
    let before = State { own: 3, ..state(&[], &[]) };
    for (number, message) in flawed() {
        refused_bytes(&before, (0, 0), &message, number);
    }
    refused(&before, (0, 0), (3, 10, 20, &[0, 1]), 17);
    refused(&before, (0, 0), (3, 10, 20, &[5, 6, 7]), 17);
}

/// The most terms, all of two names, none with a name below 9.
const EIGHT: [Term; DATUM_TERMS] = {
    let (mut terms, mut i) = ([0; DATUM_TERMS], 0);
    while i < DATUM_TERMS {
        terms[i] = 1 << 9 | 1 << (10 + i);
        i += 1;
    }
    terms
};

#[test]
fn receive_several_late_flaws_is_the_first_of_18_30_31_32() {
    let top = GREATEST_END;
    // No held datum names the sender 20, and nine terms are too many.
    refused(&full(), (0, 1), (0, top, top, &EIGHT), 18);
    refused(&full(), (0, 1), (0, top, top, &[0]), 18);
    refused(&full(), (0, 1), (20, top, top, &EIGHT), 30);
    refused(&full(), (0, 0), (20, top, top, &EIGHT), 31);
    refused(&full(), (0, 0), (20, 500, 600, &EIGHT), 31);
    refused(&full(), (0, 0), (20, 500, 600, &EIGHT[..DATUM_TERMS - 1]), 32);
}

// ---- 30 and 31

#[test]
fn receive_right_end_at_the_greatest_is_taken_and_past_it_is_30() {
    let top = GREATEST_END;
    let none = state(&[], &[]);
    let sent: Sent = (1, top - 60, top - 51, &[]);
    let message = bytes_of(&words(sent));
    let left = GREATEST_INSTANT - 60_000_000;
    for (least, gained) in [(0, 0), (50, 49_995_000)] {
        let (after, _) = taken(&none, (least, 50), &message);
        assert_eq!(after, exact(left + gained, GREATEST_INSTANT - 995_000));
        refused(&none, (least, 51), sent, 30);
        refused(&none, (least, GREATEST_DELAY), sent, 30);
    }
    becomes(&none, (1, top, top, &[]), &[(top, top, &[2])], &[]);
    refused(&none, (1, 1), (1, top, top, &[]), 30);
    refused(&none, (0, 1), (1, 0, top, &[]), 30);
}

#[test]
fn receive_true_predicate_past_the_greatest_end_is_30() {
    let top = GREATEST_END;
    refused(&state(&[], &[]), (0, 1), (1, top, top, &[0]), 30);
    refused(&full(), (0, 1), (1, 0, top, &[0]), 30);
    stays(&full(), (1, 0, top, &[0]));
}

#[test]
fn receive_nine_terms_are_31_and_eight_are_taken() {
    let none = state(&[], &[]);
    refused(&none, (0, 0), (1, 10, 20, &EIGHT), 31);
    let seven = &EIGHT[..DATUM_TERMS - 1];
    becomes(&none, (1, 10, 20, seven), &[(10, 20, &[&[2], seven].concat())], &[]);
}

#[test]
fn receive_eight_terms_of_which_one_names_the_receiver_are_taken() {
    let before = State { own: 10, ..state(&[], &[]) };
    let (after, _) = received(&before, (1, 10, 20, &EIGHT));
    assert_eq!(after.held, [Datum::of(10, 20, &[&[2], &EIGHT[1..]].concat())]);
}

#[test]
fn receive_eight_terms_of_which_some_name_the_sender_are_taken() {
    // A term that contains the sender's goes in the normal form.
    let mut eight = [&EIGHT[1..], &[1 << 10]].concat();
    eight.sort_unstable();
    becomes(&state(&[], &[]), (10, 10, 20, &EIGHT), &[(10, 20, &eight)], &[]);
    becomes(&state(&[], &[]), (9, 10, 20, &EIGHT), &[(10, 20, &[1 << 9])], &[]);
    let singles: Vec<Term> = (1..9).map(|n| 1 << n).collect();
    becomes(&state(&[], &[]), (3, 10, 20, &singles), &[(10, 20, &singles)], &[]);
}

#[test]
fn receive_nine_terms_that_an_entry_explains_are_31() {
    refused(&state(&[], &[&[2]]), (0, 0), (1, 10, 20, &EIGHT), 31);
    refused(&state(&[(0, 5, &[2])], &[]), (0, 0), (1, 10, 20, &EIGHT), 31);
}

#[test]
fn receive_nine_terms_that_a_held_datum_betters_are_31() {
    refused(&state(&[(12, 15, &[2])], &[]), (0, 0), (1, 10, 20, &EIGHT), 31);
}

// ---- the predicate

#[test]
fn receive_terms_of_document_01s_case() {
    let none = state(&[], &[]);
    // Sender 1, terms {1,2} and {3}: 1 + 3; at own name 3 only 1.
    becomes(&none, (1, 10, 20, &[6, 8]), &[(10, 20, &[2, 8])], &[]);
    let before = State { own: 3, ..none };
    let (after, branches) = received(&before, (1, 10, 20, &[6, 8]));
    assert_eq!(after.held, [Datum::of(10, 20, &[2])]);
    assert!(branches.has(Branch::Struck));
}

#[test]
fn receive_every_term_naming_the_receiver_goes() {
    let none = state(&[], &[]);
    // {0} alone; {0,1}, {1,2}, {0,3} and {3,4}.
    becomes(&none, (5, 10, 20, &[1]), &[(10, 20, &[32])], &[]);
    becomes(&none, (5, 10, 20, &[3, 6, 9, 24]), &[(10, 20, &[6, 24, 32])], &[]);
    let before = State { own: GREATEST_NAME, ..none };
    let (after, _) = received(&before, (5, 10, 20, &[3, 1 << 27 | 4, 1 << GREATEST_NAME]));
    assert_eq!(after.held, [Datum::of(10, 20, &[3, 32, 1 << 27 | 4])]);
}

#[test]
fn receive_true_predicate_is_taken_and_changes_nothing() {
    stays(&state(&[], &[]), (1, 10, 20, &[0]));
    stays(&full(), (20, 500, 600, &[0]));
    // Disjoint from all that is held.
    stays(&full(), (20, 5_000, 6_000, &[0]));
    // What an earlier receipt would have removed stays too.
    stays(&state(&[(0, 10, &[2]), (0, 20, &[2])], &[&[2]]), (1, 30, 40, &[0]));
}

// ---- step 1: entries from disjoint intervals

#[test]
fn receive_touching_intervals_give_no_entry() {
    let before = state(&[(0, 10, &[2])], &[]);
    becomes(&before, (2, 10, 20, &[]), &[(0, 10, &[2]), (10, 20, &[4])], &[]);
    let before = state(&[(10, 20, &[2])], &[]);
    becomes(&before, (2, 0, 10, &[]), &[(10, 20, &[2]), (0, 10, &[4])], &[]);
}

#[test]
fn receive_disjoint_intervals_give_the_sum_as_an_entry() {
    let before = state(&[(0, 10, &[2])], &[]);
    becomes(&before, (2, 11, 20, &[]), &[(0, 10, &[2]), (11, 20, &[4])], &[&[2, 4]]);
    let before = state(&[(11, 20, &[2])], &[]);
    becomes(&before, (2, 0, 10, &[]), &[(11, 20, &[2]), (0, 10, &[4])], &[&[2, 4]]);
    // Terms that contain one of the other go.
    let before = state(&[(0, 10, &[4, 24])], &[]);
    let held: [Held; 2] = [(0, 10, &[4, 24]), (11, 20, &[6, 8])];
    becomes(&before, (3, 11, 20, &[6]), &held, &[&[4, 8]]);
}

#[test]
fn receive_delays_can_make_intervals_touch() {
    let before = state(&[(11, 20, &[2])], &[]);
    // One microsecond can be 1.0001, which is enough from 10 on and not from 9.
    for (right, entries) in [(10, &[][..]), (9, &[Predicate::of(&[2, 4])])] {
        let message = bytes_of(&words((2, 0, right, &[])));
        let (after, branches) = taken(&before, (0, 1), &message);
        let grown = Datum::exact(0, 1_000_000 * Instant::from(right) + 1_000_100, &[4]);
        assert_eq!(after.held, [before.held[0], grown]);
        assert_eq!(after.entries, entries);
        assert_eq!(branches.has(Branch::Disjoint), right == 9);
    }
}

#[test]
fn receive_entries_stand_in_the_order_of_held_data() {
    let held: [Held; 3] = [(20, 30, &[8]), (0, 10, &[2]), (40, 50, &[4])];
    let before = state(&held, &[]);
    let after = [held[0], held[1], held[2], (60, 70, &[16])];
    becomes(&before, (4, 60, 70, &[]), &after, &[&[8, 16], &[2, 16], &[4, 16]]);
    // Behind those that were there.
    let before = state(&held, &[&[64, 128], &[32, 64]]);
    let entries: [&[Term]; 5] = [&[64, 128], &[32, 64], &[8, 16], &[2, 16], &[4, 16]];
    becomes(&before, (4, 60, 70, &[]), &after, &entries);
}

#[test]
fn receive_entry_that_an_entry_implies_is_not_added() {
    let held: [Held; 2] = [(0, 10, &[2]), (11, 20, &[4])];
    let before = state(&held[..1], &[&[2, 4], &[32]]);
    becomes(&before, (2, 11, 20, &[]), &held, &[&[2, 4], &[32]]);
    // {1,3} + {2,3} implies 1 + 2.
    let before = state(&held[..1], &[&[32], &[10, 12]]);
    becomes(&before, (2, 11, 20, &[]), &held, &[&[32], &[10, 12]]);
}

#[test]
fn receive_entry_that_implies_entries_replaces_them() {
    // 1 + 2 implies 1 + 2 + 3 and 1 + 2 + 4; it stands last.
    let before = state(&[(0, 10, &[2])], &[&[2, 4, 8], &[32], &[2, 4, 16], &[64]]);
    let held: [Held; 2] = [(0, 10, &[2]), (11, 20, &[4])];
    becomes(&before, (2, 11, 20, &[]), &held, &[&[32], &[64], &[2, 4]]);
}

#[test]
fn receive_entry_can_replace_one_of_the_same_receipt() {
    // First 1 + 2 + 4, then 1 + 4.
    let held: [Held; 3] = [(0, 10, &[2, 4]), (0, 9, &[2]), (20, 30, &[16])];
    becomes(&state(&held[..2], &[]), (4, 20, 30, &[]), &held, &[&[2, 16]]);
    // The other way round the second is implied.
    let held: [Held; 3] = [(0, 9, &[2]), (0, 10, &[2, 4]), (20, 30, &[16])];
    becomes(&state(&held[..2], &[]), (4, 20, 30, &[]), &held, &[&[2, 16]]);
}

#[test]
fn receive_entry_of_sixteen_terms_is_taken() {
    // 3 and seven pairs with 1; 4 and the same with 2.
    let pairs_with = |name: u32| (12..19).map(move |n| 1 << name | 1 << n);
    let old: Vec<Term> = [1 << 3].into_iter().chain(pairs_with(1)).collect();
    let new: Vec<Term> = [1 << 4].into_iter().chain(pairs_with(2)).collect();
    let mut entry = [&old[..], &new[..]].concat();
    entry.sort_unstable();
    assert_eq!(entry.len(), ENTRY_TERMS);
    let held: [Held; 2] = [(0, 10, &old), (11, 20, &new)];
    becomes(&state(&held[..1], &[]), (4, 11, 20, &new[1..]), &held, &[&entry]);
}

// ---- step 2: data that an entry explains

#[test]
fn receive_disjoint_data_under_one_name_leave_the_entry_alone() {
    becomes(&state(&[(0, 10, &[2])], &[]), (1, 11, 20, &[]), &[], &[&[2]]);
}

#[test]
fn receive_datum_that_an_entry_explains_goes() {
    let before = state(&[(5, 15, &[4])], &[&[2]]);
    stays(&before, (1, 0, 20, &[]));
    stays(&before, (1, 50, 60, &[]));
    // 1 implies 1 + 3.
    stays(&before, (3, 0, 20, &[2]));
    stays(&before, (3, 50, 60, &[2]));
}

#[test]
fn receive_held_data_that_an_entry_explains_go() {
    // Any receipt finds them, also one that is not disjoint from them and is stored itself.
    let held: [Held; 4] = [(0, 10, &[2, 4]), (0, 10, &[4]), (0, 10, &[2]), (0, 10, &[2, 16])];
    let before = state(&held, &[&[64], &[2]]);
    becomes(&before, (3, 5, 6, &[]), &[held[1], (5, 6, &[8])], &[&[64], &[2]]);
    // Also one that goes itself.
    becomes(&before, (1, 5, 6, &[]), &[held[1]], &[&[64], &[2]]);
}

#[test]
fn receive_data_go_by_an_entry_of_the_same_receipt() {
    // 1 and 1 give entry 1, which explains 1 + 3 too.
    let before = state(&[(0, 10, &[2, 8]), (0, 10, &[2]), (0, 30, &[4])], &[]);
    becomes(&before, (1, 20, 30, &[]), &[(0, 30, &[4])], &[&[2]]);
}

#[test]
fn receive_datum_explained_by_its_own_entry_goes_and_the_held_one_stays() {
    // 1 and 1 + 2 give entry 1 + 2.
    becomes(&state(&[(0, 10, &[2])], &[]), (2, 11, 20, &[2]), &[(0, 10, &[2])], &[&[2, 4]]);
    // The other way round.
    becomes(&state(&[(0, 10, &[2, 4])], &[]), (1, 11, 20, &[]), &[(11, 20, &[2])], &[&[2, 4]]);
}

#[test]
fn receive_datum_that_only_two_entries_explain_together_stays() {
    // 1 + 2 and 1 + 3 make 1 + {2,3} true, and neither does so alone.
    let (held, entries): ([Held; 1], [&[Term]; 2]) = ([(0, 10, &[2, 12])], [&[2, 4], &[2, 8]]);
    let after = [held[0], (0, 20, &[16])];
    becomes(&state(&held, &entries), (4, 0, 20, &[]), &after, &entries);
    let before = state(&[(0, 20, &[16])], &entries);
    becomes(&before, (1, 0, 10, &[12]), &[(0, 20, &[16]), held[0]], &entries);
}

#[test]
fn receive_datum_that_implies_an_entry_is_stored() {
    let before = state(&[(0, 20, &[16])], &[&[2, 4]]);
    becomes(&before, (1, 0, 10, &[]), &[(0, 20, &[16]), (0, 10, &[2])], &[&[2, 4]]);
}

// ---- step 3: rule 15

#[test]
fn receive_same_predicate_gives_the_intersection() {
    let cases = [
        ((5, 20), (5, 10)),
        ((0, 10), (0, 10)),
        ((10, 30), (10, 10)),
        ((3, 4), (3, 4)),
        ((0, 99), (0, 10)),
    ];
    for ((left, right), (meet_left, meet_right)) in cases {
        let before = state(&[(0, 10, &[2])], &[]);
        becomes(&before, (1, left, right, &[]), &[(meet_left, meet_right, &[2])], &[]);
        let before = state(&[(left, right, &[2, 12])], &[]);
        becomes(&before, (1, 0, 10, &[12]), &[(meet_left, meet_right, &[2, 12])], &[]);
    }
}

#[test]
fn receive_intersection_stands_last() {
    let held: [Held; 3] = [(0, 10, &[2]), (0, 10, &[4]), (0, 10, &[8])];
    let after = [held[1], held[2], (5, 10, &[2])];
    becomes(&state(&held, &[]), (1, 5, 20, &[]), &after, &[]);
    let after = [held[0], held[2], (5, 10, &[4])];
    becomes(&state(&held, &[]), (2, 5, 20, &[]), &after, &[]);
}

#[test]
fn receive_predicate_alike_but_not_the_same_does_not_meet() {
    let held: [Held; 1] = [(0, 10, &[2, 4])];
    becomes(&state(&held, &[]), (1, 5, 20, &[]), &[held[0], (5, 20, &[2])], &[]);
    becomes(&state(&held, &[]), (1, 5, 20, &[4, 8]), &[held[0], (5, 20, &[2, 4, 8])], &[]);
}

#[test]
fn receive_oldest_of_two_under_one_predicate_meets() {
    let before = state(&[(0, 20, &[2]), (5, 30, &[2])], &[]);
    becomes(&before, (1, 3, 40, &[]), &[(5, 30, &[2]), (3, 20, &[2])], &[]);
}

#[test]
fn receive_intersection_can_better_the_younger_under_one_predicate() {
    let before = state(&[(0, 20, &[2]), (3, 30, &[2])], &[]);
    becomes(&before, (1, 4, 40, &[]), &[(4, 20, &[2])], &[]);
}

#[test]
fn receive_intersection_that_a_held_datum_betters_is_not_stored() {
    // The old one has gone by then.
    let before = state(&[(0, 10, &[2]), (4, 5, &[6])], &[]);
    becomes(&before, (1, 3, 8, &[]), &[(4, 5, &[6])], &[]);
    let before = state(&[(0, 20, &[2]), (5, 6, &[2])], &[]);
    becomes(&before, (1, 3, 40, &[]), &[(5, 6, &[2])], &[]);
}

// ---- step 4: rule 14

#[test]
fn receive_datum_that_a_held_one_betters_is_not_stored() {
    // {1,2} implies 1.
    let before = state(&[(4, 6, &[6])], &[]);
    for (left, right) in [(4, 6), (3, 6), (4, 7), (0, 100)] {
        stays(&before, (1, left, right, &[]));
        stays(&before, (2, left, right, &[]));
        stays(&before, (3, left, right, &[2]));
    }
}

#[test]
fn receive_datum_within_which_no_held_one_lies_is_stored() {
    let held: Held = (4, 6, &[6]);
    for (left, right) in [(5, 6), (4, 5), (5, 5), (5, 9), (0, 5)] {
        becomes(&state(&[held], &[]), (1, left, right, &[]), &[held, (left, right, &[2])], &[]);
    }
}

#[test]
fn receive_datum_that_no_held_one_implies_is_stored() {
    // Rule 14 on intervals alone would drop it.
    for terms in [&[2][..], &[6, 8], &[8]] {
        let held: Held = (4, 6, terms);
        becomes(&state(&[held], &[]), (2, 0, 9, &[]), &[held, (0, 9, &[4])], &[]);
        becomes(&state(&[held], &[]), (2, 4, 6, &[]), &[held, (4, 6, &[4])], &[]);
    }
}

#[test]
fn receive_held_data_that_the_new_one_betters_go() {
    let held: [Held; 5] =
        [(4, 6, &[4, 8]), (4, 7, &[16]), (0, 9, &[2, 4]), (5, 5, &[2, 4]), (4, 6, &[2, 4, 16])];
    // Those within which it lies and whose predicate it implies: the third and the fifth.
    let after = [held[0], held[1], held[3], (4, 6, &[2])];
    becomes(&state(&held, &[]), (1, 4, 6, &[]), &after, &[]);
}

#[test]
fn receive_held_data_that_the_new_one_only_lies_within_stay() {
    let held: [Held; 3] = [(0, 9, &[4]), (0, 9, &[6]), (4, 6, &[24])];
    let after = [held[0], held[1], held[2], (4, 6, &[2])];
    becomes(&state(&held[..1], &[]), (1, 4, 6, &[]), &[held[0], (4, 6, &[2])], &[]);
    becomes(&state(&held, &[]), (1, 4, 6, &[]), &after, &[]);
}

// ---- many terms: each of them counts

/// A name and seven terms of three names, each with the other name and 19; in normal form.
fn eight_terms(name: u32, other: u32) -> Vec<Term> {
    [1 << name].into_iter().chain((12..19).map(|n| 1 << other | 1 << n | 1 << 19)).collect()
}

/// The predicate with one term made another, in normal form.
fn with_term(p: &[Term], place: usize, term: Term) -> Vec<Term> {
    let mut p = p.to_vec();
    p[place] = term;
    p.sort_unstable();
    p
}

/// A term that neither contains nor lies in any of the others.
fn apart(t: Term) -> Term {
    t & !0b1_1110 | 1 << if t.count_ones() == 1 { 6 } else { 5 }
}

fn larger(t: Term) -> Term {
    t | 1 << 20
}

/// Without name 19, which all but single names have.
fn smaller(t: Term) -> Term {
    t & !(1 << 19)
}

#[test]
fn receive_eight_terms_that_differ_in_one_do_not_meet() {
    let terms = eight_terms(4, 2);
    for place in 1..DATUM_TERMS {
        for change in [apart, larger, smaller] {
            let p = with_term(&terms, place, change(terms[place]));
            let held: [Held; 2] = [(0, 10, &p), (5, 20, &terms)];
            becomes(&state(&held[..1], &[]), (4, 5, 20, &terms[1..]), &held, &[]);
        }
    }
}

#[test]
fn receive_eight_terms_of_which_one_is_larger_are_bettered_or_not() {
    let terms = eight_terms(4, 2);
    for place in 1..DATUM_TERMS {
        let p = with_term(&terms, place, larger(terms[place]));
        // The larger one implies the other, and not the other way round.
        stays(&state(&[(5, 10, &p)], &[]), (4, 0, 20, &terms[1..]));
        let held: [Held; 2] = [(0, 20, &p), (5, 10, &terms)];
        becomes(&state(&held[..1], &[]), (4, 5, 10, &terms[1..]), &held, &[]);
        let p = with_term(&terms, place, smaller(terms[place]));
        becomes(&state(&[(0, 20, &p)], &[]), (4, 5, 10, &terms[1..]), &[(5, 10, &terms)], &[]);
        let held: [Held; 2] = [(5, 10, &p), (0, 20, &terms)];
        becomes(&state(&held[..1], &[]), (4, 0, 20, &terms[1..]), &held, &[]);
    }
}

#[test]
fn receive_entries_of_sixteen_terms_are_compared_in_each() {
    let (old, new) = (eight_terms(3, 1), eight_terms(4, 2));
    let mut sum = [&old[..], &new[..]].concat();
    sum.sort_unstable();
    let held: [Held; 2] = [(0, 10, &old), (11, 20, &new)];
    let sent: Sent = (4, 11, 20, &new[1..]);
    becomes(&state(&held[..1], &[&sum]), sent, &held, &[&sum]);
    for place in 0..ENTRY_TERMS {
        let t = sum[place];
        let entry = with_term(&sum, place, apart(t));
        becomes(&state(&held[..1], &[&entry]), sent, &held, &[&entry, &sum]);
        let entry = with_term(&sum, place, larger(t));
        becomes(&state(&held[..1], &[&entry]), sent, &held, &[&entry]);
        if smaller(t) != t {
            let entry = with_term(&sum, place, smaller(t));
            becomes(&state(&held[..1], &[&entry]), sent, &held, &[&sum]);
        }
    }
}

#[test]
fn receive_data_of_eight_terms_are_explained_by_each() {
    let terms = eight_terms(4, 2);
    let other: Held = (0, 20, &[1 << 8]);
    for place in 0..DATUM_TERMS {
        let t = terms[place];
        let entry = with_term(&terms, place, larger(t));
        stays(&state(&[other], &[&entry]), (4, 0, 10, &terms[1..]));
        let before = state(&[(0, 10, &terms), other], &[&entry]);
        becomes(&before, (9, 0, 30, &[]), &[other, (0, 30, &[1 << 9])], &[&entry]);
        for changed in [apart(t), smaller(t)].into_iter().filter(|&changed| changed != t) {
            let entry = with_term(&terms, place, changed);
            let after = [other, (0, 10, &terms)];
            becomes(&state(&[other], &[&entry]), (4, 0, 10, &terms[1..]), &after, &[&entry]);
        }
    }
}

// ---- 32: counts at the end

#[test]
fn receive_seventeenth_datum_is_32() {
    // In a state without entries, from a sender no held datum names, without terms, overlapping all.
    let held: Vec<Datum> = overlapping(MOST_DATA).held;
    let before = overlapping(MOST_DATA - 1);
    let (last, at) = (MOST_DATA as u32, MOST_DATA as u64 - 1);
    let (after, _) = received(&before, (last, at, 1_000 + at, &[]));
    assert_eq!(after.held, held);
    refused(&after, (0, 0), (last + 1, 500, 600, &[]), 32);
    refused(&after, (0, 0), (last + 1, 0, 2_000, &[]), 32);
}

#[test]
fn receive_with_sixteen_data_is_taken_if_no_place_is_needed() {
    let (before, next) = (overlapping(MOST_DATA), MOST_DATA as u32 + 1);
    let (after, branches) = received(&before, (3, 500, 600, &[]));
    assert!(after.held.len() == MOST_DATA && branches.has(Branch::Met));
    // Bettered by the oldest.
    stays(&before, (next, 0, 2_000, &[2]));
    // Explained by its own entry.
    let (after, branches) = received(&before, (next, 1_005, 9_000, &[2]));
    assert!(after.held == before.held && branches.has(Branch::NewExplained));
}

#[test]
fn receive_seventeenth_datum_that_betters_others_is_taken() {
    let mut before = overlapping(MOST_DATA);
    before.held[3] = Datum::of(0, 900, &[1 << 20, 1 << 21]);
    before.held[9] = Datum::of(0, 900, &[1 << 20, 1 << 22]);
    let (after, branches) = received(&before, (20, 500, 600, &[]));
    assert!(after.held.len() == MOST_DATA - 1 && branches.has(Branch::HeldBettered));
}

#[test]
fn receive_seventeenth_datum_after_step_2_made_room_is_taken() {
    let mut before = overlapping(MOST_DATA);
    before.entries = state(&[], &[&[1 << 5]]).entries;
    let (after, branches) = received(&before, (MOST_DATA as u32 + 1, 500, 600, &[]));
    assert!(after.held.len() == MOST_DATA && branches.has(Branch::HeldExplained));
}

#[test]
fn receive_thirty_third_entry_is_32() {
    let held: Held = (0, 10, &[2]);
    let before = with_entries(state(&[held], &[]), &pairs(MOST_ENTRIES - 1));
    let (after, _) = received(&before, (2, 20, 30, &[]));
    assert_eq!((after.held.len(), after.entries.len()), (2, MOST_ENTRIES));
    refused(&with_entries(state(&[held], &[]), &pairs(MOST_ENTRIES)), (0, 0), (2, 20, 30, &[]), 32);
    refused(&after, (0, 0), (3, 15, 18, &[]), 32);
}

#[test]
fn receive_thirty_third_entry_although_the_datum_goes_is_32() {
    // 1 and 1 + 2 give entry 1 + 2, which explains the new datum: the receipt ends at step 2.
    let held: Held = (0, 10, &[2]);
    let sent: Sent = (2, 20, 30, &[2]);
    let before = with_entries(state(&[held], &[]), &pairs(MOST_ENTRIES - 1));
    let (after, branches) = received(&before, sent);
    assert_eq!((after.held.len(), after.entries.len()), (1, MOST_ENTRIES));
    assert!(branches.has(Branch::NewExplained));
    refused(&with_entries(state(&[held], &[]), &pairs(MOST_ENTRIES)), (0, 0), sent, 32);
}

#[test]
fn receive_thirty_third_entry_that_replaces_others_is_taken() {
    let mut before = with_entries(state(&[(0, 10, &[2])], &[&[2, 4, 8]]), &pairs(MOST_ENTRIES - 1));
    let (after, _) = received(&before, (2, 20, 30, &[]));
    let last = MOST_ENTRIES - 1;
    assert_eq!(after.entries[last], Predicate::of(&[2, 4]));
    assert_eq!(after.entries[..last], before.entries[1..]);
    before.entries[last] = Predicate::of(&[2, 4, 16]);
    let (after, _) = received(&before, (2, 20, 30, &[]));
    assert_eq!(after.entries.len(), last);
}

#[test]
fn receive_entry_that_is_implied_needs_no_place() {
    let mut before = with_entries(state(&[(0, 10, &[2])], &[]), &pairs(MOST_ENTRIES - 1));
    before.entries.push(Predicate::of(&[2, 4]));
    let (after, _) = received(&before, (2, 20, 30, &[]));
    assert_eq!(after.entries, before.entries);
}

/// Senders 1 to 8 in disjoint places: 28 entries.
fn eight_disjoint() -> State {
    (1..=8).fold(state(&[], &[]), |before, sender| {
        let at = 100 * u64::from(sender);
        received(&before, (sender, at, at + 50, &[])).0
    })
}

#[test]
fn receive_thirty_six_entries_in_between_and_29_at_the_end_is_taken() {
    let before = eight_disjoint();
    assert_eq!((before.held.len(), before.entries.len()), (8, 28));
    let (wide, _) = received(&before, (9, 0, 5_000, &[]));
    assert_eq!((wide.held.len(), wide.entries.len()), (9, 28));
    let (after, branches) = received(&wide, (9, 9_000, 9_001, &[]));
    assert!(branches.has(Branch::EntriesOver) && branches.has(Branch::EntriesGone));
    assert_eq!(after.held, before.held);
    assert_eq!(after.entries[..28], before.entries);
    assert_eq!(after.entries[28..], [Predicate::of(&[1 << 9])]);
    // Another sender there would leave 36.
    refused(&before, (0, 0), (9, 9_000, 9_001, &[]), 32);
}

#[test]
fn receive_forty_seven_entries_in_between_and_32_at_the_end_is_taken() {
    // Sender 20 contradicts 15 data and at last itself; that also replaces 20 + {24,25}.
    let (data, last) = (MOST_DATA - 1, MOST_ENTRIES - 1);
    let mut before = with_entries(overlapping(data), &pairs(last));
    before.held.push(Datum::of(0, 1_000, &[1 << 20]));
    before.entries.push(Predicate::of(&[1 << 20, 3 << 24]));
    let (after, branches) = received(&before, (20, 9_000, 9_001, &[]));
    assert!(branches.has(Branch::EntriesOver));
    assert_eq!(after.held, before.held[..data]);
    assert_eq!(after.entries.len(), MOST_ENTRIES);
    assert_eq!(after.entries[..last], before.entries[..last]);
    assert_eq!(after.entries[last], Predicate::of(&[1 << 20]));
}

#[test]
fn receive_forty_eight_entries_are_32() {
    refused(&full(), (0, 0), (GREATEST_NAME, 9_000, 9_001, &[]), 32);
}

#[test]
fn receive_in_a_full_state_is_answered_alike() {
    let mut random = Random::new(1);
    let bytes = full().bytes();
    let mut counts = [0; 2];
    for sender in 1..NAMES {
        for _ in 0..200 {
            let (one, other) = (random.below(1_100), random.below(1_100));
            let terms: &[Term] = random.pick(&[&[][..], &[2], &[4, 8], &[1 << 11], &[3 << 12]]);
            let sent = words((sender, one.min(other), one.max(other), terms));
            let number = receive_in(&bytes, (0, 0), &bytes_of(&sent)).0;
            counts[usize::from(number == 0)] += 1;
        }
    }
    assert!(counts.iter().all(|&count| count > 500), "{counts:?}");
}
