//! Mended names (document 02, W-204), by both programs: what is heard, withdrawn and counted as
//! failed, the order of refusals; edges by name, then seeded withdrawals. Epoch words are in
//! tests/message.rs, the epochs' bytes in tests/state.rs, seeded runs in tests/runs.rs and with
//! their books in tests/book.rs.

use second::branches::Branch;
use second::calls::{ask, heard, receipt, refused, taken, tried, watched, Call};
use second::clocks::{Readings, Saved, Triple, GREATEST_CLOCK};
use second::epochs::{FIRST_EPOCHS, GREATEST_EPOCH};
use second::instants::GREATEST_END;
use second::listing::listing;
use second::message::{bytes_of, write, Message, MESSAGE_BYTES};
use second::predicates::{Predicate, Term, ALL_NAMES, NAMES};
use second::random::Random;
use second::samples::{states, Tally};
use second::state::{Datum, State, DATUM_TERMS, MOST_DATA, MOST_ENTRIES};
use std::collections::BTreeSet;

// ---- states and messages

/// Own identifier 5, drift 0, nothing held.
fn fresh() -> State {
    State::fresh(5, 0, 0)
}

/// A message at the first epochs.
fn sent(sender: u32, left: u64, right: u64, terms: &[Term]) -> Message {
    Message::of(sender, left, right, terms)
}

/// A message that says nothing but the sender's epoch: its predicate is true.
fn mended(sender: u32, epoch: u8) -> Message {
    sent(sender, 500, 600, &[0]).at(&[(sender, epoch)])
}

/// Identifier n as a term.
fn one(n: u32) -> Term {
    1 << n
}

/// Left, right and terms of what is held; the entries; and the epochs above 0.
fn holds(state: &State, held: &[(u64, u64, &[Term])], entries: &[&[Term]], epochs: &[(u32, u8)]) {
    let held: Vec<Datum> = held.iter().map(|&(left, right, p)| Datum::of(left, right, p)).collect();
    let entries: Vec<Predicate> = entries.iter().map(|p| Predicate::of(p)).collect();
    let known = State::fresh(0, 0, 0).at(epochs).epochs;
    assert_eq!((&state.held, &state.entries, &state.epochs), (&held, &entries, &known));
}

fn saved(all: [(u64, u64, u64); 3]) -> Option<Saved> {
    let [previous, ahead, behind] = all.map(|(a, b, w)| Triple { a, b, w });
    Some(Saved { previous, ahead, behind })
}

/// Document 01's terms 1 and 2, 1 with 3, and 3.
const ONE: Term = 2;
const TWO: Term = 4;
const THREE: Term = 8;
const ONE_AND_THREE: Term = 2 | 8;

// ---- a name that comes back

#[test]
fn epochs_mended_sender_leaves_its_old_datum_and_the_entry_behind() {
    let apart = heard(&fresh(), &[sent(1, 0, 10, &[]), sent(2, 20, 30, &[])]);
    holds(&apart, &[(0, 10, &[ONE]), (20, 30, &[TWO])], &[&[ONE, TWO]], &[]);
    assert_eq!(ask(&apart, 0), [0, 0, 0]);
    let (state, branches) = taken(&apart, &receipt(sent(1, 22, 40, &[]).at(&[(1, 1)]), None));
    holds(&state, &[(20, 30, &[TWO]), (22, 40, &[ONE])], &[], &[(1, 1)]);
    assert_eq!(ask(&state, 0), [2, 22, 30]);
    assert!(branches.has(Branch::DatumGone) && branches.has(Branch::EntryGone));
    // The mended one first: then the old one's is true, and not stored.
    let first = heard(&fresh(), &[sent(1, 22, 40, &[]).at(&[(1, 1)])]);
    let (second, branches) = taken(&first, &receipt(sent(1, 0, 10, &[]), None));
    assert!(second == first && branches.has(Branch::OldSender) && branches.has(Branch::True));
    let state = heard(&second, &[sent(2, 20, 30, &[])]);
    holds(&state, &[(22, 40, &[ONE]), (20, 30, &[TWO])], &[], &[(1, 1)]);
    assert_eq!(ask(&state, 0), [2, 22, 30]);
}

#[test]
fn epochs_mended_sender_is_not_disjoint_from_its_old_datum() {
    let state = heard(&fresh(), &[sent(1, 0, 10, &[]), sent(1, 20, 30, &[]).at(&[(1, 1)])]);
    holds(&state, &[(20, 30, &[ONE])], &[], &[(1, 1)]);
    // At one epoch it is.
    let state = heard(&state, &[sent(1, 0, 10, &[]).at(&[(1, 1)])]);
    holds(&state, &[], &[&[ONE]], &[(1, 1)]);
}

#[test]
fn epochs_are_heard_in_a_term() {
    let before = heard(&fresh(), &[sent(1, 0, 10, &[])]);
    let (state, branches) = taken(&before, &receipt(sent(2, 0, 5, &[ONE]).at(&[(1, 1)]), None));
    holds(&state, &[(0, 5, &[ONE, TWO])], &[], &[(1, 1)]);
    assert!(branches.has(Branch::RisenInTerm) && !branches.has(Branch::RisenSender));
}

#[test]
fn epochs_are_heard_in_a_struck_term() {
    let before = heard(&fresh(), &[sent(1, 0, 10, &[])]);
    let (state, branches) =
        taken(&before, &receipt(sent(2, 0, 5, &[ONE | one(5)]).at(&[(1, 1)]), None));
    holds(&state, &[(0, 5, &[TWO])], &[], &[(1, 1)]);
    assert!(branches.has(Branch::RisenInStruck) && !branches.has(Branch::RisenInTerm));
}

#[test]
fn epochs_are_heard_of_an_old_sender() {
    let before = heard(&fresh(), &[sent(3, 0, 10, &[]), mended(1, 1), sent(2, 5, 9, &[])]);
    let brings = sent(1, 70, 80, &[THREE]).at(&[(1, 0), (3, 1)]);
    let (state, branches) = taken(&before, &receipt(brings, None));
    holds(&state, &[(5, 9, &[TWO])], &[], &[(1, 1), (3, 1)]);
    assert!(branches.has(Branch::OldSender) && branches.has(Branch::DatumGone));
}

#[test]
fn epochs_are_heard_where_the_predicate_is_true() {
    let before = heard(&fresh(), &[sent(1, 0, 10, &[]), sent(2, 0, 10, &[])]);
    for epoch in [1, 2, 15] {
        let (state, branches) = taken(&before, &receipt(mended(1, epoch), None));
        holds(&state, &[(0, 10, &[TWO])], &[], &[(1, epoch)]);
        assert!(branches.has(Branch::True) && branches.has(Branch::RisenSender));
    }
}

#[test]
fn epochs_that_are_known_withdraw_nothing() {
    let at_3 = heard(&fresh(), &[sent(1, 0, 10, &[]).at(&[(1, 3)])]);
    holds(&at_3, &[(0, 10, &[ONE])], &[], &[(1, 3)]);
    assert_eq!(heard(&at_3, &[mended(1, 3)]), at_3);
    // Nor do older ones, which are not stored either.
    for epoch in 0..3 {
        assert_eq!(heard(&at_3, &[mended(1, epoch)]), at_3);
        assert_eq!(heard(&at_3, &[sent(1, 50, 60, &[]).at(&[(1, epoch)])]), at_3);
    }
    let at_4 = heard(&at_3, &[mended(1, 4)]);
    holds(&at_4, &[], &[], &[(1, 4)]);
}

#[test]
fn epochs_of_every_identifier_and_size_are_heard() {
    for n in (0..NAMES).filter(|&n| n != 5) {
        for epoch in 1..=GREATEST_EPOCH {
            let other = if n == 6 { 7 } else { 6 };
            let before = fresh().at(&[(n, epoch - 1)]);
            let held = sent(n, 0, 10, &[]).at(&[(n, epoch - 1)]);
            let before = heard(&before, &[held]);
            let state = heard(&before, &[sent(other, 0, 5, &[one(n)]).at(&[(n, epoch)])]);
            let mut both = [one(n), one(other)];
            both.sort_unstable();
            holds(&state, &[(0, 5, &both)], &[], &[(n, epoch)]);
        }
    }
}

#[test]
fn epochs_of_many_names_in_one_message_are_heard_together() {
    // Under 1 with 2, which goes only as both are mended; 2 with 3 leaves 3.
    let mut before = fresh();
    before.held = vec![Datum::of(0, 10, &[ONE | TWO]), Datum::of(0, 20, &[TWO | THREE])];
    before.entries =
        vec![Predicate::of(&[ONE | one(9), TWO | one(9)]), Predicate::of(&[ONE | TWO])];
    let brings = sent(1, 500, 600, &[TWO | one(5)]).at(&[(1, 1), (2, 1)]);
    let (state, branches) = taken(&before, &receipt(brings, None));
    let entries: [&[Term]; 2] = [&[one(9)], &[ONE, THREE]];
    holds(&state, &[(0, 20, &[THREE]), (500, 600, &[ONE])], &entries, &[(1, 1), (2, 1)]);
    assert!(branches.has(Branch::RisenSender) && branches.has(Branch::RisenInStruck));
    // One alone leaves the other.
    let state = heard(&before, &[mended(1, 1)]);
    let entries: [&[Term]; 2] = [&[one(9)], &[TWO]];
    holds(&state, &[(0, 10, &[TWO]), (0, 20, &[TWO | THREE])], &entries, &[(1, 1)]);
}

// ---- older names in a message

#[test]
fn epochs_older_name_in_a_term_counts_as_failed() {
    let before = heard(&fresh(), &[mended(1, 1)]);
    let (state, branches) = taken(&before, &receipt(sent(2, 0, 9, &[ONE_AND_THREE]), None));
    holds(&state, &[(0, 9, &[TWO, THREE])], &[], &[(1, 1)]);
    assert!(branches.has(Branch::OldInTerm));
    let (state, branches) = taken(&before, &receipt(sent(2, 0, 9, &[ONE]), None));
    holds(&state, &[], &[], &[(1, 1)]);
    assert!(branches.has(Branch::OldMadeTrue) && branches.has(Branch::True));
    // The current one is a name like any other.
    let state = heard(&before, &[sent(2, 0, 9, &[ONE_AND_THREE]).at(&[(1, 1)])]);
    holds(&state, &[(0, 9, &[TWO, ONE_AND_THREE])], &[], &[(1, 1)]);
}

#[test]
fn epochs_older_names_leave_a_normal_form() {
    let before = heard(&fresh(), &[mended(1, 1), mended(9, 2)]);
    // {1,3}, {3,4} and {4,9} become {3} and {4}, and {1,2} the sender's {2}.
    let terms = [ONE | TWO, ONE_AND_THREE, THREE | one(4), one(4) | one(9)];
    let state = heard(&before, &[sent(2, 0, 9, &terms).at(&[(9, 1)])]);
    holds(&state, &[(0, 9, &[TWO, THREE, one(4)])], &[], &[(1, 1), (9, 2)]);
}

#[test]
fn epochs_terms_of_the_receiver_go_before_older_names_do() {
    let before = heard(&fresh(), &[mended(1, 1)]);
    // Without the older name the receiver's would be left, and is struck with its term.
    let state = heard(&before, &[sent(2, 0, 9, &[THREE, ONE | one(5)])]);
    holds(&state, &[(0, 9, &[TWO, THREE])], &[], &[(1, 1)]);
    // An older epoch of the receiver's own would leave the empty term.
    let before = State::fresh(5, 0, 0).at(&[(1, 1), (5, 3)]);
    for terms in [&[one(5)][..], &[ONE | one(5)]] {
        let state = heard(&before, &[sent(2, 0, 9, terms).at(&[(5, 2)])]);
        holds(&state, &[(0, 9, &[TWO])], &[], &[(1, 1), (5, 3)]);
    }
}

// ---- withdrawal

#[test]
fn epochs_withdrawn_name_leaves_the_others_of_its_term() {
    let before = heard(&fresh(), &[sent(2, 0, 9, &[ONE_AND_THREE])]);
    holds(&before, &[(0, 9, &[TWO, ONE_AND_THREE])], &[], &[]);
    let (state, branches) = taken(&before, &receipt(mended(1, 1), None));
    holds(&state, &[(0, 9, &[TWO, THREE])], &[], &[(1, 1)]);
    assert!(branches.has(Branch::DatumRewritten) && !branches.has(Branch::FewerTerms));
}

#[test]
fn epochs_withdrawn_name_leaves_a_normal_form() {
    // {1,3} and {3,4} become {3}, which stands before {4,6}.
    let mut before = fresh();
    let terms = [ONE_AND_THREE, THREE | one(4), one(4) | one(6)];
    before.held = vec![Datum::of(0, 9, &terms)];
    before.entries = vec![Predicate::of(&terms)];
    let (state, branches) = taken(&before, &receipt(mended(1, 1), None));
    let left = [THREE, one(4) | one(6)];
    holds(&state, &[(0, 9, &left)], &[&left], &[(1, 1)]);
    assert!(branches.has(Branch::FewerTerms) && branches.has(Branch::EntryRewritten));
    // Masks may change their order: {1,28} and {2,27} become {28} and {2,27}.
    before.held = vec![Datum::of(0, 9, &[one(2) | one(27), one(27) | one(28)])];
    before.entries = vec![Predicate::of(&[one(2) | one(28), one(3) | one(28)])];
    let state = heard(&before, &[mended(28, 1)]);
    holds(&state, &[(0, 9, &[one(27)])], &[&[one(2), one(3)]], &[(28, 1)]);
}

#[test]
fn epochs_withdrawn_data_under_one_predicate_are_not_merged() {
    let wide = sent(2, 3, 20, &[THREE]);
    let before = heard(&fresh(), &[sent(2, 0, 9, &[ONE_AND_THREE]), wide]);
    holds(&before, &[(0, 9, &[TWO, ONE_AND_THREE]), (3, 20, &[TWO, THREE])], &[], &[]);
    let both: [(u64, u64, &[Term]); 2] = [(0, 9, &[TWO, THREE]), (3, 20, &[TWO, THREE])];
    holds(&heard(&before, &[mended(1, 1)]), &both, &[], &[(1, 1)]);
    // By the mended one's own datum too.
    let state = heard(&before, &[sent(1, 4, 6, &[]).at(&[(1, 1)])]);
    holds(&state, &[both[0], both[1], (4, 6, &[ONE])], &[], &[(1, 1)]);
    // A later receipt meets the oldest, by step 3.
    let state = heard(&state, &[sent(2, 1, 8, &[THREE])]);
    let after = [both[1], (4, 6, &[ONE][..]), (1, 8, both[0].2)];
    holds(&state, &after, &[], &[(1, 1)]);
    // One that is bettered by another stays as well.
    let narrow = sent(2, 3, 9, &[THREE, one(4)]);
    let before = heard(&fresh(), &[sent(2, 0, 9, &[ONE_AND_THREE]), narrow]);
    let held: [(u64, u64, &[Term]); 2] = [(0, 9, &[TWO, THREE]), (3, 9, &[TWO, THREE, one(4)])];
    holds(&heard(&before, &[mended(1, 1)]), &held, &[], &[(1, 1)]);
}

#[test]
fn epochs_withdrawn_datum_stays_that_an_entry_implies() {
    let threes = [sent(3, 0, 10, &[]), sent(3, 20, 30, &[])];
    let before = heard(&heard(&fresh(), &threes), &[sent(2, 0, 9, &[ONE_AND_THREE])]);
    holds(&before, &[(0, 9, &[TWO, ONE_AND_THREE])], &[&[THREE]], &[]);
    let state = heard(&before, &[mended(1, 1)]);
    holds(&state, &[(0, 9, &[TWO, THREE])], &[&[THREE]], &[(1, 1)]);
    // Step 2 of a receipt whose predicate is not true takes it, the same receipt's or a later
    // one's.
    let state = heard(&state, &[sent(4, 0, 9, &[])]);
    holds(&state, &[(0, 9, &[one(4)])], &[&[THREE]], &[(1, 1)]);
    let state = heard(&before, &[sent(1, 0, 9, &[]).at(&[(1, 1)])]);
    holds(&state, &[(0, 9, &[ONE])], &[&[THREE]], &[(1, 1)]);
}

#[test]
fn epochs_withdrawn_entries_stay_that_imply_each_other() {
    let mut before = fresh();
    before.entries = vec![Predicate::of(&[TWO, ONE_AND_THREE]), Predicate::of(&[TWO, THREE])];
    let state = heard(&before, &[mended(1, 1)]);
    holds(&state, &[], &[&[TWO, THREE], &[TWO, THREE]], &[(1, 1)]);
}

#[test]
fn epochs_withdrawn_rows_close_up_in_their_order() {
    let mut before = fresh();
    before.held = (6..14).map(|n| Datum::of(0, u64::from(n), &[one(n), one(n + 8)])).collect();
    before.entries = (6..14).map(|n| Predicate::of(&[one(n), one(n + 8)])).collect();
    let state = heard(&before, &[mended(8, 1), mended(20, 1), mended(13, 1)]);
    let left = [6, 7, 9, 10, 11];
    assert!(state.held.iter().map(|datum| datum.interval.rounded().right).eq(left));
    let entries = left.map(|n| Predicate::of(&[1 << n, 1 << (n + 8)]));
    assert_eq!(state.entries, entries);
}

#[test]
fn epochs_withdrawn_data_are_what_step_1_sees() {
    // 2 + {1,3} is disjoint from what 4 says with the mended 1: the entry has no 1 of the old name.
    let before = heard(&fresh(), &[sent(2, 0, 9, &[ONE_AND_THREE])]);
    let state = heard(&before, &[sent(4, 20, 30, &[ONE]).at(&[(1, 1)])]);
    let held: [(u64, u64, &[Term]); 2] = [(0, 9, &[TWO, THREE]), (20, 30, &[ONE, one(4)])];
    holds(&state, &held, &[&[ONE, TWO, THREE, one(4)]], &[(1, 1)]);
    // And the mended one's own datum meets none of its old name.
    let before = heard(&fresh(), &[sent(1, 0, 9, &[THREE])]);
    let state = heard(&before, &[sent(1, 5, 20, &[THREE]).at(&[(1, 1)])]);
    holds(&state, &[(5, 20, &[ONE, THREE])], &[], &[(1, 1)]);
}

// ---- the own identifier

#[test]
fn epochs_own_identifier_goes_under_any_epoch() {
    let own_at_2 = State::fresh(5, 0, 0).at(&[(5, 2)]);
    for epoch in 0..=GREATEST_EPOCH {
        for terms in [&[one(5)][..], &[TWO | one(5)], &[one(5) | one(9)]] {
            let brings = sent(1, 0, 10, terms).at(&[(5, epoch)]);
            let (state, branches) = taken(&own_at_2, &receipt(brings, None));
            holds(&state, &[(0, 10, &[ONE])], &[], &[(5, 2)]);
            assert_eq!(branches.has(Branch::OwnEpoch), epoch != 2);
        }
        // As the sender it is 18.
        refused(&own_at_2, &receipt(sent(5, 0, 10, &[]).at(&[(5, epoch)]), None), 18);
        let brings = sent(5, 0, 10, &[ONE]).at(&[(5, epoch), (1, 1)]);
        refused(&own_at_2, &receipt(brings, None), 18);
    }
}

#[test]
fn epochs_of_the_own_place_stay() {
    // What is saved at the own identifier's place does not go with another epoch of it.
    let mut before = State::fresh(5, 0, 0).at(&[(5, 2)]);
    before.clocks[5] = saved([(1, 2, 3), (4, 5, 6), (7, 8, 9)]);
    let state = heard(&before, &[sent(1, 0, 10, &[one(5)]).at(&[(5, 9)])]);
    assert_eq!((state.clocks[5], state.epochs), (before.clocks[5], before.epochs));
}

// ---- readings

#[test]
fn epochs_heard_in_a_term_clear_the_triples() {
    let (before, _) = watched(&fresh(), sent(1, 0, 10, &[]), (3, 4, 5));
    let (before, _) = watched(&before, sent(3, 0, 10, &[]), (6, 7, 8));
    for terms in [&[ONE][..], &[ONE | one(5)], &[ONE_AND_THREE]] {
        let (state, branches) = taken(&before, &receipt(sent(2, 0, 9, terms).at(&[(1, 1)]), None));
        assert_eq!((state.clocks[1], state.clocks[3]), (None, before.clocks[3]));
        assert!(branches.has(Branch::TriplesInTerm) && !branches.has(Branch::TriplesOfSender));
        // The bytes of the place are zero.
        assert!(state.bytes()[3_160 + 76..][..76].iter().all(|&byte| byte == 0));
    }
    // The known epoch, or an older one, clears nothing.
    let before = before.at(&[(1, 1)]);
    for epoch in [0, 1] {
        let state = heard(&before, &[sent(2, 0, 9, &[ONE]).at(&[(1, epoch)])]);
        assert_eq!(state.clocks, before.clocks);
    }
}

#[test]
fn epochs_of_a_mended_sender_let_readings_start_afresh() {
    let (before, _) = watched(&fresh(), sent(1, 0, 10, &[]), (0, 0, 0));
    for terms in [&[][..], &[0]] {
        let (state, branches) =
            watched(&before, sent(1, 0, 10, terms).at(&[(1, 1)]), (9, 5_000_000, 7));
        assert!(branches.has(Branch::TriplesOfSender) && branches.has(Branch::SavedFirst));
        assert!(!branches.has(Branch::Tested));
        assert_eq!(state.clocks[1], saved([(9, 5_000_000, 7); 3]));
        assert_eq!((&state.entries[..], state.epochs[1]), (&[][..], 1));
        // Without readings nothing is saved any more.
        let state = heard(&before, &[sent(1, 0, 10, terms).at(&[(1, 1)])]);
        assert_eq!(state.clocks[1], None);
        // At the known epoch it is a violation.
        let (_, branches) = watched(&before, sent(1, 0, 10, terms), (9, 5_000_000, 7));
        assert!(branches.has(Branch::Violated));
    }
}

#[test]
fn epochs_of_an_older_sender_leave_readings_unheeded() {
    let at_1 = sent(1, 0, 10, &[]).at(&[(1, 1)]);
    let (before, _) = watched(&fresh(), at_1, (0, 0, 0));
    let (state, branches) = watched(&before, sent(1, 0, 10, &[]), (9, 5_000_000, 0));
    assert_eq!(state, before);
    assert!(branches.has(Branch::Unheeded) && !branches.has(Branch::Tested));
    // Nor are they saved where nothing is.
    let before = fresh().at(&[(1, 1)]);
    assert_eq!(watched(&before, sent(1, 0, 10, &[]), (1, 2, 3)).0, before);
    // Other names in its message are heard all the same.
    let (state, _) = watched(&before, sent(1, 0, 10, &[TWO]).at(&[(2, 3)]), (1, 2, 3));
    assert_eq!(state, before.clone().at(&[(2, 3)]));
    // Past their range they are 40, heeded or not.
    let past = Some(Readings::of(GREATEST_CLOCK + 1, 0, 0, 0));
    refused(&before, &receipt(sent(1, 0, 10, &[]), past), 40);
}

#[test]
fn epochs_of_older_names_in_terms_leave_readings_heeded() {
    // True by an older name, and the sender is current: tested, saved, and blamed.
    let (before, _) = watched(&fresh().at(&[(1, 1)]), sent(2, 0, 10, &[ONE]), (0, 0, 0));
    assert_eq!((before.held.len(), before.clocks[2]), (0, saved([(0, 0, 0); 3])));
    let (state, branches) = watched(&before, sent(2, 0, 10, &[ONE]), (0, 9, 0));
    assert!(branches.has(Branch::True) && branches.has(Branch::Violated));
    holds(&state, &[], &[&[TWO]], &[(1, 1)]);
}

#[test]
fn epochs_of_a_blamed_name_take_its_entry_away() {
    let (before, _) = watched(&fresh(), sent(1, 0, 10, &[]), (0, 0, 0));
    let (before, _) = watched(&before, sent(1, 0, 10, &[]), (0, 9, 0));
    holds(&before, &[], &[&[ONE]], &[]);
    assert_eq!(ask(&before, 0), [0, 0, 0]);
    let (state, branches) = taken(&before, &receipt(mended(1, 1), None));
    holds(&state, &[], &[], &[(1, 1)]);
    assert!(branches.has(Branch::EntryGone) && branches.has(Branch::TriplesOfSender));
    assert_eq!(ask(&state, 0), [1, 0, 0]);
}

#[test]
fn epochs_of_another_name_rise_with_a_violation() {
    // 2 violates the test and brings the mended 1: data of the old 1 go, then 2 is blamed.
    let (before, _) = watched(&fresh(), sent(2, 0, 10, &[]), (0, 0, 0));
    let before = heard(&before, &[sent(1, 0, 10, &[]), sent(3, 20, 30, &[ONE | TWO])]);
    let (state, branches) = watched(&before, sent(2, 0, 10, &[ONE]).at(&[(1, 1)]), (0, 9, 0));
    assert!(branches.has(Branch::Violated) && branches.has(Branch::EntryGone));
    // 3 + {1,2} has become 3 + 2, which {2} implies, and goes by step 2.
    assert!(branches.has(Branch::DatumRewritten) && branches.has(Branch::HeldExplained));
    holds(&state, &[], &[&[TWO]], &[(1, 1)]);
}

// ---- refusals

/// Eight terms of one name each, from 6 on.
fn eight() -> Vec<Term> {
    (6..6 + DATUM_TERMS as u32).map(one).collect()
}

#[test]
fn epochs_31_counts_after_older_names_have_left() {
    refused(&fresh(), &receipt(sent(2, 0, 10, &eight()), None), 31);
    let (state, branches) = taken(&fresh().at(&[(6, 1)]), &receipt(sent(2, 0, 10, &eight()), None));
    assert!(branches.has(Branch::OldSpared) && branches.has(Branch::OldMadeTrue));
    holds(&state, &[], &[], &[(6, 1)]);
    // An older sender's is true however many terms there are.
    let before = fresh().at(&[(2, 1)]);
    assert_eq!(heard(&before, &[sent(2, 0, 10, &eight())]), before);
    // {9,10} to {9,17} with an older 9 are eight names and the sender's.
    let pairs: Vec<Term> = (10..18).map(|n| one(9) | one(n)).collect();
    refused(&fresh(), &receipt(sent(2, 0, 10, &pairs), None), 31);
    refused(&fresh().at(&[(9, 1)]), &receipt(sent(2, 0, 10, &pairs), None), 31);
    // With an older 10 they are {9} and the sender's.
    let state = heard(&fresh().at(&[(10, 1)]), &[sent(2, 0, 10, &pairs)]);
    holds(&state, &[(0, 10, &[TWO, one(9)])], &[], &[(10, 1)]);
}

/// A state with a datum, an entry and triples of 1, and triples of 2.
fn full_of_1() -> State {
    let (state, _) = watched(&fresh(), sent(1, 0, 10, &[]), (0, 0, 0));
    let (state, _) = watched(&state, sent(2, 20, 30, &[]), (0, 0, 0));
    state
}

#[test]
fn epochs_of_refused_receipts_are_not_heard() {
    let before = full_of_1();
    let readings = [None, Some(Readings::of(0, 0, 0, 0)), Some(Readings::of(0, 9, 0, 0))];
    for readings in readings {
        let with = |message: Message| receipt(message, readings);
        // 31, with the sender's epoch, another's, and both.
        let too_many: Vec<Term> = [&[ONE][..], &eight()[1..]].concat();
        for epochs in [&[(2, 1)][..], &[(1, 1)], &[(1, 1), (2, 1)]] {
            refused(&before, &with(sent(2, 0, 10, &too_many).at(epochs)), 31);
        }
        // 30, also for a true predicate and for an older sender.
        for terms in [&[ONE][..], &[0]] {
            let late = sent(2, 0, GREATEST_END, terms).at(&[(1, 1), (2, 1)]).bytes();
            refused(&before, &Call::Receive { least: 0, greatest: 1, readings, message: late }, 30);
        }
        let late = sent(2, 0, GREATEST_END, &[ONE]).at(&[(1, 1)]).bytes();
        let call = Call::Receive { least: 0, greatest: 1, readings, message: late };
        refused(&before.clone().at(&[(2, 1)]), &call, 30);
        // 18, and 42 of a message that brings an epoch.
        refused(&before, &with(sent(5, 0, 10, &[ONE]).at(&[(1, 1)])), 18);
        let mut words = write(&sent(2, 0, 10, &[ONE]).at(&[(1, 1)])).to_vec();
        words.remove(2);
        let message = bytes_of(&words);
        refused(&before, &Call::Receive { least: 0, greatest: 0, readings, message }, 42);
    }
}

#[test]
fn epochs_of_receipts_refused_32_are_not_heard() {
    // All places for data are in use, and no row has the mended name.
    let mut before = fresh();
    before.held = (6..6 + MOST_DATA as u32).map(|n| Datum::of(0, 10, &[one(n)])).collect();
    before.clocks[1] = saved([(0, 0, 0); 3]);
    refused(&before, &receipt(sent(1, 0, 10, &[]).at(&[(1, 1)]), None), 32);
    refused(&before, &receipt(sent(2, 0, 10, &[ONE]).at(&[(1, 1)]), None), 32);
    // A row that is withdrawn makes room.
    let (state, _) = taken(&before, &receipt(sent(1, 0, 10, &[one(7)]).at(&[(7, 1)]), None));
    assert_eq!((state.held.len(), state.epochs[7]), (MOST_DATA, 1));
    assert_eq!(state.held[MOST_DATA - 1], Datum::of(0, 10, &[ONE, one(7)]));
    // And all places for entries, as with a violation.
    let mut before = fresh();
    before.entries = pairs(MOST_ENTRIES).collect();
    before.clocks[2] = saved([(0, 0, 0); 3]);
    let blamed = Some(Readings::of(0, 9, 0, 0));
    refused(&before, &receipt(sent(2, 0, 10, &[ONE]).at(&[(1, 1)]), blamed), 32);
    let (state, _) = taken(&before, &receipt(sent(2, 0, 10, &[one(11)]).at(&[(11, 1)]), blamed));
    assert!(state.entries.len() < MOST_ENTRIES && state.entries.contains(&Predicate::of(&[TWO])));
}

/// The receipt brings the mended 1, whose withdrawal changes data and entries, and is then refused 32
/// for too many of one kind, by both programs: every byte is as before. Gives what the withdrawal
/// alone leaves, which a message that says nothing but the epoch shows.
fn refused_32_once_withdrawn(before: &State, call: &Call, too_many: Branch) -> State {
    let (withdrawn, _) = taken(before, &receipt(mended(1, 1), None));
    assert!(withdrawn.held != before.held && withdrawn.entries != before.entries, "{before:?}");
    refused(before, call, 32);
    let (_, bytes, _, branches) = tried(call, &before.bytes(), 0);
    assert!(bytes == before.bytes(), "{call:?} in {before:?}");
    let changed = [Branch::DatumRewritten, Branch::EntryRewritten, Branch::FewerTerms, too_many];
    assert!(changed.iter().all(|&branch| branches.has(branch)), "{call:?} in {before:?}");
    withdrawn
}

/// So many entries of two names each, all from 11 on; none implies another.
fn pairs(count: usize) -> impl Iterator<Item = Predicate> {
    let all = (11..NAMES).flat_map(|n| (11..n).map(move |m| Predicate::of(&[one(m), one(n)])));
    all.take(count)
}

#[test]
fn epochs_refused_32_for_data_after_a_withdrawal_change_no_byte() {
    // All places for data are in use. Without the old 1 two data lose names or a term, none goes.
    let mut before = fresh();
    before.held = (6..4 + MOST_DATA as u32).map(|n| Datum::of(0, 10, &[one(n)])).collect();
    before.held.push(Datum::of(0, 9, &[TWO, ONE_AND_THREE]));
    before.held.push(Datum::of(0, 20, &[ONE_AND_THREE, THREE | one(4)]));
    before.entries =
        vec![Predicate::of(&[ONE, TWO]), Predicate::of(&[ONE | one(21), TWO | one(21)])];
    before.clocks[1] = saved([(0, 0, 0); 3]);
    let readings = [None, Some(Readings::of(9, 5_000_000, 0, 0))];
    for message in [sent(1, 0, 10, &[]), sent(4, 0, 10, &[ONE]), sent(4, 0, 10, &[ONE | TWO])] {
        for readings in readings {
            let call = receipt(message.clone().at(&[(1, 1)]), readings);
            let withdrawn = refused_32_once_withdrawn(&before, &call, Branch::TooManyData);
            assert_eq!((withdrawn.held.len(), withdrawn.entries.len()), (MOST_DATA, 1));
            assert_eq!(withdrawn.held[MOST_DATA - 1], Datum::of(0, 20, &[THREE]));
            // With one place more it is taken, and heard.
            let mut room = before.clone();
            room.held.remove(0);
            let (state, _) = taken(&room, &call);
            assert_eq!((state.held.len(), state.epochs[1]), (MOST_DATA, 1));
            assert_eq!(state.held[..MOST_DATA - 1], withdrawn.held[1..]);
        }
    }
}

#[test]
fn epochs_refused_32_for_entries_after_a_withdrawal_change_no_byte() {
    // All places for entries are in use. Without the old 1 a datum and an entry go, others lose
    // names; then three data are disjoint from the new one.
    let mut before = fresh();
    let rows: [&[Term]; 4] = [&[one(6)], &[ONE], &[one(7)], &[TWO, ONE_AND_THREE]];
    before.held = rows.map(|p| Datum::of(0, 10, p)).to_vec();
    before.entries = vec![Predicate::of(&[ONE, TWO]), Predicate::of(&[ONE | one(9), TWO | one(9)])];
    before.entries.extend(pairs(MOST_ENTRIES - 2));
    for message in [sent(1, 50, 60, &[]), sent(4, 50, 60, &[ONE])] {
        let call = receipt(message.at(&[(1, 1)]), None);
        let withdrawn = refused_32_once_withdrawn(&before, &call, Branch::TooManyEntries);
        assert_eq!((withdrawn.held.len(), withdrawn.entries.len()), (3, MOST_ENTRIES - 1));
        // With two places more it is taken, and heard.
        let mut room = before.clone();
        room.entries.truncate(MOST_ENTRIES - 2);
        let (state, _) = taken(&room, &call);
        assert_eq!((state.entries.len(), state.epochs[1]), (MOST_ENTRIES, 1));
    }
    // The place for a violation's entry is missing where the rise frees none.
    before.entries.remove(0);
    before.entries.extend(pairs(MOST_ENTRIES - 1).last());
    before.clocks[2] = saved([(0, 0, 0); 3]);
    let blamed = Some(Readings::of(0, 9, 0, 0));
    for terms in [&[ONE][..], &[ONE | one(5)]] {
        let call = receipt(sent(2, 0, 10, terms).at(&[(1, 1)]), blamed);
        let withdrawn = refused_32_once_withdrawn(&before, &call, Branch::TooManyEntries);
        assert_eq!((withdrawn.held.len(), withdrawn.entries.len()), (3, MOST_ENTRIES));
        let mut room = before.clone();
        room.entries.pop();
        let (state, _) = taken(&room, &call);
        assert_eq!((state.entries.len(), state.epochs[1]), (MOST_ENTRIES, 1));
    }
}

/// The table's rows on words, as receipts.
#[test]
fn epochs_words_that_are_flawed_are_42_in_receiving() {
    let sound = write(&sent(1, 0, 10, &[TWO])).to_vec();
    assert_eq!(sound[..3], [536_870_945, 1, 2]);
    let with = |epochs: &[u32]| [&sound[..1], epochs, &sound[3..]].concat();
    let check = |words: &[u32]| {
        let (_, earlier) = words.split_last().expect("a check word");
        let sum = earlier.iter().fold(0u32, |sum, &word| sum.wrapping_add(word));
        [earlier, &[7 << 29 | sum & ((1 << 29) - 1)]].concat()
    };
    let get = |words: &[u32]| {
        let message = bytes_of(words);
        Call::Receive { least: 0, greatest: 0, readings: None, message }
    };
    // 2 missing, none at all, unordered, twice, one too many, bit 9, identifier 29.
    let flawed: [&[u32]; 7] = [&[1], &[], &[2, 1], &[1, 2, 2], &[1, 2, 3], &[1, 514], &[1, 29]];
    for epochs in flawed {
        refused(&fresh(), &get(&check(&with(epochs))), 42);
        // And a wrong check word; or a wrong kind behind it.
        refused(&fresh(), &get(&with(&[epochs, &[]].concat())), 42);
        let mut kind = check(&with(epochs));
        let last = kind.len() - 2;
        kind[last] &= (1 << 29) - 1;
        refused(&fresh(), &get(&kind), 14);
    }
    // Words of kind 0 alone behind the head, and one in the place of the term.
    for (count, number) in [(5, 10), (6, 11), (43, 11), (44, 10)] {
        let zeros = vec![0; count - 1];
        refused(&fresh(), &get(&[&sound[..1], &zeros].concat()), number);
    }
    let mut kind = sound.clone();
    kind[7] &= (1 << 29) - 1;
    refused(&fresh(), &get(&check(&kind)), 14);
    // The own identifier in a term has a word too.
    let mut own = write(&sent(1, 0, 10, &[one(5)])).to_vec();
    own.remove(2);
    refused(&fresh(), &get(&check(&own)), 42);
    // Terms not in normal form, with the right words and with one missing.
    let mut terms = write(&sent(1, 0, 10, &[THREE, TWO])).to_vec();
    refused(&fresh(), &get(&terms), 17);
    terms.remove(2);
    refused(&fresh(), &get(&check(&terms)), 42);
}

#[test]
fn epochs_shortest_and_longest_messages_are_taken() {
    let words = [(1 << 29) + 1, 1, 4 << 29, (4 << 29) + 5, (5 << 29) + 5];
    let sum = words.iter().fold(0u32, |sum, &word| sum.wrapping_add(word));
    let message = bytes_of(&[&words[..], &[7 << 29 | sum & ((1 << 29) - 1)]].concat());
    assert_eq!(message.len(), 4 * 6);
    let (least, greatest, readings) = (0, 0, None);
    let state = taken(&fresh(), &Call::Receive { least, greatest, readings, message }).0;
    holds(&state, &[(0, 10, &[ONE])], &[], &[]);
    // Each term lacks one name, and the own identifier is in all: only the sender is left.
    let terms: Vec<Term> = (6..14).rev().map(|n| ALL_NAMES & !one(n)).collect();
    let all: Vec<(u32, u8)> = (0..NAMES).map(|n| (n, 3)).collect();
    let longest = sent(1, 0, 10, &terms).at(&all);
    assert_eq!(longest.bytes().len(), MESSAGE_BYTES);
    let before = heard(&fresh(), &[sent(28, 0, 10, &[])]);
    let state = heard(&before, &[longest]);
    let known: Vec<(u32, u8)> = all.into_iter().filter(|(n, _)| *n != 5).collect();
    holds(&state, &[(0, 10, &[ONE])], &[], &known);
}

// ---- setting up and the listing

#[test]
fn epochs_at_setting_up_are_0_and_the_own_is_given() {
    let set_up = |own, drift, reading, epoch| Call::SetUp { own, drift, reading, epoch };
    let before = full_of_1().at(&[(1, 4), (2, 5), (28, 6)]);
    let (state, _) = taken(&before, &set_up(28, 1_000, 9, 15));
    assert_eq!(state, State::fresh(28, 1_000, 9).at(&[(28, 15)]));
    refused(&before, &set_up(29, 1_001, 1 << 58, 16), 1);
    refused(&before, &set_up(28, 1_001, 1 << 58, 16), 41);
    refused(&before, &set_up(28, 1_001, 1 << 58, 15), 2);
    refused(&before, &set_up(28, 1_000, 1 << 58, 15), 3);
}

/// The second program's; both are compared in tests/listing.rs.
#[test]
fn epochs_in_the_listing_are_the_fourth_number_of_set() {
    let text = "set 5 100 0\nset 5 100 0 4294967296\nset 5 100 0 16\nset 5 100 0 15\nset 5 100 0\n";
    let printed = "bad line\nrefused 41\nrefused 41\nok\nbad line\n";
    assert_eq!(listing(text.as_bytes()), printed);
}

// ---- other calls

#[test]
fn epochs_stay_in_all_other_calls() {
    let before = full_of_1().at(&[(1, 4), (5, 7), (28, 15)]);
    let (state, _) = taken(&before, &Call::Age { reading: 1_000 });
    assert_eq!((state.epochs, state.entries), (before.epochs, before.entries.clone()));
    for limit in 0..=4 {
        // The same as at other epochs.
        assert_eq!(ask(&before, limit), ask(&full_of_1(), limit));
    }
}

// ---- seeded withdrawals

/// A predicate as lists of identifiers: those that are left of its terms once some have failed,
/// without those that contain another, by rising masks.
fn left_of(p: &Predicate, failed: &BTreeSet<u32>) -> Vec<Term> {
    let terms = p.iter().map(|t| {
        let names = (0..NAMES).filter(|n| t >> n & 1 != 0);
        names.filter(|n| !failed.contains(n)).collect::<BTreeSet<u32>>()
    });
    let terms: BTreeSet<BTreeSet<u32>> = terms.collect();
    let least = |t: &&BTreeSet<u32>| !terms.iter().any(|u| u != *t && u.is_subset(t));
    let masks = terms.iter().filter(least).map(|t| t.iter().fold(0, |mask, n| mask | 1 << n));
    masks.collect::<BTreeSet<Term>>().into_iter().collect()
}

/// The state once these identifiers have these epochs, of which the risen ones are above.
fn without(before: &State, risen: &BTreeSet<u32>, epochs: &[(u32, u8)]) -> State {
    let mut state = before.clone();
    state
        .held
        .iter_mut()
        .for_each(|datum| datum.predicate = Predicate::of(&left_of(&datum.predicate, risen)));
    state.held.retain(|datum| datum.predicate[..] != [0]);
    state.entries =
        before.entries.iter().map(|entry| Predicate::of(&left_of(entry, risen))).collect();
    state.entries.retain(|entry| entry[..] != [0]);
    risen.iter().for_each(|n| state.clocks[*n as usize] = None);
    let known = epochs.iter().copied().filter(|(n, _)| risen.contains(n));
    state.at(&known.collect::<Vec<(u32, u8)>>())
}

/// An older sender's message in any state: what it does is to withdraw names, no more.
#[test]
fn epochs_withdrawn_in_any_state_leave_what_lists_do() {
    let mut tally = Tally::default();
    for seed in 0..50_000 {
        let mut random = Random::new(seed);
        let mut before = states::in_form(&mut random);
        let sender = (before.own + 1 + random.below(28) as u32) % NAMES;
        let epoch = random.below(GREATEST_EPOCH.into()) as u8;
        before.epochs[sender as usize] = epoch + 1 + random.below(u64::from(15 - epoch)) as u8;
        let named: Term =
            (0..random.pick(&[1, 2, 3, 6, 20])).fold(0, |t, _| t | 1 << random.below(29));
        let mut message = sent(sender, 0, 10, &[named]).at(&[(sender, epoch)]);
        let others: Vec<u32> = (0..NAMES).filter(|n| named >> n & 1 != 0 && *n != sender).collect();
        let epochs: Vec<(u32, u8)> = others.iter().map(|n| (*n, random.below(16) as u8)).collect();
        message = message.at(&epochs);
        let above =
            |(n, epoch): &&(u32, u8)| *n != before.own && *epoch > before.epochs[*n as usize];
        let risen: BTreeSet<u32> = epochs.iter().filter(above).map(|(n, _)| *n).collect();
        let (state, branches) = taken(&before, &receipt(message, None));
        let wanted = without(&before, &risen, &epochs);
        assert_eq!(state, wanted, "seed {seed}: {risen:?} {epochs:?} in {before:?}");
        for (what, met) in [
            ("none risen", risen.is_empty()),
            ("one", risen.len() == 1),
            ("two", risen.len() == 2),
            ("more", risen.len() > 2),
            ("data gone", branches.has(Branch::DatumGone)),
            ("rewritten", branches.has(Branch::DatumRewritten)),
            ("entries gone", branches.has(Branch::EntryGone)),
            ("entries rewritten", branches.has(Branch::EntryRewritten)),
            ("with fewer terms", branches.has(Branch::FewerTerms)),
            ("triples gone", branches.has(Branch::TriplesInTerm)),
            ("the own epoch passed over", branches.has(Branch::OwnEpoch)),
            ("left with no datum", !before.held.is_empty() && state.held.is_empty()),
            ("all data left", state.held.len() == before.held.len() && !risen.is_empty()),
        ] {
            tally.count(what, met);
        }
    }
    tally.check("50,000 withdrawals by an older sender", 500);
}

#[test]
fn epochs_of_first_names_are_the_bytes_of_before() {
    // Where no epoch is above 0, the last 29 bytes are zero and change nothing.
    let state = heard(&fresh(), &[sent(1, 0, 10, &[TWO]), sent(3, 20, 30, &[])]);
    assert_eq!(state.epochs, FIRST_EPOCHS);
    assert!(state.bytes()[5_364..].iter().all(|&byte| byte == 0));
}
