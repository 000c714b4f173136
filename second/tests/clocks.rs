//! The sender's clock (document 02, W-201), by both programs: test (20), what is saved, what a
//! violation does, the order of refusals; edges by name. Seeded runs are in tests/runs.rs, with their
//! books in tests/book.rs; damaged places are in tests/state.rs.

use second::branches::{Branch, Branches};
use second::calls::{ask, fewest, refused, taken, tried, Call, CONTRADICTED, OPEN};
use second::clocks::{excess, Readings, Saved, Triple, GREATEST_CLOCK};
use second::instants::GREATEST_END;
use second::message::{bytes_of, write, Message};
use second::predicates::{Predicate, Term, GREATEST_NAME, NAMES};
use second::random::Random;
use second::receiving::GREATEST_DELAY;
use second::samples::states;
use second::state::{
    clock_at, Datum, State, CLOCKS_AT, CLOCK_BYTES, DATUM_TERMS, DRIFT_AT, GREATEST_DRIFT,
    MOST_DATA, MOST_ENTRIES, STATE_BYTES,
};

// ---- what is compared

/// a, b, w and the sender's drift.
type Read = (u64, u64, u64, u32);

fn message(sender: u32, left: u64, right: u64, terms: &[Term]) -> Vec<u8> {
    Message::of(sender, left, right, terms).bytes()
}

/// A receipt without delay.
fn receipt(read: Read, message: Vec<u8>) -> Call {
    let (a, b, w, drift) = read;
    let readings = Some(Readings::of(a, b, w, drift));
    Call::Receive { least: 0, greatest: 0, readings, message }
}

// ---- states and triples

/// Own name 5, drift 0, nothing held.
fn fresh() -> State {
    State::fresh(5, 0, 0)
}

/// The state after receipts from sender 1, without terms and from 0 to 10, each with readings.
fn after(before: &State, reads: &[Read]) -> (State, Branches) {
    let start = (before.clone(), Branches::default());
    reads.iter().fold(start, |(state, _), &read| taken(&state, &receipt(read, from_1())))
}

fn from_1() -> Vec<u8> {
    message(1, 0, 10, &[])
}

fn triple((a, b, w): (u64, u64, u64)) -> Triple {
    Triple { a, b, w }
}

/// The previous one, the one with the largest a − b + w, the one with the largest b − a + w.
fn three(all: [(u64, u64, u64); 3]) -> Option<Saved> {
    let [previous, ahead, behind] = all.map(triple);
    Some(Saved { previous, ahead, behind })
}

/// So many entries of two names each, all from 11 on; none implies another.
fn pairs(count: usize) -> Vec<Predicate> {
    let all = (11..NAMES).flat_map(|n| (11..n).map(move |m| Predicate::of(&[1 << m, 1 << n])));
    all.take(count).collect()
}

/// Nothing but the place of a name differs.
fn only_its_place_changed(before: &State, after: &State, name: u32) {
    let (before, after) = (before.bytes(), after.bytes());
    let place = clock_at(name)..clock_at(name) + CLOCK_BYTES;
    assert!(before[..place.start] == after[..place.start]);
    assert!(before[place.end..] == after[place.end..]);
    assert!(before[place.clone()] != after[place]);
}

// ---- test (20)

/// Violated or not after these readings of sender 1 by own name 5, without a violation before.
fn last_violates(own_drift: u32, reads: &[Read]) -> bool {
    let (last, earlier) = reads.split_last().expect("readings");
    let (state, branches) = after(&State::fresh(5, own_drift, 0), earlier);
    assert!(!branches.has(Branch::Violated), "{reads:?}");
    assert_eq!((state.held.len(), state.entries.len()), (1, 0), "{reads:?}");
    let (state, branches) = after(&state, &[*last]);
    let violated = branches.has(Branch::Violated);
    let left = if violated { (0, 1) } else { (1, 0) };
    assert_eq!((state.held.len(), state.entries.len()), left, "{reads:?}");
    violated
}

#[test]
fn clocks_first_readings_are_not_tested_and_are_all_three_triples() {
    let (state, branches) = after(&fresh(), &[(0, 0, 1, 0)]);
    assert!(branches.has(Branch::SavedFirst) && !branches.has(Branch::Tested));
    assert_eq!(state.held, [Datum::of(0, 10, &[2])]);
    assert_eq!(state.clocks[1], three([(0, 0, 1); 3]));
    // However far apart they are.
    let (last, top) = (GREATEST_CLOCK, GREATEST_DRIFT);
    for read in [(0, last, 0, 0), (last, 0, 0, 0), (last, last, last, top)] {
        let (state, _) = after(&fresh(), &[read]);
        assert_eq!(state.clocks[1], three([(read.0, read.1, read.2); 3]));
        assert_eq!(state.entries, []);
    }
}

#[test]
fn clocks_at_the_bound_are_no_violation() {
    let (state, branches) = after(&fresh(), &[(0, 0, 1, 0), (100, 102, 1, 0)]);
    assert!(branches.has(Branch::Tested) && branches.has(Branch::AtBound));
    assert_eq!((state.held.len(), state.entries.len()), (1, 0));
    // 0 − 0 + 1 and 100 − 102 + 1; 0 − 0 + 1 and 102 − 100 + 1.
    assert_eq!(state.clocks[1], three([(100, 102, 1), (0, 0, 1), (100, 102, 1)]));
    let (state, _) = after(&fresh(), &[(0, 2, 1, 0), (100, 100, 1, 0)]);
    assert_eq!(state.entries, []);
    assert_eq!(state.clocks[1], three([(100, 100, 1), (100, 100, 1), (0, 2, 1)]));
}

#[test]
fn clocks_past_the_bound_are_a_violation() {
    let (state, branches) = after(&fresh(), &[(0, 0, 1, 0), (100, 103, 1, 0)]);
    assert!(branches.has(Branch::Violated) && branches.has(Branch::NewExplained));
    assert_eq!((&state.held[..], &state.entries[..]), (&[][..], &[Predicate::of(&[2])][..]));
    assert_eq!([ask(&state, 0), ask(&state, 1)], [CONTRADICTED, OPEN]);
    assert_eq!(fewest(&state), [1, 2]);
    // The violating triple is saved too.
    assert_eq!(state.clocks[1], three([(100, 103, 1), (0, 0, 1), (100, 103, 1)]));
    assert!(last_violates(0, &[(0, 3, 1, 0), (100, 100, 1, 0)]));
}

#[test]
fn clocks_drifts_are_added() {
    // 1,000,000 > 200 × 5,000 is false; 1,000,000 > 200 × 4,999 is true.
    assert!(!last_violates(100, &[(0, 0, 0, 100), (5_000, 5_001, 0, 100)]));
    assert!(last_violates(100, &[(0, 0, 0, 100), (4_999, 5_000, 0, 100)]));
    // Either alone, and the drift of the last receipt alone.
    assert!(!last_violates(200, &[(0, 0, 0, 0), (5_000, 5_001, 0, 0)]));
    assert!(!last_violates(0, &[(0, 0, 0, 0), (5_000, 5_001, 0, 200)]));
    assert!(last_violates(0, &[(0, 0, 0, 200), (5_000, 5_001, 0, 199)]));
    assert!(last_violates(199, &[(0, 0, 0, 200), (5_000, 5_001, 0, 0)]));
    // The time that passed is the sender's: 1 > 2,000 × 500 / 1,000,000 is false.
    let most = GREATEST_DRIFT;
    assert!(!last_violates(most, &[(0, 0, 0, 0), (500, 501, 0, most)]));
    assert!(last_violates(most, &[(0, 0, 0, 0), (499, 500, 0, most)]));
    assert!(!last_violates(most, &[(0, 1, 0, 0), (500, 500, 0, most)]));
    assert!(last_violates(most, &[(0, 1, 0, 0), (499, 499, 0, most)]));
}

#[test]
fn clocks_both_half_widths_count() {
    assert!(!last_violates(0, &[(0, 0, 3, 0), (10, 15, 2, 0)]));
    assert!(last_violates(0, &[(0, 0, 3, 0), (10, 16, 2, 0)]));
    assert!(!last_violates(0, &[(0, 0, 0, 0), (10, 15, 5, 0)]));
    assert!(!last_violates(0, &[(0, 0, 5, 0), (10, 15, 0, 0)]));
    assert!(last_violates(0, &[(0, 0, 5, 0), (10, 16, 0, 0)]));
}

#[test]
fn clocks_that_both_go_back_count_by_their_distance() {
    // ||0 − 10| − (0 − 10)| = 20.
    assert!(last_violates(0, &[(10, 10, 0, 0), (0, 0, 0, 0)]));
    let (state, branches) = after(&fresh(), &[(10, 10, 10, 0), (0, 0, 10, 0)]);
    assert!(branches.has(Branch::AtBound) && branches.has(Branch::Tie));
    assert_eq!(state.entries, []);
    assert_eq!(state.clocks[1], three([(0, 0, 10), (10, 10, 10), (10, 10, 10)]));
    assert!(last_violates(0, &[(10, 10, 10, 0), (0, 0, 9, 0)]));
}

#[test]
fn clocks_own_reading_below_a_saved_one_counts_by_its_distance() {
    // ||0 − 10| − (10 − 0)| = 0; signed it would be 20.
    assert!(!last_violates(0, &[(0, 10, 0, 0), (10, 0, 0, 0)]));
    assert!(last_violates(0, &[(0, 10, 0, 0), (0, 0, 0, 0)]));
    assert!(!last_violates(0, &[(0, 10, 4, 0), (6, 0, 0, 0)]));
    assert!(last_violates(0, &[(0, 10, 3, 0), (6, 0, 0, 0)]));
}

#[test]
fn clocks_senders_reading_below_a_saved_one_is_far_off() {
    // ||10 − 0| − (0 − 10)| = 20.
    assert!(!last_violates(0, &[(10, 0, 10, 0), (0, 10, 10, 0)]));
    assert!(last_violates(0, &[(10, 0, 10, 0), (0, 10, 9, 0)]));
    // ||0| − (0 − 1)| = 1, and the drift counts over the distance.
    assert!(last_violates(0, &[(1, 5, 0, 0), (0, 5, 0, 0)]));
    assert!(!last_violates(0, &[(1, 5, 1, 0), (0, 5, 0, 0)]));
    let most = GREATEST_DRIFT;
    assert!(!last_violates(most, &[(1_000, 5, 998, 0), (0, 5, 0, most)]));
    assert!(last_violates(most, &[(1_000, 5, 997, 0), (0, 5, 0, most)]));
}

#[test]
fn clocks_of_the_greatest_numbers_are_tested_without_overflow() {
    let (last, most) = (GREATEST_CLOCK, GREATEST_DRIFT);
    // The greatest left side, 17,592,186,044,414,000,000, against the least right one.
    assert!(last_violates(0, &[(last, 0, 0, 0), (0, last, 0, 0)]));
    assert!(last_violates(most, &[(last, 0, 0, 0), (0, last, 0, most)]));
    assert_eq!(
        excess(Triple::of(last, 0, 0), Triple::of(0, last, 0), 0),
        17_592_186_044_414_000_000
    );
    // The greatest right side, 17,609,778,230,458,414,000, against any left one.
    let wide = Triple::of(last, last, last);
    assert_eq!(excess(wide, Triple::of(0, last, last), 2_000), right_above_left(2_000, last));
    for (a, b) in [(0, 0), (0, last), (last, 0), (last, last)] {
        assert!(!last_violates(most, &[(last, last, last, 0), (a, b, last, most)]), "{a} {b}");
        assert!(!last_violates(most, &[(0, 0, last, 0), (a, b, last, most)]), "{a} {b}");
    }
    // At the very bound with the greatest numbers: 2 × (2^43 − 1) > (2^43 − 1) + w.
    assert!(!last_violates(0, &[(last, 0, last, 0), (0, last, last, 0)]));
    assert!(last_violates(0, &[(last, 0, last, 0), (0, last, last - 1, 0)]));
    // Between 2^63 and 2^64 on both sides.
    assert!(last_violates(0, &[(last, 0, last, 0), (0, last, last / 2, 0)]));
}

/// For two a's the greatest distance apart with half widths of the greatest, and equal b's.
fn right_above_left(drifts: i128, last: u64) -> i128 {
    let last = i128::from(last);
    1_000_000 * last - (drifts * last + 2_000_000 * last)
}

/// Where b has not gone back, test (20) says that no way for the sender's clock to run within both
/// drifts leads from one interval around b to the other; both in millionths.
#[test]
fn clocks_test_20_is_what_its_words_say() {
    let mut met = [0; 3];
    for seed in 0..200_000 {
        let mut random = Random::new(seed);
        let span = random.pick(&[4, 30, 3_000]);
        let one = Triple::of(random.below(span), random.below(span), random.below(4));
        let other = Triple::of(random.below(span), one.b + random.below(span), random.below(4));
        let drifts = random.pick(&[0, 200, 2_000]);
        let passed = 1_000_000 * (i128::from(other.a) - i128::from(one.a));
        let error = i128::from(drifts) * passed.abs() / 1_000_000;
        let between = 1_000_000 * i128::from(other.b - one.b);
        let widths = 1_000_000 * i128::from(one.w + other.w);
        // From the earliest to the latest that can lie between both, on either clock.
        let (own_least, own_most) = (between - widths, between + widths);
        let (least, most) = (passed - error, passed + error);
        let apart = own_most < least || most < own_least;
        let above = excess(one, other, drifts);
        assert_eq!(above > 0, apart, "seed {seed}: {one:?} {other:?} {drifts}");
        met[if above == 0 { 2 } else { usize::from(apart) }] += 1;
        // A b below the other counts by its distance.
        let back = Triple { b: other.b, ..one };
        let forth = Triple { b: one.b, ..other };
        assert_eq!(excess(back, forth, drifts), above, "seed {seed}");
    }
    assert!(met.iter().all(|&count| count > 2_000), "{met:?}");
}

// ---- what is saved

#[test]
fn clocks_that_tie_leave_the_earlier() {
    let (state, branches) = after(&fresh(), &[(0, 0, 0, 0), (5, 5, 0, 0), (7, 7, 0, 0)]);
    assert!(branches.has(Branch::Tie));
    assert_eq!(state.entries, []);
    assert_eq!(state.clocks[1], three([(7, 7, 0), (0, 0, 0), (0, 0, 0)]));
}

#[test]
fn clocks_with_a_larger_sum_take_the_place() {
    let reads = [(10, 10, 2, 0), (20, 19, 2, 0), (30, 31, 2, 0), (40, 38, 1, 0), (50, 52, 1, 0)];
    let wanted = [
        three([(10, 10, 2); 3]),
        three([(20, 19, 2), (20, 19, 2), (10, 10, 2)]),
        three([(30, 31, 2), (20, 19, 2), (30, 31, 2)]),
        // 40 − 38 + 1 = 20 − 19 + 2: a tie.
        three([(40, 38, 1), (20, 19, 2), (30, 31, 2)]),
        three([(50, 52, 1), (20, 19, 2), (30, 31, 2)]),
    ];
    for (count, wanted) in wanted.into_iter().enumerate() {
        let (state, _) = after(&fresh(), &reads[..count + 1]);
        assert_eq!(state.clocks[1], wanted);
    }
}

#[test]
fn clocks_sums_below_zero_are_compared_as_numbers() {
    let last = GREATEST_CLOCK;
    // a − b + w: −5, then −4, then −(2^43 − 1); widths that forgive everything come last.
    let (state, _) = after(&fresh(), &[(0, 5, 0, 0), (1, 5, 1, 0)]);
    assert_eq!(state.clocks[1].map(|saved| saved.ahead), Some(Triple::of(1, 5, 1)));
    let (state, _) = after(&fresh(), &[(0, last, 0, 0), (0, last - 1, 1, 0), (0, last, 0, 0)]);
    let [ahead, behind] = [(0, last - 1, 1), (0, last, 0)].map(triple);
    assert_eq!(state.clocks[1], Some(Saved { previous: triple((0, last, 0)), ahead, behind }));
}

#[test]
fn clocks_of_each_sender_have_their_own_place() {
    let mut state = fresh();
    for sender in (0..NAMES).filter(|&sender| sender != 5) {
        let n = u64::from(sender);
        let (next, branches) =
            taken(&state, &receipt((n, 1_000 * n, 7, 0), message(sender, 0, 10, &[0])));
        assert!(branches.has(Branch::SavedFirst));
        only_its_place_changed(&state, &next, sender);
        assert_eq!(next.clocks[sender as usize], three([(n, 1_000 * n, 7); 3]));
        state = next;
    }
    assert!(state.clocks[5].is_none());
}

#[test]
fn clocks_saved_at_the_own_name_are_never_looked_at() {
    let mut before = fresh();
    before.clocks[5] = three([(0, 900, 0), (1, 800, 0), (2, 700, 0)]);
    let (state, branches) = after(&before, &[(0, 0, 0, 0), (1, 1, 0, 0)]);
    assert!(!branches.has(Branch::Violated));
    assert_eq!(state.clocks[5], before.clocks[5]);
}

#[test]
fn clocks_are_left_by_receipts_without_readings_and_by_all_other_calls() {
    let (mut state, _) = after(&fresh(), &[(0, 0, 1, 0), (5, 6, 1, 0), (9, 8, 1, 0)]);
    let clocks = state.clocks;
    let receive = |message| Call::Receive { least: 0, greatest: 5, readings: None, message };
    let calls = [
        receive(from_1()),
        receive(message(1, 50, 60, &[])),
        receive(message(2, 5, 6, &[0])),
        Call::Age { reading: 4_000_000 },
        receive(message(2, 7, 9, &[])),
    ];
    for call in calls {
        state = taken(&state, &call).0;
        assert_eq!(state.clocks, clocks, "{call:?}");
    }
    // And the next readings are tested against them.
    let (_, branches) = taken(&state, &receipt((10, 12, 0, 0), from_1()));
    assert!(branches.has(Branch::Violated));
}

#[test]
fn clocks_are_zero_after_setting_up() {
    let (state, _) = after(&fresh(), &[(1, 2, 3, 4)]);
    let set_up = Call::SetUp { own: 1, drift: 2, reading: 3, epoch: 0 };
    assert_eq!(taken(&state, &set_up).0, State::fresh(1, 2, 3));
}

// ---- each of the three triples

/// The receipt violates the test against one of the three alone.
fn violates_alone(reads: &[Read], branch: Branch) {
    assert!(last_violates(0, reads), "{reads:?}");
    let (_, branches) = after(&fresh(), reads);
    assert!(branches.has(branch), "{branch:?}: {reads:?}");
}

#[test]
fn clocks_that_one_triple_alone_shows_are_a_violation() {
    let reads = [(4, 0, 0, 0), (10, 8, 2, 0), (20, 21, 0, 1_000)];
    assert!(last_violates(0, &reads));
    // The intervals around b − a: [−4, −4], [−4, 2] and then [1, 1].
    violates_alone(&[(4, 0, 0, 0), (10, 9, 3, 0), (20, 21, 0, 1_000)], Branch::ByAhead);
    violates_alone(&[(0, 4, 0, 0), (9, 10, 3, 0), (21, 20, 0, 1_000)], Branch::ByBehind);
    // The wide one has both largest sums, and the narrow one within it is the previous.
    violates_alone(&[(0, 5, 5, 0), (10, 13, 0, 0), (20, 25, 0, 0)], Branch::ByPrevious);
}

#[test]
fn clocks_that_violate_are_saved_and_tested_against() {
    let (state, branches) = after(&fresh(), &[(0, 0, 0, 0), (0, 9, 0, 0)]);
    assert!(branches.has(Branch::Violated) && branches.has(Branch::NameAdded));
    assert_eq!(state.clocks[1], three([(0, 9, 0), (0, 0, 0), (0, 9, 0)]));
    // Quiet against the second, and not against the first: the entry stays, once.
    let (state, branches) = after(&state, &[(1, 10, 0, 0)]);
    assert!(branches.has(Branch::ByAhead) && branches.has(Branch::NameImplied));
    assert_eq!(state.entries, [Predicate::of(&[2])]);
    assert_eq!(state.clocks[1], three([(1, 10, 0), (0, 0, 0), (0, 9, 0)]));
    // Once the sender is known to have failed, quiet readings are saved as before.
    let wide = (2, 6, 50, 0);
    let (state, branches) = after(&state, &[wide]);
    assert!(!branches.has(Branch::Violated) && branches.has(Branch::NewExplained));
    assert_eq!(state.clocks[1], three([(2, 6, 50); 3]));
}

// ---- what a violation does

#[test]
fn clocks_that_agree_with_a_true_predicate_change_their_place_alone() {
    let (before, _) = after(&fresh(), &[(0, 0, 1, 0)]);
    let (state, branches) = taken(&before, &receipt((3, 4, 1, 0), message(1, 50, 60, &[0])));
    assert!(branches.has(Branch::True) && branches.has(Branch::Tested));
    only_its_place_changed(&before, &state, 1);
    // Step 2 comes only after a violation: what an entry explains stays.
    let mut before = fresh();
    before.held = vec![Datum::of(0, 10, &[4])];
    before.entries = vec![Predicate::of(&[4])];
    let (state, _) = taken(&before, &receipt((3, 4, 1, 0), message(1, 50, 60, &[0])));
    only_its_place_changed(&before, &state, 1);
}

#[test]
fn clocks_violation_with_a_true_predicate_clears_as_another_does() {
    let (before, _) = after(&fresh(), &[(0, 0, 0, 0)]);
    let (before, _) = taken(&before, &receipt((0, 0, 0, 0), message(2, 5, 15, &[])));
    assert_eq!(before.held, [Datum::of(0, 10, &[2]), Datum::of(5, 15, &[4])]);
    assert_eq!(ask(&before, 0), [2, 5, 10]);
    for terms in [&[0][..], &[]] {
        let (state, branches) = taken(&before, &receipt((0, 1, 0, 0), message(1, 0, 10, terms)));
        assert_eq!(branches.has(Branch::True), terms == [0]);
        assert!(branches.has(Branch::Violated) && branches.has(Branch::HeldExplained));
        assert_eq!(state.held, [Datum::of(5, 15, &[4])]);
        assert_eq!(state.entries, [Predicate::of(&[2])]);
        assert_eq!([ask(&state, 0), ask(&state, 1)], [CONTRADICTED, [2, 5, 15]]);
        assert_eq!([ask(&state, 2), ask(&state, 4)], [OPEN, OPEN]);
        assert_eq!(fewest(&state), [1, 2]);
        assert_eq!(state.clocks[1], three([(0, 1, 0), (0, 0, 0), (0, 1, 0)]));
    }
}

#[test]
fn clocks_violation_drives_out_entries_that_the_name_implies() {
    // 1 + 2 is known, and data of 2 are held.
    let (before, _) = after(&fresh(), &[(0, 0, 0, 0)]);
    let (before, _) = taken(&before, &receipt((0, 0, 0, 0), message(2, 20, 30, &[])));
    assert_eq!(before.entries, [Predicate::of(&[2, 4])]);
    let (state, branches) = after(&before, &[(0, 1, 0, 0)]);
    assert!(branches.has(Branch::NameAdded) && branches.has(Branch::NameDroveOut));
    assert_eq!(state.entries, [Predicate::of(&[2])]);
    assert_eq!(state.held, [Datum::of(20, 30, &[4])]);
    // It stands last, behind those that stay.
    let mut before = before;
    before.entries.extend([[8, 16], [2, 8]].map(|p| Predicate::of(&p)));
    let (state, _) = after(&before, &[(0, 1, 0, 0)]);
    assert_eq!(state.entries, [Predicate::of(&[8, 16]), Predicate::of(&[2])]);
}

#[test]
fn clocks_violation_adds_no_entry_where_one_implies_the_name() {
    // It is known that 9 and 10 have both failed.
    let both = Predicate::of(&[3 << 9]);
    let mut before = fresh();
    before.entries = vec![Predicate::of(&[2, 4]), both];
    before.clocks[9] = three([(0, 0, 0); 3]);
    before.held = vec![Datum::of(0, 10, &[1 << 9]), Datum::of(0, 10, &[1 << 11])];
    let (state, branches) = taken(&before, &receipt((0, 1, 0, 0), message(9, 0, 10, &[])));
    assert!(branches.has(Branch::NameImplied) && !branches.has(Branch::NameAdded));
    assert_eq!(state.entries, before.entries);
    // Step 2 comes all the same.
    assert_eq!(state.held, [Datum::of(0, 10, &[1 << 11])]);
    assert_eq!(state.clocks[9], three([(0, 1, 0), (0, 0, 0), (0, 1, 0)]));
}

#[test]
fn clocks_violation_leaves_no_entry_of_step_1() {
    // Disjoint from all that is held; each sum is implied by the sender's name.
    let mut before = fresh();
    before.clocks[1] = three([(0, 0, 0); 3]);
    before.held = vec![Datum::of(50, 60, &[4]), Datum::of(70, 80, &[2, 8]), Datum::of(0, 9, &[8])];
    let (state, branches) = after(&before, &[(0, 1, 0, 0)]);
    assert!(branches.has(Branch::Disjoint) && branches.has(Branch::EntryImplied));
    assert!(!branches.has(Branch::EntryAdded));
    assert_eq!(state.entries, [Predicate::of(&[2])]);
    assert_eq!(state.held, [before.held[0], before.held[2]]);
}

/// With a violation only the entry and step 2 matter: the interval and the predicate do not.
#[test]
fn clocks_violation_is_the_same_for_every_message_of_a_sender() {
    let mut violations = 0;
    for seed in 0..20_000 {
        let mut random = Random::new(seed);
        let mut before = states::in_form(&mut random);
        let sender = (before.own + 1 + random.below(GREATEST_NAME.into()) as u32) % NAMES;
        before.clocks[sender as usize] = three([(0, 0, 0); 3]);
        let sent = [(0, 10, &[][..]), (30, 40, &[1 << 3, 3 << 7]), (0, GREATEST_END, &[0])];
        let after = sent.map(|(left, right, terms)| {
            let message = Message::of(sender, left, right, terms);
            let message = Message { epochs: before.epochs, ..message }.bytes();
            let call = receipt((9, 99, 0, 0), message);
            let (number, bytes, ..) = tried(&call, &before.bytes(), 0);
            assert!([0, 32].contains(&number), "seed {seed}: {number}");
            violations += u64::from(number == 0);
            (number, bytes)
        });
        assert!(after[0] == after[1] && after[0] == after[2], "seed {seed}: {before:?}");
    }
    assert!(violations > 20_000, "{violations}");
}

#[test]
fn clocks_violation_without_a_place_for_the_entry_is_32() {
    let mut before = fresh();
    before.clocks[1] = three([(0, 0, 0); 3]);
    before.entries = pairs(MOST_ENTRIES);
    for terms in [&[][..], &[0], &[4]] {
        let violating = message(1, 0, 10, terms);
        refused(&before, &receipt((0, 1, 0, 0), violating.clone()), 32);
        // With one place left it is taken, and readings that agree always are.
        let mut room = before.clone();
        room.entries.pop();
        let (state, _) = taken(&room, &receipt((0, 1, 0, 0), violating.clone()));
        assert_eq!(state.entries.len(), MOST_ENTRIES);
        taken(&before, &receipt((1, 1, 0, 0), violating));
    }
    // Where an entry goes, or one implies the name, no place is needed.
    for entry in [&[2, 4][..], &[2 | 4], &[2]] {
        let mut other = before.clone();
        other.entries[7] = Predicate::of(entry);
        let (state, _) = taken(&other, &receipt((0, 1, 0, 0), from_1()));
        assert_eq!(state.entries.len(), MOST_ENTRIES);
    }
}

#[test]
fn clocks_violation_is_taken_where_a_seventeenth_datum_would_not_be() {
    let mut before = fresh();
    before.clocks[1] = three([(0, 0, 0); 3]);
    before.held = (0..MOST_DATA).map(|n| Datum::of(0, 10, &[1 << (n + 8)])).collect();
    refused(&before, &receipt((0, 0, 0, 0), from_1()), 32);
    let (state, _) = taken(&before, &receipt((0, 1, 0, 0), from_1()));
    assert_eq!(state.held, before.held);
    assert_eq!(state.entries, [Predicate::of(&[2])]);
}

// ---- 40 and the order of refusals

/// Each number past its range, by a little and by far.
fn past() -> Vec<Read> {
    let (last, top) = (GREATEST_CLOCK, GREATEST_DRIFT);
    let far = [last + 1, last + 2, 1 << 44, 1 << 58, 1 << 63, u64::MAX - 1, u64::MAX];
    let numbers = far.into_iter().flat_map(|x| [(x, 0, 0, 0), (0, x, 0, 0), (0, 0, x, 0)]);
    let drifts = [top + 1, top + 2, 1_024, 1 << 16, 1 << 31, u32::MAX].map(|r| (0, 0, 0, r));
    let several = [(u64::MAX, u64::MAX, u64::MAX, u32::MAX), (last + 1, last + 1, 0, top + 1)];
    numbers.chain(drifts).chain(several).collect()
}

#[test]
fn clocks_numbers_past_their_range_are_40() {
    let (watched, _) = after(&fresh(), &[(0, 0, 1, 0)]);
    for read in past() {
        for before in [fresh(), watched.clone()] {
            refused(&before, &receipt(read, from_1()), 40);
            refused(&before, &receipt(read, message(1, 0, 10, &[0])), 40);
        }
    }
}

#[test]
fn clocks_numbers_at_the_end_of_their_range_are_taken() {
    let (last, top) = (GREATEST_CLOCK, GREATEST_DRIFT);
    for read in [(last, last, last, top), (last, 0, 0, 0), (0, last, 0, 0), (0, 0, last, top)] {
        let (state, _) = after(&fresh(), &[read]);
        assert_eq!(state.clocks[1], three([(read.0, read.1, read.2); 3]));
    }
}

#[test]
fn clocks_several_flaws_are_the_first_of_24_25_21_40_and_the_message() {
    let mut broken = fresh().bytes();
    broken[DRIFT_AT..][..4].fill(255);
    let own = message(5, 0, 10, &[]);
    for read in past() {
        for message in [vec![], vec![1], own.clone(), from_1()] {
            let call = |least, greatest| {
                let (a, b, w, drift) = read;
                let readings = Some(Readings::of(a, b, w, drift));
                Call::Receive { least, greatest, readings, message: message.clone() }
            };
            for (least, greatest) in [(0, 0), (1, 0), (0, GREATEST_DELAY + 1)] {
                let short = &broken[..STATE_BYTES - 1];
                assert_eq!(tried(&call(least, greatest), short, 0).0, 24);
                assert_eq!(tried(&call(least, greatest), &broken, 0).0, 25);
            }
            refused(&fresh(), &call(1, 0), 21);
            refused(&fresh(), &call(0, GREATEST_DELAY + 1), 21);
            refused(&fresh(), &call(0, GREATEST_DELAY), 40);
        }
    }
}

/// The most terms, all of two names, none with a name below 9.
fn eight() -> Vec<Term> {
    (10..10 + DATUM_TERMS as u32).map(|n| 1 << 9 | 1 << n).collect()
}

/// A refused receipt for each number from 10 on, from sender 1 where its head can be read.
fn flawed() -> Vec<(u32, u64, Vec<u8>)> {
    // A head, epochs of 1, 2, 3 and 4, the ends, two terms and the check word.
    let sound = write(&Message::of(1, 10, 20, &[4, 24]));
    let changed = |place: usize, word: u32| {
        let mut words = sound.to_vec();
        words[place] ^= word;
        bytes_of(&words)
    };
    vec![
        (10, 0, vec![]),
        (10, 0, changed(0, 0)[1..].to_vec()),
        (12, 0, changed(0, 1 << 10)),
        (11, 0, changed(5, 1 << 29)),
        (13, 0, [changed(0, 0), vec![0; 4]].concat()),
        (14, 0, changed(8, 1 << 29)),
        (42, 0, changed(4, 1)),
        (15, 0, changed(11, 1)),
        (16, 0, message(1, 21, 20, &[])),
        (17, 0, message(1, 10, 20, &[24, 4])),
        (18, 0, message(5, 10, 20, &[])),
        (30, 1, message(1, 10, GREATEST_END, &[])),
        (30, 1, message(1, 10, GREATEST_END, &[0])),
        (31, 0, message(1, 10, 20, &eight())),
    ]
}

#[test]
fn clocks_of_refused_receipts_are_not_saved() {
    let (watched, _) = after(&fresh(), &[(0, 0, 1, 0)]);
    for (number, greatest, message) in flawed() {
        // Whether they agree or violate, and where nothing is saved yet.
        for (a, b) in [(5, 5), (0, 900)] {
            let readings = Some(Readings::of(a, b, 0, 0));
            let message = message.clone();
            let call = Call::Receive { least: 0, greatest, readings, message };
            refused(&fresh(), &call, number);
            refused(&watched, &call, number);
        }
    }
    // 32 for a datum, and for an entry of step 1.
    let mut before = watched.clone();
    before.held = (0..MOST_DATA).map(|n| Datum::of(0, 10, &[1 << (n + 8)])).collect();
    refused(&before, &receipt((5, 5, 0, 0), from_1()), 32);
    let mut before = watched;
    before.entries = pairs(MOST_ENTRIES);
    before.held = vec![Datum::of(50, 60, &[4])];
    refused(&before, &receipt((5, 5, 0, 0), from_1()), 32);
}

#[test]
fn clocks_short_states_are_24() {
    for len in (0..9).chain(CLOCKS_AT - 9..CLOCKS_AT + 9).chain(STATE_BYTES - 80..STATE_BYTES) {
        let bytes = fresh().bytes();
        assert_eq!(tried(&receipt((0, 0, 0, 0), from_1()), &bytes[..len], 0).0, 24, "{len}");
    }
}
