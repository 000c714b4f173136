//! Ageing, by both programs: edges by name, then seeded advances.

use second::ageing::{self, advance};
use second::engine;
use second::instants::{joined, Instant, Interval, GREATEST_END, GREATEST_INSTANT, MILLION};
use second::lent::{compare, Lent};
use second::predicates::{Predicate, GREATEST_NAME};
use second::random::Random;
use second::samples::states;
use second::state::{
    Datum, State, GREATEST_DRIFT, GREATEST_READING, MOST_DATA, OWN_AT, STATE_BYTES,
};

/// Ages lent bytes in both programs. Gives the number and the bytes.
fn age_bytes(bytes: &[u8], reading: u64) -> (u32, Vec<u8>) {
    let mut random = Random::new(reading);
    let (mut state, mut none) = (Lent::new(bytes, &mut random), Lent::new(&[], &mut random));
    let number = compare(
        &mut state,
        &mut none,
        [STATE_BYTES, 0],
        |bytes, _| ageing::call(bytes, reading),
        |bytes, _| engine::monitor_age(bytes, reading),
    );
    let case = || format!("monitor_age {reading} in {:?}", State::of(bytes));
    (number.unwrap_or_else(|fault| panic!("{}: {fault}", case())), state.bytes().to_vec())
}

fn refused(state: &State, reading: u64, number: u32) {
    let bytes = [&state.bytes()[..], &[7, 0, 9]].concat();
    assert_eq!(age_bytes(&bytes, reading), (number, bytes), "{reading} in {state:?}");
}

/// Left and right, in millionths.
type Ends = (Instant, Instant);

/// The state with another reading and these ends.
fn taken(before: &State, reading: u64, ends: &[Ends]) {
    let (number, bytes) = age_bytes(&[&before.bytes()[..], &[7, 0, 9]].concat(), reading);
    assert_eq!(number, 0, "{reading} in {before:?}");
    assert_eq!(bytes[STATE_BYTES..], [7, 0, 9]);
    let mut after = State { reading, ..before.clone() };
    assert_eq!(after.held.len(), ends.len());
    for (datum, &(left, right)) in after.held.iter_mut().zip(ends) {
        datum.interval = Interval { left, right };
    }
    assert_eq!(State::of(&bytes), Ok(after), "{reading} in {before:?}");
}

/// Whole microseconds.
fn whole(left: u64, right: u64) -> Ends {
    (joined(left, 0), joined(right, 0))
}

/// A state at reading 1,000 with a datum for each interval, and an entry.
fn holding(drift: u32, ends: &[Ends]) -> State {
    let held = ends.iter().map(|&(left, right)| Datum::exact(left, right, &[2, 8]));
    State {
        held: held.collect(),
        entries: vec![Predicate::of(&[4, 16])],
        ..State::fresh(0, drift, 1_000)
    }
}

// ---- advances

#[test]
fn age_one_microsecond_at_drift_100_is_0_9999_and_1_0001() {
    taken(&holding(100, &[whole(50, 60)]), 1_001, &[(50_999_900, 61_000_100)]);
    taken(&holding(100, &[whole(0, 10)]), 1_001, &[(999_900, 11_000_100)]);
}

#[test]
fn age_equal_reading_changes_nothing() {
    for drift in [0, 100, GREATEST_DRIFT] {
        let ends = [whole(50, 60), whole(0, GREATEST_END), (1, 999_999), (1_999_999, 1_999_999)];
        taken(&holding(drift, &ends), 1_000, &ends);
        taken(&holding(drift, &[]), 1_000, &[]);
    }
}

#[test]
fn age_without_drift_advances_both_ends_by_what_passed() {
    for d in [1, 2, 999_999, 1_000_000, 1 << 40] {
        let gained = joined(d, 0);
        taken(&holding(0, &[whole(50, 60)]), 1_000 + d, &[whole(50 + d, 60 + d)]);
        let ends = (1, 999_999);
        taken(&holding(0, &[ends]), 1_000 + d, &[(ends.0 + gained, ends.1 + gained)]);
    }
}

#[test]
fn age_advance_is_exact() {
    for (drift, d, least, greatest) in [
        (100, 9_999, 9_998_000_100, 9_999_999_900),
        (100, 10_000, 9_999_000_000, 10_001_000_000),
        (100, 10_001, 9_999_999_900, 10_002_000_100),
        (1, 1, 999_999, 1_000_001),
        (1, 499_999, 499_998_500_001, 499_999_499_999),
        (1, 500_001, 500_000_499_999, 500_001_500_001),
        (1, 999_999, 999_998_000_001, 999_999_999_999),
        (1, 1_000_000, 999_999_000_000, 1_000_001_000_000),
        (1, 1_000_001, 999_999_999_999, 1_000_002_000_001),
        (1_000, 1, 999_000, 1_001_000),
        (1_000, 999, 998_001_000, 999_999_000),
        (1_000, 1_000, 999_000_000, 1_001_000_000),
        (1_000, 1_001, 999_999_000, 1_002_001_000),
        (1_000, 1 << 57, 143_971_072_887_780_016_128_000, 144_259_303_263_931_727_872_000),
    ] {
        let ends = (7_000_000 + least, 70_000_000 + greatest);
        taken(&holding(drift, &[whole(7, 70)]), 1_000 + d, &[ends]);
        taken(
            &holding(drift, &[(7_000_001, 70_999_999)]),
            1_000 + d,
            &[(ends.0 + 1, ends.1 + 999_999)],
        );
    }
}

/// A sum of fractions of 1,000,000 is a microsecond more, and one below it is not.
#[test]
fn age_carries_at_a_million() {
    // Millionths before, and after one microsecond at drift 100: 0.9999 and 1.0001.
    for (left, aged) in [(99, 999_999), (100, 1_000_000), (101, 1_000_001), (999_999, 1_999_899)] {
        taken(&holding(100, &[(left, 5_000_000)]), 1_001, &[(aged, 6_000_100)]);
    }
    for (right, aged) in
        [(899, 999), (999_899, 999_999), (999_900, 1_000_000), (999_999, 1_000_099)]
    {
        taken(&holding(100, &[(0, right)]), 1_001, &[(999_900, 1_000_000 + aged)]);
    }
    // Nothing is borrowed where the drift has made whole microseconds.
    taken(&holding(1_000, &[(0, 0)]), 2_000, &[(999_000_000, 1_001_000_000)]);
    taken(&holding(1_000, &[(1, 1)]), 2_000, &[(999_000_001, 1_001_000_001)]);
}

#[test]
fn age_every_datum_advances_and_entries_stay() {
    let ends: Vec<Ends> = (0..MOST_DATA as Instant).map(|i| (100 * i, 1_500_001 * i)).collect();
    let aged = ends.iter().map(|&(l, r)| (l + 9_998_000_100, r + 9_999_999_900));
    taken(&holding(100, &ends), 1_000 + 9_999, &aged.collect::<Vec<Ends>>());
}

#[test]
fn age_a_thousand_times_by_1_is_as_once_by_1_000() {
    let mut bytes = holding(100, &[whole(0, 10)]).bytes();
    for reading in 1_001..=2_000 {
        let (number, aged) = age_bytes(&bytes, reading);
        assert_eq!(number, 0, "{reading}");
        bytes = aged;
    }
    assert_eq!((0, bytes), age_bytes(&holding(100, &[whole(0, 10)]).bytes(), 2_000));
    // Rounded each time it was 0 to 2,010.
    taken(&holding(100, &[whole(0, 10)]), 2_000, &[(999_900_000, 1_010_100_000)]);
}

#[test]
fn age_ten_times_by_a_second_is_as_once_by_ten() {
    for drift in [0, 1, 7, 100, 999, GREATEST_DRIFT] {
        let before = holding(drift, &[whole(0, 10), (999_999, 1_000_001), (123_456_789, 1 << 70)]);
        let seconds = (1..=10).map(|second| 1_000 + 1_000_000 * second);
        let aged = seconds.fold(before.bytes(), |bytes, reading| age_bytes(&bytes, reading).1);
        assert_eq!((0, aged), age_bytes(&before.bytes(), 10_001_000));
    }
}

#[test]
fn age_without_data_moves_the_reading_alone() {
    taken(&holding(GREATEST_DRIFT, &[]), GREATEST_READING, &[]);
    taken(&State::fresh(GREATEST_NAME, GREATEST_DRIFT, 0), GREATEST_READING, &[]);
    taken(&State::fresh(GREATEST_NAME, 0, GREATEST_READING), GREATEST_READING, &[]);
}

// ---- refusals

#[test]
fn age_reading_of_2_to_the_58_is_3() {
    for reading in [GREATEST_READING + 1, GREATEST_READING + 2, 1 << 63, u64::MAX] {
        refused(&holding(100, &[whole(50, 60)]), reading, 3);
        refused(&State::fresh(GREATEST_NAME, 0, GREATEST_READING), reading, 3);
    }
}

#[test]
fn age_reading_below_the_last_is_20() {
    for reading in [0, 1, 999] {
        refused(&holding(100, &[whole(50, 60)]), reading, 20);
    }
    refused(&State::fresh(0, 0, GREATEST_READING), GREATEST_READING - 1, 20);
    refused(&State::fresh(0, 0, 1 << 32), (1 << 32) - 1, 20);
    refused(&State::fresh(0, 0, 1 << 32), 1, 20);
}

#[test]
fn age_right_end_at_the_greatest_is_taken_and_past_it_is_30() {
    let top = GREATEST_INSTANT;
    for d in [1, 5, 999_999, 1_000_000] {
        let end = top - joined(d, 0);
        taken(&holding(0, &[(3, end)]), 1_000 + d, &[(3 + joined(d, 0), top)]);
        refused(&holding(0, &[(3, end)]), 1_001 + d, 30);
        // A millionth more is too much.
        refused(&holding(0, &[(3, end + 1)]), 1_000 + d, 30);
        taken(&holding(0, &[(3, end - 1)]), 1_000 + d, &[(3 + joined(d, 0), top - 1)]);
    }
    for drift in [0, 1, 100, GREATEST_DRIFT] {
        refused(&holding(drift, &[(3, top)]), 1_001, 30);
        refused(&holding(drift, &[(top, top)]), 1_001, 30);
        taken(&holding(drift, &[(3, top)]), 1_000, &[(3, top)]);
    }
}

#[test]
fn age_right_end_two_below_the_greatest_bears_1_at_a_drift_and_2_without() {
    let (below, top) = (GREATEST_INSTANT - 2 * MILLION, GREATEST_INSTANT);
    taken(&holding(100, &[(0, below)]), 1_001, &[(999_900, top - 999_900)]);
    refused(&holding(100, &[(0, below)]), 1_002, 30);
    taken(&holding(0, &[(0, below)]), 1_001, &[(MILLION, top - MILLION)]);
    taken(&holding(0, &[(0, below)]), 1_002, &[(2 * MILLION, top)]);
    refused(&holding(0, &[(0, below)]), 1_003, 30);
    refused(&holding(100, &[(0, top - MILLION)]), 1_001, 30);
    // One microsecond can be 1.0001.
    taken(&holding(100, &[(0, top - 1_000_100)]), 1_001, &[(999_900, top)]);
    refused(&holding(100, &[(0, top - 1_000_099)]), 1_001, 30);
}

#[test]
fn age_any_one_datum_past_the_greatest_end_is_30() {
    for place in 0..MOST_DATA {
        let mut ends = [whole(1_000, 2_000); MOST_DATA];
        ends[place].1 = GREATEST_INSTANT - 10 * MILLION;
        refused(&holding(0, &ends), 1_011, 30);
        let aged = ends.map(|(left, right)| (left + 10 * MILLION, right + 10 * MILLION));
        taken(&holding(0, &ends), 1_010, &aged);
        ends[place].1 += 1;
        refused(&holding(0, &ends), 1_010, 30);
    }
}

#[test]
fn age_longest_time_that_an_end_bears_is_taken() {
    for drift in [0, 1, 100, GREATEST_DRIFT - 1, GREATEST_DRIFT] {
        let state = State { reading: 0, ..holding(drift, &[(0, 0)]) };
        let (mut least, mut most) = (0, GREATEST_READING);
        // The greatest d whose advance can be stored, by halves.
        while least < most {
            let d = least + (most - least).div_ceil(2);
            (least, most) =
                if advance(d, drift).1 <= GREATEST_INSTANT { (d, most) } else { (least, d - 1) };
        }
        taken(&state, least, &[advance(least, drift)]);
        if least < GREATEST_READING {
            refused(&state, least + 1, 30);
            refused(&state, GREATEST_READING, 30);
        }
    }
}

#[test]
fn age_several_flaws_is_the_first_of_24_25_3_20_30() {
    let last = State { reading: GREATEST_READING, ..holding(100, &[whole(0, GREATEST_END)]) };
    refused(&last, GREATEST_READING + 1, 3);
    refused(&last, GREATEST_READING - 1, 20);
    let mut broken = last.bytes();
    broken[OWN_AT] = GREATEST_NAME as u8 + 1;
    for reading in [0, GREATEST_READING, GREATEST_READING + 1] {
        assert_eq!(age_bytes(&broken, reading), (25, broken.clone()));
        assert_eq!(age_bytes(&broken[..STATE_BYTES - 1], reading).0, 24);
        assert_eq!(age_bytes(&last.bytes()[..STATE_BYTES - 1], reading).0, 24);
    }
}

// ---- seeded advances

#[test]
fn age_any_state_by_any_time_is_answered_alike() {
    let mut counts = [0; 2];
    for seed in 0..20_000 {
        let mut random = Random::new(seed);
        let before = states::in_form(&mut random);
        let bits = random.below(59);
        let d = random.below(1 << bits) + random.below(3);
        let (number, bytes) = age_bytes(&before.bytes(), before.reading.saturating_add(d));
        assert!([0, 3, 30].contains(&number), "seed {seed}");
        let (least, greatest) = advance(d, before.drift);
        if number == 0 {
            let after = State::of(&bytes).expect("a state in form");
            assert_eq!(after.entries, before.entries, "seed {seed}");
            for (new, old) in after.held.iter().zip(&before.held) {
                assert_eq!(
                    Some(new.interval),
                    old.interval.advanced(least, greatest),
                    "seed {seed}"
                );
            }
        }
        counts[usize::from(number == 0)] += 1;
    }
    assert!(counts.iter().all(|&count| count > 1_000), "{counts:?}");
}

#[test]
fn advance_is_what_counting_finds() {
    for r in 0..=GREATEST_DRIFT {
        let (mut least, mut greatest) = (0, 0);
        for d in 0..=2_500 {
            assert_eq!(advance(d, r), (least, greatest), "{d} at drift {r}");
            least += MILLION - Instant::from(r);
            greatest += MILLION + Instant::from(r);
        }
    }
}

/// Times that are counted one by one, doubled as often as there are bits.
#[test]
fn advance_of_two_times_is_that_of_both() {
    for seed in 0..200_000 {
        let mut random = Random::new(seed);
        let bits = random.below(58);
        let (d, e) = (random.below(1 << bits), random.below(1 << bits));
        let r = random.below(u64::from(GREATEST_DRIFT) + 1) as u32;
        let (one, other, both) = (advance(d, r), advance(e, r), advance(d + e, r));
        assert_eq!(both, (one.0 + other.0, one.1 + other.1), "seed {seed}");
        assert_eq!(advance(2 * d, r), (2 * one.0, 2 * one.1), "seed {seed}");
        // In between is what passed without drift.
        assert_eq!(one.0 + one.1, 2 * joined(d, 0), "seed {seed}");
    }
}
