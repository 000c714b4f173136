//! Setting up, by both programs: edges by name.

use second::epochs::GREATEST_EPOCH;
use second::lent::{compare, Lent};
use second::predicates::GREATEST_NAME;
use second::random::Random;
use second::state::{
    State, DRIFT_AT, GREATEST_DRIFT, GREATEST_READING, OWN_AT, READING_AT, STATE_BYTES,
};
use second::{engine, set_up};

/// Own identifier, drift, reading and own epoch.
type Numbers = (u32, u32, u64, u64);

/// Sets up in both programs on any bytes, so many of them. Gives the number and the bytes.
fn set_up_in(len: usize, (own, drift, reading, epoch): Numbers) -> (u32, Vec<u8>) {
    let mut random = Random::new(len as u64);
    let bytes = random.bytes(len);
    let (mut state, mut none) = (Lent::new(&bytes, &mut random), Lent::new(&[], &mut random));
    let number = compare(
        &mut state,
        &mut none,
        [STATE_BYTES, 0],
        |bytes, _| set_up::call(bytes, own, drift, reading, epoch),
        |bytes, _| engine::monitor_set_up(bytes, own, drift, reading, epoch),
    );
    let case = format!("monitor_set_up of {len} bytes, {own} {drift} {reading} {epoch}");
    (number.unwrap_or_else(|fault| panic!("{case}: {fault}")), state.bytes().to_vec())
}

fn refused(numbers: Numbers, number: u32) {
    assert_eq!(set_up_in(STATE_BYTES, numbers).0, number, "{numbers:?}");
    assert_eq!(set_up_in(STATE_BYTES + 9, numbers).0, number, "{numbers:?}");
}

/// A state that holds nothing, written out here byte by byte.
fn taken(numbers: Numbers) {
    let (own, drift, reading, epoch) = numbers;
    let mut fresh = vec![0; STATE_BYTES];
    fresh[OWN_AT] = own as u8;
    fresh[DRIFT_AT] = drift as u8;
    fresh[DRIFT_AT + 1] = (drift >> 8) as u8;
    (0..8).for_each(|i| fresh[READING_AT + i] = (reading >> (8 * i)) as u8);
    fresh[5_364 + own as usize] = epoch as u8;
    let (number, bytes) = set_up_in(STATE_BYTES, numbers);
    assert_eq!(number, 0, "{numbers:?}");
    assert!(bytes == fresh, "{numbers:?}");
    let state = State::fresh(own, drift, reading).at(&[(own, epoch as u8)]);
    assert_eq!(State::of(&bytes), Ok(state));
    let (number, bytes) = set_up_in(STATE_BYTES + 9, numbers);
    assert!(number == 0 && bytes[..STATE_BYTES] == fresh, "{numbers:?}");
}

#[test]
fn set_up_every_name_is_taken_and_29_is_1() {
    (0..=GREATEST_NAME).for_each(|own| taken((own, 100, 0, 0)));
    for own in [
        GREATEST_NAME + 1,
        GREATEST_NAME + 2,
        31,
        32,
        64,
        255,
        256,
        256 + 5,
        65_536,
        1 << 31,
        u32::MAX,
    ] {
        refused((own, 100, 0, 0), 1);
    }
}

#[test]
fn set_up_drift_1000_is_taken_and_1001_is_2() {
    let most = GREATEST_DRIFT;
    (0..=most).for_each(|drift| taken((5, drift, 7, 0)));
    for drift in [most + 1, most + 2, 1_024, 2_000, 65_536, 65_536 + 5, 1 << 31, u32::MAX] {
        refused((5, drift, 7, 0), 2);
    }
}

#[test]
fn set_up_reading_below_2_to_the_58_is_taken_and_others_are_3() {
    for reading in [0, 1, 255, 256, 1 << 29, 1 << 32, 0x0102_0304_0506_0708, GREATEST_READING] {
        taken((5, 100, reading, 0));
    }
    for reading in [GREATEST_READING + 1, GREATEST_READING + 2, 1 << 59, 1 << 63, u64::MAX] {
        refused((5, 100, reading, 0), 3);
    }
}

#[test]
fn set_up_every_own_epoch_is_taken_and_16_is_41() {
    let most = u64::from(GREATEST_EPOCH);
    for own in 0..=GREATEST_NAME {
        (0..=most).for_each(|epoch| taken((own, 100, 0, epoch)));
    }
    let near = [most + 1, most + 2, 31, 32, 255, 256, 256 + 5];
    for epoch in near.into_iter().chain([1 << 16, 1 << 32, (1 << 32) + 5, 1 << 63, u64::MAX]) {
        refused((5, 100, 0, epoch), 41);
    }
}

#[test]
fn set_up_least_and_greatest_of_all_is_taken() {
    taken((0, 0, 0, 0));
    taken((GREATEST_NAME, GREATEST_DRIFT, GREATEST_READING, GREATEST_EPOCH.into()));
}

/// All flaws in all combinations.
#[test]
fn set_up_several_flaws_is_the_first_of_24_1_41_2_3() {
    let (name, drift) = (GREATEST_NAME + 1, GREATEST_DRIFT + 1);
    let (reading, epoch) = (GREATEST_READING + 1, u64::from(GREATEST_EPOCH) + 1);
    for flaws in 0..1 << 4 {
        let has = |flaw: u32| flaws >> flaw & 1;
        let numbers = (
            name - 1 + has(0),
            drift - 1 + has(2),
            reading - 1 + u64::from(has(3)),
            epoch - 1 + u64::from(has(1)),
        );
        match (0..4).find(|&flaw| has(flaw) != 0) {
            Some(first) => refused(numbers, [1, 41, 2, 3][first as usize]),
            None => taken(numbers),
        }
        assert_eq!(set_up_in(STATE_BYTES - 1, numbers).0, 24);
        assert_eq!(set_up_in(0, numbers).0, 24);
    }
}

#[test]
fn set_up_short_state_is_24_and_longer_is_taken() {
    let about = STATE_BYTES - 32;
    for len in (0..40).chain(about..about + 100).chain([4_096, 65_536, 65_536 + about]) {
        let number = set_up_in(len, (5, 100, 0, 3)).0;
        assert_eq!(number, if len < STATE_BYTES { 24 } else { 0 }, "{len} bytes");
    }
}
