//! The second program's instants against sets of whole numbers, and its long division against that
//! of wide numbers.

use second::instants::{
    by_fraction, joined, split, Instant, Instants, Interval, GREATEST_END, GREATEST_INSTANT,
};
use second::random::Random;
use std::collections::BTreeSet;

/// The window in which sets stand for instants: all of it stands for all.
const WINDOW: std::ops::Range<i128> = -3..12;

/// Those in the window.
fn listed(instants: Instants) -> BTreeSet<i128> {
    match instants {
        Instants::Empty => BTreeSet::new(),
        Instants::All => WINDOW.collect(),
        Instants::Between(left, right) => (left..=right).collect(),
    }
}

/// None, all, and every interval of small numbers.
fn some() -> Vec<Instants> {
    let ends = (-1..6).flat_map(|left| (left..6).map(move |right| (left, right)));
    let intervals = ends.map(|(left, right)| Instants::Between(left, right));
    [Instants::Empty, Instants::All].into_iter().chain(intervals).collect()
}

#[test]
fn instants_meet_an_interval_in_those_of_both() {
    for instants in some() {
        for (left, right) in (0..6).flat_map(|left| (left..6).map(move |right| (left, right))) {
            let interval = listed(Instants::Between(left, right));
            let both = &listed(instants) & &interval;
            let meet = instants.meet(Interval { left, right });
            assert_eq!(listed(meet), both, "{instants:?} {left} {right}");
            assert_ne!(meet, Instants::All);
        }
    }
}

#[test]
fn instants_advance_by_every_amount_within_the_bounds() {
    for instants in some() {
        for (least, greatest) in [(0, 0), (0, 2), (1, 1), (2, 5)] {
            let advanced = instants.advanced(least, greatest);
            if instants == Instants::All {
                assert_eq!(advanced, Instants::All);
                continue;
            }
            let amounts = least..=greatest;
            let steps =
                listed(instants).into_iter().flat_map(|x| amounts.clone().map(move |a| x + a));
            assert_eq!(listed(advanced), steps.collect(), "{instants:?} {least} {greatest}");
        }
    }
}

#[test]
fn instants_join_from_the_least_to_the_greatest() {
    for one in some() {
        for other in some() {
            let join = one.join(other);
            let both = &listed(one) | &listed(other);
            assert_eq!(listed(join).first(), both.first(), "{one:?} {other:?}");
            assert_eq!(listed(join).last(), both.last(), "{one:?} {other:?}");
            let all = one == Instants::All || other == Instants::All;
            assert_eq!(join == Instants::All, all, "{one:?} {other:?}");
        }
    }
}

#[test]
fn instants_within_others_are_a_part_of_them() {
    for one in some() {
        for other in some() {
            let part = listed(one).is_subset(&listed(other));
            assert_eq!(one.within(other), part, "{one:?} {other:?}");
        }
    }
}

/// Instants that can be stored, often at the edge of a microsecond or of 32 bits.
fn stored(random: &mut Random) -> Instant {
    let bits = random.below(59);
    let (any_whole, any) = (random.below(1 << bits), random.below(1_000_000) as u32);
    let whole = random.pick(&[0, 1, GREATEST_END - 1, any_whole, any_whole]);
    let edge = Instant::from(random.bits() >> 24 & 0x3fff) << 32;
    let near = joined(whole, random.pick(&[0, 1, 999_999, any]));
    random.pick(&[near, near, edge, (edge - 1).max(0), GREATEST_INSTANT]).min(GREATEST_INSTANT)
}

#[test]
fn instants_split_as_wide_numbers_divide() {
    assert_eq!(GREATEST_INSTANT, 288_230_376_151_711_743_000_000);
    for seed in 0..200_000 {
        let x = stored(&mut Random::new(seed));
        let (whole, millionths) = split(x);
        assert_eq!(
            (Instant::from(whole), Instant::from(millionths)),
            (x / 1_000_000, x % 1_000_000)
        );
        assert_eq!(joined(whole, millionths), x);
        // Up to a microsecond past the greatest end.
        let (whole, millionths) = split(x + 999_999);
        let past = x + 999_999;
        assert_eq!(Instant::from(whole), past / 1_000_000);
        assert_eq!(Instant::from(millionths), past % 1_000_000);
    }
}

#[test]
fn instants_round_outward() {
    for seed in 0..200_000 {
        let mut random = Random::new(seed);
        let (left, right) = (stored(&mut random), stored(&mut random));
        let Interval { left: low, right: high } = Interval { left, right }.rounded();
        assert_eq!(Instant::from(low), left.div_euclid(1_000_000), "{left}");
        assert_eq!(Instant::from(high), -(-right).div_euclid(1_000_000), "{right}");
        assert!(low <= GREATEST_END && high <= GREATEST_END);
        let whole = Interval { left: low, right: high };
        assert_eq!(whole.exact().rounded(), whole);
    }
}

#[test]
fn instants_by_fraction_are_two_in_one_microsecond() {
    let cases = [
        (5_200_000, 5_400_000, true),
        (5_000_000, 5_999_999, true),
        (5_000_000, 6_000_000, false),
        (5_999_999, 6_000_000, false),
        (5_000_000, 5_000_000, false),
        (0, 1, true),
        (GREATEST_INSTANT, GREATEST_INSTANT + 999_999, true),
        (GREATEST_INSTANT, GREATEST_INSTANT - 1, false),
    ];
    for (one, other, wanted) in cases {
        assert_eq!(by_fraction(one, other), wanted, "{one} {other}");
        assert_eq!(by_fraction(other, one), wanted, "{other} {one}");
    }
}
