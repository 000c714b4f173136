//! Seeded clock readings: mostly such that agree with what is saved of a sender, often at the very
//! bound of test (20), and flawed ones now and then; and what may be saved in a state in form.

use crate::clocks::{Readings, Saved, Triple, GREATEST_CLOCK};
use crate::random::Random;
use crate::state::{Clocks, GREATEST_DRIFT, NO_CLOCKS};

/// Readings of a sender of whom this is saved, by a receiver with this drift.
pub fn readings(random: &mut Random, saved: Option<Saved>, own_drift: u32) -> Readings {
    let mut readings = any_readings(random, saved, own_drift);
    if let Some(saved) = saved {
        // Few are to violate the test, or all senders would soon be known to have failed.
        let wanted = random.pick(&[None, Some(1), Some(1), Some(0), Some(0), Some(0), Some(0)]);
        for _ in 0..8 {
            let excesses = saved.excesses(readings.triple, own_drift + readings.drift);
            let violated = excesses.iter().filter(|&&excess| excess > 0).count();
            if wanted.is_none_or(|wanted| wanted == violated) {
                break;
            }
            readings = any_readings(random, Some(saved), own_drift);
        }
    }
    if random.once_in(16) {
        flaw(random, &mut readings);
    }
    readings
}

fn any_readings(random: &mut Random, saved: Option<Saved>, own_drift: u32) -> Readings {
    let any = random.below(u64::from(GREATEST_DRIFT) + 1) as u32;
    let drift = random.pick(&[0, 0, 1, 100, any, GREATEST_DRIFT]);
    let old = saved.map(|saved| random.pick(&saved.triples()));
    let triple = match old {
        Some(old) => near(random, old, own_drift + drift),
        None => first(random),
    };
    Readings { triple, drift }
}

/// Where a sender's clock starts: small numbers, or the greatest.
fn first(random: &mut Random) -> Triple {
    let mut reading = || {
        let (small, large) = (random.below(60), random.below(GREATEST_CLOCK + 1));
        random.pick(&[small, small, small, small, large, GREATEST_CLOCK - small])
    };
    let (a, b) = (reading(), reading());
    Triple { a, b: random.pick(&[a, b]), w: half_width(random) }
}

fn half_width(random: &mut Random) -> u64 {
    let any = random.below(GREATEST_CLOCK + 1);
    match random.below(40) {
        0 => random.pick(&[any, GREATEST_CLOCK]),
        _ => random.pick(&[0, 0, 1, 2, 3, 8, 20]),
    }
}

/// A triple some time after a saved one, or before it, and off by about what is allowed.
fn near(random: &mut Random, old: Triple, drifts: u32) -> Triple {
    let small = random.below(12);
    // With most drifts a bound is a whole number only where so much time has passed.
    let passed = random.pick(&[0, small, small, small, 5_000, 10_000, 1_000_000, 40_000_000]);
    let w = half_width(random);
    let allowed = u64::from(drifts) * passed / 1_000_000 + old.w.min(40) + w.min(40);
    let within = random.below(allowed + 1);
    let off = random.pick(&[0, within, allowed, allowed, allowed + 1]);
    let later = |reading: u64, by: u64| (reading + by).min(GREATEST_CLOCK);
    let (a, b) = match random.below(10) {
        0 => (old.a.saturating_sub(passed), old.b.saturating_sub(passed)),
        1 => (old.a.saturating_sub(passed), later(old.b, passed)),
        2 => (later(old.a, passed), old.b.saturating_sub(passed)),
        _ => (later(old.a, passed), later(old.b, passed)),
    };
    let b = if random.once_in(2) { later(b, off) } else { b.saturating_sub(off) };
    Triple { a, b, w }
}

/// One number past its range, seldom two.
fn flaw(random: &mut Random, readings: &mut Readings) {
    for _ in 0..random.pick(&[1, 1, 1, 2]) {
        let any = random.bits() | 1 << 43;
        let past = random.pick(&[GREATEST_CLOCK + 1, GREATEST_CLOCK + 2, 1 << 44, 1 << 63, any]);
        let low = random.bits() as u32 | 1 << 10;
        match random.below(4) {
            0 => readings.triple.a = past,
            1 => readings.triple.b = past,
            2 => readings.triple.w = past,
            _ => readings.drift = random.pick(&[GREATEST_DRIFT + 1, 1 << 16, u32::MAX, low]),
        }
    }
}

// ---- in states

/// What may be saved in a state in form: nothing, of few names or of all; in no order, since none is
/// tested.
pub fn clocks(random: &mut Random) -> Clocks {
    let times = random.pick(&[0, 0, 1, 4]);
    NO_CLOCKS.map(|_| (times > 0 && random.once_in(times)).then(|| saved(random)))
}

fn saved(random: &mut Random) -> Saved {
    let [previous, ahead, behind] = [0; 3].map(|_| triple(random));
    match random.below(4) {
        0 => Saved { previous, ahead, behind },
        // As receipts leave them.
        1 => Saved::first(previous),
        _ => Saved::first(ahead).with(near(random, ahead, 0)).with(near(random, ahead, 0)),
    }
}

fn triple(random: &mut Random) -> Triple {
    let any = [0; 3].map(|_| random.below(GREATEST_CLOCK + 1));
    match random.below(4) {
        0 => Triple { a: any[0], b: any[1], w: any[2] },
        1 => Triple { a: GREATEST_CLOCK, b: GREATEST_CLOCK, w: GREATEST_CLOCK },
        _ => first(random),
    }
}
