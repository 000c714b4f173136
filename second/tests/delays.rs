//! Delays on the receiver's clock (document 02, W-202 and W-205), by both programs: edges by name,
//! then seeded receipts from radios that have slept. Numbers past the range, and the order of
//! refusals, are in tests/receive.rs and tests/clocks.rs.

use second::branches::{Branch, Branches};
use second::calls::Call;
use second::clocks::{Readings, Saved};
use second::instants::{
    by_fraction, joined, split, Instant, Interval, GREATEST_END, GREATEST_INSTANT, MILLION,
};
use second::lent::Lent;
use second::message::{Message, MOST_TERMS};
use second::predicates::{normal, Predicate, Term, NAMES};
use second::random::Random;
use second::ranks::Ranks;
use second::receiving;
use second::samples::{end_within, states, Tally};
use second::state::{Datum, State};

// ---- what is compared

/// Runs a call in both programs. Gives the number, the bytes and the branches.
fn call_in(call: &Call, before: &State, random: &mut Random) -> (u32, Vec<u8>, Branches) {
    let (mut state, mut none) = (Lent::new(&before.bytes(), random), Lent::new(&[], random));
    let mut branches = Branches::default();
    let number = call.both(&mut state, &mut none, &mut branches);
    let number = number.unwrap_or_else(|fault| panic!("{fault}: {call:?} in {before:?}"));
    (number, state.bytes().to_vec(), branches)
}

/// Left and right as they are sent, and as they are held, in millionths.
type Sent = (u64, u64);
type Held = (Instant, Instant);
/// Least and greatest.
type Delays = (u64, u64);
/// What the left and the right end gain, in millionths.
type Gains = (Instant, Instant);

/// Without readings, and with those of senders whose clocks drift less and more.
fn with_and_without_readings() -> [Option<Readings>; 3] {
    [None, Some(Readings::of(7, 8, 9, 0)), Some(Readings::of(7, 8, 9, 1_000))]
}

fn receipt(delays: Delays, sent: Sent, terms: &[Term], readings: Option<Readings>) -> Call {
    let message = Message::of(1, sent.0, sent.1, terms).bytes();
    Call::Receive { least: delays.0, greatest: delays.1, readings, message }
}

/// At own name 5 with a drift, what was sent as these ends is held as those.
fn grows(drift: u32, delays: Delays, sent: Sent, held: Held) {
    let before = State::fresh(5, drift, 1_000);
    for readings in with_and_without_readings() {
        let mut after = before.clone();
        after.held = vec![Datum::exact(held.0, held.1, &[2])];
        after.clocks[1] = readings.map(|readings| Saved::first(readings.triple));
        let call = receipt(delays, sent, &[], readings);
        let (number, bytes, _) = call_in(&call, &before, &mut Random::new(drift.into()));
        assert_eq!((number, State::of(&bytes)), (0, Ok(after.clone())), "{call:?} at {drift}");
        assert!(bytes == after.bytes(), "{call:?} at {drift}");
    }
}

/// The same is refused and changes nothing; with a true predicate too.
fn refuses(drift: u32, delays: Delays, sent: Sent, wanted: u32) {
    let before = State::fresh(5, drift, 1_000);
    for readings in with_and_without_readings() {
        for terms in [&[][..], &[0]] {
            let call = receipt(delays, sent, terms, readings);
            let (number, bytes, _) = call_in(&call, &before, &mut Random::new(drift.into()));
            assert_eq!(number, wanted, "{call:?} at {drift}");
            assert!(bytes == before.bytes(), "{call:?} at {drift}");
        }
    }
}

/// None, the least, a usual one, and the greatest with the one below it.
const DRIFTS: [u32; 5] = [0, 1, 100, 999, 1_000];

/// Whole microseconds.
fn whole(left: u64, right: u64) -> Held {
    (joined(left, 0), joined(right, 0))
}

// ---- edges

#[test]
fn delays_of_1_at_drift_100_grow_by_0_9999_and_1_0001() {
    grows(100, (1, 1), (0, 0), (999_900, 1_000_100));
}

#[test]
fn delays_of_5_at_drift_100_grow_by_4_9995_and_5_0005() {
    grows(100, (5, 5), (10, 10), (14_999_500, 15_000_500));
}

#[test]
fn delays_of_600_000_000_at_drift_1_000_grow_by_600_000_less_and_more() {
    grows(1_000, (600_000_000, 600_000_000), (0, 0), whole(599_400_000, 600_600_000));
}

#[test]
fn delays_without_drift_grow_by_themselves() {
    for d in [0, 1, 5, 999_999, 1_000_000, 60_000_001, 600_000_000] {
        grows(0, (d, d), (7, 70), whole(7 + d, 70 + d));
        grows(0, (0, d), (7, 70), whole(7, 70 + d));
    }
}

#[test]
fn delays_of_0_grow_by_nothing_at_any_drift() {
    for drift in DRIFTS {
        grows(drift, (0, 0), (7, 70), whole(7, 70));
        grows(drift, (0, 0), (GREATEST_END, GREATEST_END), whole(GREATEST_END, GREATEST_END));
    }
}

#[test]
fn delays_are_not_rounded() {
    for (drift, d, least, greatest) in [
        (1, 1, 999_999, 1_000_001),
        (1, 999_999, 999_998_000_001, 999_999_999_999),
        (1, 1_000_000, 999_999_000_000, 1_000_001_000_000),
        (1, 1_000_001, 999_999_999_999, 1_000_002_000_001),
        (1, 60_000_001, 59_999_940_999_999, 60_000_061_000_001),
        (1, 600_000_000, 599_999_400_000_000, 600_000_600_000_000),
        (100, 50, 49_995_000, 50_005_000),
        (100, 9_999, 9_998_000_100, 9_999_999_900),
        (100, 10_000, 9_999_000_000, 10_001_000_000),
        (100, 599_999_999, 599_939_999_000_100, 600_059_998_999_900),
        (999, 1_000, 999_001_000, 1_000_999_000),
        (999, 600_000_000, 599_400_600_000_000, 600_599_400_000_000),
        (1_000, 1, 999_000, 1_001_000),
        (1_000, 1_001, 999_999_000, 1_002_001_000),
        (1_000, 599_999_999, 599_399_999_001_000, 600_599_998_999_000),
    ] {
        grows(drift, (d, d), (7, 70), (7_000_000 + least, 70_000_000 + greatest));
    }
}

/// The other way round it would be 1,001 and 1,998.
#[test]
fn delays_count_the_least_as_a_left_ends_advance_and_the_greatest_as_a_right_ends() {
    grows(1_000, (1_000, 2_000), (0, 0), whole(999, 2_002));
    grows(1_000, (0, 2_000), (0, 0), whole(0, 2_002));
    grows(100, (0, 50_000), (1_000_000_000, 1_000_000_200), whole(1_000_000_000, 1_000_050_205));
    grows(100, (0, 600_000_000), (0, 0), whole(0, 600_060_000));
}

#[test]
fn delays_of_60_000_001_are_taken_and_of_600_000_001_are_21() {
    grows(100, (0, 60_000_000), (0, 0), whole(0, 60_006_000));
    grows(100, (0, 60_000_001), (0, 0), (0, 60_006_001_000_100));
    grows(100, (60_000_001, 60_000_001), (0, 0), (59_994_000_999_900, 60_006_001_000_100));
    for drift in DRIFTS {
        for least in [0, 60_000_001, 600_000_000, 600_000_001] {
            refuses(drift, (least, 600_000_001), (0, 0), 21);
            refuses(drift, (least, 600_000_001), (GREATEST_END, GREATEST_END), 21);
        }
    }
}

/// Times a factor of the rule, some of these come to little or nothing in 64 bits.
#[test]
fn delays_of_any_64_bits_are_21() {
    for drift in DRIFTS {
        for bits in 30..64 {
            for delay in [1 << bits, (1 << bits) + 5, u64::MAX >> (63 - bits)] {
                refuses(drift, (0, delay), (0, 0), 21);
                refuses(drift, (delay, delay), (0, 0), 21);
                refuses(drift, (delay, 5), (0, 0), 21);
            }
        }
    }
}

#[test]
fn delays_up_to_the_greatest_end_are_taken_and_past_it_are_30() {
    // One microsecond can be 1.0001.
    let top = (1 << 58) - 1;
    grows(100, (0, 1), (0, top - 2), (0, GREATEST_INSTANT - 999_900));
    grows(
        100,
        (1, 1),
        (top - 2, top - 2),
        (GREATEST_INSTANT - 1_000_100, GREATEST_INSTANT - 999_900),
    );
    refuses(100, (0, 1), (0, top - 1), 30);
    refuses(100, (0, 1), (0, top), 30);
    grows(0, (0, 1), (0, top - 1), whole(0, top));
    refuses(0, (0, 1), (0, top), 30);
    // A millionth past the greatest end.
    grows(1, (0, 1_000_000), (0, top - 1_000_001), whole(0, top));
    refuses(1, (0, 1_000_000), (0, top - 1_000_000), 30);
    refuses(1, (0, 1), (0, top - 1), 30);
    let gains = [600_000_000, 600_000_600, 600_060_000, 600_599_400, 600_600_000];
    for (drift, gain) in DRIFTS.into_iter().zip(gains) {
        grows(drift, (0, 600_000_000), (3, top - gain), whole(3, top));
        refuses(drift, (0, 600_000_000), (3, top - gain + 1), 30);
        refuses(drift, (600_000_000, 600_000_000), (top - gain, top - gain + 1), 30);
    }
}

// ---- seeded receipts

/// What the ends gain: least × (1,000,000 − drift) and greatest × (1,000,000 + drift) millionths.
fn gains((least, greatest): Delays, drift: u32) -> Gains {
    (times(least, 1_000_000 - drift), times(greatest, 1_000_000 + drift))
}

/// So many times a factor, by doubling and adding.
fn times(count: u64, factor: u32) -> Instant {
    match count {
        0 => 0,
        _ if count % 2 == 0 => 2 * times(count / 2, factor),
        _ => times(count - 1, factor) + Instant::from(factor),
    }
}

/// A receipt from a radio that has slept, in a state.
struct Sleeper {
    before: State,
    delays: Delays,
    readings: Option<Readings>,
    message: Message,
}

impl Sleeper {
    fn drawn(random: &mut Random) -> Sleeper {
        let near = random.once_in(2);
        let before = if near { close(random) } else { states::in_form(random) };
        let before = State { drift: random.pick(&DRIFTS), ..before };
        let delays = long(random);
        let about = before.held.get(random.index(before.held.len().max(1))).copied();
        let (left, right) = aim(random, about);
        let (later, latest) = gains(delays, before.drift);
        let right = whole_about(random, right - latest);
        let left = whole_about(random, left - later).min(right);
        let (sender, terms) = predicate(random, before.own, about.filter(|_| near));
        let message = Message::of(sender, left, right, &terms);
        let message = Message { epochs: before.epochs, ..message };
        let (a, b, drift) = (random.below(6), random.below(6), random.pick(&DRIFTS));
        let readings = random.once_in(2).then_some(Readings::of(a, b, 2, drift));
        Sleeper { before, delays, readings, message }
    }

    fn call(&self) -> Call {
        let ((least, greatest), readings) = (self.delays, self.readings);
        Call::Receive { least, greatest, readings, message: self.message.bytes() }
    }

    /// The right end once it has gained so much.
    fn end(&self, gain: Instant) -> Instant {
        joined(self.message.interval.right, 0) + gain
    }

    /// What comes of it if the ends gain so much: the same as of the grown message without delay,
    /// which has whole microseconds where all ends are ranks.
    fn outcome(&self, (later, latest): Gains) -> (u32, Vec<u8>) {
        if self.end(latest) > GREATEST_INSTANT {
            return (30, self.before.bytes());
        }
        let left = joined(self.message.interval.left, 0) + later;
        let grown = Interval { left, right: self.end(latest).max(left) };
        let ranks = Ranks::of(&self.before, grown);
        let message = Message { interval: ranks.lowered(grown), ..self.message.clone() };
        let mut bytes = ranks.lowered_state(&self.before).bytes();
        let number = receiving::call(&mut bytes, 0, 0, self.readings, &message.bytes());
        let after = State::of(&bytes).expect("a state in form");
        (number, ranks.raised_state(&after).bytes())
    }

    /// What is to come of it.
    fn wanted(&self) -> (u32, Vec<u8>) {
        let (least, greatest) = self.delays;
        if least > greatest || greatest > 600_000_000 {
            return (21, self.before.bytes());
        }
        self.outcome(gains(self.delays, self.before.drift))
    }
}

/// A sender and terms, often those of the datum's predicate, none of them or one more, if there is
/// one that has a term for a sender.
fn predicate(random: &mut Random, own: u32, about: Option<Datum>) -> (u32, Vec<Term>) {
    let terms = about.map(|datum| datum.predicate.to_vec()).unwrap_or_default();
    match terms.iter().find(|t| t.is_power_of_two()).map(|t| t.trailing_zeros()) {
        Some(sender) if random.once_in(3) => (sender, terms),
        Some(sender) if random.once_in(4) => (sender, vec![]),
        Some(sender) if random.once_in(3) => {
            let more = 1 << other_name(random, own);
            let room = terms.len().min(MOST_TERMS as usize - 1);
            (sender, normal(&[&terms[..room], &[more]].concat()))
        }
        _ => {
            let terms: &[Term] = random.pick(&[&[][..], &[], &[], &[2], &[12, 16], &[0]]);
            (other_name(random, own), terms.to_vec())
        }
    }
}

/// One of the names 1 to 4, or any, but not the own one.
fn other_name(random: &mut Random, own: u32) -> u32 {
    let (few, any) = (1 + random.below(4) as u32, random.below(NAMES.into()) as u32);
    match random.pick(&[few, few, any]) {
        name if name == own => (name + 1) % NAMES,
        name => name,
    }
}

/// A state without entries, and with data under names 1 to 4 that lie within two seconds: they often
/// meet and better what comes.
fn close(random: &mut Random) -> State {
    let base = random.pick(&[700_000_000, 1 << 40, GREATEST_END - 2_000_000]);
    let data = (0..1 + random.below(8)).map(|_| {
        let whole = base + random.below(1_000_000);
        let left = end_within(random, whole);
        let right = (left + Instant::from(random.below(1 << 40))).min(GREATEST_INSTANT);
        let interval = Interval { left, right };
        let (one, other) = (2 << random.below(4), 2 << random.below(4));
        Datum { interval, predicate: Predicate::sum(&[one], &[other]) }
    });
    State { held: data.collect(), ..State::fresh(5, 0, 1_000) }
}

/// Delays above 60 s, at the greatest and just above it too; the least delay is often the greatest,
/// and either is often such that nothing is rounded.
fn long(random: &mut Random) -> Delays {
    let (any, seconds) = (60_000_001 + random.below(540_000_000), 61 + random.below(540));
    let (whole, past) = (1_000_000 * seconds, 600_000_001 + random.below(3));
    let greatest =
        random.pick(&[60_000_001, any, any, any, whole, whole, 600_000_000, 600_000_000, past]);
    let (below, whole) = (random.below(greatest), greatest / 1_000_000 * 1_000_000);
    let least = match random.below(16) {
        0 => greatest + 1,
        1 => 0,
        2..=6 => below,
        7..=9 => whole,
        _ => greatest,
    };
    (least, greatest)
}

/// A whole end in or next to this instant's microsecond.
fn whole_about(random: &mut Random, x: Instant) -> u64 {
    let (whole, _) = split(x.clamp(0, GREATEST_INSTANT));
    random.pick(&[whole, whole, whole + 1]).min(GREATEST_END)
}

/// Ends to grow to: about the greatest one, about those of the datum, or anywhere.
fn aim(random: &mut Random, about: Option<Datum>) -> Held {
    let near = joined(random.pick(&[0, 0, 1, 2]), random.pick(&[0, 0, 1, 999_999]));
    let far = Instant::from(random.below(1 << 40)) * random.pick(&[1, MILLION]);
    let anywhere = Interval { left: far, right: far };
    let Interval { left, right } = about.map_or(anywhere, |datum| datum.interval);
    match random.below(12) {
        0 => (GREATEST_INSTANT, GREATEST_INSTANT),
        1 | 2 => (far, GREATEST_INSTANT + near),
        3 => (right + near, right + near + far),
        4 => (left - far, left - near),
        5..=7 => (left - near, right + near),
        8..=10 => (left + near, right - near),
        _ => (far, far + joined(random.below(2_000_000), 0)),
    }
}

/// Rules that are not meant: what the ends gain if delays are true time, if the two advances change
/// places, and if they are rounded to whole microseconds.
fn other_rules(delays: Delays, drift: u32) -> [(&'static str, Gains); 3] {
    let (least, greatest) = delays;
    let swapped = (gains((0, least), drift).1, gains((greatest, 0), drift).0);
    let (left, right) = gains(delays, drift);
    let Interval { left, right } = Interval { left, right }.rounded().exact();
    let true_time = whole(least, greatest);
    [("not as true time", true_time), ("not swapped", swapped), ("not rounded", (left, right))]
}

// ---- what was reached

/// What a taken receipt met.
fn taken(sleeper: &Sleeper, branches: Branches) -> [(&'static str, bool); 22] {
    let Sleeper { before: State { drift, .. }, delays: (least, greatest), .. } = *sleeper;
    let end = sleeper.end(gains(sleeper.delays, drift).1);
    let whole = |delay: u64, factor: u32| (delay * u64::from(factor)).is_multiple_of(1_000_000);
    let [left, right] = [whole(least, 1_000_000 - drift), whole(greatest, 1_000_000 + drift)];
    [
        ("taken at drift 0", drift == 0),
        ("at drift 1", drift == 1),
        ("at drift 100", drift == 100),
        ("at drift 999", drift == 999),
        ("at drift 1,000", drift == 1_000),
        ("with readings", sleeper.readings.is_some()),
        ("without", sleeper.readings.is_none()),
        ("after 60,000,001", greatest == 60_000_001),
        ("after 600,000,000", greatest == 600_000_000),
        ("least 0", least == 0),
        ("least is greatest", least == greatest),
        ("left with a fraction", !left),
        ("right with one", !right),
        ("left whole at a drift", left && least > 0 && drift > 0),
        ("right whole at a drift", right && drift > 0),
        ("up to 2^58 − 1", end == GREATEST_INSTANT),
        (
            "in the microsecond before it",
            end < GREATEST_INSTANT && end + MILLION > GREATEST_INSTANT,
        ),
        ("disjoint", branches.has(Branch::Disjoint)),
        ("met", branches.has(Branch::Met)),
        ("not stored", branches.has(Branch::NotStored)),
        ("held bettered", branches.has(Branch::HeldBettered)),
        ("stored", branches.has(Branch::Stored)),
    ]
}

/// What the fraction alone decided in a taken receipt.
fn by_the_fraction(branches: Branches) -> [(&'static str, bool); 5] {
    [
        ("disjoint", branches.has(Branch::DisjointByFraction)),
        ("a left end", branches.has(Branch::LeftByFraction)),
        ("a right end", branches.has(Branch::RightByFraction)),
        ("stored", branches.has(Branch::NewSparedByFraction)),
        ("held spared", branches.has(Branch::HeldSparedByFraction)),
    ]
}

/// Why a receipt was refused.
fn refused(sleeper: &Sleeper, number: u32) -> [(&'static str, bool); 8] {
    let (greatest, always) = (sleeper.delays.1, sleeper.message.terms.holds(0));
    let end = sleeper.end(gains(sleeper.delays, sleeper.before.drift).1);
    let by_fraction = by_fraction(end, GREATEST_INSTANT);
    [
        ("21 by one", number == 21 && greatest == 600_000_001),
        ("21 by more", number == 21 && greatest > 600_000_001),
        ("21 by the least", number == 21 && greatest <= 600_000_000),
        ("30 by the fraction", number == 30 && by_fraction),
        ("30 by more", number == 30 && !by_fraction),
        (
            "30 by the drift alone",
            number == 30 && sleeper.end(joined(greatest, 0)) <= GREATEST_INSTANT,
        ),
        ("30 of a true predicate", number == 30 && always),
        ("32", number == 32),
    ]
}

/// Number and bytes are those that the gains give by ranks, and other rules often give others.
#[test]
fn delays_of_radios_that_have_slept_are_answered_alike() {
    let (mut tally, mut fractions) = (Tally::default(), Tally::default());
    for seed in 0..50_000 {
        let mut random = Random::new(seed);
        let sleeper = Sleeper::drawn(&mut random);
        let (number, bytes, branches) = call_in(&sleeper.call(), &sleeper.before, &mut random);
        let (outcome, case) = ((number, bytes), || (sleeper.call(), &sleeper.before));
        assert!(outcome == sleeper.wanted(), "seed {seed}: {number}: {:?}", case());
        for (what, met) in taken(&sleeper, branches) {
            tally.count(what, number == 0 && met);
        }
        for (what, met) in by_the_fraction(branches) {
            fractions.count(what, number == 0 && met);
        }
        for (what, met) in refused(&sleeper, number) {
            tally.count(what, met);
        }
        for (rule, gains) in other_rules(sleeper.delays, sleeper.before.drift) {
            tally.count(rule, number != 21 && sleeper.outcome(gains) != outcome);
        }
    }
    tally.check("50,000 receipts after a sleep", 500);
    fractions.check("by the fraction alone", 50);
}
