//! Fractions of a microsecond (document 02, W-205), by both programs: worked cases, ageing in
//! pieces, and receipts and questions that a fraction alone decides. Single advances and 30 are in
//! tests/age.rs and tests/delays.rs, the form is in tests/state.rs, writing in tests/write.rs.

use second::ageing::advance;
use second::asking::{
    self, answer_bytes, fewest_bytes, ANSWER_BYTES, FEWEST_BYTES, GREATEST_LIMIT,
};
use second::branches::{Branch, Branches};
use second::calls::{taken, tried, Call};
use second::every_set;
use second::instants::{
    by_fraction, joined, split, Instant, Instants, Interval, GREATEST_END, GREATEST_INSTANT,
    MILLION,
};
use second::lent::Lent;
use second::message::Message;
use second::predicates::{Predicate, Term};
use second::random::Random;
use second::ranks::Ranks;
use second::receiving::{self, grown};
use second::samples::{end_within, rounds_outward, states, Tally};
use second::state::{Datum, State, GREATEST_DRIFT, GREATEST_READING};

// ---- worked cases

/// Left and right in millionths, and terms.
type Held<'a> = (Instant, Instant, &'a [Term]);

/// A state of own name 0 at reading 1,000 with these data.
fn state(drift: u32, held: &[Held]) -> State {
    let held = held.iter().map(|&(left, right, p)| Datum::exact(left, right, p)).collect();
    State { held, ..State::fresh(0, drift, 1_000) }
}

/// The state after so many microseconds.
fn aged(before: &State, by: u64) -> State {
    taken(before, &Call::Age { reading: before.reading + by }).0
}

/// The state after a message without delay.
fn heard(before: &State, sender: u32, left: u64, right: u64) -> State {
    heard_after(before, 0, sender, left, right)
}

/// The state after a message that has taken just so long.
fn heard_after(before: &State, delay: u64, sender: u32, left: u64, right: u64) -> State {
    let message = Message::of(sender, left, right, &[]).bytes();
    taken(before, &Call::Receive { least: delay, greatest: delay, readings: None, message }).0
}

/// The data and entries are these.
fn holds(state: &State, held: &[Held], entries: &[&[Term]]) {
    let wanted: Vec<Datum> = held.iter().map(|&(l, r, p)| Datum::exact(l, r, p)).collect();
    assert_eq!(state.held, wanted);
    assert_eq!(state.entries, entries.iter().map(|p| Predicate::of(p)).collect::<Vec<_>>());
}

const CONTRADICTED: [u64; 3] = [0, 0, 0];
const OPEN: [u64; 3] = [1, 0, 0];

fn between(left: u64, right: u64) -> [u64; 3] {
    [2, left, right]
}

/// The answers for limits from 0 on are these.
fn asked(state: &State, answers: &[[u64; 3]]) {
    for (limit, wanted) in (0..).zip(answers) {
        let (number, _, out, _) = tried(&Call::Ask { limit }, &state.bytes(), ANSWER_BYTES);
        let numbers = out.as_chunks().0.iter().map(|&number| u64::from_le_bytes(number));
        assert_eq!((number, numbers.collect::<Vec<_>>()), (0, wanted.to_vec()), "limit {limit}");
    }
}

#[test]
fn case_0_to_10_aged_by_1_is_0_to_12_once_rounded() {
    let aged = aged(&state(100, &[(0, 10_000_000, &[2])]), 1);
    holds(&aged, &[(999_900, 11_000_100, &[2])], &[]);
    asked(&aged, &[between(0, 12), OPEN]);
}

#[test]
fn case_a_new_left_end_of_12_is_past_11_0001_and_11_is_not() {
    let aged = aged(&state(100, &[(0, 10_000_000, &[2])]), 1);
    let old = (999_900, 11_000_100, &[2][..]);
    let apart = heard(&aged, 2, 12, 20);
    holds(&apart, &[old, (12_000_000, 20_000_000, &[4])], &[&[2, 4]]);
    asked(&apart, &[CONTRADICTED, between(0, 20), OPEN]);
    let meets = heard(&aged, 2, 11, 20);
    holds(&meets, &[old, (11_000_000, 20_000_000, &[4])], &[]);
    asked(&meets, &[between(11, 12), between(0, 20), OPEN]);
}

#[test]
fn case_a_new_right_end_of_11_is_before_11_9999_and_12_is_not() {
    let aged = aged(&state(100, &[(11_000_000, 20_000_000, &[2])]), 1);
    let old = (11_999_900, 21_000_100, &[2][..]);
    let meets = heard(&aged, 2, 0, 12);
    holds(&meets, &[old, (0, 12_000_000, &[4])], &[]);
    asked(&meets, &[between(11, 12), between(0, 22), OPEN]);
    let apart = heard(&aged, 2, 0, 11);
    holds(&apart, &[old, (0, 11_000_000, &[4])], &[&[2, 4]]);
    asked(&apart, &[CONTRADICTED, between(0, 22), OPEN]);
}

#[test]
fn case_ends_in_one_microsecond_are_disjoint_by_their_fractions() {
    // From 4.9995 to 5.0005, after 5 at drift 100.
    let new = (4_999_500, 5_000_500, &[4][..]);
    for (held, entries) in [
        ((0, 4_999_500, &[2][..]), &[][..]),
        ((0, 4_999_499, &[2]), &[&[2, 4][..]]),
        ((5_000_500, 9_000_000, &[2]), &[]),
        ((5_000_501, 9_000_000, &[2]), &[&[2, 4]]),
    ] {
        holds(&heard_after(&state(100, &[held]), 5, 2, 0, 0), &[held, new], entries);
    }
}

#[test]
fn case_disjoint_in_one_microsecond_is_contradicted() {
    let apart = state(100, &[(5_200_000, 5_400_000, &[2]), (5_500_000, 5_600_000, &[4])]);
    asked(&apart, &[CONTRADICTED, between(5, 6), OPEN]);
    let meeting = state(100, &[(5_200_000, 5_400_000, &[2]), (5_300_000, 5_600_000, &[4])]);
    asked(&meeting, &[between(5, 6), between(5, 6), OPEN]);
    let touching = state(100, &[(5_200_000, 5_400_000, &[2]), (5_400_000, 5_600_000, &[4])]);
    asked(&touching, &[between(5, 6), between(5, 6), OPEN]);
    for (held, wanted) in [(&apart, [1, 2]), (&meeting, [0, 0]), (&touching, [0, 0])] {
        let (number, _, out, _) = tried(&Call::Fewest, &held.bytes(), FEWEST_BYTES);
        let numbers = out.as_chunks().0.iter().map(|&number| u64::from_le_bytes(number));
        assert_eq!((number, numbers.collect::<Vec<_>>()), (0, wanted.to_vec()));
    }
}

#[test]
fn case_whole_ends_are_not_rounded() {
    asked(&state(100, &[(5_000_000, 6_000_000, &[2])]), &[between(5, 6), OPEN]);
    asked(&state(100, &[(5_000_000, 5_000_000, &[2])]), &[between(5, 5), OPEN]);
    asked(&state(100, &[(5_000_000, 5_000_001, &[2])]), &[between(5, 6), OPEN]);
    asked(&state(100, &[(4_999_999, 5_000_000, &[2])]), &[between(4, 5), OPEN]);
    let top = GREATEST_END;
    let last = (GREATEST_INSTANT - 999_999, GREATEST_INSTANT - 1, &[2][..]);
    asked(&state(100, &[last]), &[between(top - 1, top), OPEN]);
    asked(&state(100, &[(0, GREATEST_INSTANT, &[2])]), &[between(0, top), OPEN]);
}

#[test]
fn case_rule_15_keeps_the_fractions_of_the_later_left_and_the_earlier_right_end() {
    let inner = (5_200_000, 5_900_000, &[2][..]);
    holds(&heard(&state(100, &[inner]), 1, 5, 6), &[inner], &[]);
    holds(&heard(&state(100, &[inner]), 1, 0, 9), &[inner], &[]);
    let wide = (4_800_000, 6_100_000, &[2][..]);
    holds(&heard(&state(100, &[wide]), 1, 5, 6), &[(5_000_000, 6_000_000, &[2])], &[]);
    holds(&heard(&state(100, &[wide]), 1, 4, 6), &[(4_800_000, 6_000_000, &[2])], &[]);
    holds(&heard(&state(100, &[wide]), 1, 5, 7), &[(5_000_000, 6_100_000, &[2])], &[]);
    // A new left end of 4.999 and a right one of 6.001, after 1 at drift 1,000.
    for (left, right, meet) in [
        (4_000_000, 6_500_000, (4_999_000, 6_001_000)),
        (4_999_001, 6_000_999, (4_999_001, 6_000_999)),
        (4_998_999, 6_001_001, (4_999_000, 6_001_000)),
    ] {
        let before = state(1_000, &[(left, right, &[2])]);
        holds(&heard_after(&before, 1, 1, 4, 5), &[(meet.0, meet.1, &[2])], &[]);
    }
}

#[test]
fn case_rule_14_holds_only_within_the_fractions() {
    // 1 implies 1 + 2, and {1,3} implies 1; 5 is before 5.2.
    let under = |left: Instant, right: Instant, p: &'static [Term]| (left, right, p);
    let (held, new) = (under(5_200_000, 9_000_000, &[2, 4]), under(5_000_000, 9_000_000, &[2]));
    holds(&heard(&state(100, &[held]), 1, 5, 9), &[held, new], &[]);
    let held = under(5_000_000, 8_800_000, &[2, 4]);
    holds(&heard(&state(100, &[held]), 1, 5, 9), &[held, new], &[]);
    for held in [under(4_999_999, 9_000_001, &[2, 4]), under(5_000_000, 9_000_000, &[2, 4])] {
        holds(&heard(&state(100, &[held]), 1, 5, 9), &[new], &[]);
    }
    for held in [under(5_200_000, 8_800_000, &[10]), under(5_000_000, 9_000_000, &[10])] {
        holds(&heard(&state(100, &[held]), 1, 5, 9), &[held], &[]);
    }
    for held in [under(4_999_999, 9_000_000, &[10]), under(5_000_000, 9_000_001, &[10])] {
        holds(&heard(&state(100, &[held]), 1, 5, 9), &[held, new], &[]);
    }
}

#[test]
fn case_a_thousand_ageings_by_1_are_999_to_1011() {
    let first = state(100, &[(0, 10_000_000, &[2])]);
    let last = (0..1_000).fold(first.clone(), |state, _| aged(&state, 1));
    assert_eq!(last, aged(&first, 1_000));
    asked(&last, &[between(999, 1_011), OPEN]);
}

// ---- what is compared

/// Runs a call in both programs. Gives the number, the bytes and the branches.
fn call_in(call: &Call, bytes: &[u8], random: &mut Random) -> (u32, Vec<u8>, Branches) {
    let (mut state, mut none) = (Lent::new(bytes, random), Lent::new(&[], random));
    let mut branches = Branches::default();
    let number = call.both(&mut state, &mut none, &mut branches);
    let number =
        number.unwrap_or_else(|fault| panic!("{fault}: {call:?} in {:?}", State::of(bytes)));
    (number, state.bytes().to_vec(), branches)
}

// ---- ageing in pieces

/// Pieces of a time, some of them nothing; at most drifts a few make whole microseconds.
fn pieces(random: &mut Random) -> Vec<u64> {
    let bits = random.below(40);
    let count = 2 + random.index(7);
    let piece = |_| {
        let any = random.below(1 << bits);
        let few = random.pick(&[0, 1, 1, 500, 2_000, 2_500, 5_000, 5_000, 10_000, 1_000_000]);
        random.pick(&[few, few, few, any])
    };
    (0..count).map(piece).collect()
}

/// A state to be aged by so much, with a datum whose ends leave room for it; any others too.
fn to_age(random: &mut Random, time: u64) -> State {
    let drift = random.below(u64::from(GREATEST_DRIFT) + 1) as u32;
    let mut state = states::in_form(random);
    state.drift = random.pick(&[0, 1, 7, 100, 100, drift, drift, GREATEST_DRIFT]);
    state.reading = state.reading.min(GREATEST_READING - time);
    if state.held.is_empty() {
        state.held.push(Datum::of(3, 1 << 40, &[2 << state.own % 28]));
    }
    let most = GREATEST_INSTANT - advance(time, state.drift).1;
    for datum in &mut state.held {
        let Interval { left, right } = datum.interval;
        datum.interval = Interval { left: left.min(most), right: right.min(most) };
    }
    state
}

/// What a piece does to the fractions of a state.
fn carries(before: &State, d: u64) -> [(&'static str, bool); 6] {
    let (least, greatest) = advance(d, before.drift);
    let sums = |end: fn(Interval) -> Instant, gained: Instant| -> Vec<u32> {
        let ends = before.held.iter().map(|datum| end(datum.interval));
        ends.map(|end| split(end).1 + split(gained).1).collect()
    };
    let [lefts, rights] = [sums(|i| i.left, least), sums(|i| i.right, greatest)];
    let (carried, exactly) = (|sum: &u32| *sum > 1_000_000, |sum: &u32| *sum == 1_000_000);
    [
        ("an advance with a fraction", split(least).1 > 0),
        ("without one", d > 0 && before.drift > 0 && split(least).1 == 0),
        ("left past a million", lefts.iter().any(carried)),
        ("left at a million", lefts.iter().any(exactly)),
        ("right past a million", rights.iter().any(carried)),
        ("right at a million", rights.iter().any(exactly)),
    ]
}

/// An interval aged in pieces, each of them rounded, as document 01 has it.
fn rounded_each_time(first: Interval, drift: u32, pieces: &[u64]) -> Interval<u64> {
    pieces.iter().fold(first.rounded(), |aged, &d| {
        let (least, greatest) = advance(d, drift);
        let Interval { left, right } = aged.exact();
        Interval { left: left + least, right: right + greatest }.rounded()
    })
}

#[test]
fn ageing_in_pieces_is_as_in_one() {
    let (mut tally, mut count) = (Tally::default(), 0);
    for seed in 0..20_000 {
        let mut random = Random::new(seed);
        let pieces = pieces(&mut random);
        let first = to_age(&mut random, pieces.iter().sum());
        let (mut bytes, mut reading) = (first.bytes(), first.reading);
        for &d in &pieces {
            let before = State::of(&bytes).expect("a state in form");
            carries(&before, d).into_iter().for_each(|(what, met)| tally.count(what, met));
            reading += d;
            let (number, aged, _) = call_in(&Call::Age { reading }, &bytes, &mut random);
            assert_eq!(number, 0, "seed {seed}: {d} in {before:?}");
            bytes = aged;
            count += 1;
        }
        let (number, once, _) = call_in(&Call::Age { reading }, &first.bytes(), &mut random);
        assert_eq!(number, 0, "seed {seed}: {first:?}");
        assert!(once == bytes, "seed {seed}: {pieces:?} in {first:?}");
        let last = State::of(&bytes).expect("a state in form").held[0].interval.rounded();
        let rounded = rounded_each_time(first.held[0].interval, first.drift, &pieces);
        tally.count("wider if rounded each time", rounded != last);
    }
    tally.check(&format!("20,000 runs aged in {count} pieces, none refused"), 1_000);
    assert!(count >= 80_000, "only {count} pieces");
}

/// By how much the state's last right end will pass the greatest one, or be below it.
fn past(random: &mut Random) -> Instant {
    let any = Instant::from(random.below(1_000_000));
    random.pick(&[0, 0, 1, 1, -1, any, any, -any, MILLION, MILLION + any, 3 * MILLION])
}

/// A refused piece leaves the state, so that the last one is refused where the whole time is.
#[test]
fn ageing_in_pieces_past_the_greatest_end_is_refused_as_in_one() {
    let mut tally = Tally::default();
    for seed in 0..20_000 {
        let mut random = Random::new(seed);
        let pieces = pieces(&mut random);
        let mut first = to_age(&mut random, pieces.iter().sum());
        let (past, place) = (past(&mut random), random.index(first.held.len()));
        let gained = advance(pieces.iter().sum(), first.drift).1;
        let last = (GREATEST_INSTANT - gained + past).min(GREATEST_INSTANT);
        let interval = &mut first.held[place].interval;
        *interval = Interval { left: interval.left.min(last), right: last };
        let past = last + gained - GREATEST_INSTANT;
        let (mut bytes, mut reading, mut numbers) = (first.bytes(), first.reading, vec![]);
        for d in pieces {
            reading += d;
            let (number, aged, _) = call_in(&Call::Age { reading }, &bytes, &mut random);
            bytes = aged;
            numbers.push(number);
        }
        let (number, once, _) = call_in(&Call::Age { reading }, &first.bytes(), &mut random);
        assert_eq!(number, if past > 0 { 30 } else { 0 }, "seed {seed}: {past}, {first:?}");
        assert_eq!(numbers.last(), Some(&number), "seed {seed}: {first:?}");
        assert!(number == 30 || once == bytes, "seed {seed}: {first:?}");
        let (earlier, refused) = (&numbers[..numbers.len() - 1], number == 30);
        for (what, met) in [
            ("taken up to the greatest end", past == 0),
            ("up to a millionth below", past == -1),
            ("30 by a millionth", past == 1),
            ("30 by the fraction alone", refused && past < MILLION),
            ("30 by a microsecond", past == MILLION),
            ("30 in the last piece alone", refused && !earlier.contains(&30)),
            ("in earlier ones too", refused && earlier.contains(&30)),
        ] {
            tally.count(what, met);
        }
    }
    tally.check("20,000 runs aged in pieces to the greatest end", 1_000);
}

// ---- receipts

/// A receipt that is about a held datum in all but fractions.
struct Near {
    before: State,
    delays: (u64, u64),
    message: Message,
}

impl Near {
    fn drawn(random: &mut Random) -> Near {
        let base = random.pick(&[0, 10, 1 << 29, 1 << 40, GREATEST_END - 3]);
        let drift = random.pick(&[0, 1, 100, 500, 999, GREATEST_DRIFT]);
        let held = (0..1 + random.index(4)).map(|_| held(random, base)).collect();
        let before = State { held, ..State::fresh(0, drift, 1_000) };
        let delays = random.pick(&[(0, 0), (0, 0), (0, 1), (1, 1), (1, 2), (2, 2), (500, 500)]);
        let end = |random: &mut Random, delay: u64| {
            (base + random.below(4)).saturating_sub(delay).min(GREATEST_END)
        };
        let (left, right) = (end(random, delays.0), end(random, delays.1));
        let terms: &[Term] = random.pick(&[&[][..], &[], &[2], &[4], &[8], &[12]]);
        let sender = random.pick(&[1, 1, 2]);
        let message = Message::of(sender, left.min(right), right, terms);
        Near { before, delays, message }
    }

    fn grown(&self) -> Option<Interval> {
        let (least, greatest) = self.delays;
        grown(self.message.interval, least, greatest, self.before.drift)
    }

    fn call(&self) -> Call {
        let ((least, greatest), message) = (self.delays, self.message.bytes());
        Call::Receive { least, greatest, readings: None, message }
    }

    /// Number and bytes by the order of the ends alone.
    fn by_ranks(&self) -> (u32, Vec<u8>) {
        let Some(grown) = self.grown() else {
            return (30, self.before.bytes());
        };
        let ranks = Ranks::of(&self.before, grown);
        let message = Message { interval: ranks.lowered(grown), ..self.message.clone() };
        let mut bytes = ranks.lowered_state(&self.before).bytes();
        let number = receiving::call(&mut bytes, 0, 0, None, &message.bytes());
        (number, ranks.raised_state(&State::of(&bytes).expect("a state in form")).bytes())
    }

    /// Whether a held datum is in one of these relations to the new interval.
    fn any(&self, related: impl Fn(Interval, Interval) -> bool) -> bool {
        let new = self.grown();
        new.is_some_and(|new| self.before.held.iter().any(|datum| related(datum.interval, new)))
    }

    /// What the fraction alone decided.
    fn decided(&self, number: u32, branches: Branches) -> [(&'static str, bool); 13] {
        let has = |branch| number == 0 && branches.has(branch);
        let before = |a: Interval, b: Interval| a.right < b.left && by_fraction(a.right, b.left);
        let meets = |a: Interval, b: Interval| a.right > b.left && by_fraction(a.right, b.left);
        let next = |a: Interval, b: Interval| a.right < b.left && a.right + MILLION > b.left;
        let next = |a, b| next(a, b) && !before(a, b);
        [
            ("disjoint", has(Branch::DisjointByFraction)),
            ("the held one before", self.any(before)),
            ("the new one before", self.any(|held, new| before(new, held))),
            ("not disjoint, held before", self.any(meets)),
            ("new before", self.any(|held, new| meets(new, held))),
            ("disjoint by less than a microsecond, held before", self.any(next)),
            ("new one before", self.any(|held, new| next(new, held))),
            ("rule 15, left", has(Branch::LeftByFraction)),
            ("rule 15, right", has(Branch::RightByFraction)),
            ("rule 14, new stored", has(Branch::NewSparedByFraction)),
            ("rule 14, held stays", has(Branch::HeldSparedByFraction)),
            ("30", number == 30 && branches.has(Branch::PassesByFraction)),
            ("up to the greatest end", self.grown().is_some_and(|i| i.right == GREATEST_INSTANT)),
        ]
    }
}

/// A datum within four microseconds, under one or two of few names.
fn held(random: &mut Random, base: u64) -> Datum {
    let mut end = || {
        let whole = (base + random.below(4)).min(GREATEST_END);
        end_within(random, whole)
    };
    let (one, other) = (end(), end());
    let terms: &[Term] = random.pick(&[&[2][..], &[2], &[2, 4], &[2, 8], &[6], &[4], &[10]]);
    Datum::exact(one.min(other), one.max(other), terms)
}

#[test]
fn receipts_that_a_fraction_decides_are_answered_alike() {
    let mut tally = Tally::default();
    for seed in 0..60_000 {
        let mut random = Random::new(seed);
        let near = Near::drawn(&mut random);
        let call = near.call();
        let (number, bytes, branches) = call_in(&call, &near.before.bytes(), &mut random);
        let same = (number, bytes) == near.by_ranks();
        assert!(same, "seed {seed}: {number}: {call:?} in {:?}", near.before);
        near.decided(number, branches).into_iter().for_each(|(what, met)| tally.count(what, met));
    }
    tally.check("60,000 receipts, decided by the fraction alone", 1_000);
}

// ---- questions

/// The state with other intervals.
fn with_intervals(state: &State, change: impl Fn(Interval) -> Interval) -> State {
    let held = state.held.iter().map(|d| Datum { interval: change(d.interval), ..*d }).collect();
    State { held, ..state.clone() }
}

/// The state as it would be answered if the ends were rounded before and not behind.
fn rounded(state: &State) -> State {
    with_intervals(state, |interval| interval.rounded().exact())
}

/// The state without its fractions.
fn without_fractions(state: &State) -> State {
    let whole = |end: Instant| joined(split(end).0, 0);
    with_intervals(state, |i| Interval { left: whole(i.left), right: whole(i.right) })
}

/// The second program's exact answer and its fewest.
fn exact(state: &State, limit: u32) -> Instants {
    asking::ask(state.bytes()[..].first_chunk().expect("a state"), limit)
}

fn fewest(state: &State) -> Option<Term> {
    asking::fewest(state.bytes()[..].first_chunk().expect("a state"))
}

/// Asks both programs, and compares with what trying every set gives: the exact answer.
fn questioned(seed: u64, state: &State, limit: u32, random: &mut Random) -> Instants {
    let mut lent = Lent::new(&state.bytes(), random);
    let mut out = Lent::new(&[7; ANSWER_BYTES], random);
    let call = Call::Ask { limit: limit.into() };
    let number = call.both(&mut lent, &mut out, &mut Branches::default());
    assert_eq!(number, Ok(0), "seed {seed}: limit {limit} in {state:?}");
    let answer = every_set::ask(state, limit);
    assert_eq!(out.bytes(), answer_bytes(answer), "seed {seed}: limit {limit} in {state:?}");
    assert_eq!(exact(state, limit), answer, "seed {seed}: limit {limit} in {state:?}");
    if let Instants::Between(left, right) = answer {
        let ends = out.bytes()[8..].as_chunks().0.iter().map(|&end| u64::from_le_bytes(end));
        let [low, high] = ends.collect::<Vec<_>>()[..] else { panic!("two ends") };
        let whole = Interval { left: low, right: high };
        assert!(rounds_outward(whole, Interval { left, right }), "seed {seed}: {whole:?}");
    }
    answer
}

/// What the fractions did to an answer: which would be another if ends were rounded before, or had
/// none.
fn fractions_of(answer: Instants, limit: u32, state: &State) -> [(&'static str, bool); 13] {
    let (before, none) = (exact(&rounded(state), limit), exact(&without_fractions(state), limit));
    let ends = |instants| match instants {
        Instants::Between(left, right) => Some(Interval { left, right }),
        _ => None,
    };
    let (exact, whole) = (ends(answer), ends(answer).map(Interval::rounded));
    let differ = |end: fn(Interval<u64>) -> u64, other: Instants| {
        let other = ends(other).map(Interval::rounded);
        whole.zip(other).is_some_and(|(one, other)| end(one) != end(other))
    };
    let contradicted = answer == Instants::Empty && before != Instants::Empty;
    let width = |n: u64| whole.is_some_and(|i| i.right - i.left == n);
    let fraction = |end: fn(Interval) -> Instant| exact.is_some_and(|i| split(end(i)).1 > 0);
    // At limit 0 each end is one among those of all data.
    let among = |end: fn(Interval) -> Instant| {
        let other = |one: Instant| state.held.iter().any(|d| by_fraction(end(d.interval), one));
        limit == 0 && exact.is_some_and(|i| other(end(i)))
    };
    [
        ("left", differ(|i| i.left, before)),
        ("right", differ(|i| i.right, before)),
        ("left, and another without fractions", differ(|i| i.left, none)),
        ("right, and another without", differ(|i| i.right, none)),
        ("left at limit 0", among(|i| i.left)),
        ("right at limit 0", among(|i| i.right)),
        ("contradicted at limit 0", limit == 0 && contradicted),
        ("at others", limit > 0 && contradicted),
        ("left rounded down", fraction(|i| i.left)),
        ("right rounded up", fraction(|i| i.right)),
        ("of width 0", width(0)),
        ("of width 1", width(1)),
        ("within one microsecond", exact.is_some_and(|i| by_fraction(i.left, i.right))),
    ]
}

/// A state of several senders, each with an interval of its own within few microseconds, or within
/// one: as many have to have failed as do not contain an instant.
fn scattered(random: &mut Random) -> State {
    let (base, span) = (random.pick(&[0, 7, 1 << 40]), random.pick(&[1, 1, 4, 8]));
    let held = (1..4 + random.below(6)).map(|name| {
        let mut end = || {
            let whole = base + random.below(span);
            end_within(random, whole)
        };
        let (one, other) = (end(), end());
        Datum::exact(one.min(other), one.max(other), &[1 << name])
    });
    State { held: held.collect(), ..State::fresh(0, 100, 1_000) }
}

/// Whether all ends of two data or more are in one microsecond.
fn equal_wholes(state: &State) -> bool {
    let ends = || state.held.iter().flat_map(|d| [d.interval.left, d.interval.right]);
    let first = ends().next().map(|first| split(first).0);
    state.held.len() >= 2 && ends().all(|end| Some(split(end).0) == first)
}

#[test]
fn questions_that_a_fraction_decides_are_answered_alike() {
    let (mut tally, mut equal) = (Tally::default(), 0);
    for seed in 0..60_000 {
        let mut random = Random::new(!seed);
        let draw = if seed % 3 == 0 { scattered } else { states::to_ask };
        let state = draw(&mut random);
        equal += u64::from(equal_wholes(&state));
        for limit in 0..=GREATEST_LIMIT {
            let answer = questioned(seed, &state, limit, &mut random);
            let met = fractions_of(answer, limit, &state);
            met.into_iter().for_each(|(what, met)| tally.count(what, met));
        }
        let (number, _, out, _) = tried(&Call::Fewest, &state.bytes(), FEWEST_BYTES);
        let found = every_set::fewest(&state);
        assert_eq!((number, &out[..]), (0, &fewest_bytes(found)[..]), "seed {seed}: {state:?}");
        tally.count("fewest", found != fewest(&rounded(&state)));
        tally.count("fewest, and others without", found != fewest(&without_fractions(&state)));
    }
    let title = format!("60,000 states asked, {equal} with equal wholes, by the fraction alone");
    tally.check(&title, 1_000);
    assert!(equal >= 15_000, "only {equal} states with equal wholes");
}
