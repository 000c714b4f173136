//! The second program on its own: document 01's cases at the level of state, the layout of its
//! bytes, what a run leaves true, set by set, and what asking says, instant by instant.

use second::ageing::advance;
use second::asking::GREATEST_LIMIT;
use second::branches::Branches;
use second::calls::Call;
use second::clocks::{Readings, Saved, Triple};
use second::epochs::FIRST_EPOCHS;
use second::every_set::{ask, counting, fewest};
use second::instants::{joined, Instant, Instants, Interval};
use second::message::{self, Message, MESSAGE_BYTES};
use second::predicates::{self, holds, struck, Predicate, Term, ALL_NAMES, NAMES};
use second::random::Random;
use second::samples::runs::{has_slept, World};
use second::samples::states;
use second::state::{
    self, clock_at, datum_at, entry_at, epoch_at, Datum, State, DRIFT_AT, ENTRY_COUNT_AT,
    HELD_COUNT_AT, LEFT_MILLIONTHS_AT, MASKS_AT, MASK_BYTES, NO_CLOCKS, OWN_AT, READING_AT,
    RIGHT_AT, RIGHT_MILLIONTHS_AT, STATE_BYTES, TERM_COUNT_AT, TRIPLES_AT, TRIPLE_BYTES,
};
use second::{ageing, receiving, set_up};
use std::cmp::Ordering;
use std::collections::BTreeSet;

// ---- document 01's cases

fn set_up(own: u32, drift: u32) -> Vec<u8> {
    let mut bytes = vec![99; STATE_BYTES];
    assert_eq!(set_up::call(&mut bytes, own, drift, 0, 0), 0);
    bytes
}

fn get(bytes: &mut [u8], sender: u32, left: u64, right: u64, terms: &[Term]) {
    let message = Message::of(sender, left, right, terms).bytes();
    assert_eq!(receiving::call(bytes, 0, 0, None, &message), 0);
}

/// What the bytes hold.
fn held(bytes: &[u8]) -> (Vec<Datum>, Vec<Predicate>) {
    let state = State::of(bytes).expect("a state in form");
    (state.held, state.entries)
}

#[test]
fn case_overlapping_data_under_1_are_one_datum() {
    let mut bytes = set_up(0, 100);
    get(&mut bytes, 1, 0, 10, &[]);
    get(&mut bytes, 1, 5, 20, &[]);
    assert_eq!(held(&bytes), (vec![Datum::of(5, 10, &[2])], vec![]));
}

#[test]
fn case_disjoint_data_under_1_are_the_entry_1() {
    let mut bytes = set_up(0, 100);
    get(&mut bytes, 1, 0, 10, &[]);
    get(&mut bytes, 1, 11, 20, &[]);
    let learnt = (vec![], vec![Predicate::of(&[2])]);
    assert_eq!(held(&bytes), learnt);
    assert_eq!(ageing::call(&mut bytes, 1_000_000), 0);
    assert_eq!(held(&bytes), learnt);
}

#[test]
fn case_touching_data_under_1_and_2_give_no_entry() {
    let mut bytes = set_up(0, 100);
    get(&mut bytes, 1, 0, 10, &[]);
    get(&mut bytes, 2, 10, 20, &[]);
    assert_eq!(held(&bytes), (vec![Datum::of(0, 10, &[2]), Datum::of(10, 20, &[4])], vec![]));
}

#[test]
fn case_sender_1_with_terms_is_1_or_3_and_at_own_name_3_it_is_1() {
    for (own, p) in [(0, &[2, 8][..]), (3, &[2])] {
        let mut bytes = set_up(own, 100);
        get(&mut bytes, 1, 0, 10, &[6, 8]);
        assert_eq!(held(&bytes), (vec![Datum::of(0, 10, p)], vec![]));
    }
}

#[test]
fn case_disjoint_data_under_other_names_stay_and_the_sum_is_an_entry() {
    let mut bytes = set_up(0, 100);
    get(&mut bytes, 1, 0, 10, &[]);
    get(&mut bytes, 2, 20, 30, &[]);
    let data = vec![Datum::of(0, 10, &[2]), Datum::of(20, 30, &[4])];
    assert_eq!(held(&bytes), (data, vec![Predicate::of(&[2, 4])]));
    let mut bytes = set_up(0, 100);
    get(&mut bytes, 1, 0, 10, &[8]);
    get(&mut bytes, 2, 20, 30, &[8]);
    let data = vec![Datum::of(0, 10, &[2, 8]), Datum::of(20, 30, &[4, 8])];
    assert_eq!(held(&bytes), (data, vec![Predicate::of(&[2, 4, 8])]));
}

#[test]
fn case_advance_of_one_microsecond_is_0_9999_and_1_0001_and_of_none_0_and_0() {
    assert_eq!(advance(1, 100), (999_900, 1_000_100));
    assert_eq!(advance(0, 100), (0, 0));
}

#[test]
fn case_delay_600_000_000_is_taken_and_600_000_001_is_21() {
    let message = Message::of(1, 0, 0, &[]);
    let mut bytes = set_up(0, 100);
    let before = bytes.clone();
    assert_eq!(receiving::call(&mut bytes, 0, 600_000_001, None, &message.bytes()), 21);
    assert_eq!(bytes, before);
    assert_eq!(receiving::call(&mut bytes, 600_000_000, 600_000_000, None, &message.bytes()), 0);
    assert_eq!(held(&bytes), (vec![Datum::of(599_940_000, 600_060_000, &[2])], vec![]));
}

#[test]
fn case_listing_holds_what_its_answers_say() {
    let mut bytes = set_up(5, 100);
    let words = [536870913, 1, 1073741824, 1074741824, 1610612736, 1611612936, 3760096586];
    assert_eq!(receiving::call(&mut bytes, 0, 50, None, &message::bytes_of(&words)), 0);
    let heard = Datum::exact(1_000_000_000_000, 1_000_250_005_000, &[2]);
    assert_eq!(held(&bytes), (vec![heard], vec![]));
    assert_eq!(ageing::call(&mut bytes, 2_000_000), 0);
    let aged = Datum::exact(2_999_800_000_000, 3_000_450_005_000, &[2]);
    assert_eq!(held(&bytes), (vec![aged], vec![]));
    let words = [536870914, 2, 1073741824, 1076742824, 1610612736, 1613613736, 3764098388];
    assert_eq!(receiving::call(&mut bytes, 0, 0, None, &message::bytes_of(&words)), 0);
    let data = vec![aged, Datum::of(3_001_000, 3_001_000, &[4])];
    assert_eq!(held(&bytes), (data, vec![Predicate::of(&[2, 4])]));
}

// ---- bytes

/// Every number of the layout at its place, whose number is in the state's module alone.
#[test]
fn bytes_of_a_state_stand_where_the_papers_put_them() {
    let mut clocks = NO_CLOCKS;
    clocks[2] = Some(Saved {
        previous: Triple::of(1, 2, 3),
        ahead: Triple::of(4, 5, 6),
        behind: Triple::of(7, 8, 0x0706_0504_0302),
    });
    // The own name's place may be in use too.
    clocks[27] = Some(Saved::first(Triple::of(0, 0, 0)));
    let state = State {
        own: 27,
        drift: 0x0302,
        reading: 0x0108_0706_0504_0302,
        held: vec![
            Datum::of(1, 2, &[4]),
            Datum::exact(
                joined(0x0201, 0x04_0302),
                joined(0x03_0201, 999_999),
                &[0x0102_0304, 0x1000_0000],
            ),
        ],
        entries: vec![Predicate::of(&[8]), Predicate::of(&[0x0504_0302])],
        clocks,
        epochs: FIRST_EPOCHS,
    };
    let state = state.at(&[(0, 1), (27, 14), (28, 15)]);
    let mut bytes = vec![0; STATE_BYTES];
    let mut put =
        |at: usize, numbers: &[u8]| bytes[at..at + numbers.len()].copy_from_slice(numbers);
    put(OWN_AT, &[27]);
    put(DRIFT_AT, &[2, 3]);
    put(READING_AT, &[2, 3, 4, 5, 6, 7, 8, 1]);
    put(HELD_COUNT_AT, &[2]);
    put(ENTRY_COUNT_AT, &[2]);
    put(datum_at(0), &[1]);
    put(datum_at(0) + RIGHT_AT, &[2]);
    put(datum_at(0) + TERM_COUNT_AT, &[1]);
    put(datum_at(0) + TERM_COUNT_AT + MASKS_AT, &[4]);
    put(datum_at(1), &[1, 2]);
    put(datum_at(1) + RIGHT_AT, &[1, 2, 3]);
    put(datum_at(1) + TERM_COUNT_AT, &[2]);
    put(datum_at(1) + TERM_COUNT_AT + MASKS_AT, &[4, 3, 2, 1]);
    put(datum_at(1) + TERM_COUNT_AT + MASKS_AT + MASK_BYTES, &[0, 0, 0, 16]);
    put(datum_at(1) + LEFT_MILLIONTHS_AT, &[2, 3, 4]);
    put(datum_at(1) + RIGHT_MILLIONTHS_AT, &[0x3f, 0x42, 0x0f]);
    put(entry_at(0), &[1]);
    put(entry_at(0) + MASKS_AT, &[8]);
    put(entry_at(1), &[1]);
    put(entry_at(1) + MASKS_AT, &[2, 3, 4, 5]);
    put(clock_at(2), &[1]);
    for (i, triple) in [[1, 2, 3], [4, 5, 6], [7, 8, 2]].into_iter().enumerate() {
        for (j, number) in triple.into_iter().enumerate() {
            put(clock_at(2) + TRIPLES_AT + TRIPLE_BYTES * i + 8 * j, &[number]);
        }
    }
    put(clock_at(2) + TRIPLES_AT + TRIPLE_BYTES * 2 + 16, &[2, 3, 4, 5, 6, 7]);
    put(clock_at(27), &[1]);
    put(epoch_at(0), &[1]);
    put(epoch_at(27), &[14, 15]);
    assert_eq!(state.bytes(), bytes);
    assert_eq!(State::of(&bytes), Ok(state));
}

#[test]
fn bytes_in_form_come_back_after_decoding_and_encoding() {
    let mut damaged = [0; 2];
    for seed in 0..50_000 {
        let mut random = Random::new(seed);
        let state = states::in_form(&mut random);
        let mut bytes = state.bytes();
        assert_eq!(State::of(&bytes).as_ref(), Ok(&state), "seed {seed}");
        states::damage(&mut random, &mut bytes);
        let state = State::of(&bytes);
        damaged[usize::from(state.is_ok())] += 1;
        assert!(state.map_or_else(|n| n == 25, |state| state.bytes() == bytes), "seed {seed}");
    }
    assert!(damaged.iter().all(|&count| count > 5_000), "{damaged:?}");
}

// ---- what a run leaves true

/// What a taken message is to its receiver.
struct Received {
    sender: u32,
    /// With its older names too.
    datum: Datum,
    /// The identifiers whose old names it withdraws.
    risen: Term,
    /// Those whose names in it are old.
    old: Term,
}

impl Received {
    fn new(before: &State, least: u64, greatest: u64, message: &[u8]) -> Received {
        let words = message::words_of(message).expect("whole words");
        let message = message::read(&words).expect("a sound message");
        let Interval { left, right } = message.interval.exact();
        let predicate = Predicate::sum(&[1 << message.sender], &struck(before.own, &message.terms));
        let (later, latest) = (advance(least, before.drift).0, advance(greatest, before.drift).1);
        let interval = Interval { left: left + later, right: right + latest };
        let with = |order: Ordering| {
            let names = message.names().filter(|name| name.identifier != before.own);
            let names = names.filter(move |name| {
                name.epoch.cmp(&before.epochs[name.identifier as usize]) == order
            });
            names.fold(0, |names, name| names | 1 << name.identifier)
        };
        let (risen, old) = (with(Ordering::Greater), with(Ordering::Less));
        Received { sender: message.sender, datum: Datum { interval, predicate }, risen, old }
    }

    /// Whether the readings violate test (20): an older sender's are not heeded, and what is saved
    /// of a mended one is not of its name.
    fn violates(&self, before: &State, readings: Option<Readings>) -> bool {
        let heeded = (self.risen | self.old) >> self.sender & 1 == 0;
        let saved = before.clocks[self.sender as usize].filter(|_| heeded).zip(readings);
        saved.is_some_and(|(saved, readings)| {
            saved.violated_by(readings.triple, before.drift + readings.drift)
        })
    }

    /// What is known afterwards: the message's epochs where they are above.
    fn epochs_after(&self, before: &State, after: &State) {
        for n in 0..NAMES {
            let (old, new) = (before.epochs[n as usize], after.epochs[n as usize]);
            assert!(if self.risen >> n & 1 != 0 { old < new } else { old == new }, "{n}");
        }
    }
}

/// Runs a call, and checks that a refusal changes nothing and that the bytes stay in form.
fn checked(call: &Call, bytes: &mut [u8], seed: u64) -> u32 {
    let before = bytes.to_vec();
    let number = call.second(bytes, &mut [0; MESSAGE_BYTES], &mut Branches::default());
    assert!(number == 0 || bytes == before, "seed {seed}: {call:?}");
    let front = bytes.first_chunk().expect("a state");
    assert!(state::in_form(front), "seed {seed}: {call:?}");
    assert_eq!(bytes[STATE_BYTES..], before[STATE_BYTES..], "seed {seed}: {call:?}");
    number
}

/// Every set of five names without the own one.
fn sets(own: u32) -> impl Iterator<Item = Term> {
    (0..1 << 5).filter(move |s| s >> own & 1 == 0)
}

/// How many receipts were taken, and of these such that violated test (20), from radios that have
/// slept, that withdrew names, and that had old ones.
#[derive(Debug, Default)]
struct Taken {
    receipts: u64,
    violated: u64,
    slept: u64,
    risen: u64,
    old: u64,
}

impl Taken {
    /// What a taken receipt leaves: for each set just the instants that it had with the withdrawn
    /// names, and that the message allows with its older ones; and none where the sender's clock
    /// violates test (20) and the set does not hold the sender.
    fn says_what_its_message_does(
        &mut self,
        seed: u64,
        call: &Call,
        before: &State,
        after: &State,
    ) {
        let Call::Receive { least, greatest, readings, message } = call else {
            return;
        };
        let new = Received::new(before, *least, *greatest, message);
        let violated = new.violates(before, *readings);
        for s in sets(before.own) {
            let had = counting(s | new.risen, before);
            let failed = holds(s | new.old, &new.datum.predicate);
            let wanted = match (violated && s >> new.sender & 1 == 0, failed) {
                (true, _) => Instants::Empty,
                (false, true) => had,
                (false, false) => had.meet(new.datum.interval),
            };
            assert_eq!(counting(s, after), wanted, "seed {seed}: set {s}, {call:?} in {before:?}");
        }
        new.epochs_after(before, after);
        self.receipts += 1;
        self.violated += u64::from(violated);
        self.slept += u64::from(has_slept(call));
        self.risen += u64::from(new.risen != 0);
        self.old += u64::from(new.old != 0);
    }
}

#[test]
fn receipts_in_runs_say_what_their_messages_do() {
    let mut taken = Taken::default();
    for seed in 0..20_000 {
        let mut random = Random::new(seed);
        let mending = random.once_in(2);
        let world = if mending { World::mending(&mut random) } else { World::small(&mut random) };
        let mut bytes = random.bytes(STATE_BYTES + 5);
        assert_eq!(world.set_up().second(&mut bytes, &mut [], &mut Branches::default()), 0);
        for _ in 0..random.below(40) {
            let before = State::of(&bytes).expect("a state in form");
            let call = world.call(&mut random, &before);
            if checked(&call, &mut bytes, seed) == 0 {
                let after = State::of(&bytes).expect("a state in form");
                taken.says_what_its_message_does(seed, &call, &before, &after);
                // What disjoint intervals taught is in the entries: the data left agree.
                let learnt = |s| {
                    counting(s, &after) != Instants::Empty
                        || after.entries.iter().any(|e| !holds(s, e))
                };
                assert!(sets(after.own).all(learnt), "seed {seed}: {after:?}");
            }
        }
    }
    assert!(taken.receipts > 100_000 && taken.violated > 3_000, "too few of {taken:?}");
    assert!(
        taken.slept > 5_000 && taken.risen > 5_000 && taken.old > 3_000,
        "too few of {taken:?}"
    );
}

#[test]
fn receipts_in_any_state_in_form_say_what_their_messages_do() {
    let mut taken = Taken::default();
    for seed in 0..50_000 {
        let mut random = Random::new(seed);
        let before = states::in_form(&mut random);
        let call = World::around(&mut random, &before).call(&mut random, &before);
        let mut bytes = before.bytes();
        if checked(&call, &mut bytes, seed) == 0 {
            let after = State::of(&bytes).expect("a state in form");
            taken.says_what_its_message_does(seed, &call, &before, &after);
        }
    }
    assert!(taken.receipts > 10_000 && taken.violated > 300, "too few of {taken:?}");
    assert!(taken.slept > 500 && taken.risen > 500 && taken.old > 500, "too few of {taken:?}");
}

// ---- asking, instant by instant

/// Instants that are in no interval, whatever its ends.
const OUTERMOST: [Instant; 2] = [-1, Instant::MAX];

/// Every end of a state with the instants next to it, and the outermost ones, rising: what counts
/// changes nowhere else.
fn around(state: &State) -> Vec<Instant> {
    let ends = state.held.iter().flat_map(|datum| [datum.interval.left, datum.interval.right]);
    let near = ends.flat_map(|end| [end - 1, end, end + 1]);
    near.chain(OUTERMOST).collect::<BTreeSet<Instant>>().into_iter().collect()
}

/// Whether the instant counts for s, in document 01's words.
fn counts(x: Instant, s: Term, state: &State) -> bool {
    let contains = |Interval { left, right }| (left..=right).contains(&x);
    state.entries.iter().all(|entry| holds(s, entry))
        && state.held.iter().all(|datum| holds(s, &datum.predicate) || contains(datum.interval))
}

/// The answer by those of the instants around that count, rising: all if the outermost do.
fn answer(counting: &[Instant]) -> Instants {
    match (counting.first(), counting.last()) {
        (Some(&left), Some(&right)) if [left, right] == OUTERMOST => Instants::All,
        (Some(&left), Some(&right)) => Instants::Between(left, right),
        _ => Instants::Empty,
    }
}

/// All sets without the own name are tried, of whatever names: to limit 2, and now and then to the
/// greatest.
#[test]
fn asking_tells_the_least_and_greatest_instant_that_counts() {
    for seed in 0..300 {
        let state = states::to_ask(&mut Random::new(seed));
        let around = around(&state);
        let most = if seed % 20 == 0 { GREATEST_LIMIT } else { 2 };
        let all = predicates::sets(ALL_NAMES & !(1 << state.own), most);
        for limit in 0..=most {
            let sets = || all.iter().copied().filter(|s| s.count_ones() <= limit);
            let some = |x: &Instant| sets().any(|s| counts(*x, s, &state));
            let counting: Vec<Instant> = around.iter().copied().filter(some).collect();
            assert_eq!(ask(&state, limit), answer(&counting), "seed {seed}: {limit}, {state:?}");
        }
        let explains = |&s: &Term| around.iter().any(|&x| counts(x, s, &state));
        let least = all.into_iter().filter(explains).min_by_key(|s| (s.count_ones(), *s));
        let found = fewest(&state).filter(|s| s.count_ones() <= most);
        assert_eq!(found, least, "seed {seed}: {state:?}");
    }
}

#[test]
fn asking_tells_what_counts_for_each_set() {
    let mut met = [0; 3];
    for seed in 0..5_000 {
        let state = states::to_ask(&mut Random::new(seed));
        let around = around(&state);
        let data = state.held.iter().map(|datum| &datum.predicate);
        for s in predicates::sets(predicates::names_within(data.chain(&state.entries), 3), 3) {
            let counts = |x: &Instant| counts(*x, s, &state);
            let instants: Vec<Instant> = around.iter().copied().filter(counts).collect();
            let wanted = answer(&instants);
            assert_eq!(counting(s, &state), wanted, "seed {seed}: {s}, {state:?}");
            met[usize::from(wanted != Instants::Empty) + usize::from(wanted == Instants::All)] += 1;
        }
    }
    assert!(met.iter().all(|&count| count > 10_000), "{met:?}");
}
