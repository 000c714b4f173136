//! Seeded runs by both programs, compared after every call: the numbers, the state, the output and
//! all bytes around them. Each report counts the numbers by call and the branches of taken receipts.

use second::asking::{ANSWER_BYTES, FEWEST_BYTES};
use second::branches::{Branch, Branches, Counts};
use second::calls::Call;
use second::lent::Lent;
use second::message::{ends_form_bytes, MESSAGE_BYTES};
use second::random::Random;
use second::samples::runs::{has_slept, World};
use second::samples::{report, states};
use second::state::{State, ENTRY_COUNT_AT, HELD_COUNT_AT, MOST_DATA, MOST_ENTRIES, STATE_BYTES};
use std::collections::BTreeMap;
use std::fmt::Write as _;

// ---- what was reached

/// What each call can return.
const NUMBERS: [&[u32]; 7] = [
    &[0, 1, 2, 3, 24, 41],
    &[0, 3, 20, 24, 25, 30],
    &[0, 10, 11, 12, 13, 14, 15, 16, 17, 18, 21, 24, 25, 30, 31, 32, 42],
    &[0, 10, 11, 12, 13, 14, 15, 16, 17, 18, 21, 24, 25, 30, 31, 32, 40, 42],
    &[0, 23, 24, 25],
    &[0, 22, 24, 25],
    &[0, 24, 25],
];

/// The branches that only crowded places have to meet.
const CROWDED: [Branch; 3] = [Branch::EntriesOver, Branch::TooManyData, Branch::TooManyEntries];
/// Those that only names which are often mended have to meet.
const MENDED: [Branch; 3] = [Branch::OldMadeTrue, Branch::OldSpared, Branch::Unheeded];

/// Fewer of a number or of a branch would be too few to have met its cases.
const ENOUGH: u64 = 100;

#[derive(Default)]
struct Seen {
    runs: u64,
    /// By call and number.
    numbers: [BTreeMap<u32, u64>; 7],
    /// Of taken receipts; of refused ones those that say why.
    branches: Counts,
    /// Refused 32 although the receipt ended at step 2.
    crowded_at_step_2: u64,
    /// Refused 32 after a violation.
    crowded_by_violation: u64,
    /// Taken receipts that left all places for data, or for entries, in use.
    all_data: u64,
    all_entries: u64,
    /// Receipts from radios that have slept: taken, and refused 30.
    slept: u64,
    slept_past_the_end: u64,
}

impl Seen {
    fn count(&mut self, call: &Call, number: u32, branches: Branches, state: &[u8]) {
        *self.numbers[call.kind()].entry(number).or_default() += 1;
        let why = [Branch::PassesByFraction, Branch::TooManyData, Branch::TooManyEntries];
        for branch in Branch::ALL.into_iter().filter(|&branch| branches.has(branch)) {
            if number == 0 || why.contains(&branch) {
                self.branches[branch] += 1;
            }
        }
        if number == 32 {
            self.crowded_at_step_2 += u64::from(branches.has(Branch::NewExplained));
            self.crowded_by_violation += u64::from(branches.has(Branch::NameAdded));
        }
        self.slept += u64::from(number == 0 && has_slept(call));
        self.slept_past_the_end += u64::from(number == 30 && has_slept(call));
        if number == 0 && matches!(call, Call::Receive { .. }) {
            self.all_data += u64::from(usize::from(state[HELD_COUNT_AT]) == MOST_DATA);
            self.all_entries += u64::from(usize::from(state[ENTRY_COUNT_AT]) == MOST_ENTRIES);
        }
    }

    fn calls(&self) -> u64 {
        self.numbers.iter().flat_map(BTreeMap::values).sum()
    }

    fn report(&self, title: &str) -> String {
        let mut text = format!("{title}: {} runs, {} calls\n", self.runs, self.calls());
        for (name, numbers) in Call::NAMES.iter().zip(&self.numbers) {
            let counts = numbers.iter().map(|(number, count)| format!("  {number}: {count}"));
            writeln!(text, "  {name}{}", counts.collect::<String>()).expect("a string");
        }
        let counts = Branch::ALL.into_iter().map(|b| format!("{b:?} {}", self.branches[b]));
        let counts: Vec<String> = counts.collect();
        let more = [
            ("32 at step 2", self.crowded_at_step_2),
            ("32 by a violation", self.crowded_by_violation),
            ("left with the most data", self.all_data),
            ("with the most entries", self.all_entries),
            ("after a sleep", self.slept),
            ("30 after a sleep", self.slept_past_the_end),
        ];
        let more = more.map(|(what, count)| format!("{what} {count}"));
        text + &format!("  {}, {}\n", counts.join(", "), more.join(", "))
    }

    /// Prints the report, and checks that each call met all of its numbers and no others, and that
    /// receipts met all branches but the exempt ones, as often as is enough.
    fn check(&self, title: &str, exempt: &[Branch]) {
        report(&self.report(title));
        for (name, (met, wanted)) in Call::NAMES.iter().zip(self.numbers.iter().zip(NUMBERS)) {
            for number in wanted {
                let count = met.get(number).copied().unwrap_or(0);
                assert!(count >= ENOUGH, "{title}: {name}: {number} came {count} times");
            }
            assert!(met.keys().all(|number| wanted.contains(number)), "{title}: {name}: {met:?}");
        }
        for branch in Branch::ALL.into_iter().filter(|branch| !exempt.contains(branch)) {
            let count = self.branches[branch];
            assert!(count >= ENOUGH, "{title}: {branch:?} came {count} times");
        }
        assert!(self.slept >= ENOUGH, "{title}: too seldom after a sleep");
    }
}

// ---- a run

/// Lengths of an output for a message: about those of 1 and 2 terms of a name each, that of 3,
/// about the longest. The own identifier has an epoch word too.
const WRITE_LENGTHS: [usize; 10] = [
    0,
    ends_form_bytes(2, 1) - 1,
    ends_form_bytes(2, 1),
    ends_form_bytes(3, 2) - 1,
    ends_form_bytes(3, 2),
    ends_form_bytes(4, 3),
    MESSAGE_BYTES - 1,
    MESSAGE_BYTES,
    MESSAGE_BYTES + 1,
    MESSAGE_BYTES + 14,
];

/// The bytes of a run and what is known of them.
struct Run<'a> {
    seed: u64,
    random: Random,
    world: World,
    state: Lent,
    seen: &'a mut Seen,
}

impl<'a> Run<'a> {
    /// A run that has any bytes at first, and up to 63 beyond the state.
    fn new(seed: u64, mut random: Random, world: World, seen: &'a mut Seen) -> Run<'a> {
        let bytes = random.bytes(STATE_BYTES + 63);
        let mut state = Lent::new(&bytes, &mut random);
        state.lend(STATE_BYTES + random.pick(&[0, 1, 7, 63]));
        seen.runs += 1;
        Run { seed, random, world, state, seen }
    }

    /// Sets the world up and makes so many steps.
    fn start_set_up(&mut self, steps: u64) {
        let set_up = self.world.set_up();
        assert_eq!(self.call(&set_up), 0, "seed {}", self.seed);
        (0..steps).for_each(|_| self.step());
    }

    /// Starts in a state and makes so many steps.
    fn start_in(&mut self, state: &State, steps: u64) {
        let mut bytes = self.state.bytes().to_vec();
        state.encode(&mut bytes);
        self.state.put(&bytes);
        (0..steps).for_each(|_| self.step());
    }

    /// Runs the call in both programs with an output of any length.
    fn call(&mut self, call: &Call) -> u32 {
        let len = match call {
            Call::Write { .. } => self.random.pick(&WRITE_LENGTHS),
            Call::Ask { .. } => {
                let most = ANSWER_BYTES;
                self.random.pick(&[0, 16, most - 1, most, most + 1, 32, 70])
            }
            Call::Fewest => {
                let most = FEWEST_BYTES;
                self.random.pick(&[0, 8, most - 1, most, most + 1, 24, 70])
            }
            _ => 0,
        };
        let filled = self.random.bytes(len);
        let mut out = Lent::new(&filled, &mut self.random);
        let before = self.state.bytes().to_vec();
        let mut branches = Branches::default();
        let number = call.both(&mut self.state, &mut out, &mut branches).unwrap_or_else(|fault| {
            let state = State::of(&before);
            panic!("seed {}: {fault}: {call:?}, output of {len} bytes, in {state:?}", self.seed)
        });
        self.seen.count(call, number, branches, self.state.bytes());
        number
    }

    /// Any call of the world; in a damaged state or a shorter one now and then.
    fn step(&mut self) {
        let state = State::of(self.state.bytes()).expect("a state in form");
        let call = self.world.call(&mut self.random, &state);
        let before = self.state.bytes().to_vec();
        match self.random.below(24) {
            0 | 1 => self.damaged(&call, &before),
            2 => {
                let short = self.random.below(2) * self.random.below(STATE_BYTES as u64 - 1);
                self.state.lend(STATE_BYTES - 1 - short as usize);
                assert_eq!(self.call(&call), 24, "seed {}", self.seed);
                self.state.lend(before.len());
            }
            _ => {
                self.call(&call);
            }
        }
    }

    /// The call in a damaged state; the run goes on with the state as it was.
    fn damaged(&mut self, call: &Call, before: &[u8]) {
        let mut bytes = before.to_vec();
        for _ in 0..self.random.pick(&[1, 1, 1, 2, 3]) {
            states::damage(&mut self.random, &mut bytes);
        }
        self.state.put(&bytes);
        self.call(call);
        self.state.put(before);
    }
}

// ---- the runs

#[test]
fn runs_of_few_names_and_small_numbers_are_answered_alike() {
    let mut seen = Seen::default();
    for seed in 0..40_000 {
        let mut random = Random::new(seed);
        let (world, steps) = (World::small(&mut random), random.below(40));
        Run::new(seed, random, world, &mut seen).start_set_up(steps);
    }
    seen.check("few names and small numbers", &[&CROWDED[..], &MENDED].concat());
    assert!(seen.runs >= 20_000, "only {} runs", seen.runs);
    assert!(seen.slept_past_the_end >= ENOUGH, "too seldom 30 after a sleep");
}

#[test]
fn runs_that_fill_all_places_are_answered_alike() {
    let mut seen = Seen::default();
    for seed in 0..2_000 {
        let mut random = Random::new(seed);
        let (world, steps) = (World::crowded(&mut random), 40 + random.below(160));
        Run::new(seed, random, world, &mut seen).start_set_up(steps);
    }
    seen.check("many names and crowded places", &MENDED);
    let [step_2, violation] = [seen.crowded_at_step_2, seen.crowded_by_violation];
    for count in [step_2, violation, seen.all_data, seen.all_entries] {
        assert!(count >= ENOUGH, "too seldom full");
    }
}

#[test]
fn runs_from_any_state_in_form_are_answered_alike() {
    let mut seen = Seen::default();
    for seed in 0..80_000 {
        let mut random = Random::new(seed);
        let state = states::in_form(&mut random);
        let (world, steps) = (World::around(&mut random, &state), 1 + random.below(4));
        Run::new(seed, random, world, &mut seen).start_in(&state, steps);
    }
    seen.check("from any state in form", &[&CROWDED[..], &MENDED].concat());
}

#[test]
fn runs_of_names_that_are_often_mended_are_answered_alike() {
    let mut seen = Seen::default();
    for seed in 0..40_000 {
        let mut random = Random::new(seed);
        let crowded = random.once_in(40);
        let world = if crowded { World::crowded(&mut random) } else { World::mending(&mut random) };
        let steps = random.below(if crowded { 200 } else { 40 });
        Run::new(seed, random, world, &mut seen).start_set_up(steps);
    }
    seen.check("names that are often mended", &CROWDED);
}
