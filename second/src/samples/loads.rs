//! States and messages to measure with, all of them reached by receipts: senders that agree around
//! one instant, and a few that are far off, so that entries are learnt.

use crate::clocks::{Readings, Saved, Triple};
use crate::message::{self, Message, MOST_TERMS};
use crate::predicates::{normal, Term, ALL_NAMES, GREATEST_NAME, NAMES};
use crate::random::Random;
use crate::receiving;
use crate::state::{State, MOST_DATA, MOST_ENTRIES, STATE_BYTES};

/// A state and a message that it has just received, without readings: to receive it again changes
/// nothing.
#[derive(Clone)]
pub struct Load {
    pub state: Vec<u8>,
    pub message: Vec<u8>,
}

/// Readings that agree with all that a load saves.
pub const READINGS: Readings = Readings { triple: Triple { a: 9_000, b: 9_003, w: 5 }, drift: 100 };

impl Load {
    /// The same with triples saved of every name but the own one, as receipts leave them.
    pub fn with_clocks(&self) -> Load {
        let mut state = State::of(&self.state).expect("a state in form");
        for (name, clock) in state.clocks.iter_mut().enumerate() {
            let late = name as u64;
            let saved = Saved::first(Triple::of(1_000 + late, 1_000, 60));
            let saved = saved.with(Triple::of(2_000, 2_004 + late, 60));
            *clock = Some(saved.with(Triple::of(3_000, 3_001, 20)));
        }
        state.clocks[OWN as usize] = None;
        Load { state: state.bytes(), message: self.message.clone() }
    }

    /// The same with the message that its sender would have sent once it was mended: to receive it
    /// withdraws the old name. None where there is no room for what comes of it.
    pub fn mended(&self) -> Option<Load> {
        let words = message::words_of(&self.message).expect("whole words");
        let message = message::read(&words).expect("a sound message");
        let sender = message.sender;
        let message = message.at(&[(sender, 1)]).bytes();
        let taken = receiving::call(&mut self.state.clone(), 10, 60, None, &message) == 0;
        taken.then(|| Load { state: self.state.clone(), message })
    }
}

/// Messages with one epoch word, and with one for every identifier.
pub fn with_fewest_and_most_epochs() -> [Vec<u8>; 2] {
    let [(_, fewest), (_, most), ..] = by_epoch_words();
    [fewest, most]
}

/// Messages with one epoch word, and with one for every identifier: without a term and with as many
/// as there can be, and with one term.
pub fn by_epoch_words() -> [(&'static str, Vec<u8>); 4] {
    let terms: Vec<Term> = (0..MOST_TERMS).rev().map(|n| ALL_NAMES & !(1 << n)).collect();
    [
        ("one epoch word", &[][..]),
        ("29 epoch words", &terms),
        ("1 term, 1 epoch word", &[1 << SENDER]),
        ("1 term, 29 epoch words", &[ALL_NAMES]),
    ]
    .map(|(name, terms)| (name, Message::of(SENDER, INSTANT, INSTANT + 100, terms).bytes()))
}

/// How full a state is to be.
#[derive(Clone, Copy)]
pub struct Filling {
    pub name: &'static str,
    pub data: usize,
    pub entries: usize,
    /// A message has up to so many terms.
    terms: u64,
    /// So many senders are far off.
    astray: u32,
    /// A term has up to so many names.
    names: usize,
}

pub const QUIET: Filling =
    Filling { name: "quiet", data: 3, entries: 0, terms: 1, astray: 0, names: 3 };
pub const USUAL: Filling =
    Filling { name: "usual", data: 8, entries: 4, terms: 2, astray: 1, names: 3 };
pub const FULL: Filling =
    Filling { name: "full", data: MOST_DATA, entries: MOST_ENTRIES, terms: 7, astray: 3, names: 3 };
pub const SINGLE: Filling = Filling { name: "full, single names", names: 1, ..FULL };

/// The own name; senders are the others.
const OWN: u32 = 5;
/// The sender of messages that no state has received.
const SENDER: u32 = 1;
/// True time is about here.
const INSTANT: u64 = 1_000_000_000_000;

impl Filling {
    /// So many loads that differ; the last message of each came from a sender far off, or did not.
    pub fn loads(self, count: usize, far: bool) -> Vec<Load> {
        self.every(far).take(count).collect()
    }

    /// All of these, each made when it comes.
    pub fn every(self, far: bool) -> impl Iterator<Item = Load> {
        (0..).filter_map(move |seed| self.load(&mut Random::new(seed), far))
    }

    /// What a run of receipts comes to, if it comes to such a load.
    fn load(self, random: &mut Random, far: bool) -> Option<Load> {
        let mut bytes = State::fresh(OWN, 100, 1_000_000).bytes();
        for _ in 0..60 {
            let (message, astray) = self.message(random);
            let message = message.bytes();
            receiving::call(&mut bytes, 10, 60, None, &message);
            if astray == far && self.is_met(&bytes) {
                let mut again = bytes.clone();
                let number = receiving::call(&mut again, 10, 60, None, &message);
                if number == 0 && again == bytes {
                    return Some(Load { state: bytes, message });
                }
            }
        }
        None
    }

    fn is_met(self, bytes: &[u8]) -> bool {
        let state = State::of(&bytes[..STATE_BYTES]).expect("a state in form");
        (state.held.len(), state.entries.len()) == (self.data, self.entries)
    }

    /// A message, and whether its sender is far off.
    fn message(self, random: &mut Random) -> (Message, bool) {
        let sender = other(random);
        let astray = (sender + NAMES - OWN - 1) % NAMES < self.astray;
        let shift = if astray { 1_000_000 * u64::from(sender + 1) } else { 0 };
        let centre = INSTANT + shift + random.below(100);
        let (low, high) = (100 + random.below(1_000), 100 + random.below(1_000));
        let terms = (0..random.below(self.terms + 1)).map(|_| self.term(random));
        let mut terms = normal(&terms.collect::<Vec<Term>>());
        terms.retain(|t| t >> OWN & 1 == 0);
        (Message::of(sender, centre - low, centre + high, &terms), astray)
    }

    /// One to three names that a message came through, seldom one that is far off.
    fn term(self, random: &mut Random) -> Term {
        let size = random.pick(&[1, 2, 2, 3]).min(self.names);
        (0..size).fold(0, |t, _| t | 1 << other(random))
    }
}

/// Any name but the own one.
fn other(random: &mut Random) -> u32 {
    (OWN + 1 + random.below(GREATEST_NAME.into()) as u32) % NAMES
}
