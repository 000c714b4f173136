//! Runs of both programs with their books: each call is compared, and entered with its number.

use crate::asking::{ANSWER_BYTES, FEWEST_BYTES};
use crate::book::Book;
use crate::branches::Branches;
use crate::calls::Call;
use crate::epochs::GREATEST_EPOCH;
use crate::lent::Lent;
use crate::predicates::GREATEST_NAME;
use crate::random::Random;
use crate::samples::runs::World;
use crate::state::{State, GREATEST_DRIFT, STATE_BYTES};

/// A run of both programs. Its book sees the calls and their numbers, and no state.
pub struct Run {
    pub seed: u64,
    pub random: Random,
    pub book: Book,
    /// The calls that were taken after setting up.
    pub taken: Vec<Call>,
    /// Of the last call.
    pub branches: Branches,
    state: Lent,
}

/// What a run can be taken back to.
pub struct Past {
    bytes: Vec<u8>,
    book: Book,
    taken: usize,
}

impl Run {
    /// A run that was just set up.
    pub fn new(seed: u64, mut random: Random, world: &World) -> Run {
        let bytes = random.bytes(STATE_BYTES);
        let state = Lent::new(&bytes, &mut random);
        // Setting up enters its numbers, whatever is here before.
        let book = Book::new(GREATEST_NAME, GREATEST_DRIFT, 0, GREATEST_EPOCH);
        let branches = Branches::default();
        let mut run = Run { seed, random, book, taken: vec![], branches, state };
        assert_eq!(run.call(&world.set_up()), 0, "seed {seed}");
        run.taken.clear();
        run
    }

    pub fn call(&mut self, call: &Call) -> u32 {
        let (number, _) = self.both(call, 0);
        self.book.enter(call, number);
        if number == 0 {
            self.taken.push(call.clone());
        }
        number
    }

    /// A call by both programs with an output of so many bytes: its number and the output.
    fn both(&mut self, call: &Call, len: usize) -> (u32, Vec<u8>) {
        let mut out = Lent::new(&vec![0; len], &mut self.random);
        self.branches = Branches::default();
        let number = call.both(&mut self.state, &mut out, &mut self.branches);
        let number = number.unwrap_or_else(|fault| {
            let state = State::of(self.state.bytes());
            panic!("seed {}: {fault}: {call:?} in {state:?}", self.seed)
        });
        (number, out.bytes().to_vec())
    }

    /// The state's bytes.
    pub fn bytes(&self) -> &[u8] {
        self.state.bytes()
    }

    /// The state, to draw a call from or to compare with the book.
    pub fn state(&self) -> State {
        State::of(self.state.bytes()).expect("a state in form")
    }

    /// What both programs answer.
    pub fn answer(&mut self, limit: u32) -> Vec<u8> {
        let (number, answer) = self.both(&Call::Ask { limit: limit.into() }, ANSWER_BYTES);
        assert_eq!(number, 0, "seed {}", self.seed);
        answer
    }

    /// The count and the mask that both programs give.
    pub fn fewest(&mut self) -> Vec<u8> {
        let (number, fewest) = self.both(&Call::Fewest, FEWEST_BYTES);
        assert_eq!(number, 0, "seed {}", self.seed);
        fewest
    }

    /// The run as it is now.
    pub fn past(&self) -> Past {
        Past { bytes: self.bytes().to_vec(), book: self.book.clone(), taken: self.taken.len() }
    }

    /// Takes the run back.
    pub fn back_to(&mut self, past: &Past) {
        self.state.put(&past.bytes);
        self.book = past.book.clone();
        self.taken.truncate(past.taken);
    }

    /// The seed and the calls, for a fault.
    pub fn case(&self) -> String {
        format!("seed {}: {:?}", self.seed, self.taken)
    }
}
