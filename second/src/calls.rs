//! The calls over a state as values: a run is a list of them.

use crate::asking::{ANSWER_BYTES, FEWEST_BYTES};
use crate::branches::Branches;
use crate::clocks::{Readings, Triple};
use crate::lent::{compare, Lent};
use crate::message::{Message, MESSAGE_BYTES};
use crate::random::Random;
use crate::state::{State, STATE_BYTES};
use crate::{ageing, asking, engine, receiving, set_up, writing};
use std::fmt;

/// A call with its arguments, the lent bytes aside.
#[derive(Clone, PartialEq, Eq)]
pub enum Call {
    SetUp {
        own: u32,
        drift: u32,
        reading: u64,
        epoch: u64,
    },
    Age {
        reading: u64,
    },
    /// With readings or without: two calls of the engine.
    Receive {
        least: u64,
        greatest: u64,
        readings: Option<Readings>,
        message: Vec<u8>,
    },
    Write {
        position: u64,
    },
    Ask {
        limit: u64,
    },
    Fewest,
}

impl Call {
    pub const NAMES: [&str; 7] = [
        "monitor_set_up",
        "monitor_age",
        "monitor_receive",
        "monitor_receive_with_readings",
        "monitor_write",
        "monitor_ask",
        "monitor_fewest",
    ];

    /// Its place in the names.
    pub fn kind(&self) -> usize {
        match self {
            Call::SetUp { .. } => 0,
            Call::Age { .. } => 1,
            Call::Receive { readings: None, .. } => 2,
            Call::Receive { .. } => 3,
            Call::Write { .. } => 4,
            Call::Ask { .. } => 5,
            Call::Fewest => 6,
        }
    }

    /// The same call, a receipt without its readings.
    pub fn without_readings(self) -> Call {
        match self {
            Call::Receive { least, greatest, message, .. } => {
                Call::Receive { least, greatest, readings: None, message }
            }
            other => other,
        }
    }

    /// The call by the second program, entering the branches of a receipt.
    pub fn second(&self, state: &mut [u8], out: &mut [u8], seen: &mut Branches) -> u32 {
        match *self {
            Call::SetUp { own, drift, reading, epoch } => {
                set_up::call(state, own, drift, reading, epoch)
            }
            Call::Age { reading } => ageing::call(state, reading),
            Call::Receive { least, greatest, readings, ref message } => {
                receiving::call_seen(state, least, greatest, readings, message, seen)
            }
            Call::Write { position } => writing::call(state, position, out),
            Call::Ask { limit } => asking::ask_call(state, limit, out),
            Call::Fewest => asking::fewest_call(state, out),
        }
    }

    /// The call by the engine.
    pub fn engine(&self, state: &mut [u8], out: &mut [u8]) -> u32 {
        match *self {
            Call::SetUp { own, drift, reading, epoch } => {
                engine::monitor_set_up(state, own, drift, reading, epoch)
            }
            Call::Age { reading } => engine::monitor_age(state, reading),
            Call::Receive { least, greatest, readings: None, ref message } => {
                engine::monitor_receive(state, least, greatest, message)
            }
            Call::Receive { least, greatest, readings: Some(readings), ref message } => {
                engine::monitor_receive_with_readings(state, least, greatest, readings, message)
            }
            Call::Write { position } => engine::monitor_write(state, position, out),
            Call::Ask { limit } => engine::monitor_ask(state, limit, out),
            Call::Fewest => engine::monitor_fewest(state, out),
        }
    }

    /// The call by both, compared: its number, or what is wrong.
    pub fn both(
        &self,
        state: &mut Lent,
        out: &mut Lent,
        seen: &mut Branches,
    ) -> Result<u32, String> {
        let fronts = match self {
            Call::Write { .. } => [0, MESSAGE_BYTES],
            Call::Ask { .. } => [0, ANSWER_BYTES],
            Call::Fewest => [0, FEWEST_BYTES],
            _ => [STATE_BYTES, 0],
        };
        compare(state, out, fronts, |s, o| self.second(s, o, seen), |s, o| self.engine(s, o))
    }
}

/// A call by both, on these bytes and an output of so many filled ones; a difference panics. Gives
/// the number, the bytes, the output and the branches.
pub fn tried(call: &Call, bytes: &[u8], len: usize) -> (u32, Vec<u8>, Vec<u8>, Branches) {
    let mut random = Random::new(len as u64);
    let filled = random.bytes(len);
    let (mut state, mut out) = (Lent::new(bytes, &mut random), Lent::new(&filled, &mut random));
    let mut seen = Branches::default();
    let number = call.both(&mut state, &mut out, &mut seen);
    let case = || format!("{call:?}, {len} bytes, in {:?}", State::of(bytes));
    let number = number.unwrap_or_else(|fault| panic!("{}: {fault}", case()));
    (number, state.bytes().to_vec(), out.bytes().to_vec(), seen)
}

/// The state after a taken call, and how it came about; bytes beyond the state stay.
pub fn taken(before: &State, call: &Call) -> (State, Branches) {
    let bytes = [&before.bytes()[..], &[1, 0, 2]].concat();
    let (number, bytes, _, seen) = tried(call, &bytes, 0);
    assert_eq!(number, 0, "{call:?} in {before:?}");
    assert_eq!(bytes[STATE_BYTES..], [1, 0, 2]);
    let after = State::of(&bytes).expect("a state in form");
    assert!(after.bytes() == bytes[..STATE_BYTES]);
    (after, seen)
}

/// A refusal changes nothing.
pub fn refused(before: &State, call: &Call, wanted: u32) {
    let bytes = [&before.bytes()[..], &[1, 0, 2]].concat();
    let (number, after, ..) = tried(call, &bytes, 0);
    assert_eq!(number, wanted, "{call:?} in {before:?}");
    assert!(after == bytes, "{call:?} in {before:?}");
}

/// A receipt without delay.
pub fn receipt(message: Message, readings: Option<Readings>) -> Call {
    Call::Receive { least: 0, greatest: 0, readings, message: message.bytes() }
}

/// The state after taken messages without readings.
pub fn heard(before: &State, messages: &[Message]) -> State {
    let calls = messages.iter().map(|message| receipt(message.clone(), None));
    calls.fold(before.clone(), |state, call| taken(&state, &call).0)
}

/// The state after a message with readings a, b and w of a sender without drift.
pub fn watched(before: &State, message: Message, (a, b, w): (u64, u64, u64)) -> (State, Branches) {
    taken(before, &receipt(message, Some(Readings::of(a, b, w, 0))))
}

/// What both programs answer at a limit: kind, left and right.
pub fn ask(state: &State, limit: u64) -> [u64; 3] {
    numbers(&tried(&Call::Ask { limit }, &state.bytes(), ANSWER_BYTES).2)
}

/// The fewest failures: count and mask.
pub fn fewest(state: &State) -> [u64; 2] {
    numbers(&tried(&Call::Fewest, &state.bytes(), FEWEST_BYTES).2)
}

/// The numbers of 8 bytes in an output.
pub fn numbers<const N: usize>(out: &[u8]) -> [u64; N] {
    std::array::from_fn(|i| u64::from_le_bytes(*out[8 * i..].first_chunk().expect("a number")))
}

/// Two answers as `ask` gives them.
pub const CONTRADICTED: [u64; 3] = [0, 0, 0];
pub const OPEN: [u64; 3] = [1, 0, 0];

impl fmt::Debug for Call {
    fn fmt(&self, f: &mut fmt::Formatter) -> fmt::Result {
        let name = Call::NAMES[self.kind()];
        match self {
            Call::SetUp { own, drift, reading, epoch } => {
                write!(f, "{name} {own} {drift} {reading} {epoch}")
            }
            Call::Age { reading } => write!(f, "{name} {reading}"),
            Call::Receive { least, greatest, readings, message } => {
                let words = message.chunks(4).map(|word| word.iter().rev());
                let words = words.map(|word| word.fold(0, |w, &b| w << 8 | u32::from(b)));
                let words: Vec<u32> = words.collect();
                write!(f, "{name} {least} {greatest} ")?;
                if let Some(Readings { triple: Triple { a, b, w }, drift }) = readings {
                    write!(f, "{a} {b} {w} {drift} ")?;
                }
                write!(f, "{words:?} of {} bytes", message.len())
            }
            Call::Write { position } => write!(f, "{name} {position}"),
            Call::Ask { limit } => write!(f, "{name} {limit}"),
            Call::Fewest => write!(f, "{name}"),
        }
    }
}
