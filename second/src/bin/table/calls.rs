//! What is timed: each call with its other arguments, by the engine, by the second program and by
//! the C.

use crate::hand;
use second::asking::{ANSWER_BYTES, FEWEST_BYTES, GREATEST_LIMIT};
use second::message::MESSAGE_BYTES;
use second::samples::loads::{Load, READINGS};
use second::state::State;
use second::{ageing, asking, engine, message, receiving, set_up, writing};

/// What a call is lent.
#[derive(Clone)]
pub struct Case {
    pub state: Vec<u8>,
    /// The state at first.
    first: Vec<u8>,
    message: Vec<u8>,
    reading: u64,
    out: Vec<u8>,
}

impl Case {
    pub fn new(load: &Load) -> Case {
        Case::of(&load.state, &load.message)
    }

    pub fn of(state: &[u8], message: &[u8]) -> Case {
        let reading = State::of(state).expect("a state in form").reading;
        let out = vec![0; MESSAGE_BYTES];
        let (state, message) = (state.to_vec(), message.to_vec());
        Case { first: state.clone(), state, message, reading, out }
    }

    /// A state that was just set up, and no message.
    pub fn fresh() -> Case {
        Case::of(&State::fresh(0, 0, 0).bytes(), &[])
    }

    /// Ageing is to one microsecond later each time.
    fn next_reading(&mut self) -> u64 {
        self.reading += 1;
        self.reading
    }

    fn restore(&mut self) {
        self.state.copy_from_slice(&self.first);
    }
}

/// A call with its other arguments, by one of the programs.
pub type Run = fn(&mut Case) -> u32;

/// A call by each program, and the number that all of them return.
pub struct Call {
    pub name: &'static str,
    pub engine: Run,
    pub second: Run,
    pub hand: Run,
    pub number: u32,
}

pub const SET_UP: Call = Call {
    name: "set up",
    engine: |case| engine::monitor_set_up(&mut case.state, 3, 100, 7, 1),
    second: |case| set_up::call(&mut case.state, 3, 100, 7, 1),
    hand: |case| hand::set_up(&mut case.state, 3, 100, 7, 1),
    number: 0,
};
/// Nothing is held at that position, which is found out after the form.
pub const FORM: Call = Call {
    name: "form check",
    engine: |case| engine::monitor_write(&case.state, u64::MAX, &mut case.out),
    second: |case| writing::call(&case.state, u64::MAX, &mut case.out),
    hand: |case| hand::write(&case.state, u64::MAX, &mut case.out),
    number: 23,
};
pub const AGE: Call = Call {
    name: "age",
    engine: |case| {
        let reading = case.next_reading();
        engine::monitor_age(&mut case.state, reading)
    },
    second: |case| {
        let reading = case.next_reading();
        ageing::call(&mut case.state, reading)
    },
    hand: |case| {
        let reading = case.next_reading();
        hand::age(&mut case.state, reading)
    },
    number: 0,
};
pub const RECEIVE: Call = Call {
    name: "receive",
    engine: |case| engine::monitor_receive(&mut case.state, 10, 60, &case.message),
    second: |case| receiving::call(&mut case.state, 10, 60, None, &case.message),
    hand: |case| hand::receive(&mut case.state, 10, 60, &case.message),
    number: 0,
};
/// From the second time on the triple is the one that was saved.
pub const RECEIVE_WITH_READINGS: Call = Call {
    name: "receive with readings",
    engine: |case| {
        let Case { state, message, .. } = case;
        engine::monitor_receive_with_readings(state, 10, 60, READINGS, message)
    },
    second: |case| receiving::call(&mut case.state, 10, 60, Some(READINGS), &case.message),
    hand: |case| hand::receive_with_readings(&mut case.state, 10, 60, READINGS, &case.message),
    number: 0,
};
/// Each time in the state as it was at first, which is copied back: the time has that copying in
/// it. To hold the next one against.
pub const COPY_AND_RECEIVE: Call = Call {
    name: "copy, and receive",
    engine: |case| {
        case.restore();
        engine::monitor_receive(&mut case.state, 10, 60, &case.message)
    },
    second: |case| {
        case.restore();
        receiving::call(&mut case.state, 10, 60, None, &case.message)
    },
    hand: |case| {
        case.restore();
        hand::receive(&mut case.state, 10, 60, &case.message)
    },
    number: 0,
};
/// The same of a message whose sender has a higher epoch than the state knows.
pub const COPY_AND_RISE: Call = Call { name: "copy, and receive with a rise", ..COPY_AND_RECEIVE };
pub const WRITE: Call = Call {
    name: "write",
    engine: |case| engine::monitor_write(&case.state, 2, &mut case.out),
    second: |case| writing::call(&case.state, 2, &mut case.out),
    hand: |case| hand::write(&case.state, 2, &mut case.out),
    number: 0,
};
pub const READ: Call = Call {
    name: "read",
    engine: |case| engine::monitor_message_read(&case.message, &mut case.out),
    second: |case| message::read_call(&case.message, &mut case.out),
    hand: |case| hand::message_read(&case.message, &mut case.out),
    number: 0,
};
pub const REWRITE: Call = Call {
    name: "rewrite",
    engine: |case| engine::monitor_message_rewrite(&case.message, &mut case.out),
    second: |case| message::rewrite_call(&case.message, &mut case.out),
    hand: |case| hand::message_rewrite(&case.message, &mut case.out),
    number: 0,
};

/// Asking at each limit.
pub const ASK: [Call; GREATEST_LIMIT as usize + 1] = [
    asking_at::<0>("ask 0"),
    asking_at::<1>("ask 1"),
    asking_at::<2>("ask 2"),
    asking_at::<3>("ask 3"),
    asking_at::<4>("ask 4"),
];

const fn asking_at<const LIMIT: u64>(name: &'static str) -> Call {
    Call {
        name,
        engine: |case| engine::monitor_ask(&case.state, LIMIT, &mut case.out[..ANSWER_BYTES]),
        second: |case| asking::ask_call(&case.state, LIMIT, &mut case.out[..ANSWER_BYTES]),
        hand: |case| hand::ask(&case.state, LIMIT, &mut case.out[..ANSWER_BYTES]),
        number: 0,
    }
}

pub const FEWEST: Call = Call {
    name: "fewest",
    engine: |case| engine::monitor_fewest(&case.state, &mut case.out[..FEWEST_BYTES]),
    second: |case| asking::fewest_call(&case.state, &mut case.out[..FEWEST_BYTES]),
    hand: |case| hand::fewest(&case.state, &mut case.out[..FEWEST_BYTES]),
    number: 0,
};
