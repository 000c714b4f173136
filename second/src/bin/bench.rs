//! How long each call takes, by the engine and by the second program, from one run. `bench` is the
//! full measure, `bench quick` a short one that shows that it runs.
//!
//! States are quiet, usual, full and the dearest that hill climbing finds for either program; of
//! the first three also with triples saved of all 28 senders. Messages are also such with one epoch
//! word and with 29. Each line has the median times, and the engine's as a multiple of the second
//! program's and of the time that copying a state's bytes takes.

use second::asking::{ANSWER_BYTES, FEWEST_BYTES, GREATEST_LIMIT};
use second::message::MESSAGE_BYTES;
use second::samples::climbing::Climb;
use second::samples::loads::{self, Filling, Load, FULL, QUIET, READINGS, USUAL};
use second::state::{State, STATE_BYTES};
use second::timing::{least, machine, medians, Effort};
use second::{ageing, asking, engine, message, receiving, set_up, writing};
use std::hint::black_box;

/// What a call is lent.
#[derive(Clone)]
struct Case {
    state: Vec<u8>,
    /// The state at first.
    first: Vec<u8>,
    message: Vec<u8>,
    reading: u64,
    out: Vec<u8>,
}

impl Case {
    fn new(load: &Load) -> Case {
        Case::of(&load.state, &load.message)
    }

    fn of(state: &[u8], message: &[u8]) -> Case {
        let reading = State::of(state).expect("a state in form").reading;
        let out = vec![0; MESSAGE_BYTES];
        let (state, message) = (state.to_vec(), message.to_vec());
        Case { first: state.clone(), state, message, reading, out }
    }
}

/// A call with its other arguments, by one of the programs.
type Run = fn(&mut Case) -> u32;

/// A call by the engine and by the second program, and the number that both return.
struct Call {
    name: &'static str,
    engine: Run,
    second: Run,
    number: u32,
}

const SET_UP: Call = Call {
    name: "set up",
    engine: |case| engine::monitor_set_up(&mut case.state, 3, 100, 7, 1),
    second: |case| set_up::call(&mut case.state, 3, 100, 7, 1),
    number: 0,
};
/// Nothing is held at that position, which is found out after the form.
const FORM: Call = Call {
    name: "form check",
    engine: |case| engine::monitor_write(&case.state, u64::MAX, &mut case.out),
    second: |case| writing::call(&case.state, u64::MAX, &mut case.out),
    number: 23,
};
const AGE: Call = Call {
    name: "age",
    engine: |case| {
        case.reading += 1;
        engine::monitor_age(&mut case.state, case.reading)
    },
    second: |case| {
        case.reading += 1;
        ageing::call(&mut case.state, case.reading)
    },
    number: 0,
};
const RECEIVE: Call = Call {
    name: "receive",
    engine: |case| engine::monitor_receive(&mut case.state, 10, 60, &case.message),
    second: |case| receiving::call(&mut case.state, 10, 60, None, &case.message),
    number: 0,
};
/// From the second time on the triple is the one that was saved.
const RECEIVE_WITH_READINGS: Call = Call {
    name: "receive with readings",
    engine: |case| {
        let Case { state, message, .. } = case;
        engine::monitor_receive_with_readings(state, 10, 60, READINGS, message)
    },
    second: |case| receiving::call(&mut case.state, 10, 60, Some(READINGS), &case.message),
    number: 0,
};
/// Each time in the state as it was at first, which is copied back: the time has that copying in
/// it.
const RECEIVE_WITH_RISE: Call = Call {
    name: "copy, and receive with a rise",
    engine: |case| {
        case.state.copy_from_slice(&case.first);
        engine::monitor_receive(&mut case.state, 10, 60, &case.message)
    },
    second: |case| {
        case.state.copy_from_slice(&case.first);
        receiving::call(&mut case.state, 10, 60, None, &case.message)
    },
    number: 0,
};
const WRITE: Call = Call {
    name: "write",
    engine: |case| engine::monitor_write(&case.state, 2, &mut case.out),
    second: |case| writing::call(&case.state, 2, &mut case.out),
    number: 0,
};
const READ: Call = Call {
    name: "read",
    engine: |case| engine::monitor_message_read(&case.message, &mut case.out),
    second: |case| message::read_call(&case.message, &mut case.out),
    number: 0,
};
const REWRITE: Call = Call {
    name: "rewrite",
    engine: |case| engine::monitor_message_rewrite(&case.message, &mut case.out),
    second: |case| message::rewrite_call(&case.message, &mut case.out),
    number: 0,
};

/// Asking at each limit.
const ASK: [Call; GREATEST_LIMIT as usize + 1] = [
    asking_at::<0>("ask 0"),
    asking_at::<1>("ask 1"),
    asking_at::<2>("ask 2"),
    asking_at::<3>("ask 3"),
    asking_at::<4>("ask 4"),
];

const fn asking_at<const LIMIT: u64>(name: &'static str) -> Call {
    Call {
        name,
        engine: |case| engine::monitor_ask(&case.state, LIMIT, &mut case.out[..ANSWER_BYTES]),
        second: |case| asking::ask_call(&case.state, LIMIT, &mut case.out[..ANSWER_BYTES]),
        number: 0,
    }
}

const FEWEST: Call = Call {
    name: "fewest",
    engine: |case| engine::monitor_fewest(&case.state, &mut case.out[..FEWEST_BYTES]),
    second: |case| asking::fewest_call(&case.state, &mut case.out[..FEWEST_BYTES]),
    number: 0,
};

/// Measures a call in all of the cases, and prints its line. The goal is a multiple of the copying.
fn line(effort: Effort, call: &Call, state: &str, cases: &[Case], goal: Option<f64>) {
    let (from, mut to) = (vec![1u8; STATE_BYTES], vec![0u8; STATE_BYTES]);
    let run = |run: Run| {
        let mut cases = cases.to_vec();
        move || {
            for case in &mut cases {
                assert_eq!(run(black_box(case)), call.number);
            }
        }
    };
    let mut copy = || black_box(&mut to[..]).copy_from_slice(black_box(&from));
    let (mut engine, mut second) = (run(call.engine), run(call.second));
    let [copy, engine, second] = medians([&mut copy, &mut engine, &mut second], effort);
    let count = cases.len() as f64;
    let (engine, second) = (engine / count, second / count);
    let missed = |missed: bool| if missed { " !" } else { "" };
    println!(
        "| {} | {state} | {engine:.0} | {second:.0} | {copy:.0} | {:.2}{} | {:.1}{} | {} |",
        call.name,
        engine / second,
        missed(engine > second),
        engine / copy,
        missed(goal.is_some_and(|goal| engine > goal * copy)),
        goal.map_or(String::new(), |goal| goal.to_string()),
    );
}

/// The goals for a filling; where there is none, the program alone is compared with.
struct Goals {
    form: Option<f64>,
    receive: Option<f64>,
    /// At limits 0, 2 and 4.
    ask: [f64; 3],
}

const QUIET_GOALS: Goals = Goals { form: Some(2.), receive: Some(2.5), ask: [2., 4., 2.] };
const USUAL_GOALS: Goals = Goals { form: None, receive: None, ask: [2.5, 10., 30.] };
const FULL_GOALS: Goals = Goals { form: Some(10.), receive: Some(46.), ask: [10., 60., 500.] };

/// The lines of states that are filled in one way, with nothing saved of any sender's clock and with
/// all saved.
fn filled(effort: Effort, count: usize, filling: Filling, goals: Goals) {
    let near = filling.loads(count, false);
    let mended = near.iter().filter_map(Load::mended).collect();
    let loads = [mended, near, filling.loads(count, filling.entries > 0)];
    let none = loads.each_ref().map(|loads| loads.iter().map(Case::new).collect());
    calls(effort, filling, filling.name, none, &goals);
    let all = loads.map(|loads| loads.iter().map(|load| Case::new(&load.with_clocks())).collect());
    calls(effort, filling, &format!("{}, 28 saved", filling.name), all, &goals);
}

/// The lines of the calls in such states; the first cases have a message from a mended sender, the
/// last ones one from far off, if any has.
fn calls(effort: Effort, filling: Filling, state: &str, cases: [Vec<Case>; 3], goals: &Goals) {
    let [mended, near, far] = cases;
    line(effort, &FORM, state, &near, goals.form);
    line(effort, &AGE, state, &near, goals.form);
    line(effort, &RECEIVE, state, &near, goals.receive);
    line(effort, &RECEIVE_WITH_READINGS, state, &near, goals.receive);
    line(effort, &RECEIVE_WITH_RISE, state, &mended, None);
    if filling.entries > 0 {
        let state = format!("{state}, far off");
        line(effort, &RECEIVE, &state, &far, goals.receive);
        line(effort, &RECEIVE_WITH_READINGS, &state, &far, goals.receive);
    }
    let [at_0, at_2, at_4] = goals.ask.map(Some);
    for (call, goal) in ASK.iter().zip([at_0, None, at_2, None, at_4]) {
        line(effort, call, state, &near, goal);
    }
    for call in [&FEWEST, &WRITE] {
        line(effort, call, state, &near, None);
    }
}

/// The lines of the calls on messages alone.
fn messages(effort: Effort, count: usize) {
    for filling in [QUIET, USUAL, FULL] {
        let cases: Vec<Case> = filling.loads(count, false).iter().map(Case::new).collect();
        line(effort, &READ, filling.name, &cases, None);
        line(effort, &REWRITE, filling.name, &cases, None);
    }
    let fresh = State::fresh(0, 0, 0).bytes();
    let names = ["one epoch word", "29 epoch words"];
    for (name, message) in names.into_iter().zip(loads::with_fewest_and_most_epochs()) {
        let case = [Case::of(&fresh, &message)];
        line(effort, &READ, name, &case, None);
        line(effort, &REWRITE, name, &case, None);
    }
}

/// The lines of the dearest states that are found for either program.
fn worst(effort: Effort, climb: Climb) {
    for call in [&ASK[GREATEST_LIMIT as usize], &FEWEST] {
        for (name, run) in [("worst for the engine", call.engine), ("worst for Rust", call.second)]
        {
            let mut case = Case::of(&State::fresh(0, 0, 0).bytes(), &[]);
            let state = climb.worst(|bytes| {
                case.state.copy_from_slice(bytes);
                least(|| assert_eq!(run(black_box(&mut case)), 0), 4)
            });
            line(effort, call, name, &[Case::of(&state.bytes(), &[])], Some(20_000.));
        }
    }
}

fn main() {
    let quick = std::env::args().nth(1).is_some_and(|mode| mode == "quick");
    let (effort, climb, count) = if quick {
        (Effort { batch: 1e3, rounds: 3 }, Climb { seed: 1, starts: 2, steps: 20 }, 2)
    } else {
        (Effort { batch: 2e4, rounds: 1_001 }, Climb { seed: 1, starts: 12, steps: 6_000 }, 8)
    };
    println!("{}\n", machine());
    println!(
        "| call | state | engine ns | Rust ns | copy ns | engine / Rust | engine / copy | goal |"
    );
    println!("|---|---|---|---|---|---|---|---|");
    let fresh = Case::of(&State::fresh(0, 0, 0).bytes(), &[]);
    line(effort, &SET_UP, "any", &[fresh], None);
    filled(effort, count, QUIET, QUIET_GOALS);
    filled(effort, count, USUAL, USUAL_GOALS);
    filled(effort, count, FULL, FULL_GOALS);
    messages(effort, count);
    worst(effort, climb);
}
