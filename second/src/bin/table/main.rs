//! How long each call takes by the engine, by the second program and by the C by hand, and how long
//! the copying of a state's bytes takes beside them: a table in Markdown, from one run.
//!
//! States are quiet, usual and full, and the dearest that hill climbing finds for each program.
//! Each line has the median times of one call, all four timed in turn on the same states and
//! messages, and the engine's time as a multiple of the others, marked `!` where it is above the
//! goal. `table all` has further states: each filling with triples saved of all 28 senders, and
//! full ones whose terms are single names. `table quick` takes seconds and has all lines too, which
//! a test looks at. `table engine CALL STATE` runs the engine alone in the states of one line for
//! two seconds, to be watched from outside.

use calls::{Call, Case, Run, ASK, FEWEST};
use lines::{lines, Goals, Line, FILLINGS, WORST_GOALS};
use second::samples::climbing::Climb;
use second::state::STATE_BYTES;
use second::timing::{least, machine, medians, Effort};
use std::hint::black_box;
use std::process::ExitCode;
use std::time::{Duration, Instant};

mod calls;
mod hand;
mod lines;

/// How much is measured.
struct Extent {
    effort: Effort,
    climb: Climb,
    /// States of a line.
    count: usize,
    /// Fillings, and whether each comes with triples saved too.
    fillings: usize,
    saved: bool,
}

const TABLE: Extent = Extent {
    effort: Effort { batch: 2e4, rounds: 1_001 },
    climb: Climb { seed: 1, starts: 12, steps: 6_000 },
    count: 8,
    fillings: 3,
    saved: false,
};
const ALL: Extent = Extent { fillings: FILLINGS.len(), saved: true, ..TABLE };
const QUICK: Extent = Extent {
    effort: Effort { batch: 1e3, rounds: 3 },
    climb: Climb { seed: 1, starts: 2, steps: 20 },
    count: 2,
    ..ALL
};

fn main() -> ExitCode {
    let words: Vec<String> = std::env::args().skip(1).collect();
    let words: Vec<&str> = words.iter().map(String::as_str).collect();
    match words[..] {
        [] => print_table(&TABLE),
        ["all"] => print_table(&ALL),
        ["quick"] => print_table(&QUICK),
        ["engine", call, state] if run_engine(call, state) => {}
        ["engine", call, state] => {
            eprintln!("table: no line of '{call}' in '{state}' states");
            return ExitCode::from(2);
        }
        _ => {
            eprintln!("usage: table [all | quick | engine CALL STATE]");
            return ExitCode::from(2);
        }
    }
    ExitCode::SUCCESS
}

fn print_table(extent: &Extent) {
    println!("{}\n", machine());
    println!(
        "| call | state | engine ns | Rust ns | C ns | copy ns | engine / Rust | engine / C \
         | engine / copy | goals |"
    );
    println!("|---|---|---|---|---|---|---|---|---|---|");
    let fillings = FILLINGS.into_iter().take(extent.fillings);
    for line in lines(extent.count, fillings, extent.saved) {
        print_line(extent.effort, &line);
    }
    for call in [&ASK[ASK.len() - 1], &FEWEST] {
        for (whose, run) in [("the engine", call.engine), ("Rust", call.second), ("C", call.hand)] {
            print_line(extent.effort, &worst(extent.climb, call, whose, run));
        }
    }
}

/// The line of a call in the dearest state that is found for one of the programs.
fn worst(climb: Climb, call: &'static Call, whose: &str, run: Run) -> Line {
    let mut case = Case::fresh();
    let state = climb.worst(|bytes| {
        case.state.copy_from_slice(bytes);
        least(|| assert_eq!(run(black_box(&mut case)), 0), 4)
    });
    let cases = vec![Case::of(&state.bytes(), &[])];
    Line { call, state: format!("worst for {whose}"), cases, goals: WORST_GOALS }
}

/// Measures a line, and prints it.
fn print_line(effort: Effort, line: &Line) {
    let Line { call, state, cases, goals: Goals { hand: twice, copies } } = line;
    let (from, mut to) = (vec![1u8; STATE_BYTES], vec![0u8; STATE_BYTES]);
    let mut copy = || black_box(&mut to[..]).copy_from_slice(black_box(&from));
    let mut engine = passes(call, call.engine, cases);
    let mut second = passes(call, call.second, cases);
    let mut hand = passes(call, call.hand, cases);
    let runs: [&mut dyn FnMut(); 4] = [&mut copy, &mut engine, &mut second, &mut hand];
    let [copy, engine, second, hand] = medians(runs, effort);
    let [engine, second, hand] = [engine, second, hand].map(|time| time / cases.len() as f64);
    let mark = |time: f64, goal: Option<f64>| match goal {
        Some(goal) if engine > goal * time => " !",
        _ => "",
    };
    let goal = |goal: Option<f64>| goal.map_or("-".into(), |goal| goal.to_string());
    println!(
        "| {} | {state} | {engine:.0} | {second:.0} | {hand:.0} | {copy:.0} \
         | {:.2}{} | {:.2}{} | {:.1}{} | 1, {}, {} |",
        call.name,
        engine / second,
        mark(second, Some(1.)),
        engine / hand,
        mark(hand, *twice),
        engine / copy,
        mark(copy, *copies),
        goal(*twice),
        goal(*copies),
    );
}

/// One pass of a program over cases of its own.
fn passes(call: &'static Call, run: Run, cases: &[Case]) -> impl FnMut() {
    let mut cases = cases.to_vec();
    move || {
        for case in &mut cases {
            assert_eq!(run(black_box(case)), call.number, "{}", call.name);
        }
    }
}

/// Runs the engine alone in the states of a line, if there is such a line.
fn run_engine(call: &str, state: &str) -> bool {
    let fillings = FILLINGS.into_iter().filter(|(filling, _)| state.starts_with(filling.name));
    let mut lines = lines(TABLE.count, fillings, true);
    let Some(line) = lines.find(|line| (line.call.name, &line.state[..]) == (call, state)) else {
        return false;
    };
    let mut pass = passes(line.call, line.call.engine, &line.cases);
    let begun = Instant::now();
    while begun.elapsed() < Duration::from_secs(2) {
        (0..1_000).for_each(|_| pass());
    }
    true
}
