//! A simulated hotel for two weeks, scenario by scenario: prints a table of what was seen, and fails
//! if an answer was wrong that cannot be. `hotel HOURS` runs it for another time, and `hotel HOURS
//! monitors` has a line for each monitor too.

use second::hotel::scenario::SCENARIOS;
use second::hotel::seen::Seen;
use second::hotel::table::{table, LEGEND};
use second::hotel::{run, FIRST_MONITOR};
use std::env;
use std::process::ExitCode;

/// Two weeks.
const HOURS: u64 = 14 * 24;

fn main() -> ExitCode {
    let arguments: Vec<String> = env::args().skip(1).collect();
    let arguments: Vec<&str> = arguments.iter().map(String::as_str).collect();
    let (hours, monitors) = match arguments[..] {
        [] => (Some(HOURS), false),
        [hours] => (hours.parse().ok(), false),
        [hours, "monitors"] => (hours.parse().ok(), true),
        _ => (None, false),
    };
    let Some(hours) = hours else {
        eprintln!("usage: hotel [HOURS [monitors]]");
        return ExitCode::from(2);
    };
    let runs = (0..).zip(&SCENARIOS);
    let runs: Vec<(&str, Vec<Seen>)> =
        runs.map(|(seed, scenario)| (scenario.name, run(scenario, seed, hours))).collect();
    print!("{hours} hours\n{LEGEND}\n{}", table(&rows(&runs, monitors)));
    let all = runs.iter().flat_map(|(_, seen)| seen);
    let failed = all.filter(|seen| seen.promised().wrong() > 0 || seen.strayed > 0).count();
    ExitCode::from(u8::from(failed > 0))
}

/// A row for each scenario, and below it one for each monitor where these are wanted.
fn rows<'a>(runs: &'a [(&str, Vec<Seen>)], monitors: bool) -> Vec<(String, &'a [Seen])> {
    let mut rows = vec![];
    for (name, seen) in runs {
        rows.push((name.to_string(), &seen[..]));
        for (identifier, one) in (FIRST_MONITOR..).zip(seen.chunks(1)).filter(|_| monitors) {
            rows.push((format!("  monitor {identifier}"), one));
        }
    }
    rows
}
