//! The program `table` runs, and what it prints has a line for every call that the header declares, in every
//! kind of state, with the times of all that is compared.

use std::collections::BTreeMap;
use std::process::{Command, Output};

/// The lines that time an exported call: those of one in every state, of one on messages, or of one
/// alone.
const LINES: [(&str, &[&str]); 9] = [
    ("monitor_set_up", &["set up"]),
    ("monitor_age", &["age"]),
    ("monitor_receive", &["receive", "copy, and receive", "copy, and receive with a rise"]),
    ("monitor_receive_with_readings", &["receive with readings"]),
    ("monitor_write", &["form check", "write"]),
    ("monitor_ask", &["ask 0", "ask 1", "ask 2", "ask 3", "ask 4"]),
    ("monitor_fewest", &["fewest"]),
    ("monitor_message_read", &["read"]),
    ("monitor_message_rewrite", &["rewrite"]),
];

fn table(words: &[&str]) -> Output {
    Command::new(env!("CARGO_BIN_EXE_table")).args(words).output().expect("the program runs")
}

/// The calls that the header declares.
fn declared() -> Vec<String> {
    let header = concat!(env!("CARGO_MANIFEST_DIR"), "/../include/monitor.h");
    let header = std::fs::read_to_string(header).expect("the header");
    let after = header.lines().filter_map(|line| line.strip_prefix("uint32_t "));
    after.map(|call| call.split('(').next().expect("a name").to_string()).collect()
}

/// The states in which lines of a call have to be.
fn states(name: &str) -> Vec<String> {
    let fillings = ["quiet", "usual", "full", "full, single names"];
    let saved = fillings.iter().flat_map(|f| [f.to_string(), format!("{f}, 28 saved")]);
    let mut states: Vec<String> = match name {
        "set up" => vec!["any".into()],
        "read" | "rewrite" => ["quiet", "usual", "full", "one epoch word", "29 epoch words"]
            .into_iter()
            .chain(["1 term, 1 epoch word", "1 term, 29 epoch words"])
            .map(String::from)
            .collect(),
        _ => saved.collect(),
    };
    if name.contains("receive") {
        let far: Vec<String> = states.iter().map(|state| format!("{state}, far off")).collect();
        // The senders of quiet states all agree.
        states.extend(far.into_iter().filter(|state| !state.starts_with("quiet")));
    }
    if ["ask 4", "fewest"].contains(&name) {
        states.extend(["the engine", "Rust", "C"].map(|whose| format!("worst for {whose}")));
    }
    states
}

#[test]
fn table_quick_has_a_line_for_each_call_in_each_state() {
    let output = table(&["quick"]);
    assert!(output.status.success(), "{}", String::from_utf8_lossy(&output.stderr));
    let printed = String::from_utf8(output.stdout).expect("a text");
    let mut lines: BTreeMap<(String, String), Vec<String>> = BTreeMap::new();
    for row in printed.lines().skip_while(|line| !line.starts_with("|---")).skip(1) {
        let mut cells = row.trim_matches('|').split('|').map(|cell| cell.trim().to_string());
        let key = (cells.next().expect("a call"), cells.next().expect("a state"));
        assert!(lines.insert(key, cells.collect()).is_none(), "twice: {row}");
    }
    for call in declared() {
        let known = LINES.iter().find(|(name, _)| *name == call);
        let (_, names) = known.unwrap_or_else(|| panic!("the table has no line of {call}"));
        for (name, state) in names.iter().flat_map(|n| states(n).into_iter().map(move |s| (n, s))) {
            let cells = lines.remove(&(name.to_string(), state.clone()));
            let cells = cells.unwrap_or_else(|| panic!("no line of {name}, {state} in {printed}"));
            has_times(&cells);
        }
    }
    assert!(lines.is_empty(), "lines that nobody asked for: {:?}", lines.keys());
}

/// Four times, three ratios of the engine's that are marked where they are above their goal, and
/// the goals.
fn has_times(cells: &[String]) {
    let [times @ .., by_second, by_hand, by_copy, goals] = cells else { panic!("{cells:?}") };
    let times: Vec<f64> = times.iter().map(|t| t.parse().expect("a time")).collect();
    assert_eq!(times.len(), 4, "{cells:?}");
    assert!(times.iter().all(|time| *time > 0.), "{cells:?}");
    let goals: Vec<Option<f64>> = goals.split(", ").map(|goal| goal.parse().ok()).collect();
    let ratios = [by_second, by_hand, by_copy];
    assert_eq!(goals.len(), ratios.len(), "{cells:?}");
    for ((ratio, other), goal) in ratios.into_iter().zip(&times[1..]).zip(goals) {
        let (number, marked) = match ratio.strip_suffix(" !") {
            Some(number) => (number, true),
            None => (&ratio[..], false),
        };
        let number: f64 = number.parse().expect("a ratio");
        // What is printed is rounded: to a nanosecond, and to a tenth or a hundredth.
        let (low, high) = ((times[0] - 0.5) / (other + 0.5), (times[0] + 0.5) / (other - 0.5));
        assert!(low - 0.051 <= number && number <= high + 0.051, "{cells:?}");
        match goal {
            Some(goal) if marked => assert!(number >= goal, "{cells:?}"),
            Some(goal) => assert!(number <= goal, "{cells:?}"),
            None => assert!(!marked, "{cells:?}"),
        }
    }
}

#[test]
fn table_engine_runs_a_line_and_says_where_there_is_none() {
    assert!(table(&["engine", "write", "quiet"]).status.success());
    for words in [&["engine", "write", "empty"][..], &["engine", "write"], &["slow"]] {
        let output = table(words);
        assert_eq!(output.status.code(), Some(2), "{words:?}");
        assert!(output.stdout.is_empty() && !output.stderr.is_empty(), "{words:?}");
    }
}
