//! The simulated hotel for two days: its clocks and delays keep their bounds, no answer is wrong that
//! cannot be, and each scenario comes to what it is for. `--bin hotel` runs two weeks of it.

use second::ageing::advance;
use second::hotel::clock::Clock;
use second::hotel::scenario::{Scenario, QUIET, SCENARIOS};
use second::hotel::seen::Seen;
use second::hotel::table::table;
use second::hotel::{run, MONITORS};
use second::instants::Instant;
use second::random::Random;
use second::samples::report;
use std::process::{Command, Output};

const HOURS: u64 = 48;

/// The scenario of a name.
fn scenario(name: &str) -> &'static Scenario {
    SCENARIOS.iter().find(|scenario| scenario.name == name).expect("a scenario of this name")
}

// ---- clocks

#[test]
fn hotel_clocks_keep_the_ageing_rule_between_every_two_readings() {
    let mut random = Random::new(1);
    for _ in 0..100_000 {
        let drift = random.pick(&[0, 1, 90, 100, 1_000]);
        let slow = random.below(2 * u64::from(drift) + 1) as i32 - drift as i32;
        let at = Instant::from(random.below(1 << 60)) * 1_000;
        let clock = Clock::new(random.below(1 << 40), at, slow);
        let (first, bits) = (random.below(1 << 40), random.below(41));
        let d = random.below(1 << bits);
        let (least, greatest) = advance(d, drift);
        let passed = clock.true_at(first + d) - clock.true_at(first);
        assert!(least <= passed && passed <= greatest, "{clock:?}: {first}, {d}, drift {drift}");
    }
}

#[test]
fn hotel_clocks_come_to_a_reading_at_its_instant_and_to_no_earlier_one() {
    let mut random = Random::new(2);
    for _ in 0..100_000 {
        let reading = random.below(1 << 40);
        let clock = Clock::new(reading, 1 << 62, random.below(2_001) as i32 - 1_000);
        assert_eq!(clock.true_at(reading), 1 << 62);
        assert_eq!(clock.first_from(1 << 62), reading);
        let at = (1 << 62) + Instant::from(random.below(1 << 50));
        let first = clock.first_from(at);
        assert!(clock.true_at(first) >= at && clock.true_at(first - 1) < at, "{clock:?} at {at}");
    }
}

// ---- the scenarios

/// What holds in every scenario: clocks and delays keep their bounds, and no answer is wrong at a
/// limit of at least as many names as have failed.
fn holds(name: &str, seen: &Seen) {
    assert!(seen.kept > seen.receipts() && seen.strayed == 0, "{name}: {} strayed", seen.strayed);
    let promised = seen.promised();
    assert_eq!(promised.wrong(), 0, "{name}: {promised:?}");
    assert!(promised.inside > 500 && promised.open > 500, "{name}: {promised:?}");
    assert!(seen.receipts() > 100, "{name}: {} receipts", seen.receipts());
}

/// What a scenario is for, by the words of its name.
fn reaches(name: &str, seen: &Seen) {
    let has = |word: &str| name.contains(word);
    let (others, at_0) = (seen.others(), &seen.answers[0]);
    let asked = at_0.all().asked();
    if has("nobody") {
        assert_eq!((others.asked(), at_0.all().contradicted), (0, 0), "{name}");
        // Answers are about as wide as delays.
        let wide = at_0.width().expect("an answer with ends") > 10_000_000;
        assert_eq!(wide, has("sparse"), "{name}");
    } else {
        assert!(others.contradicted > 50, "{name}: {others:?}");
    }
    // Nearly all of its second half. A mended relay may hear and pass on what it said before.
    if has("mended") && !has("relay mended half-way") {
        assert!(at_0.promised.asked() > asked * 4 / 10, "{name}: {:?}", at_0.promised);
    }
    if has("two liars") {
        assert!(seen.answers[1].others.wrong() > 50, "{name}");
        assert!(seen.answers[2].promised.inside > 50, "{name}");
    }
    if has("relayed") {
        assert!(seen.number(32) > 100, "{name}: {:?}", seen.numbers);
    }
    if has("no relays") {
        assert_eq!(seen.number(0), seen.receipts(), "{name}");
    }
}

#[test]
fn hotel_answers_are_never_wrong_within_the_limit() {
    let mut names = vec![];
    for (seed, scenario) in (0..).zip(&SCENARIOS) {
        let all = run(scenario, seed, HOURS);
        assert_eq!(all.len(), MONITORS);
        let seen = Seen::sum(&all);
        holds(scenario.name, &seen);
        reaches(scenario.name, &seen);
        names.push((scenario.name.to_string(), all));
    }
    let rows: Vec<(String, &[Seen])> =
        names.iter().map(|(name, seen)| (name.clone(), &seen[..])).collect();
    report(&format!("{HOURS} hours\n{}", table(&rows)));
}

/// The check has teeth: a drift told smaller than it is makes answers wrong.
#[test]
fn hotel_shows_clocks_that_drift_more_than_was_told() {
    let seen = Seen::sum(&run(&Scenario { drift: 10, ..QUIET }, 1, HOURS));
    assert!(seen.strayed > 0 && seen.promised().wrong() > 50, "{:?}", seen.promised());
}

/// A full monitor refuses some of the first messages that bring the mended name, and hears it later.
#[test]
fn hotel_refuses_rises_where_monitors_are_full() {
    let busy = scenario("jumps about, mended, all relayed");
    let seen = Seen::sum(&(0..20).flat_map(|seed| run(busy, seed, 12)).collect::<Vec<Seen>>());
    report(&format!("{} rises refused in 20 runs of 12 hours\n", seen.rises_refused));
    assert!(seen.rises_refused > 0);
    holds(busy.name, &seen);
}

#[test]
fn hotel_is_the_same_for_one_seed() {
    let scenario = scenario("liar mended half-way");
    let [one, again, other] = [1, 1, 2].map(|seed| run(scenario, seed, 12));
    assert!(one == again && one != other);
}

// ---- the program

fn hotel(arguments: &[&str]) -> Output {
    let output = Command::new(env!("CARGO_BIN_EXE_hotel")).args(arguments).output();
    output.expect("the program runs")
}

#[test]
fn hotel_prints_a_line_for_each_scenario() {
    for (arguments, more) in [(&["3"][..], 0), (&["3", "monitors"], MONITORS)] {
        let output = hotel(arguments);
        assert!(output.status.success(), "{}", String::from_utf8_lossy(&output.stderr));
        let printed = String::from_utf8(output.stdout).expect("a text");
        let (_, table) = printed.split_once("\n\n").expect("the table follows an empty line");
        let lines: Vec<&str> = table.lines().collect();
        assert_eq!(lines.len(), 1 + SCENARIOS.len() * (1 + more));
        for scenario in &SCENARIOS {
            assert!(lines.iter().any(|line| line.starts_with(scenario.name)), "{}", scenario.name);
        }
        assert!(lines.iter().all(|line| line.len() == lines[0].len()));
    }
}

#[test]
fn hotel_does_not_understand_other_arguments() {
    for arguments in [&["x"][..], &["-1"], &["1", "x"], &["1", "monitors", "x"]] {
        let output = hotel(arguments);
        assert_eq!((output.status.code(), &output.stdout[..]), (Some(2), &[][..]));
    }
}
