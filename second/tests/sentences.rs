//! Sentences that docs/operating.md and README say to hosts and installers, each shown by both
//! programs: a test has the name of what it shows. And the stories of docs/stories.md and README:
//! their lines are the scenarios' files, and what they print is printed.

use second::asking::{ANSWER_BYTES, FEWEST_BYTES, GREATEST_LIMIT};
use second::book;
use second::booked::Run;
use second::branches::Branch;
use second::calls::{
    ask, fewest, heard, numbers, receipt, refused, taken, tried, watched, Call, CONTRADICTED, OPEN,
};
use second::clocks::Readings;
use second::instants::{Interval, GREATEST_END};
use second::listing::listing;
use second::message::Message;
use second::predicates::{Predicate, Term};
use second::random::Random;
use second::samples::runs::World;
use second::samples::{report, Tally};
use second::state::{
    datum_at, Datum, State, LEFT_MILLIONTHS_AT, MOST_DATA, RIGHT_AT, RIGHT_MILLIONTHS_AT,
    STATE_BYTES,
};
use std::fs;
use std::path::PathBuf;

// ---- what is compared

fn between(left: u64, right: u64) -> [u64; 3] {
    [2, left, right]
}

/// Own identifier 5, drift 0, nothing held.
fn fresh() -> State {
    State::fresh(5, 0, 0)
}

/// A message at the first epochs.
fn sent(sender: u32, left: u64, right: u64, terms: &[Term]) -> Message {
    Message::of(sender, left, right, terms)
}

/// Identifier n as a term.
fn one(n: u32) -> Term {
    1 << n
}

const ONE: Term = 2;
const TWO: Term = 4;
const THREE: Term = 8;

// ---- mended, and full

#[test]
fn a_mended_gateway_that_is_refused_32_stays_blamed_until_it_is_heard_again() {
    // Gateway 1 contradicts itself, and relays 6 to 13 pass on what 2 and 3 say.
    let blamed = heard(&fresh(), &[sent(1, 0, 10, &[]), sent(1, 40, 50, &[])]);
    let relayed = (6..14).flat_map(|relay| [TWO, THREE].map(|gateway| (relay, gateway)));
    let relayed =
        relayed.map(|(relay, gateway)| sent(relay, 20, 30 + u64::from(relay), &[gateway]));
    let full = heard(&blamed, &relayed.collect::<Vec<Message>>());
    assert_eq!((full.held.len(), &full.entries[..]), (MOST_DATA, &[Predicate::of(&[ONE])][..]));
    let mended = receipt(sent(1, 22, 40, &[]).at(&[(1, 1)]), None);
    refused(&full, &mended, 32);
    assert_eq!((ask(&full, 0), fewest(&full)), (CONTRADICTED, [1, ONE.into()]));
    assert_eq!(full.epochs[1], 0);
    // Gateway 2 itself is better than what relays passed on from it, which makes room.
    let room = heard(&full, &[sent(2, 21, 29, &[])]);
    assert_eq!(room.held.len(), MOST_DATA / 2 + 1);
    assert_eq!((ask(&room, 0), fewest(&room)), (CONTRADICTED, [1, ONE.into()]));
    let (state, branches) = taken(&room, &mended);
    assert!(branches.has(Branch::RisenSender) && branches.has(Branch::EntryGone));
    assert_eq!((ask(&state, 0), fewest(&state)), (between(22, 29), [0, 0]));
}

/// What a mended monitor said before comes back from one that has not heard of its mending. The own
/// name is struck out of it under any epoch, so that another is blamed. A host that leaves out what
/// names it under an older epoch is safe from that.
#[test]
fn a_mended_monitor_can_hear_its_old_lies_without_its_name() {
    let set_up = Call::SetUp { own: 5, drift: 0, reading: 0, epoch: 1 };
    let (state, _) = taken(&fresh(), &set_up);
    let right = heard(&state, &[sent(1, 0, 10, &[]), sent(2, 5, 20, &[])]);
    let old_lie = sent(6, 100, 110, &[one(5)]);
    let state = heard(&right, std::slice::from_ref(&old_lie));
    assert_eq!(state.held.last(), Some(&Datum::of(100, 110, &[one(6)])));
    assert_eq!((ask(&state, 0), fewest(&state)), (CONTRADICTED, [1, one(6).into()]));
    // Another monitor can blame 5, and does so no more once it has heard of the mending.
    let other = heard(&State::fresh(7, 0, 0), &[sent(1, 0, 10, &[]), sent(2, 5, 20, &[]), old_lie]);
    assert_eq!(ask(&other, 0), CONTRADICTED);
    let mended = heard(&other, &[sent(5, 0, 10, &[0]).at(&[(5, 1)])]);
    assert_eq!((ask(&mended, 0), fewest(&mended)), (between(5, 10), [0, 0]));
    assert_eq!((ask(&right, 0), fewest(&right)), (between(5, 10), [0, 0]));
}

#[test]
fn a_message_that_an_older_name_sent_is_taken_and_can_bring_anothers_epoch() {
    let said = [sent(3, 70, 80, &[]), sent(2, 5, 9, &[]), sent(1, 0, 10, &[]).at(&[(1, 1)])];
    let before = heard(&fresh(), &said);
    assert_eq!((ask(&before, 0), fewest(&before)), (CONTRADICTED, [1, THREE.into()]));
    // The old 1 says nothing itself, and knows that 3 was mended.
    let brings = sent(1, 500, 600, &[THREE]).at(&[(3, 1)]);
    let (state, branches) = taken(&before, &receipt(brings, None));
    assert!(branches.has(Branch::OldSender) && branches.has(Branch::DatumGone));
    assert_eq!((state.held.len(), state.epochs[1], state.epochs[3]), (2, 1, 1));
    assert_eq!((ask(&state, 0), fewest(&state)), (between(5, 9), [0, 0]));
    // With ends that cannot be stored once they have grown it is refused, and brings nothing.
    let late = sent(1, 500, GREATEST_END, &[THREE]).at(&[(3, 1)]).bytes();
    refused(&before, &Call::Receive { least: 0, greatest: 1, readings: None, message: late }, 30);
    taken(&before, &receipt(sent(1, 500, GREATEST_END, &[THREE]).at(&[(3, 1)]), None));
}

#[test]
fn a_receipt_with_a_true_predicate_can_be_refused_30() {
    let late = |terms: &[Term], greatest: u64| {
        let message = sent(1, 0, GREATEST_END, terms).bytes();
        Call::Receive { least: 0, greatest, readings: None, message }
    };
    let (state, branches) = taken(&fresh(), &late(&[0], 0));
    assert!(branches.has(Branch::True) && state == fresh());
    refused(&fresh(), &late(&[0], 1), 30);
    // True by an older name, of a term or of the sender.
    let before = fresh().at(&[(2, 1)]);
    let (state, branches) = taken(&before, &late(&[TWO], 0));
    assert!(branches.has(Branch::OldMadeTrue) && state == before);
    refused(&before, &late(&[TWO], 1), 30);
    refused(&fresh().at(&[(1, 1)]), &late(&[], 1), 30);
}

// ---- clock readings

/// Gateways 1 to 3, each with a clock of its own.
const GATEWAYS: std::ops::RangeInclusive<u32> = 1..=3;
const SECOND: u64 = 1_000_000;

/// The receipt of what an honest gateway says when the own clock reads b: its clock is n seconds
/// ahead of the own one. The host takes so much off the gateway's reading, and off the own one.
fn honest(n: u32, b: u64, off: [u64; 2]) -> Call {
    let message = sent(n, b + 50 * SECOND, b + 50 * SECOND + 100, &[]);
    let (a, b) = (b + u64::from(n) * SECOND - off[0], b - off[1]);
    receipt(message, Some(Readings::of(a, b, 10, 100)))
}

/// The state after all three have been heard twice, at 10 s and at 20 s.
fn watched_three() -> State {
    let mut state = State::fresh(5, 100, 0);
    for reading in [10 * SECOND, 20 * SECOND] {
        state = taken(&state, &Call::Age { reading }).0;
        state = GATEWAYS.fold(state, |state, n| taken(&state, &honest(n, reading, [0; 2])).0);
    }
    assert_eq!((ask(&state, 0), fewest(&state)), (between(70 * SECOND, 70 * SECOND + 100), [0; 2]));
    assert!(state.entries.is_empty());
    state
}

/// The state after all three are heard at 30 s with readings that the host has taken so much off.
fn begun_anew(off: [u64; 2]) -> State {
    let reading = 30 * SECOND;
    let (state, _) = taken(&watched_three(), &Call::Age { reading });
    GATEWAYS.fold(state, |state, n| taken(&state, &honest(n, reading, off)).0)
}

/// Two ways: the own readings alone, by more than half widths and drifts allow; or those of both
/// clocks by the same amount, so far that they lie below those that are saved.
#[test]
fn readings_that_begin_anew_blame_every_honest_clock() {
    for off in [[0, 29 * SECOND], [0, SECOND], [29 * SECOND; 2], [11 * SECOND; 2]] {
        let state = begun_anew(off);
        let names = [ONE, TWO, THREE].map(|name| Predicate::of(&[name]));
        assert_eq!((&state.held[..], &state.entries[..]), (&[][..], &names[..]), "{off:?}");
        assert!((0..3).all(|limit| ask(&state, limit) == CONTRADICTED), "{off:?}");
        assert_eq!((ask(&state, 3), fewest(&state)), (OPEN, [3, 14]));
        // Set up afresh with the new beginning, nobody is blamed.
        let afresh = GATEWAYS.fold(State::fresh(5, 100, 30 * SECOND), |state, n| {
            taken(&state, &honest(n, 30 * SECOND, off)).0
        });
        assert_eq!((afresh.held.len(), fewest(&afresh)), (3, [0, 0]));
    }
}

/// The same amount off both clocks is not seen where readings still rise, or fall by no more than
/// half of both half widths: of 10 s that have passed since, 10 s and 10 µs may be taken off.
#[test]
fn readings_of_both_clocks_less_by_what_has_passed_blame_no_one() {
    let quiet = |off: u64| begun_anew([off; 2]).entries.is_empty();
    assert!([1, SECOND, 9 * SECOND, 10 * SECOND, 10 * SECOND + 10].into_iter().all(quiet));
    assert!(![10 * SECOND + 11, 10 * SECOND + 20, 11 * SECOND].into_iter().any(quiet));
    // Of the own clock alone it is 20 µs, and what both drifts make of 10 s.
    let quiet = |off: u64| begun_anew([0, off]).entries.is_empty();
    assert!(quiet(2_020) && !quiet(2_021));
}

#[test]
fn a_clock_that_starts_again_is_blamed_unless_its_epoch_is_higher() {
    let reading = 30 * SECOND;
    let (before, _) = taken(&watched_three(), &Call::Age { reading });
    let said = sent(1, 80 * SECOND, 80 * SECOND + 100, &[]);
    let starts = |epoch: u8| {
        let readings = Some(Readings::of(0, reading, 10, 100));
        taken(&before, &receipt(said.clone().at(&[(1, epoch)]), readings))
    };
    let (state, branches) = starts(0);
    assert!(branches.has(Branch::Violated));
    assert_eq!((ask(&state, 0), fewest(&state)), (CONTRADICTED, [1, ONE.into()]));
    let (state, branches) = starts(1);
    assert!(branches.has(Branch::SavedFirst) && state.entries.is_empty());
    assert_eq!(ask(&state, 0), between(80 * SECOND, 80 * SECOND + 100));
}

/// Test (20) leaves out what both drifts make together. Of two clocks that keep 100 parts per million
/// exactly, the sender's slow and the own one fast, the sender's is blamed after 100 s; told 101 for
/// it, it is not.
#[test]
fn an_honest_clock_at_its_drift_is_blamed_if_no_more_is_told() {
    // By the ageing rule: true time is 1.0001 times the sender's and 0.9999 times the own reading.
    let (a, b) = (99_990_000, 100_010_000);
    assert_eq!(a * 1_000_100, b * 999_900);
    let own = State::fresh(5, 100, 0);
    for (told, blamed) in [(100, true), (101, false)] {
        let read = |a, b| receipt(sent(1, 0, 10, &[]), Some(Readings::of(a, b, 0, told)));
        let (state, branches) = taken(&taken(&own, &read(0, 0)).0, &read(a, b));
        assert_eq!((branches.has(Branch::Violated), state.entries.len() == 1), (blamed, blamed));
    }
}

#[test]
fn a_violation_sweeps_held_data_that_any_entry_explains() {
    // 3 contradicts itself; what 2 holds true unless 1 and 3 fail is explained by 3 alone once the
    // old 1 has gone, and stays.
    let (state, _) = watched(&fresh(), sent(4, 0, 10, &[]), (0, 0, 0));
    let said = [sent(3, 0, 10, &[]), sent(3, 20, 30, &[]), sent(2, 0, 9, &[ONE | THREE])];
    let state = heard(&heard(&state, &said), &[sent(1, 500, 600, &[0]).at(&[(1, 1)])]);
    let explained = Datum::of(0, 9, &[TWO, THREE]);
    assert_eq!(state.held, [Datum::of(0, 10, &[one(4)]), explained]);
    assert_eq!(state.entries, [Predicate::of(&[THREE])]);
    // A message of 4 that says nothing: with readings that agree it changes no row.
    let nothing = || sent(4, 0, 10, &[0]);
    let (quiet, branches) = watched(&state, nothing(), (5, 5, 0));
    assert!(branches.has(Branch::Tested) && !branches.has(Branch::Violated));
    assert_eq!((&quiet.held, &quiet.entries), (&state.held, &state.entries));
    // With such that violate the test, the datum goes that the entry of 3 explains, and its own.
    let (swept, branches) = watched(&state, nothing(), (5, 9, 0));
    assert!(branches.has(Branch::Violated) && branches.has(Branch::HeldExplained));
    assert_eq!((&swept.held[..], swept.entries.len()), (&[][..], 2));
    assert!(!Predicate::of(&[one(4)]).implies(&explained.predicate));
}

// ---- more receipts

#[test]
fn a_higher_epoch_makes_an_impossible_instant_possible_again() {
    let before = heard(&fresh(), &[sent(1, 0, 10, &[]), sent(2, 0, 30, &[])]);
    let after = heard(&before, &[sent(1, 20, 40, &[]).at(&[(1, 1)])]);
    // 25 was not possible if nobody had failed.
    assert_eq!([ask(&before, 0), ask(&after, 0)], [between(0, 10), between(20, 30)]);
    // It need say nothing itself, and another's term brings it as well.
    for brings in [sent(1, 0, 0, &[0]), sent(3, 0, 50, &[ONE])] {
        assert_eq!(ask(&heard(&before, &[brings.at(&[(1, 1)])]), 0), between(0, 30));
    }
}

/// A receipt with readings does so if it comes between two others: it is what the later one is tested
/// against. (At the end none does; see below.)
#[test]
fn readings_in_between_make_an_impossible_instant_possible_again() {
    let read = |state: &State, readings| watched(state, sent(1, 0, 10, &[]), readings);
    let (first, last) = ((0, 0, 0), (0, 9, 0));
    let (state, _) = read(&fresh(), first);
    let (without, branches) = read(&state, last);
    assert!(branches.has(Branch::Violated));
    let (state, _) = read(&state, (0, 0, 50));
    let (with, branches) = read(&state, last);
    assert!(branches.has(Branch::Tested) && !branches.has(Branch::Violated));
    assert_eq!([ask(&without, 0), ask(&with, 0)], [CONTRADICTED, between(0, 10)]);
}

const LIMITS: [u32; GREATEST_LIMIT as usize + 1] = [0, 1, 2, 3, 4];

/// Whether each instant of the first answer is in the second.
fn within(one: [u64; 3], other: [u64; 3]) -> bool {
    let [a, b] = [one, other].map(|[_, left, right]| Interval { left, right });
    match (one[0], other[0]) {
        (0, _) | (_, 1) => true,
        (2, 2) => b.left <= a.left && a.right <= b.right,
        _ => false,
    }
}

/// Only a higher epoch, at the end of a run: other receipts make nothing possible that was not, with
/// readings or without, violating ones too.
#[test]
fn a_receipt_at_the_end_makes_nothing_possible_again_without_a_higher_epoch() {
    let mut tally = Tally::default();
    for seed in 0..3_000 {
        let mut random = Random::new(seed);
        let world = World::mending(&mut random);
        let mut run = Run::new(seed, random, &world);
        for _ in 0..12 {
            let state = run.state();
            let call = world.step(&mut run.random, &state);
            let Call::Receive { message, .. } = &call else {
                run.call(&call);
                continue;
            };
            let rises = book::read(message).is_some_and(|message| run.book.raises(&message));
            let before = LIMITS.map(|limit| numbers(&run.answer(limit)));
            let (taken, branches) = (run.call(&call) == 0, run.branches);
            let after = LIMITS.map(|limit| numbers(&run.answer(limit)));
            let grows = !before.iter().zip(after).all(|(&before, after)| within(after, before));
            assert!(taken && rises || !grows, "{before:?} {after:?}: {}", run.case());
            tally.count("more is possible by a higher epoch", grows);
            tally.count("less without", taken && !rises && before != after);
            tally.count("violated without", taken && !rises && branches.has(Branch::Violated));
            tally.count("true without", taken && !rises && branches.has(Branch::True));
        }
    }
    tally.check("receipts at the end of 3,000 runs", 200);
}

// ---- a state's bytes

#[test]
fn zeros_are_a_state_and_are_asked_aged_and_received_into() {
    let zeros = vec![0; STATE_BYTES];
    for limit in 0..=4 {
        let (number, _, out, _) = tried(&Call::Ask { limit }, &zeros, ANSWER_BYTES);
        assert_eq!((number, numbers(&out)), (0, OPEN));
    }
    let (number, _, out, _) = tried(&Call::Fewest, &zeros, FEWEST_BYTES);
    assert_eq!((number, numbers(&out)), (0, [0, 0]));
    // They are the bytes of a monitor 0 with drift 0, set up at 0.
    let set_up = Call::SetUp { own: 0, drift: 0, reading: 0, epoch: 0 };
    assert_eq!(tried(&set_up, &vec![9; STATE_BYTES], 0).1, zeros);
    let state = State::of(&zeros).expect("a state in form");
    let (state, _) = taken(&state, &Call::Age { reading: 5 });
    let state = heard(&state, &[sent(1, 10, 20, &[])]);
    assert_eq!(ask(&state, 0), between(10, 20));
    // Intervals do not widen, whatever the clock does; and what 0 sends is its own.
    let (state, _) = taken(&state, &Call::Age { reading: 1_000_000_005 });
    assert_eq!(ask(&state, 0), between(1_000_000_010, 1_000_000_020));
    refused(&state, &receipt(sent(0, 10, 20, &[]), None), 18);
}

/// Where the bits of a held datum's ends stand, in whole microseconds and in millionths.
fn bits_of_ends(position: usize) -> impl Iterator<Item = usize> {
    let fields = [(0, 8), (RIGHT_AT, 8), (LEFT_MILLIONTHS_AT, 4), (RIGHT_MILLIONTHS_AT, 4)];
    let bytes = fields.into_iter().flat_map(|(at, len)| at..at + len);
    bytes.flat_map(move |byte| (0..8).map(move |bit| 8 * (datum_at(position) + byte) + bit))
}

#[test]
fn number_25_is_no_check_sum() {
    let gateways = [(1, 1_000), (2, 1_050), (3, 900)];
    let said = gateways.map(|(n, left)| sent(n, 1_000_000 + left, 1_000_200 + left, &[]));
    let state = heard(&State::fresh(5, 100, 0), &said);
    let (state, _) = taken(&state, &Call::Age { reading: 12_345 });
    let (bytes, answer) = (state.bytes(), ask(&state, 0));
    let (mut in_form, mut out_of_form, mut other_answer) = (0, 0, 0);
    for bit in (0..state.held.len()).flat_map(bits_of_ends) {
        let mut flipped = bytes.clone();
        flipped[bit / 8] ^= 1 << (bit % 8);
        let (number, _, out, _) = tried(&Call::Ask { limit: 0 }, &flipped, ANSWER_BYTES);
        match number {
            0 => in_form += 1,
            25 => out_of_form += 1,
            _ => panic!("bit {bit}: {number}"),
        }
        other_answer += u64::from(number == 0 && numbers(&out) != answer);
    }
    report(&format!(
        "single bits of 6 stored ends flipped: {in_form} in form, {other_answer} of them with another \
         answer at limit 0; {out_of_form} out of form\n"
    ));
    assert_eq!(in_form + out_of_form, 3 * 8 * (8 + 8 + 4 + 4));
    assert!(in_form > 50 && out_of_form > 50 && other_answer > 20);
}

// ---- the stories

const SCENARIOS: &str = "examples/scenarios";

fn in_repository(path: &str) -> PathBuf {
    PathBuf::from(env!("CARGO_MANIFEST_DIR")).join("..").join(path)
}

fn text(path: &str) -> String {
    let path = in_repository(path);
    fs::read_to_string(&path).unwrap_or_else(|error| panic!("{}: {error}", path.display()))
}

/// The blocks of a page that no language is given for, each as its lines.
fn blocks(page: &str) -> Vec<String> {
    // The parts between two fences are in turn prose and code.
    let code = page.split("```").skip(1).step_by(2);
    code.filter_map(|block| block.strip_prefix('\n')).map(String::from).collect()
}

/// The answers that the page's prose cites.
fn cited(page: &str) -> Vec<&str> {
    let prose = page.split("```").step_by(2);
    let spans = prose.flat_map(|text| text.split('`').skip(1).step_by(2));
    let answers = ["ok", "refused ", "between ", "open", "contradicted", "fewest ", "bad line"];
    spans.filter(|span| answers.iter().any(|answer| span.starts_with(answer))).collect()
}

/// The scenario that the page names first.
fn scenario(page: &str) -> &str {
    let link = format!("](../{SCENARIOS}/");
    let (_, behind) = page.split_once(&link).expect("a story names its scenario");
    behind.split(')').next().expect("the link ends")
}

/// A story's lines and what they print are those of the scenario's two files; both programs print that
/// (tests/listing.rs). The answers in its prose are among them.
fn tells(page: &str, name: &str) {
    let stored = ["", ".printed"].map(|end| text(&format!("{SCENARIOS}/{name}{end}")));
    assert_eq!(blocks(page), stored, "{name}");
    assert_eq!(listing(stored[0].as_bytes()), stored[1], "{name}");
    let cited = cited(page);
    assert!(!cited.is_empty(), "{name}");
    for answer in cited {
        assert!(stored[1].lines().any(|line| line == answer), "{name} does not print {answer:?}");
    }
}

#[test]
fn stories_have_the_lines_and_answers_of_their_scenarios() {
    let page = text("docs/stories.md");
    let (_, stories) = page.split_once("\n## The stories\n").expect("the stories' heading");
    let (stories, _) = stories.split_once("\n## ").expect("another heading behind them");
    let stories: Vec<&str> = stories.split("\n### ").skip(1).collect();
    assert!(stories.len() >= 8, "{} stories", stories.len());
    for story in stories {
        tells(story, scenario(story));
    }
}

#[test]
fn the_story_of_readme_is_the_lying_relay() {
    let page = text("README.md");
    let (_, story) = page.split_once("\n## What does it answer").expect("the story's heading");
    tells(story.split("\n## ").next().expect("it ends"), "lying_relay");
}

#[test]
fn every_scenario_is_in_the_page_of_stories() {
    let page = text("docs/stories.md");
    let files = fs::read_dir(in_repository(SCENARIOS)).expect("the scenarios");
    let names = files.map(|file| file.expect("a scenario").file_name().into_string());
    let names: Vec<String> = names.map(|name| name.expect("a name")).collect();
    assert!(names.len() >= 2 * 11, "{} files", names.len());
    for name in names.iter().filter(|name| !name.ends_with(".printed")) {
        assert!(page.contains(&format!("](../{SCENARIOS}/{name})")), "{name}");
    }
}
