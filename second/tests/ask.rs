//! Asking and fewest failures, by both programs: document 01's listing and cases, edges by name,
//! refusals, then seeded states and runs. What the book of a run says is in tests/book.rs.

use second::asking::{
    answer_bytes, fewest_bytes, ANSWER_BYTES, FEWEST_BYTES, GREATEST_LIMIT, OVER,
};
use second::branches::Branches;
use second::calls::{tried, Call};
use second::epochs::GREATEST_EPOCH;
use second::every_set;
use second::instants::{Interval, GREATEST_END};
use second::lent::Lent;
use second::message::{bytes_of, Message};
use second::predicates::{Predicate, Term, GREATEST_NAME, NAMES};
use second::random::Random;
use second::samples::report;
use second::samples::runs::World;
use second::samples::states;
use second::samples::texts::{DOCUMENT_01, PRINTED};
use second::state::{
    Datum, State, DATUM_TERMS, ENTRY_TERMS, GREATEST_READING, MOST_DATA, MOST_ENTRIES, OWN_AT,
    STATE_BYTES,
};
use std::collections::BTreeMap;

// ---- what is compared

/// The numbers in an output, 8 bytes each.
fn decoded(out: &[u8]) -> Vec<u64> {
    out.as_chunks().0.iter().map(|&number| u64::from_le_bytes(number)).collect()
}

/// The numbers that a taken question gives, in an output of just their length and in a longer one.
fn numbers<const N: usize>(question: &Call, state: &State) -> [u64; N] {
    let [exact, longer] = [8 * N, 8 * N + 9].map(|len| {
        let (number, _, out, _) = tried(question, &state.bytes(), len);
        assert_eq!(number, 0, "{question:?} in {state:?}");
        decoded(&out[..8 * N])
    });
    assert_eq!(exact, longer, "{question:?} in {state:?}");
    exact.try_into().expect("so many numbers")
}

const CONTRADICTED: [u64; 3] = [0, 0, 0];
const OPEN: [u64; 3] = [1, 0, 0];

fn between(left: u64, right: u64) -> [u64; 3] {
    [2, left, right]
}

/// The answers for limits from 0 on are these, and at all further ones as at the last.
fn asked(state: &State, answers: &[[u64; 3]]) {
    for limit in 0..=u64::from(GREATEST_LIMIT) {
        let wanted = answers[(limit as usize).min(answers.len() - 1)];
        assert_eq!(numbers(&Call::Ask { limit }, state), wanted, "limit {limit} in {state:?}");
    }
}

/// The fewest failures are just these names.
fn fewest(state: &State, names: &[u32]) {
    let wanted = [names.len() as u64, term(names).into()];
    assert_eq!(numbers(&Call::Fewest, state), wanted, "{state:?}");
}

fn over_4(state: &State) {
    assert_eq!(numbers(&Call::Fewest, state), [OVER, 0], "{state:?}");
}

// ---- states to ask

/// The term of some names.
fn term(names: &[u32]) -> Term {
    names.iter().fold(0, |t, n| t | 1 << n)
}

/// The predicate of terms in any order.
fn sum(terms: &[&[u32]]) -> Predicate {
    let mut terms: Vec<Term> = terms.iter().map(|names| term(names)).collect();
    terms.sort_unstable();
    Predicate::of(&terms)
}

/// The names that each make a predicate true, left and right.
type Held<'a> = (&'a [u32], u64, u64);

/// A state of own name 0 with these data, and entries of names that each make one true.
fn state(held: &[Held], entries: &[&[u32]]) -> State {
    let alone = |names: &[u32]| sum(&names.iter().map(std::slice::from_ref).collect::<Vec<_>>());
    let datum = |&(names, left, right): &Held| Datum {
        interval: Interval { left, right }.exact(),
        predicate: alone(names),
    };
    State {
        held: held.iter().map(datum).collect(),
        entries: entries.iter().map(|names| alone(names)).collect(),
        ..State::fresh(0, 100, 1_000)
    }
}

/// A state of own name 0 after receipts by both programs, without delay: sender, left, right and
/// terms of each.
fn after(receipts: &[(u32, u64, u64, &[Term])]) -> State {
    let mut bytes = State::fresh(0, 100, 1_000).bytes();
    for &(sender, left, right, terms) in receipts {
        let message = Message::of(sender, left, right, terms);
        let call =
            Call::Receive { least: 0, greatest: 0, readings: None, message: message.bytes() };
        let (number, after, ..) = tried(&call, &bytes, 0);
        assert_eq!(number, 0, "{call:?}");
        bytes = after;
    }
    State::of(&bytes).expect("a state in form")
}

/// The state aged by both programs.
fn aged(state: &State, reading: u64) -> State {
    let (number, bytes, ..) = tried(&Call::Age { reading }, &state.bytes(), 0);
    assert_eq!(number, 0, "{reading} in {state:?}");
    State::of(&bytes).expect("a state in form")
}

// ---- document 01's listing

/// The call that a line of the listing asks for.
fn listed(line: &str) -> Call {
    let mut fields = line.split(' ');
    let name = fields.next().expect("a name");
    let fields: Vec<u64> = fields.map(|field| field.parse().expect("a number")).collect();
    match (name, &fields[..]) {
        ("set", &[own, drift, reading, epoch]) => {
            Call::SetUp { own: own as u32, drift: drift as u32, reading, epoch }
        }
        ("age", &[reading]) => Call::Age { reading },
        ("get", &[least, greatest, ref words @ ..]) => {
            let words: Vec<u32> = words.iter().map(|&word| word as u32).collect();
            Call::Receive { least, greatest, readings: None, message: bytes_of(&words) }
        }
        ("ask", &[limit]) => Call::Ask { limit },
        ("fewest", []) => Call::Fewest,
        _ => panic!("{line}"),
    }
}

/// The line that a taken call yields.
fn printed(call: &Call, out: &[u8]) -> String {
    match (call, &decoded(out)[..]) {
        (Call::Ask { .. }, [0, 0, 0]) => "contradicted".into(),
        (Call::Ask { .. }, [1, 0, 0]) => "open".into(),
        (Call::Ask { .. }, [2, left, right]) => format!("between {left} {right}"),
        (Call::Fewest, [count, mask]) => format!("fewest {count} {mask}"),
        (_, []) => "ok".into(),
        _ => panic!("{call:?}: {out:?}"),
    }
}

#[test]
fn listing_of_document_01_yields_its_lines() {
    let mut bytes = vec![9; STATE_BYTES];
    let mut lines = String::new();
    for line in DOCUMENT_01.lines() {
        let call = listed(line);
        let len = match call {
            Call::Ask { .. } => ANSWER_BYTES,
            Call::Fewest => FEWEST_BYTES,
            _ => 0,
        };
        let (number, after, out, _) = tried(&call, &bytes, len);
        assert_eq!(number, 0, "{line}");
        bytes = after;
        lines += &(printed(&call, &out) + "\n");
    }
    assert_eq!(lines, PRINTED);
}

// ---- document 01's cases

#[test]
fn case_no_data_is_open_for_limits_0_and_4_and_limit_5_is_22() {
    for own in 0..=GREATEST_NAME {
        let fresh = State::fresh(own, 100, 0);
        asked(&fresh, &[OPEN]);
        fewest(&fresh, &[]);
        let past = Call::Ask { limit: u64::from(GREATEST_LIMIT) + 1 };
        assert_eq!(tried(&past, &fresh.bytes(), ANSWER_BYTES).0, 22);
    }
}

#[test]
fn case_disjoint_data_under_1_and_2_are_0_to_30_at_limit_1() {
    let answers = [CONTRADICTED, between(0, 30), OPEN];
    asked(&after(&[(1, 0, 10, &[]), (2, 20, 30, &[])]), &answers);
    // In either order, and as data without the entry.
    asked(&after(&[(2, 20, 30, &[]), (1, 0, 10, &[])]), &answers);
    let apart = state(&[(&[1], 0, 10), (&[2], 20, 30)], &[]);
    asked(&apart, &answers);
    fewest(&apart, &[1]);
}

#[test]
fn case_disjoint_data_under_1_or_3_and_2_or_3_are_open_at_limit_1() {
    let answers = [CONTRADICTED, OPEN];
    let learnt = after(&[(1, 0, 10, &[8]), (2, 20, 30, &[8])]);
    asked(&learnt, &answers);
    // 1 alone explains as well as 3: [20, 30] is left.
    fewest(&learnt, &[1]);
    asked(&state(&[(&[1, 3], 0, 10), (&[2, 3], 20, 30)], &[]), &answers);
}

#[test]
fn case_sender_1_with_terms_is_open_at_limit_1_by_1_or_by_3() {
    let one = after(&[(1, 0, 10, &[6, 8])]);
    asked(&one, &[between(0, 10), OPEN]);
    for n in [1, 3] {
        asked(&State { entries: vec![sum(&[&[n]])], ..one.clone() }, &[CONTRADICTED, OPEN]);
    }
    let other = State { entries: vec![sum(&[&[2]])], ..one };
    asked(&other, &[CONTRADICTED, between(0, 10), OPEN]);
}

#[test]
fn case_overlapping_data_under_1_are_5_to_10() {
    let answers = [between(5, 10), OPEN];
    asked(&after(&[(1, 0, 10, &[]), (1, 5, 20, &[])]), &answers);
    asked(&state(&[(&[1], 0, 10), (&[1], 5, 20)], &[]), &answers);
}

#[test]
fn case_disjoint_data_under_1_are_contradicted_at_limit_0_and_so_after_ageing() {
    let learnt = after(&[(1, 0, 10, &[]), (1, 11, 20, &[])]);
    asked(&learnt, &[CONTRADICTED, OPEN]);
    fewest(&learnt, &[1]);
    for reading in [1_000, 1_001, 2_000_000, GREATEST_READING] {
        asked(&aged(&learnt, reading), &[CONTRADICTED, OPEN]);
    }
}

#[test]
fn case_touching_data_under_1_and_2_are_10_to_10_at_limit_0() {
    let touching = after(&[(1, 0, 10, &[]), (2, 10, 20, &[])]);
    asked(&touching, &[between(10, 10), between(0, 20), OPEN]);
    fewest(&touching, &[]);
}

/// Mistakes near at hand: what disjoint intervals taught is kept when they have widened.
#[test]
fn case_intervals_that_widen_until_they_overlap_stay_contradicted() {
    let learnt = after(&[(1, 0, 10, &[]), (2, 20, 30, &[])]);
    let widened = aged(&learnt, 1_000 + 1_000_000);
    assert!(!widened.held[0].interval.disjoint(widened.held[1].interval));
    asked(&widened, &[CONTRADICTED, between(999_900, 1_000_130), OPEN]);
    fewest(&widened, &[1]);
    let forgotten = State { entries: vec![], ..widened };
    asked(&forgotten, &[between(999_920, 1_000_110), between(999_900, 1_000_130), OPEN]);
}

// ---- names, not data

#[test]
fn ask_name_behind_many_data_is_one_failure() {
    let held: Vec<Held> = (0..MOST_DATA as u64).map(|i| (&[7][..], 10 * i, 10 * i + 5)).collect();
    let relay = state(&held, &[]);
    asked(&relay, &[CONTRADICTED, OPEN]);
    fewest(&relay, &[7]);
}

#[test]
fn ask_names_that_terms_share_count_once() {
    let held = [(0, 10, [1, 3]), (20, 30, [2, 3]), (40, 50, [1, 2])];
    let held = held.map(|(left, right, t)| Datum::of(left, right, &[term(&t)]));
    let shared = State { held: held.to_vec(), ..state(&[], &[]) };
    // Two terms have three names, and so have all three.
    asked(&shared, &[CONTRADICTED, CONTRADICTED, CONTRADICTED, OPEN]);
    fewest(&shared, &[1, 2, 3]);
}

#[test]
fn ask_all_names_of_a_term_count() {
    for count in 1..=GREATEST_LIMIT + 2 {
        let names: Vec<u32> = (1..=count).map(|n| 4 * n).collect();
        let held = vec![Datum::of(5, 9, &[term(&names)])];
        let answers: Vec<[u64; 3]> = (0..=GREATEST_LIMIT)
            .map(|limit| if limit < count { between(5, 9) } else { OPEN })
            .collect();
        let one = State { held, ..state(&[], &[]) };
        asked(&one, &answers);
        fewest(&one, &[]);
        let answers: Vec<[u64; 3]> = (0..=GREATEST_LIMIT)
            .map(|limit| if limit < count { CONTRADICTED } else { OPEN })
            .collect();
        let entry = State { entries: vec![sum(&[&names])], ..state(&[], &[]) };
        asked(&entry, &answers);
        if count > GREATEST_LIMIT {
            over_4(&entry);
        } else {
            fewest(&entry, &names);
        }
    }
}

#[test]
fn ask_every_name_alone_explains_and_no_other_does() {
    for own in [0, 1, 14, GREATEST_NAME] {
        for n in (0..=GREATEST_NAME).filter(|&n| n != own) {
            let entries = vec![sum(&[&[n]])];
            let known = State { entries, ..State::fresh(own, 0, 0) };
            asked(&known, &[CONTRADICTED, OPEN]);
            fewest(&known, &[n]);
            let held = vec![Datum::of(3, 4, &[term(&[n])])];
            asked(&State { held, ..State::fresh(own, 0, 0) }, &[between(3, 4), OPEN]);
        }
    }
}

// ---- ends

#[test]
fn ask_greatest_interval_is_between_and_not_open() {
    let all = state(&[(&[1], 0, GREATEST_END)], &[]);
    asked(&all, &[between(0, GREATEST_END), OPEN]);
    for x in [0, 1, 255, 256, 1 << 32, 0x0102_0304_0506_0708, GREATEST_END] {
        asked(&state(&[(&[1], x, x)], &[]), &[between(x, x), OPEN]);
    }
}

#[test]
fn ask_least_left_end_counts_only_if_a_set_allows_it() {
    let held: [Held; 3] = [(&[1], 0, 10), (&[2], 20, 30), (&[3], 20, 40)];
    let answers = [CONTRADICTED, between(20, 30), between(0, 40), OPEN];
    for order in [[0, 1, 2], [0, 2, 1], [1, 0, 2], [1, 2, 0], [2, 0, 1], [2, 1, 0]] {
        asked(&state(&order.map(|i| held[i]), &[]), &answers);
        fewest(&state(&order.map(|i| held[i]), &[]), &[1]);
    }
}

#[test]
fn ask_greatest_right_end_counts_only_if_a_set_allows_it() {
    let held: [Held; 3] = [(&[1], 0, 20), (&[2], 10, 20), (&[3], 30, 40)];
    let answers = [CONTRADICTED, between(10, 20), between(0, 40), OPEN];
    for order in [[0, 1, 2], [0, 2, 1], [1, 0, 2], [1, 2, 0], [2, 0, 1], [2, 1, 0]] {
        asked(&state(&order.map(|i| held[i]), &[]), &answers);
        fewest(&state(&order.map(|i| held[i]), &[]), &[3]);
    }
}

#[test]
fn ask_ends_may_come_from_different_sets() {
    let three = state(&[(&[1], 0, 60), (&[2], 20, 100), (&[3], 40, 50)], &[]);
    asked(&three, &[between(40, 50), between(20, 60), between(0, 100), OPEN]);
}

#[test]
fn ask_touching_ends_meet_and_the_next_do_not() {
    asked(&state(&[(&[1], 0, 10), (&[2], 10, 20)], &[]), &[between(10, 10), between(0, 20), OPEN]);
    asked(&state(&[(&[1], 0, 9), (&[2], 10, 20)], &[]), &[CONTRADICTED, between(0, 20), OPEN]);
}

// ---- states that no calls would reach

#[test]
fn ask_entries_made_true_do_not_make_intervals_meet() {
    let apart = state(&[(&[2], 0, 10), (&[3], 20, 30)], &[&[1]]);
    asked(&apart, &[CONTRADICTED, CONTRADICTED, between(0, 30), OPEN]);
    fewest(&apart, &[1, 2]);
    let apart = state(&[(&[3], 0, 10), (&[2], 20, 30), (&[4], 5, 9)], &[&[1]]);
    asked(&apart, &[CONTRADICTED, CONTRADICTED, between(5, 9), between(0, 30), OPEN]);
    fewest(&apart, &[1, 2]);
}

#[test]
fn ask_disjoint_data_under_one_predicate_are_contradicted() {
    asked(&state(&[(&[1], 0, 10), (&[1], 11, 20)], &[]), &[CONTRADICTED, OPEN]);
    let more = state(&[(&[1], 0, 10), (&[1], 11, 20), (&[2], 5, 15)], &[]);
    asked(&more, &[CONTRADICTED, between(5, 15), OPEN]);
    fewest(&more, &[1]);
}

#[test]
fn ask_entries_that_imply_each_other() {
    for entries in [[&[1][..], &[1, 2]], [&[1, 2], &[1]], [&[1], &[1]]] {
        let known = state(&[(&[2], 0, 10)], &entries);
        asked(&known, &[CONTRADICTED, between(0, 10), OPEN]);
        fewest(&known, &[1]);
    }
}

#[test]
fn ask_data_that_an_entry_implies_and_that_imply_one() {
    asked(&state(&[(&[1, 2], 0, 10)], &[&[1]]), &[CONTRADICTED, OPEN]);
    asked(&state(&[(&[1], 0, 10)], &[&[1, 2]]), &[CONTRADICTED, OPEN]);
    let two = state(&[(&[1], 0, 10), (&[2], 0, 20)], &[&[1, 2]]);
    asked(&two, &[CONTRADICTED, between(0, 20), OPEN]);
}

/// Every place for a datum is looked at, and only those that are held.
#[test]
fn ask_every_datum_narrows_the_answer() {
    for count in 1..=MOST_DATA {
        for place in 0..count {
            let name = [place as u32 + 1];
            let mut held = vec![(&[GREATEST_NAME][..], 0, 100); count];
            held[place] = (&name, 50, 60);
            let narrowed = state(&held, &[]);
            let wide = if count == 1 { OPEN } else { between(0, 100) };
            asked(&narrowed, &[between(50, 60), wide, OPEN]);
        }
    }
}

#[test]
fn ask_every_entry_has_to_be_true() {
    for count in 1..=MOST_ENTRIES {
        for place in 0..count {
            let mut entries = vec![&[5][..]; count];
            entries[place] = &[9];
            let known = state(&[], &entries);
            let answers = [CONTRADICTED, CONTRADICTED, OPEN];
            asked(&known, if count == 1 { &[CONTRADICTED, OPEN] } else { &answers });
            fewest(&known, if count == 1 { &[9] } else { &[5, 9] });
        }
    }
}

/// So many different terms of two names from a name on, in normal form.
fn pairs(from: u32, count: usize) -> Vec<Term> {
    let all = (from..NAMES).flat_map(|n| (from..n).map(move |m| term(&[m, n])));
    all.take(count).collect()
}

/// A predicate of the most terms that has only this one in common with those of lower names.
fn sharing(t: Term) -> Predicate {
    Predicate::of(&[&[t], &pairs(20, ENTRY_TERMS - 1)[..]].concat())
}

#[test]
fn ask_every_term_makes_its_entry_true() {
    for t in pairs(1, ENTRY_TERMS) {
        let names: Vec<u32> = (0..NAMES).filter(|n| t >> n & 1 != 0).collect();
        let mut entries = vec![Predicate::of(&pairs(1, ENTRY_TERMS)), sharing(t)];
        for _ in 0..2 {
            let known = State { entries: entries.clone(), ..state(&[], &[]) };
            asked(&known, &[CONTRADICTED, CONTRADICTED, OPEN]);
            fewest(&known, &names);
            entries.reverse();
        }
    }
}

#[test]
fn ask_every_term_makes_its_datum_explained() {
    let most = Datum::of(5, 9, &pairs(1, DATUM_TERMS));
    for t in pairs(1, DATUM_TERMS) {
        let held = vec![most];
        let known = State { held, entries: vec![sharing(t)], ..state(&[], &[]) };
        asked(&known, &[CONTRADICTED, CONTRADICTED, OPEN]);
        let held = vec![most, Datum::of(10, 11, &sharing(t)[..DATUM_TERMS])];
        let apart = State { held, ..state(&[], &[]) };
        asked(&apart, &[CONTRADICTED, CONTRADICTED, OPEN]);
        assert_eq!(numbers(&Call::Fewest, &apart), [2, pairs(1, 1)[0].into()]);
    }
}

// ---- fewest

#[test]
fn fewest_of_consistent_data_are_none() {
    fewest(&state(&[(&[1], 0, 10), (&[2], 5, 20), (&[1, 3], 9, 9)], &[]), &[]);
}

#[test]
fn fewest_smaller_set_goes_before_a_lesser_mask() {
    let name = GREATEST_NAME;
    let entries = vec![sum(&[&[1, 2], &[name]])];
    fewest(&State { entries, ..state(&[], &[]) }, &[name]);
    let entries = vec![sum(&[&[1, 2, 3], &[name - 1]]), sum(&[&[2, 3, 4], &[name]])];
    fewest(&State { entries, ..state(&[], &[]) }, &[name - 1, name]);
}

#[test]
fn fewest_of_one_size_is_the_least_mask() {
    for entries in [[&[1, 2][..], &[3, 4]], [&[3, 4], &[1, 2]]] {
        fewest(&state(&[], &entries), &[1, 3]);
    }
    // The mask decides, not the lowest name: 2 and 3 are less than 1 and 4.
    let entries = vec![sum(&[&[1, 4], &[2, 3]])];
    fewest(&State { entries, ..state(&[], &[]) }, &[2, 3]);
    // The first datum's names are not the least ones.
    fewest(&state(&[(&[9], 0, 10), (&[6], 20, 30)], &[]), &[6]);
    fewest(&state(&[(&[6], 0, 10), (&[9], 20, 30)], &[]), &[6]);
}

#[test]
fn fewest_four_names_are_told_and_five_are_over_4() {
    let each: Vec<[u32; 1]> = (3..8).map(|n| [n]).collect();
    let entries: Vec<&[u32]> = each.iter().map(|n| &n[..]).collect();
    let four = state(&[], &entries[..4]);
    asked(&four, &[CONTRADICTED, CONTRADICTED, CONTRADICTED, CONTRADICTED, OPEN]);
    fewest(&four, &[3, 4, 5, 6]);
    asked(&state(&[], &entries), &[CONTRADICTED]);
    over_4(&state(&[], &entries));
    let held: Vec<Held> = each.iter().zip(0..).map(|(n, i)| (&n[..], 9 * i, 9 * i + 3)).collect();
    // One of five disjoint data may be right.
    let five = state(&held, &[]);
    asked(&five, &[CONTRADICTED, CONTRADICTED, CONTRADICTED, CONTRADICTED, between(0, 39)]);
    fewest(&five, &[3, 4, 5, 6]);
    let six = state(&[&held[..], &[(&[8], 99, 99)]].concat(), &[]);
    asked(&six, &[CONTRADICTED]);
    over_4(&six);
}

// ---- refusals

/// A state of the most data and entries: 3 and 4 explain the entries and the one datum that is apart.
fn full() -> State {
    let mut full = state(&[(&[1, 2][..], 50, 150); MOST_DATA], &[&[3][..]; MOST_ENTRIES]);
    full.held[7] = Datum::of(0, 10, &pairs(1, DATUM_TERMS));
    full.entries[MOST_ENTRIES - 1] = sum(&[&[4]]);
    full
}

#[test]
fn ask_full_state_is_answered() {
    asked(&full(), &[CONTRADICTED, CONTRADICTED, between(50, 150), OPEN]);
    fewest(&full(), &[3, 4]);
}

#[test]
fn ask_limit_above_4_is_22() {
    let most = u64::from(GREATEST_LIMIT);
    let near = [most + 1, most + 2, 255, 256, 256 + most];
    let far = [1 << 16, 1 << 32, (1 << 32) + most, 1 << 63, u64::MAX];
    for limit in near.into_iter().chain(far) {
        for state in [State::fresh(3, 0, 0), full()] {
            for len in [0, ANSWER_BYTES - 1, ANSWER_BYTES, 40] {
                assert_eq!(tried(&Call::Ask { limit }, &state.bytes(), len).0, 22, "{limit}");
            }
        }
    }
}

#[test]
fn ask_output_one_byte_short_is_24_and_longer_is_taken() {
    for state in [State::fresh(3, 0, 0), full()] {
        for len in (0..=60).chain([255, 256, 65_536, 65_540]) {
            for limit in 0..=GREATEST_LIMIT.into() {
                let (number, ..) = tried(&Call::Ask { limit }, &state.bytes(), len);
                assert_eq!(number, if len < ANSWER_BYTES { 24 } else { 0 }, "{len} bytes");
            }
            let (number, ..) = tried(&Call::Fewest, &state.bytes(), len);
            assert_eq!(number, if len < FEWEST_BYTES { 24 } else { 0 }, "{len} bytes");
        }
    }
}

#[test]
fn ask_short_state_is_24_and_bytes_beyond_it_play_no_part() {
    let bytes = full().bytes();
    for question in [Call::Ask { limit: 3 }, Call::Fewest] {
        for len in (0..40).chain(STATE_BYTES - 32..STATE_BYTES) {
            assert_eq!(tried(&question, &bytes[..len], ANSWER_BYTES).0, 24, "{len} bytes");
        }
        for more in [1, 7, 64] {
            let longer = [&bytes[..], &vec![255; more]].concat();
            let (number, _, out, _) = tried(&question, &longer, ANSWER_BYTES);
            let wanted = tried(&question, &bytes, ANSWER_BYTES).2;
            assert_eq!((number, out), (0, wanted), "{more} more");
        }
    }
}

/// All flaws in all combinations: a short state, one out of form, the limit, the output.
#[test]
fn ask_several_flaws_is_the_first_of_24_25_22_24() {
    let sound = full().bytes();
    let mut broken = sound.clone();
    broken[OWN_AT] = GREATEST_NAME as u8 + 1;
    let most = u64::from(GREATEST_LIMIT);
    for limit in [0, most, most + 1, u64::MAX] {
        for len in [0, ANSWER_BYTES - 1, ANSWER_BYTES, 33] {
            let call = Call::Ask { limit };
            assert_eq!(tried(&call, &sound[..STATE_BYTES - 1], len).0, 24);
            assert_eq!(tried(&call, &broken[..STATE_BYTES - 1], len).0, 24);
            assert_eq!(tried(&call, &broken, len).0, 25);
            let number = match (limit > most, len < ANSWER_BYTES) {
                (true, _) => 22,
                (false, true) => 24,
                (false, false) => 0,
            };
            assert_eq!(tried(&call, &sound, len).0, number, "{call:?}, {len} bytes");
        }
    }
}

#[test]
fn fewest_several_flaws_is_the_first_of_24_25_24() {
    let sound = full().bytes();
    let mut broken = sound.clone();
    broken[STATE_BYTES - 1] = GREATEST_EPOCH + 1;
    for len in [0, FEWEST_BYTES - 1, FEWEST_BYTES, 25] {
        assert_eq!(tried(&Call::Fewest, &sound[..STATE_BYTES - 1], len).0, 24);
        assert_eq!(tried(&Call::Fewest, &broken[..STATE_BYTES - 1], len).0, 24);
        assert_eq!(tried(&Call::Fewest, &broken, len).0, 25);
        let number = if len < FEWEST_BYTES { 24 } else { 0 };
        assert_eq!(tried(&Call::Fewest, &sound, len).0, number);
    }
}

/// A term with the own name is out of form, so that the own name can explain nothing.
#[test]
fn ask_term_with_the_own_name_is_25() {
    let named = state(&[(&[1, 2], 0, 10)], &[&[1, 3]]);
    for own in [1, 2, 3] {
        let bytes = State { own, ..named.clone() }.bytes();
        assert_eq!(tried(&Call::Ask { limit: 1 }, &bytes, ANSWER_BYTES).0, 25, "{own}");
        assert_eq!(tried(&Call::Fewest, &bytes, FEWEST_BYTES).0, 25, "{own}");
    }
    asked(&State { own: 4, ..named }, &[CONTRADICTED, OPEN]);
}

// ---- what was answered

/// What both programs gave in seeded states.
#[derive(Default)]
struct Tally {
    /// By limit: contradicted, open, between.
    kinds: [[u64; 3]; GREATEST_LIMIT as usize + 1],
    /// By count; the last is over the greatest limit.
    fewest: [u64; OVER as usize + 1],
    /// Of asking and of fewest.
    numbers: [BTreeMap<u32, u64>; 2],
}

impl Tally {
    fn count(&mut self, call: &Call, number: u32, out: &[u8]) {
        let which = usize::from(*call == Call::Fewest);
        *self.numbers[which].entry(number).or_default() += 1;
        match call {
            Call::Ask { limit } if number == 0 => {
                self.kinds[*limit as usize][usize::from(out[0])] += 1;
            }
            Call::Fewest if number == 0 => self.fewest[usize::from(out[0])] += 1,
            _ => {}
        }
    }

    /// Prints the counts, and checks that all of these numbers and no others came often enough.
    fn check_numbers(&self, title: &str, numbers: [&[u32]; 2], enough: u64) {
        let Tally { kinds, fewest, numbers: [ask, few] } = self;
        report(&format!(
            "{title}\n  monitor_ask {ask:?}, contradicted, open and between by limit {kinds:?}\n  \
             monitor_fewest {few:?}, by count and over {GREATEST_LIMIT} {fewest:?}\n"
        ));
        for (met, wanted) in self.numbers.iter().zip(numbers) {
            let often = |number| met.get(number).is_some_and(|&count| count >= enough);
            assert!(wanted.iter().all(often), "{title}: too few of a number");
            assert!(met.keys().all(|number| wanted.contains(number)), "{title}: {met:?}");
        }
    }

    /// The same, and that each answer at every limit and each count of fewest did.
    fn check(&self, title: &str, numbers: [&[u32]; 2], enough: u64) {
        self.check_numbers(title, numbers, enough);
        let answers = self.kinds.as_flattened().iter().chain(&self.fewest);
        assert!(answers.min() >= Some(&enough), "{title}: too few of an answer");
    }
}

/// A state that is lent to both programs, to be asked.
struct Asked<'a> {
    seed: u64,
    random: Random,
    state: Lent,
    /// What the last call left in its output.
    answer: Vec<u8>,
    tally: &'a mut Tally,
}

impl<'a> Asked<'a> {
    fn new(seed: u64, mut random: Random, bytes: &[u8], tally: &'a mut Tally) -> Asked<'a> {
        let state = Lent::new(bytes, &mut random);
        Asked { seed, random, state, answer: vec![], tally }
    }

    /// Runs a call with an output of so many bytes.
    fn call(&mut self, call: &Call, len: usize) -> u32 {
        let filled = self.random.bytes(len);
        let mut out = Lent::new(&filled, &mut self.random);
        let number = call.both(&mut self.state, &mut out, &mut Branches::default());
        let number = number.unwrap_or_else(|fault| {
            let state = State::of(self.state.bytes());
            panic!("seed {}: {fault}: {call:?}, {len} bytes, in {state:?}", self.seed)
        });
        if matches!(call, Call::Ask { .. } | Call::Fewest) {
            self.tally.count(call, number, out.bytes());
        }
        self.answer = out.bytes().to_vec();
        number
    }

    /// Every limit, two past them, and fewest. Both programs search; trying every set decides.
    fn questions(&mut self) {
        let state = State::of(self.state.bytes()).expect("a state in form");
        let most = u64::from(GREATEST_LIMIT);
        for limit in (0..=most + 1).chain([u64::MAX]) {
            let more = self.random.pick(&[0, 0, 1, 20]);
            let number = self.call(&Call::Ask { limit }, ANSWER_BYTES + more);
            assert_eq!(number, if limit > most { 22 } else { 0 }, "seed {}", self.seed);
            if limit <= most {
                let wanted = answer_bytes(every_set::ask(&state, limit as u32));
                assert_eq!(self.answer[..ANSWER_BYTES], wanted, "seed {}: {state:?}", self.seed);
            }
        }
        let more = self.random.pick(&[0, 0, 1, 20]);
        assert_eq!(self.call(&Call::Fewest, FEWEST_BYTES + more), 0, "seed {}", self.seed);
        let wanted = fewest_bytes(every_set::fewest(&state));
        assert_eq!(self.answer[..FEWEST_BYTES], wanted, "seed {}: {state:?}", self.seed);
    }

    /// A question with an output of any length, in a damaged state, a shorter one, both or neither.
    fn flawed(&mut self) {
        let before = self.state.bytes().to_vec();
        let mut bytes = before.clone();
        for _ in 0..self.random.pick(&[0, 0, 1, 1, 2]) {
            states::damage(&mut self.random, &mut bytes);
        }
        if self.random.once_in(5) {
            bytes.truncate(self.random.index(STATE_BYTES));
        }
        self.state.put(&bytes);
        let most = u64::from(GREATEST_LIMIT);
        let limit = self.random.pick(&[0, 1, 2, 3, most, most + 1, 1 << 32, u64::MAX]);
        let fewest = self.random.once_in(2);
        let question = if fewest { Call::Fewest } else { Call::Ask { limit } };
        let about = [FEWEST_BYTES, ANSWER_BYTES].map(|len| [len - 1, len, len + 1]);
        let len = self.random.pick(&[&[0, 8], about.as_flattened(), &[40]].concat());
        self.call(&question, len);
        self.state.put(&before);
    }
}

// ---- seeded states and runs

/// What questions in states that are in form, with an output that is long enough, return.
const SOUND: [&[u32]; 2] = [&[0, 22], &[0]];
/// And with any bytes.
const FLAWED: [&[u32]; 2] = [&[0, 22, 24, 25], &[0, 24, 25]];

/// What a sampled state may have: first what no run would leave, then all places in use.
const FEATURES: [&str; 8] = [
    "disjoint data without an entry",
    "data under one predicate",
    "entries that imply another",
    "data that an entry implies",
    "the most data",
    "the most entries",
    "a datum of the most terms",
    "an entry of the most terms",
];

fn features(State { held, entries, .. }: &State) -> [bool; 8] {
    let pairs = || (0..held.len()).flat_map(|i| (0..i).map(move |j| (held[j], held[i])));
    let known = |p: &Predicate| entries.iter().any(|entry| entry.implies(p));
    let unlearnt = |(a, b): (Datum, Datum)| {
        a.interval.disjoint(b.interval) && !known(&Predicate::sum(&a.predicate, &b.predicate))
    };
    let implied = |i: usize| (0..entries.len()).any(|j| j != i && entries[j].implies(&entries[i]));
    [
        pairs().any(unlearnt),
        pairs().any(|(a, b)| a.predicate == b.predicate),
        (0..entries.len()).any(implied),
        held.iter().any(|datum| known(&datum.predicate)),
        held.len() == MOST_DATA,
        entries.len() == MOST_ENTRIES,
        held.iter().any(|datum| datum.predicate.len() == DATUM_TERMS),
        entries.iter().any(|entry| entry.len() == ENTRY_TERMS),
    ]
}

/// Asks so many sampled states everything. Each feature has to come up a thousand times.
fn ask_samples(title: &str, count: u64, sample: impl Fn(&mut Random) -> State) {
    let (mut tally, mut met) = (Tally::default(), [0; FEATURES.len()]);
    for seed in 0..count {
        let mut random = Random::new(seed);
        let state = sample(&mut random);
        for (count, has) in met.iter_mut().zip(features(&state)) {
            *count += u64::from(has);
        }
        Asked::new(seed, random, &state.bytes(), &mut tally).questions();
    }
    tally.check(title, SOUND, 1_000);
    let counts: Vec<String> =
        FEATURES.iter().zip(met).map(|(what, count)| format!("{what} {count}")).collect();
    report(&format!("  {count} states, with {}\n", counts.join(", ")));
    assert!(met.iter().all(|&count| count >= 1_000), "{title}: too few of a feature");
}

#[test]
fn ask_states_that_few_failures_explain_are_answered_alike() {
    ask_samples("states that few failures explain", 40_000, states::to_ask);
}

#[test]
fn ask_states_of_all_fillings_are_answered_alike() {
    ask_samples("states of all fillings", 20_000, states::in_form);
}

#[test]
fn ask_flawed_questions_are_refused_alike() {
    let mut tally = Tally::default();
    for seed in 0..60_000 {
        let mut random = Random::new(seed);
        let state = states::to_ask(&mut random);
        Asked::new(seed, random, &state.bytes(), &mut tally).flawed();
    }
    tally.check_numbers("60,000 flawed questions", FLAWED, 1_000);
}

#[test]
fn ask_along_runs_is_answered_alike() {
    let mut tally = Tally::default();
    for seed in 0..20_000 {
        let mut random = Random::new(seed);
        let crowded = random.once_in(4);
        let world = if crowded { World::crowded(&mut random) } else { World::small(&mut random) };
        let (steps, beyond) = (random.below(40), random.index(9));
        let bytes = random.bytes(STATE_BYTES + beyond);
        let mut run = Asked::new(seed, random, &bytes, &mut tally);
        assert_eq!(run.call(&world.set_up(), 0), 0, "seed {seed}");
        for _ in 0..steps {
            let state = State::of(run.state.bytes()).expect("a state in form");
            let step = world.step(&mut run.random, &state);
            run.call(&step, 0);
            match run.random.below(4) {
                0 => run.questions(),
                1 => run.flawed(),
                _ => {}
            }
        }
        run.questions();
    }
    tally.check("20,000 runs", FLAWED, 1_000);
}
