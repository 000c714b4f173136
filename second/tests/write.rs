//! Writing a held datum, by both programs: edges by name, then seeded states.

use second::epochs::{FIRST_EPOCHS, GREATEST_EPOCH};
use second::instants::{Interval, GREATEST_END, GREATEST_INSTANT};
use second::lent::{compare, Lent};
use second::message::{self, ends_form_bytes, Message, MESSAGE_BYTES, MOST_WORDS};
use second::predicates::{ALL_NAMES, GREATEST_NAME, NAMES};
use second::random::Random;
use second::samples::{rounds_outward, states};
use second::state::{Datum, State, DATUM_TERMS, MOST_DATA, MOST_ENTRIES, OWN_AT, STATE_BYTES};
use second::{engine, writing};

/// Writes in both programs to an output of so many filled bytes. A taken call may change `written`
/// bytes. Gives the number and the output.
fn write_in(bytes: &[u8], position: u64, len: usize, written: usize) -> (u32, Vec<u8>) {
    let mut random = Random::new(position ^ len as u64);
    let filled = random.bytes(len);
    let (mut state, mut out) = (Lent::new(bytes, &mut random), Lent::new(&filled, &mut random));
    let number = compare(
        &mut state,
        &mut out,
        [0, written],
        |bytes, out| writing::call(bytes, position, out),
        |bytes, out| engine::monitor_write(bytes, position, out),
    );
    let case = || format!("monitor_write {position}, {len} bytes, in {:?}", State::of(bytes));
    (number.unwrap_or_else(|fault| panic!("{}: {fault}", case())), out.bytes().to_vec())
}

fn refused(state: &State, position: u64, number: u32) {
    let shortest = ends_form_bytes(2, 1);
    for len in [0, shortest - 1, shortest, MESSAGE_BYTES, MESSAGE_BYTES + 44] {
        assert_eq!(write_in(&state.bytes(), position, len, 0).0, number, "{len} bytes");
    }
}

/// The identifiers that the datum's message has an epoch word for: the own one and those in its
/// terms.
fn identifiers(state: &State, position: u64) -> Vec<u32> {
    let terms = &state.held[position as usize].predicate;
    let has = |&n: &u32| n == state.own || terms.iter().any(|t| t >> n & 1 != 0);
    (0..NAMES).filter(has).collect()
}

/// The words that the datum at a position is written as, into an output of just their length.
fn written(state: &State, position: u64) -> Vec<u32> {
    let terms = state.held[position as usize].predicate.len();
    let len = ends_form_bytes(identifiers(state, position).len(), terms);
    let (number, out) = write_in(&state.bytes(), position, len, len);
    assert_eq!(number, 0, "{position} in {state:?}");
    message::words_of(&out).expect("whole words").to_vec()
}

fn holding(own: u32, held: Vec<Datum>) -> State {
    State { held, ..State::fresh(own, 100, 1_000) }
}

/// How many terms the datum at a position of a full state has: 1 to the most.
fn terms_at(position: u64) -> usize {
    position as usize % DATUM_TERMS + 1
}

/// The most data.
fn full() -> State {
    let terms = |count: usize| (0..count).map(|n| 1 << (n + 3)).collect::<Vec<u32>>();
    let held = (0..MOST_DATA as u64).map(|i| Datum::of(i, 1_000 * i, &terms(terms_at(i))));
    holding(0, held.collect())
}

#[test]
fn write_gives_ends_form_with_the_own_name_as_sender() {
    let state = holding(4, vec![Datum::of(900, 1_100, &[6, 8])]);
    // The words of the same message in tests/message.rs.
    let words = [
        536870980, 1, 2, 3, 4, 1073741824, 1073742724, 1610612736, 1610613836, 3221225478,
        3221225480, 3758098476,
    ];
    assert_eq!(written(&state, 0), words);
}

#[test]
fn write_gives_the_epochs_that_are_known() {
    // 1 + 2, where 1 is known at epoch 3 and the own 5 at epoch 7; 9 is in no term.
    let state = holding(5, vec![Datum::of(0, 10, &[2, 4])]).at(&[(1, 3), (5, 7), (9, 8)]);
    let words = [
        536870981, 97, 2, 229, 1073741824, 1073741824, 1610612736, 1610612746, 3221225474,
        3221225476, 3758096797,
    ];
    assert_eq!(written(&state, 0), words);
    for epoch in 0..=GREATEST_EPOCH {
        let other = state.clone().at(&[(2, epoch), (5, 15 - epoch)]);
        let [two, own] = [epoch, 15 - epoch].map(u32::from);
        assert_eq!(written(&other, 0)[1..4], [97, 32 * two + 2, 32 * own + 5]);
    }
}

#[test]
fn write_longest_message_has_43_words() {
    for own in [0, 5, GREATEST_NAME] {
        // Each of eight terms lacks another name, and the own one.
        let others = (0..NAMES).filter(|&n| n != own).take(DATUM_TERMS);
        let mut terms: Vec<u32> = others.map(|n| ALL_NAMES & !(1 << own | 1 << n)).collect();
        terms.sort_unstable();
        let epochs: Vec<(u32, u8)> = (0..NAMES).map(|n| (n, (n % 16) as u8)).collect();
        let state = holding(own, vec![Datum::of(3, GREATEST_END, &terms)]).at(&epochs);
        let words = written(&state, 0);
        assert_eq!(words.len(), MOST_WORDS);
        assert!(words[1..30].iter().copied().eq((0..NAMES).map(|n| n % 16 * 32 + n)));
    }
}

#[test]
fn write_high_and_low_words_of_the_ends() {
    let state = holding(9, vec![Datum::of(536_870_914, 1_610_612_740, &[1])]);
    let word = |kind: u32, payload: u32| kind << 29 | payload;
    let (left, right) = ([word(2, 1), word(2, 2)], [word(3, 3), word(3, 4)]);
    let words = [&[word(1, 9 + 32), 0, 9], &left[..], &right[..], &[word(6, 1)]].concat();
    let check = word(7, 9 + 32 + 9 + 1 + 2 + 3 + 4 + 1);
    assert_eq!(written(&state, 0), [&words[..], &[check]].concat());
}

#[test]
fn write_rounds_the_left_end_down_and_the_right_end_up() {
    let cases = [
        ((999_900, 11_000_100), (0, 12)),
        ((999_999, 1_000_001), (0, 2)),
        ((1_000_000, 1_000_000), (1, 1)),
        ((5_200_000, 5_900_000), (5, 6)),
        ((5_000_001, 5_000_001), (5, 6)),
        ((5_999_999, 6_000_000), (5, 6)),
        (((1 << 29) * 1_000_000 - 1, (1 << 29) * 1_000_000 + 1), ((1 << 29) - 1, (1 << 29) + 1)),
        ((GREATEST_INSTANT - 1, GREATEST_INSTANT), (GREATEST_END - 1, GREATEST_END)),
        ((GREATEST_INSTANT - 999_999, GREATEST_INSTANT - 1), (GREATEST_END - 1, GREATEST_END)),
        ((GREATEST_INSTANT, GREATEST_INSTANT), (GREATEST_END, GREATEST_END)),
    ];
    for ((left, right), (whole_left, whole_right)) in cases {
        let state = holding(9, vec![Datum::exact(left, right, &[2])]);
        let message = message::read(&written(&state, 0)).expect("a sound message");
        let wanted = Interval { left: whole_left, right: whole_right };
        assert_eq!(message.interval, wanted, "{left} {right}");
    }
}

#[test]
fn write_least_and_greatest_ends_and_names() {
    for own in [0, GREATEST_NAME] {
        let name = 1 << (GREATEST_NAME - own);
        let state = holding(own, vec![Datum::of(0, GREATEST_END, &[name])]);
        let message = message::read(&written(&state, 0)).expect("a sound message");
        assert_eq!((message.sender, &message.terms[..]), (own, &[name][..]));
        assert_eq!((message.interval.left, message.interval.right), (0, GREATEST_END));
    }
}

#[test]
fn write_position_0_is_the_oldest() {
    let state = full();
    for position in 0..MOST_DATA as u64 {
        let message = message::read(&written(&state, position)).expect("a sound message");
        let datum = state.held[position as usize];
        assert_eq!(message.interval.exact(), datum.interval);
        assert_eq!(message.terms[..], datum.predicate[..]);
    }
}

#[test]
fn write_position_without_a_held_datum_is_23() {
    let most = MOST_DATA as u64;
    for held in 0..=MOST_DATA {
        let state = holding(0, full().held[..held].to_vec());
        let held = held as u64;
        for position in
            [held, held + 1, most, most + 1, 255, 256, 1 << 16, 1 << 32, 1 << 63, u64::MAX]
        {
            refused(&state, position, 23);
        }
    }
    // Entries are no data.
    let entries = vec![full().held[0].predicate; MOST_ENTRIES];
    refused(&State { entries, ..State::fresh(0, 0, 0) }, 0, 23);
}

#[test]
fn write_output_one_byte_short_is_24_and_longer_is_taken() {
    let bytes = full().bytes();
    for position in 0..MOST_DATA as u64 {
        // Each term has one name of its own.
        let needed = ends_form_bytes(1 + terms_at(position), terms_at(position));
        for len in (0..=MESSAGE_BYTES + 14).chain([255, 256, 65_536, 65_540]) {
            let (number, _) = write_in(&bytes, position, len, needed);
            assert_eq!(number, if len < needed { 24 } else { 0 }, "{position}, {len} bytes");
        }
    }
}

#[test]
fn write_bytes_beyond_the_state_play_no_part() {
    let bytes = full().bytes();
    let longer = [&bytes[..], &[255; 40]].concat();
    let (last, len) = (MOST_DATA as u64 - 1, MESSAGE_BYTES);
    assert_eq!(write_in(&longer, last, len, len), write_in(&bytes, last, len, len));
}

#[test]
fn write_several_flaws_is_the_first_of_24_25_23_24() {
    let mut broken = full().bytes();
    broken[OWN_AT] = GREATEST_NAME as u8 + 1;
    let most = MOST_DATA as u64;
    for (position, len) in [(0, MESSAGE_BYTES), (0, 0), (most, MESSAGE_BYTES), (most, 0)] {
        assert_eq!(write_in(&broken[..STATE_BYTES - 1], position, len, 0).0, 24);
        assert_eq!(write_in(&broken, position, len, 0).0, 25);
    }
    refused(&full(), most, 23);
    assert_eq!(write_in(&full().bytes(), 0, ends_form_bytes(2, 1) - 1, 0).0, 24);
}

#[test]
fn write_every_datum_of_any_state_reads_back() {
    let (mut mended, mut longest, mut fractions) = (0, 0, 0);
    for seed in 0..5_000 {
        let state = states::in_form(&mut Random::new(seed));
        for (position, datum) in state.held.iter().enumerate() {
            let words = written(&state, position as u64);
            let terms = datum.predicate;
            let mut epochs = FIRST_EPOCHS;
            for n in identifiers(&state, position as u64) {
                epochs[n as usize] = state.epochs[n as usize];
            }
            mended += u64::from(epochs != FIRST_EPOCHS);
            longest = longest.max(words.len());
            let read = message::read(&words).expect("a sound message");
            let interval = read.interval;
            assert!(rounds_outward(interval, datum.interval), "seed {seed}: {read:?}, {datum:?}");
            fractions += u64::from(interval.exact() != datum.interval);
            assert_eq!(read, Message { sender: state.own, epochs, interval, terms }, "seed {seed}");
        }
    }
    assert!(
        mended > 2_000 && longest > 36 && fractions > 10_000,
        "{mended}, {longest}, {fractions}"
    );
}
