//! Reading and rewriting a message: edges by name, whole ranges, then seeded messages, all by both
//! programs. Refusals are the same in both calls, so an edge named after reading looks at both.

use second::instants::{Interval, GREATEST_END};
use second::message::{
    self, bytes_of, ends_form_bytes, words_of, Message, ENDS_WORDS, LEAST_WORDS, MESSAGE_BYTES,
    MOST_TERMS, MOST_WORDS, READING_BYTES,
};
use second::predicates::{ALL_NAMES, GREATEST_NAME, NAMES};
use second::random::Random;
use second::samples::Tally;
use second::{engine, samples};
use std::collections::{BTreeMap, BTreeSet};

// ---- what is compared

struct Call {
    name: &'static str,
    engine: fn(&[u8], &mut [u8]) -> u32,
    second: fn(&[u8], &mut [u8]) -> u32,
    /// How many bytes the call writes for a message that is taken.
    written: fn(&[u8]) -> usize,
}

const READ: Call = Call {
    name: "monitor_message_read",
    engine: engine::monitor_message_read,
    second: message::read_call,
    written: |_| READING_BYTES,
};

const REWRITE: Call = Call {
    name: "monitor_message_rewrite",
    engine: engine::monitor_message_rewrite,
    second: message::rewrite_call,
    written: rewritten_bytes,
};

const CALLS: [Call; 2] = [READ, REWRITE];

/// As many as ends form has with the epoch words that there are and the terms that the head counts.
fn rewritten_bytes(message: &[u8]) -> usize {
    let words: Vec<u32> = message.chunks_exact(4).map(le).collect();
    let terms = words.first().map_or(0, |head| head >> 5 & 31);
    ends_form_bytes(epoch_count(&words), terms as usize)
}

/// How many words of kind 0 are next to the head.
fn epoch_count(words: &[u32]) -> usize {
    words.iter().skip(1).take_while(|&w| w >> 29 == 0).count()
}

/// Filled bytes on both sides of a lent output.
const GUARD: usize = 64;

/// Runs a call in both programs on outputs of `len` filled bytes between guards, and compares the
/// numbers and every byte. Gives the number and the output.
fn compare(call: &Call, message: &[u8], len: usize, seed: u64) -> (u32, Vec<u8>) {
    // Not the seed of the message, lest the filling repeat its bytes.
    let mut random = Random::new(!seed);
    let start = GUARD + random.index(8);
    let filled = random.bytes(start + len + GUARD);
    let (mut second_bytes, mut engine_bytes) = (filled.clone(), filled.clone());
    let lent = message.to_vec();
    let number = (call.second)(message, &mut second_bytes[start..start + len]);
    let engine_number = (call.engine)(message, &mut engine_bytes[start..start + len]);
    let case = || {
        let words: Vec<u32> = lent.chunks_exact(4).map(le).collect();
        format!(
            "{}, seed {seed}: {} bytes, words {words:?}, output of {len} bytes",
            call.name,
            lent.len(),
        )
    };
    assert_eq!(engine_number, number, "numbers of engine and second program: {}", case());
    assert_eq!(engine_bytes, second_bytes, "bytes of engine and second program: {}", case());
    assert_eq!(message, lent, "the message was changed: {}", case());
    let written = if number == 0 { (call.written)(message) } else { 0 };
    let beyond = start + written;
    assert_eq!(second_bytes[..start], filled[..start], "bytes before: {}", case());
    assert_eq!(second_bytes[beyond..], filled[beyond..], "bytes not written: {}", case());
    (number, second_bytes[start..start + len].to_vec())
}

fn le(bytes: &[u8]) -> u32 {
    bytes.iter().rev().fold(0, |w, &b| w << 8 | u32::from(b))
}

// ---- messages made by hand

fn w(kind: u32, payload: u32) -> u32 {
    kind << 29 | payload
}

fn head(sender: u32, count: u32) -> u32 {
    w(1, sender + 32 * count)
}

/// High 29 bits, then low.
fn two(kind: u32, number: u64) -> [u32; 2] {
    [w(kind, (number / (1 << 29)) as u32), w(kind, (number % (1 << 29)) as u32)]
}

/// The words, closed by their check word.
fn closed(mut words: Vec<u32>) -> Vec<u32> {
    let sum: u64 = words.iter().map(|&w| u64::from(w)).sum();
    words.push(w(7, (sum % (1 << 29)) as u32));
    words
}

/// The words with the last one's payload made right again.
fn corrected(mut words: Vec<u32>) -> Vec<u32> {
    let last = words.pop().expect("a check word");
    let check = closed(words.clone()).pop().expect("a check word");
    words.push(w(last >> 29, check % (1 << 29)));
    words
}

/// Head, epoch words, interval and terms, closed by their check word.
fn joined(sender: u32, epochs: &[u32], interval: &[u32], terms: &[u32]) -> Vec<u32> {
    let terms: Vec<u32> = terms.iter().map(|&t| w(6, t)).collect();
    closed([&[head(sender, terms.len() as u32)], epochs, interval, &terms].concat())
}

/// The identifiers that there has to be an epoch word for, rising. At epoch 0 they are these words.
fn wanted(sender: u32, terms: &[u32]) -> Vec<u32> {
    (0..32).filter(|&n| n == sender || terms.iter().any(|t| t >> n & 1 != 0)).collect()
}

/// In ends form with these epoch words.
fn ends_with(epochs: &[u32], sender: u32, left: u64, right: u64, terms: &[u32]) -> Vec<u32> {
    joined(sender, epochs, &[two(2, left), two(3, right)].concat(), terms)
}

fn ends(sender: u32, left: u64, right: u64, terms: &[u32]) -> Vec<u32> {
    ends_with(&wanted(sender, terms), sender, left, right, terms)
}

fn centre(sender: u32, centre: u64, half: u32, terms: &[u32]) -> Vec<u32> {
    let interval = [&two(4, centre)[..], &[w(5, half)]].concat();
    joined(sender, &wanted(sender, terms), &interval, terms)
}

/// Sound messages of every length, in both forms: first with terms of one name each, then with the
/// most terms, the last of which has more and more names.
fn every_length() -> Vec<Vec<u32>> {
    let terms: Vec<u32> = (0..MOST_TERMS).map(|n| 1 << (3 * n + 7)).collect();
    let mut lists: Vec<Vec<u32>> = (0..=terms.len()).map(|count| terms[..count].to_vec()).collect();
    let mut longest = terms.clone();
    for n in (0..NAMES).filter(|&n| terms.iter().all(|t| t >> n & 1 == 0)) {
        longest[terms.len() - 1] |= 1 << n;
        lists.push(longest.clone());
    }
    let both =
        |t: &Vec<u32>| [ends(3, 5 << 29 | 7, 6 << 29 | 1, t), centre(4, 9 << 29 | 5, 1000, t)];
    lists.iter().flat_map(both).collect()
}

/// The place of the word behind the epoch words.
fn opening(words: &[u32]) -> usize {
    1 + epoch_count(words)
}

// ---- what is expected

/// Both calls refuse with this number, whatever the output's length: 24 comes last.
fn refused_bytes(message: &[u8], number: u32) {
    let about = [ends_form_bytes(1, 0), READING_BYTES, MESSAGE_BYTES].map(|len| [len - 1, len]);
    for call in &CALLS {
        for len in [&[0], about.as_flattened(), &[MESSAGE_BYTES + 44]].concat() {
            assert_eq!(compare(call, message, len, 0).0, number, "{}", call.name);
        }
    }
}

fn refused(words: &[u32], number: u32) {
    refused_bytes(&bytes_of(words), number);
}

/// Both calls take the message and give these parts.
fn taken(words: &[u32], sender: u32, left: u64, right: u64, terms: &[u32]) {
    let bytes = bytes_of(words);
    let numbers = [u64::from(sender), left, right, terms.len() as u64];
    let reading: Vec<u8> = numbers.iter().flat_map(|n| n.to_le_bytes()).collect();
    assert_eq!(compare(&READ, &bytes, READING_BYTES, 0), (0, reading));
    let epochs = &words[1..opening(words)];
    let rewritten = bytes_of(&ends_with(epochs, sender, left, right, terms));
    assert_eq!(compare(&REWRITE, &bytes, rewritten.len(), 0), (0, rewritten));
}

// ---- edges: what is taken

#[test]
fn read_first_message_of_the_listing() {
    let words = [536870913, 1, 1073741824, 1074741824, 1610612736, 1611612936, 3760096586];
    taken(&words, 1, 1_000_000, 1_000_200, &[]);
}

#[test]
fn read_second_message_of_the_listing() {
    let words = [536870914, 2, 1073741824, 1076742824, 1610612736, 1613613736, 3764098388];
    taken(&words, 2, 3_001_000, 3_001_000, &[]);
}

#[test]
fn read_terms_of_document_01s_case() {
    // Sender 1, terms {1,2} and {3}: 6 and 8.
    taken(&ends(1, 0, 10, &[6, 8]), 1, 0, 10, &[6, 8]);
    taken(&centre(1, 5, 5, &[6, 8]), 1, 0, 10, &[6, 8]);
}

#[test]
fn read_high_and_low_words_of_the_ends() {
    let words = closed(vec![head(9, 0), 9, w(2, 1), w(2, 2), w(3, 3), w(3, 4)]);
    taken(&words, 9, 536_870_914, 1_610_612_740, &[]);
    let words = closed(vec![head(9, 0), 9, w(4, 1), w(4, 2), w(5, 3)]);
    taken(&words, 9, 536_870_911, 536_870_917, &[]);
}

#[test]
fn read_least_and_greatest_sender_is_taken() {
    taken(&ends(0, 1, 2, &[]), 0, 1, 2, &[]);
    let (name, alone) = (GREATEST_NAME, 1 << GREATEST_NAME);
    taken(&ends(name, 1, 2, &[]), name, 1, 2, &[]);
    taken(&centre(name, 2, 1, &[alone]), name, 1, 3, &[alone]);
}

#[test]
fn read_every_length_is_taken() {
    let mut lengths = BTreeSet::new();
    for words in every_length() {
        let message = message::read(&words).expect("a sound message");
        let Interval { left, right } = message.interval;
        taken(&words, message.sender, left, right, &message.terms);
        lengths.insert(words.len());
    }
    assert!(lengths.into_iter().eq(6..=43));
}

#[test]
fn read_all_payload_bits_in_the_ends_is_taken() {
    // The sum of the words passes 2^32 several times.
    taken(&ends(7, GREATEST_END, GREATEST_END, &[]), 7, GREATEST_END, GREATEST_END, &[]);
    taken(&ends(7, 0, GREATEST_END, &[]), 7, 0, GREATEST_END, &[]);
}

#[test]
fn read_empty_term_alone_is_taken() {
    taken(&ends(2, 0, 1, &[0]), 2, 0, 1, &[0]);
    taken(&centre(2, 1, 1, &[0]), 2, 0, 2, &[0]);
}

#[test]
fn read_all_names_in_a_term_is_taken() {
    taken(&ends(2, 0, 1, &[ALL_NAMES]), 2, 0, 1, &[ALL_NAMES]);
}

#[test]
fn read_overlapping_terms_are_taken() {
    taken(&ends(2, 0, 1, &[3, 5, 6]), 2, 0, 1, &[3, 5, 6]);
}

#[test]
fn read_term_naming_the_sender_is_taken() {
    taken(&ends(2, 0, 1, &[4]), 2, 0, 1, &[4]);
}

// ---- edges: each refusal

#[test]
fn read_word_count_outside_6_to_43_is_10() {
    let whole = ends(1, 0, 1, &[1, 2, 4, 8, 16, 32, 64, 128]);
    for count in (0..LEAST_WORDS).chain(MOST_WORDS + 1..=MOST_WORDS + 6) {
        let mut words = whole.clone();
        words.resize(count, w(6, 256));
        refused(&words, 10);
    }
}

#[test]
fn read_nine_terms_in_44_words_is_10() {
    let words = ends(1, 0, 1, &[1, 2, 4, 8, 16, 32, 64, 128, ALL_NAMES & !255]);
    assert_eq!(words.len(), 44);
    refused(&words, 10);
    // Fewer names leave it to 12.
    refused(&ends(1, 0, 1, &[1, 2, 4, 8, 16, 32, 64, 128, 256]), 12);
}

#[test]
fn read_five_words_of_a_centre_form_is_10() {
    refused(&closed(vec![head(1, 0), 1, w(4, 0), w(5, 0)]), 10);
    // As it was sent before there were epochs.
    refused(&closed(vec![head(1, 0), w(4, 0), w(4, 0), w(5, 0)]), 10);
}

#[test]
fn read_words_of_kind_0_alone_behind_the_head_are_11() {
    for count in LEAST_WORDS..=MOST_WORDS {
        let mut words = vec![0; count];
        words[0] = head(1, 0);
        refused(&words, 11);
        words = (0..count as u32).map(|n| n % NAMES).collect();
        words[0] = head(1, 8);
        refused(&words, 11);
    }
    refused(&[&[head(1, 0)], &[0; MOST_WORDS][..]].concat(), 10);
    refused(&[head(1, 0), 1, 0, 0, 0], 10);
}

#[test]
fn read_length_not_a_multiple_of_4_is_10() {
    for words in every_length() {
        let bytes = bytes_of(&words);
        for more in 1..4 {
            refused_bytes(&[&bytes[..], &[0xff, 0, 0][..more]].concat(), 10);
            refused_bytes(&bytes[..bytes.len() - more], 10);
        }
    }
}

#[test]
fn read_sound_message_and_many_words_more_is_10() {
    // Counts that would be in range if they were cut to 8 or 16 bits.
    for words in every_length() {
        for more in [256, 65_536] {
            let mut words = words.clone();
            words.resize(words.len() + more, 0);
            refused(&words, 10);
        }
    }
}

#[test]
fn read_head_of_another_kind_is_12() {
    for kind in [0, 2, 3, 4, 5, 6, 7] {
        let mut words = ends(1, 0, 1, &[]);
        words[0] = w(kind, 1);
        refused(&corrected(words), 12);
    }
}

#[test]
fn read_sender_above_28_is_12() {
    for sender in GREATEST_NAME + 1..32 {
        refused(&ends(sender, 0, 1, &[]), 12);
        refused(&centre(sender, 1, 1, &[1]), 12);
    }
}

#[test]
fn read_term_count_above_8_is_12() {
    for count in MOST_TERMS + 1..32 {
        let mut words = centre(1, 1, 1, &[1, 2, 4, 8, 16, 32, 64, ALL_NAMES & !127]);
        // Nine terms in centre form make 43 words, which 10 lets pass.
        words.insert(words.len() - 1, w(6, 256));
        assert_eq!(words.len(), MOST_WORDS);
        words[0] = head(1, count);
        refused(&corrected(words), 12);
    }
}

#[test]
fn read_any_of_bits_10_to_28_in_the_head_is_12() {
    for bit in 10..29 {
        let mut words = ends(1, 0, 1, &[]);
        words[0] |= 1 << bit;
        refused(&corrected(words), 12);
    }
}

#[test]
fn read_opening_word_of_another_kind_is_11() {
    for kind in [1, 3, 5, 6, 7] {
        for mut words in every_length() {
            let place = opening(&words);
            words[place] = w(kind, 0);
            refused(&corrected(words), 11);
        }
    }
}

#[test]
fn read_opening_word_of_kind_0_is_one_epoch_word_more() {
    for mut words in every_length() {
        let place = opening(&words);
        words[place] = 0;
        // The next word is of the same form's kind, and there is one too few.
        refused(&corrected(words), 13);
    }
}

#[test]
fn read_epoch_word_of_another_kind_ends_the_epoch_words() {
    for words in every_length() {
        let (last, form) = (opening(&words) - 1, words[opening(&words)] >> 29);
        for place in 1..=last {
            for kind in 1..8 {
                let mut words = words.clone();
                words[place] = w(kind, words[place]);
                let number = match kind {
                    // Ends form has one word more than centre form.
                    2 if form == 4 && place == last => 14,
                    2 | 4 => 13,
                    _ => 11,
                };
                refused(&corrected(words), number);
            }
        }
    }
}

#[test]
fn read_word_count_not_that_of_head_and_form_is_13() {
    for words in every_length() {
        let count = words[0] >> 5 & 31;
        for other in (0..=MOST_TERMS).filter(|&other| other != count) {
            let mut words = words.clone();
            words[0] = head(3, other);
            refused(&corrected(words), 13);
        }
    }
}

#[test]
fn read_one_form_in_the_other_ones_length_is_13() {
    refused(&closed(vec![head(1, 0), 1, w(2, 0), w(2, 0), w(3, 0)]), 13);
    refused(&closed(vec![head(1, 0), 1, w(4, 0), w(4, 0), w(5, 0), w(6, 1)]), 13);
}

#[test]
fn read_later_word_of_another_kind_is_14() {
    for words in every_length() {
        for place in opening(&words) + 1..words.len() {
            for kind in (0..8).filter(|&kind| kind != words[place] >> 29) {
                let mut words = words.clone();
                words[place] = w(kind, words[place] % (1 << 29));
                refused(&words, 14);
            }
        }
    }
}

#[test]
fn read_check_word_with_any_bit_flipped_is_15() {
    for words in every_length() {
        for bit in 0..29 {
            let mut words = words.clone();
            *words.last_mut().expect("a check word") ^= 1 << bit;
            refused(&words, 15);
        }
    }
}

#[test]
fn read_check_word_without_the_head_is_15() {
    let mut words = ends(5, 0, 1, &[]);
    words[6] -= 5;
    refused(&words, 15);
}

#[test]
fn read_check_word_without_the_epoch_words_is_15() {
    for epoch in [1, 15] {
        let mut words = ends_with(&[32 * epoch + 5], 5, 0, 1, &[]);
        words[6] -= 32 * epoch + 5;
        refused(&words, 15);
    }
}

#[test]
fn read_left_above_right_is_16() {
    for right in [0, 999, (1 << 29) - 1, GREATEST_END - 1] {
        taken(&ends(1, right, right, &[]), 1, right, right, &[]);
        refused(&ends(1, right + 1, right, &[]), 16);
    }
    // The low word alone would be in order.
    refused(&ends(1, 1 << 29, (1 << 29) - 1, &[]), 16);
    refused(&ends(1, GREATEST_END, 0, &[]), 16);
}

#[test]
fn read_centre_reaching_below_0_is_16() {
    for half in [0, 1, 1000, (1 << 29) - 1] {
        let at = u64::from(half);
        taken(&centre(1, at, half, &[]), 1, 0, 2 * at, &[]);
        if half > 0 {
            refused(&centre(1, at - 1, half, &[]), 16);
            refused(&centre(1, 0, half, &[]), 16);
        }
    }
}

#[test]
fn read_centre_reaching_above_the_greatest_end_is_16() {
    for half in [0, 1, 1000, (1 << 29) - 1] {
        let at = GREATEST_END - u64::from(half);
        taken(&centre(1, at, half, &[]), 1, at - u64::from(half), GREATEST_END, &[]);
        if half > 0 {
            refused(&centre(1, at + 1, half, &[]), 16);
            refused(&centre(1, GREATEST_END, half, &[]), 16);
        }
    }
}

/// Terms that are refused 17 in either form.
fn refused_terms(terms: &[u32]) {
    refused(&ends(1, 0, 2, terms), 17);
    refused(&centre(1, 1, 1, terms), 17);
}

#[test]
fn read_empty_term_beside_another_is_17() {
    refused_terms(&[0, 1]);
    refused_terms(&[1, 0]);
    refused_terms(&[0, 1 << GREATEST_NAME]);
    refused_terms(&[0, 0]);
    refused_terms(&[0, 1, 2, 4, 8, 16, 32, 64]);
}

#[test]
fn read_falling_terms_are_17() {
    refused_terms(&[2, 1]);
    refused_terms(&[1, 2, 4, 8, 16, 32, 128, 64]);
    refused_terms(&[1 << GREATEST_NAME, 1]);
}

#[test]
fn read_equal_terms_are_17() {
    refused_terms(&[1, 1]);
    refused_terms(&[1, 2, 4, 8, 16, 32, 64, 64]);
}

#[test]
fn read_term_containing_another_is_17() {
    refused_terms(&[1, 3]);
    refused_terms(&[2, 3]);
    refused_terms(&[1 << GREATEST_NAME, 1 << GREATEST_NAME | 1]);
}

#[test]
fn read_last_term_containing_the_first_of_eight_is_17() {
    refused_terms(&[1, 2, 4, 8, 16, 32, 64, 129]);
}

// ---- edges: epoch words

#[test]
fn read_every_epoch_of_every_identifier_is_taken() {
    for n in 0..NAMES {
        for epoch in 0..16 {
            let word = 32 * epoch + n;
            taken(&ends_with(&[word], n, 1, 2, &[]), n, 1, 2, &[]);
            // As the sender is another.
            let other = (n + 1) % NAMES;
            let mut epochs = [word, other];
            epochs.sort_unstable_by_key(|word| word & 31);
            taken(&ends_with(&epochs, other, 1, 2, &[1 << n]), other, 1, 2, &[1 << n]);
        }
    }
}

#[test]
fn read_epoch_words_of_the_sender_and_of_its_terms_are_one() {
    taken(&ends_with(&[35, 4], 3, 1, 2, &[8, 16]), 3, 1, 2, &[8, 16]);
    refused(&ends_with(&[35, 35, 4], 3, 1, 2, &[8, 16]), 42);
}

/// Messages whose epoch words are to be flawed: ends form, and centre form by its first words.
fn refused_epochs(epochs: &[u32], sender: u32, terms: &[u32]) {
    refused(&ends_with(epochs, sender, 1, 2, terms), 42);
    let words = joined(sender, epochs, &[w(4, 0), w(4, 1), w(5, 1)], terms);
    if words.len() >= LEAST_WORDS {
        refused(&words, 42);
    }
}

#[test]
fn read_missing_epoch_words_are_42() {
    refused_epochs(&[], 1, &[]);
    refused_epochs(&[1], 1, &[4]);
    refused_epochs(&[2], 1, &[4]);
    refused_epochs(&[], 1, &[4]);
    // One of many, wherever it stands.
    let terms = [0x1555_5555, 0x0aaa_aaaa];
    for n in 0..NAMES {
        let epochs: Vec<u32> = (0..NAMES).filter(|&m| m != n).collect();
        refused_epochs(&epochs, 28, &[terms[1], terms[0]]);
    }
}

#[test]
fn read_unordered_epoch_words_are_42() {
    refused_epochs(&[2, 1], 1, &[4]);
    refused_epochs(&[1, 3, 2], 1, &[12]);
    refused_epochs(&[2, 1, 3], 1, &[12]);
    // By identifier and not by the whole word.
    taken(&ends_with(&[33, 2], 1, 1, 2, &[4]), 1, 1, 2, &[4]);
    refused_epochs(&[2, 33], 1, &[4]);
}

#[test]
fn read_epoch_words_twice_are_42() {
    refused_epochs(&[1, 1], 1, &[]);
    refused_epochs(&[1, 33], 1, &[]);
    refused_epochs(&[33, 1], 1, &[]);
    refused_epochs(&[1, 2, 2], 1, &[4]);
    refused_epochs(&[1, 1, 2], 1, &[4]);
}

#[test]
fn read_too_many_epoch_words_are_42() {
    for n in (0..NAMES).filter(|&n| n != 14) {
        let mut epochs = [14, n];
        epochs.sort_unstable();
        refused_epochs(&epochs, 14, &[]);
        refused_epochs(&epochs, 14, &[0]);
    }
    // As many as there have to be, one of them of another.
    refused_epochs(&[1, 3], 1, &[4]);
    refused_epochs(&[2], 1, &[]);
}

#[test]
fn read_any_of_bits_9_to_28_in_an_epoch_word_is_42() {
    for bit in 9..29 {
        for epoch in [0, 15] {
            let word = 32 * epoch + 1;
            refused_epochs(&[word | 1 << bit], 1, &[]);
            refused_epochs(&[word | 1 << bit, 2], 1, &[4]);
            refused_epochs(&[word, 2 | 1 << bit], 1, &[4]);
        }
    }
}

#[test]
fn read_identifier_above_28_in_an_epoch_word_is_42() {
    for identifier in NAMES..32 {
        refused_epochs(&[identifier], 1, &[]);
        refused_epochs(&[1, identifier], 1, &[]);
        refused_epochs(&[1, identifier], 1, &[4]);
    }
}

#[test]
fn read_terms_not_in_normal_form_have_epoch_words_too() {
    for terms in [&[4, 2][..], &[2, 2], &[2, 6], &[0, 4], &[8, 12, 4]] {
        let epochs = wanted(1, terms);
        refused(&ends_with(&epochs, 1, 1, 2, terms), 17);
        for missing in 0..epochs.len() {
            let mut epochs = epochs.clone();
            epochs.remove(missing);
            refused_epochs(&epochs, 1, terms);
        }
    }
}

/// Three words of kind 0, of four identifiers at two epochs, ill formed ones too: all lists of
/// them.
#[test]
fn every_list_of_three_epoch_words_is_answered_alike() {
    let words: [u32; 10] = [0, 1, 2, 3, 32, 33, 34, 29, 512, 513];
    let mut counts = BTreeMap::new();
    for code in 0..1000 {
        let list = [code / 100, code / 10 % 10, code % 10].map(|place| words[place]);
        for count in 0..=3 {
            for (sender, terms) in [(0, &[][..]), (1, &[1]), (1, &[5]), (0, &[2, 4]), (2, &[1, 8])]
            {
                let message = bytes_of(&ends_with(&list[..count], sender, 1, 2, terms));
                let number = compare(&READ, &message, READING_BYTES + 8, code as u64).0;
                assert_eq!(compare(&REWRITE, &message, MESSAGE_BYTES + 4, 0).0, number);
                let names = list[..count].iter().map(|word| word & 31);
                let fits =
                    names.eq(wanted(sender, terms)) && list[..count].iter().all(|&w| w < 512);
                assert_eq!(number, if fits { 0 } else { 42 });
                *counts.entry(number).or_insert(0) += 1;
            }
        }
    }
    assert_eq!(counts.keys().collect::<Vec<_>>(), [&0, &42]);
}

// ---- edges: the order of refusals

#[test]
fn read_bad_length_and_head_is_10() {
    refused(&[0; LEAST_WORDS - 1], 10);
    refused(&[0; MOST_WORDS + 1], 10);
    refused_bytes(&[0; 4 * LEAST_WORDS + 1], 10);
}

#[test]
fn read_bad_head_and_opening_word_is_12() {
    refused(&[w(7, 1), w(7, 1), w(2, 1), w(3, 0), w(3, 1), w(7, 0)], 12);
    refused(&closed(vec![head(GREATEST_NAME + 1, 0), w(3, 0), w(2, 1), w(3, 0), w(3, 1)]), 12);
}

#[test]
fn read_bad_opening_word_and_count_is_11() {
    refused(&closed(vec![head(1, 7), 1, w(5, 0), w(4, 1), w(5, 0)]), 11);
    // And bad epoch words.
    refused(&closed(vec![head(1, 7), 7, w(5, 0), w(4, 1), w(5, 0)]), 11);
}

#[test]
fn read_bad_count_and_kinds_is_13() {
    refused(&[head(1, 2), w(2, 0), w(7, 1), w(7, 0), w(0, 0), w(0, 0)], 13);
    refused(&[head(1, 2), 1, w(2, 0), w(7, 1), w(7, 0), w(0, 0), w(0, 0)], 13);
}

#[test]
fn read_bad_kind_and_check_word_is_14() {
    refused(&[head(1, 0), w(2, 0), w(2, 1), w(3, 0), w(4, 2), w(7, 77)], 14);
    refused(&[head(1, 0), w(2, 0), w(2, 1), w(3, 0), w(3, 2), w(6, 77)], 14);
    refused(&[head(1, 0), 1, w(2, 0), w(2, 1), w(3, 0), w(3, 2), w(6, 77)], 14);
}

#[test]
fn read_bad_kind_and_epoch_words_is_14() {
    for epochs in [&[][..], &[2], &[1, 1], &[1, 2], &[1 << 9 | 1], &[29]] {
        let head = head(1, 0);
        for last in [[w(3, 2), w(6, 77)], [w(2, 2), w(7, 77)]] {
            refused(&[&[head], epochs, &[w(2, 0), w(2, 1), w(3, 0)], &last].concat(), 14);
        }
        // A word of kind 0 that is not next to the head.
        refused(&closed([&[head], epochs, &[w(2, 0), w(2, 1), w(3, 0), 1]].concat()), 14);
    }
}

#[test]
fn read_bad_epoch_words_and_check_word_ends_or_terms_is_42() {
    for epochs in [&[][..], &[2], &[1, 1], &[1, 2], &[1 << 9 | 1], &[29], &[31]] {
        // Ends out of order, and equal terms.
        for terms in [&[][..], &[2, 2]] {
            let sealed = ends_with(epochs, 1, 3, 2, terms);
            let mut unsealed = sealed.clone();
            *unsealed.last_mut().expect("a check word") ^= 1;
            refused(&sealed, 42);
            refused(&unsealed, 42);
        }
    }
}

#[test]
fn read_bad_check_word_and_ends_is_15() {
    refused(&[head(1, 0), 1, w(2, 0), w(2, 9), w(3, 0), w(3, 2), w(7, 77)], 15);
}

#[test]
fn read_bad_ends_and_terms_is_16() {
    refused(&ends(1, 3, 2, &[2, 1]), 16);
    refused(&centre(1, 0, 1, &[0, 1]), 16);
}

// ---- edges: the output

#[test]
fn read_short_output_is_24_and_longer_is_taken() {
    for words in every_length() {
        for len in 0..=READING_BYTES + 16 {
            let number = compare(&READ, &bytes_of(&words), len, len as u64).0;
            assert_eq!(number, if len < READING_BYTES { 24 } else { 0 });
        }
    }
}

#[test]
fn rewrite_short_output_is_24_and_longer_is_taken() {
    for words in every_length() {
        let bytes = bytes_of(&words);
        let needed = rewritten_bytes(&bytes);
        for len in 0..=MESSAGE_BYTES + 24 {
            let number = compare(&REWRITE, &bytes, len, len as u64).0;
            assert_eq!(number, if len < needed { 24 } else { 0 });
        }
    }
}

#[test]
fn read_and_rewrite_much_longer_output_is_taken() {
    for words in every_length() {
        for len in [255, 256, 257, 65_535, 65_536, 65_537] {
            for call in &CALLS {
                assert_eq!(compare(call, &bytes_of(&words), len, 0).0, 0, "{}", call.name);
            }
        }
    }
}

#[test]
fn rewrite_centre_form_gives_ends_form() {
    let words = [
        536870980, 1, 2, 3, 4, 2147483648, 2147484648, 2684354660, 3221225478, 3221225480,
        3758097576,
    ];
    assert_eq!(words[..], centre(4, 1000, 100, &[6, 8]));
    let rewritten = [
        536870980, 1, 2, 3, 4, 1073741824, 1073742724, 1610612736, 1610613836, 3221225478,
        3221225480, 3758098476,
    ];
    assert_eq!(message::rewrite(&words).as_deref(), Ok(&rewritten[..]));
    taken(&words, 4, 900, 1100, &[6, 8]);
}

// ---- whole ranges, compared

#[test]
fn every_flipped_bit_is_answered_alike() {
    for words in every_length() {
        for bit in 0..32 * words.len() {
            let mut flipped = words.clone();
            flipped[bit / 32] ^= 1 << (bit % 32);
            for words in [corrected(flipped.clone()), flipped] {
                for call in &CALLS {
                    compare(call, &bytes_of(&words), MESSAGE_BYTES + 4, bit as u64);
                }
            }
        }
    }
}

#[test]
fn every_head_is_answered_alike() {
    for low in 0..1 << 10 {
        for mut words in every_length() {
            words[0] = w(1, low);
            let bytes = bytes_of(&corrected(words));
            for call in &CALLS {
                compare(call, &bytes, MESSAGE_BYTES + 4, u64::from(low));
            }
        }
    }
}

#[test]
fn every_byte_length_is_answered_alike() {
    for words in every_length() {
        // What lies behind the lent length is the rest of a sound message.
        let bytes = bytes_of(&[words.clone(), words].concat());
        for len in 0..=bytes.len() {
            for call in &CALLS {
                compare(call, &bytes[..len], MESSAGE_BYTES + 4, len as u64);
            }
        }
    }
}

#[test]
fn every_list_of_four_terms_of_three_names_is_answered_alike() {
    let mut counts = BTreeMap::new();
    for code in 0..8u32.pow(4) {
        let terms: Vec<u32> = (0..4).map(|i| code >> (3 * i) & 7).collect();
        for count in 0..=4 {
            for words in [ends(1, 2, 3, &terms[..count]), centre(1, 2, 1, &terms[..count])] {
                let bytes = bytes_of(&words);
                let number = compare(&READ, &bytes, READING_BYTES + 8, u64::from(code)).0;
                assert_eq!(compare(&REWRITE, &bytes, MESSAGE_BYTES + 4, 0).0, number);
                *counts.entry(number).or_insert(0) += 1;
            }
        }
    }
    assert_eq!(counts.keys().collect::<Vec<_>>(), [&0, &17]);
}

// ---- seeded messages

const MESSAGES: u64 = 500_000;
const NUMBERS: [u32; 11] = [0, 10, 11, 12, 13, 14, 15, 16, 17, 24, 42];
/// Fewer of a number, of a length, or of a form with a term count, would be too few to have met its
/// cases.
const ENOUGH: u64 = 1_000;

#[derive(Default)]
struct Seen {
    numbers: BTreeMap<u32, u64>,
    /// What was taken, by the opening word's kind and the term count.
    taken: BTreeMap<(u32, u32), u64>,
    /// And by the length in words.
    lengths: BTreeMap<usize, u64>,
}

impl Seen {
    fn count(&mut self, number: u32, words: &[u32]) {
        *self.numbers.entry(number).or_default() += 1;
        if number == 0 {
            let (form, terms) = (words[opening(words)] >> 29, words[0] >> 5 & 31);
            *self.taken.entry((form, terms)).or_default() += 1;
            *self.lengths.entry(words.len()).or_default() += 1;
        }
    }

    fn line(&self, call: &Call) -> String {
        let numbers = self.numbers.iter().map(|(number, count)| format!("  {number}: {count}"));
        let taken_in =
            |form| (0..=MOST_TERMS).filter_map(|terms| self.taken.get(&(form, terms))).sum();
        let (ends, centre): (u64, u64) = (taken_in(2), taken_in(4));
        let (numbers, lengths): (String, _) = (numbers.collect(), &self.lengths);
        format!(
            "{}{numbers}  (taken: {ends} in ends form, {centre} in centre form, by words {lengths:?})\n",
            call.name
        )
    }

    fn check(&self, call: &Call) {
        for number in NUMBERS {
            let count = self.numbers.get(&number).copied().unwrap_or(0);
            assert!(count >= ENOUGH, "{}: {number} came {count} times", call.name);
        }
        assert_eq!(self.numbers.len(), NUMBERS.len(), "{}: {:?}", call.name, self.numbers);
        for form in [2, 4] {
            for terms in 0..=MOST_TERMS {
                let count = self.taken.get(&(form, terms)).copied().unwrap_or(0);
                assert!(count >= ENOUGH, "{}: kind {form}, {terms} terms: {count}", call.name);
            }
        }
        for words in 6..=43 {
            let count = self.lengths.get(&words).copied().unwrap_or(0);
            assert!(count >= ENOUGH, "{}: {words} words taken {count} times", call.name);
        }
    }
}

/// What is wrong with the epoch words of a message in whole words that 14 lets pass.
fn epoch_flaws(words: &[u32]) -> Vec<&'static str> {
    let (epochs, behind) = words[1..].split_at(epoch_count(words));
    let terms: Vec<u32> = behind.iter().filter(|&w| w >> 29 == 6).map(|w| w % (1 << 29)).collect();
    let (wanted, names) = (wanted(words[0] & 31, &terms), epochs.iter().map(|w| w & 31));
    let names: Vec<u32> = names.collect();
    let rise = names.windows(2).all(|pair| pair[0] <= pair[1]);
    let twice = (1..names.len()).any(|i| names[..i].contains(&names[i]));
    let flaws = [
        ("none at all", names.is_empty()),
        ("missing", !names.is_empty() && wanted.iter().any(|n| !names.contains(n))),
        ("unordered", !rise),
        ("twice", twice),
        ("too many", names.iter().any(|n| *n < NAMES && !wanted.contains(n))),
        ("a bit", epochs.iter().any(|&w| w >= 512)),
        ("an identifier", names.iter().any(|&n| n >= NAMES)),
    ];
    flaws.into_iter().filter_map(|(what, met)| met.then_some(what)).collect()
}

/// Counts why a message was refused 10 or 11: at the edges of the length, by a part of a word, and
/// by what stands behind the epoch words.
fn count_edges(tally: &mut Tally, number: u32, len: usize, words: &[u32]) {
    let none = number == 11 && opening(words) == words.len();
    for (what, met) in [
        ("5 words", number == 10 && len == 4 * 5),
        ("44 words", number == 10 && len == 4 * 44),
        (
            "a part of a word",
            number == 10 && !len.is_multiple_of(4) && (6..=43).contains(&words.len()),
        ),
        ("nothing behind the epoch words", none),
        ("another kind behind them", number == 11 && !none),
    ] {
        tally.count(what, met);
    }
}

/// Counts why a message was refused 42: by each flaw, and by how many flaws at once.
fn count_flaws(tally: &mut Tally, flaws: &[&'static str]) {
    let causes = ["none at all", "missing", "unordered", "twice", "too many", "a bit"];
    for cause in causes {
        tally.count(cause, flaws == [cause]);
    }
    // The one that is misnamed is missing too, unless it is one too many.
    let named = flaws.contains(&"an identifier");
    tally.count(
        "an identifier",
        named && flaws.iter().all(|&f| f == "missing" || f == "an identifier"),
    );
    tally.count("several", flaws.len() > 1 && !named);
}

#[test]
fn seeded_messages_are_answered_alike() {
    let mut seen = [Seen::default(), Seen::default()];
    let (mut flawed, mut edges) = (Tally::default(), Tally::default());
    let mut compared = 0;
    for seed in 0..MESSAGES {
        let mut random = Random::new(seed);
        let sample = samples::message(&mut random);
        let message = sample.message();
        let words: Vec<u32> = message.chunks_exact(4).map(le).collect();
        for (call, seen) in CALLS.iter().zip(&mut seen) {
            let needed = (call.written)(message);
            let more = random.index(48);
            for len in [random.index(needed), needed + random.pick(&[0, 1, more])] {
                let (number, _) = compare(call, message, len, seed);
                seen.count(number, &words);
                count_edges(&mut edges, number, message.len(), &words);
                // Flaws of the epoch words are found after 14, and before the others.
                if [0, 15, 16, 17, 24, 42].contains(&number) {
                    let flaws = epoch_flaws(&words);
                    assert_eq!(number == 42, !flaws.is_empty(), "seed {seed}: {flaws:?}");
                    count_flaws(&mut flawed, &flaws);
                }
            }
        }
        compared += 1;
    }
    let lines: String = CALLS.iter().zip(&seen).map(|(call, seen)| seen.line(call)).collect();
    let report = format!("{compared} messages, each with a short output and a long one\n{lines}");
    samples::report(&report);
    edges.check("10 and 11 of them, each message four times", 4 * ENOUGH);
    flawed.check("42 of them, each message four times", 4 * ENOUGH);
    assert!(compared >= 500_000, "only {compared} messages");
    CALLS.iter().zip(&seen).for_each(|(call, seen)| seen.check(call));
}

// ---- the second program on its own

#[test]
fn written_messages_read_back() {
    for seed in 0..50_000 {
        let words = samples::sound(&mut Random::new(seed));
        let message = message::read(&words).expect("a sound message");
        let written = message::write(&message);
        let epochs = wanted(message.sender, &message.terms).len();
        assert_eq!(written.len(), ENDS_WORDS + epochs + message.terms.len(), "seed {seed}");
        assert_eq!(message::read(&written), Ok(message), "seed {seed}");
    }
}

#[test]
fn rewriting_ends_form_gives_the_same_words() {
    let mut same = 0;
    for seed in 0..50_000 {
        let words = samples::sound(&mut Random::new(seed));
        if words[opening(&words)] >> 29 == 2 {
            assert_eq!(message::rewrite(&words).as_deref(), Ok(&words[..]), "seed {seed}");
            same += 1;
        }
    }
    assert!(same >= 10_000, "only {same} in ends form");
}

#[test]
fn write_with_eight_terms_of_all_names_has_43_words() {
    let terms: Vec<u32> = (0..MOST_TERMS).rev().map(|n| ALL_NAMES & !(1 << n)).collect();
    let message = Message::of(GREATEST_NAME, 0, GREATEST_END, &terms);
    let words = message::write(&message);
    assert_eq!(words[..], ends(GREATEST_NAME, 0, GREATEST_END, &terms));
    assert_eq!(words.len(), 43);
    let all: Vec<(u32, u8)> = (0..NAMES).map(|n| (n, n as u8 / 2)).collect();
    let epochs: Vec<u32> = (0..NAMES).map(|n| n / 2 * 32 + n).collect();
    let words = message::write(&message.at(&all));
    assert_eq!(words[..], ends_with(&epochs, GREATEST_NAME, 0, GREATEST_END, &terms));
}

#[test]
fn words_of_bytes_are_little_endian() {
    let words = words_of(&[1, 2, 3, 4, 0, 0, 0, 0x80]);
    assert_eq!(words.as_deref(), Ok(&[0x0403_0201, 0x8000_0000][..]));
    assert_eq!(words_of(&[1, 2, 3, 4, 5]), Err(10));
    assert_eq!(words_of(&[]).as_deref(), Ok(&[][..]));
    assert_eq!(words_of(&[0; MESSAGE_BYTES]).as_deref(), Ok(&[0; MOST_WORDS][..]));
    assert_eq!(words_of(&[0; MESSAGE_BYTES + 4]), Err(10));
}
