//! Seeded messages to compare with: sound ones of both forms, and flawed ones that reach every
//! refusal, also several flaws at once, so that the order of the tests shows.

use crate::claims::places;
use crate::epochs::{Epochs, Name, FIRST_EPOCHS, GREATEST_EPOCH};
use crate::instants::{joined, Instant, Interval, GREATEST_END, GREATEST_INSTANT};
use crate::message::{
    bytes_of, check_word, epoch_word, epoch_words, kind, named, split, word, MOST_TERMS,
    MOST_WORDS, PAYLOAD,
};
use crate::predicates::{normal, Term, GREATEST_NAME, NAMES};
use crate::random::Random;
use crate::state::GREATEST_MILLIONTHS;
use std::io::{self, Write as _};

pub mod climbing;
pub mod clocks;
pub mod loads;
pub mod runs;
pub mod states;
pub mod sums;
pub mod texts;

/// Says what samples reached, past the capture of a passing test's output: each run shows it.
pub fn report(text: &str) {
    io::stderr().write_all(text.as_bytes()).expect("standard error");
}

/// How often samples met each of the things that they should meet.
#[derive(Default)]
pub struct Tally(Vec<(&'static str, u64)>);

impl Tally {
    /// Counts the thing if it was met, and lists it if it was not.
    pub fn count(&mut self, what: &'static str, met: bool) {
        match self.0.iter_mut().find(|(name, _)| *name == what) {
            Some((_, count)) => *count += u64::from(met),
            None => self.0.push((what, met.into())),
        }
    }

    /// Prints the counts, and checks that each is enough.
    pub fn check(&self, title: &str, enough: u64) {
        let counts = self.0.iter().map(|(what, count)| format!("{what} {count}"));
        report(&format!("{title}: {}\n", counts.collect::<Vec<String>>().join(", ")));
        for (what, count) in &self.0 {
            assert!(*count >= enough, "{what} came {count} times");
        }
    }
}

/// Whether the whole microseconds are the last one up to the left end and the first from the right
/// one on: an exact interval as answers and messages have it, found without a division.
pub fn rounds_outward(whole: Interval<u64>, exact: Interval) -> bool {
    let [low, high] = [whole.left, whole.right].map(|end| 1_000_000 * Instant::from(end));
    let down = low <= exact.left && exact.left < low + 1_000_000;
    down && high - 1_000_000 < exact.right && exact.right <= high
}

/// A message lent from within a longer buffer, at any alignment. Where it was cut short, its last
/// words still lie behind it, so that reading past its length shows.
pub struct Sample {
    buffer: Vec<u8>,
    start: usize,
    end: usize,
}

impl Sample {
    pub fn message(&self) -> &[u8] {
        &self.buffer[self.start..self.end]
    }
}

/// The bytes of a message of any kind.
pub fn message(random: &mut Random) -> Sample {
    let words = if random.once_in(20) { noise(random) } else { flawed(random) };
    let start = random.index(8);
    let whole = 4 * words.len();
    let mut buffer = random.bytes(start + whole + 16);
    buffer[start..start + whole].copy_from_slice(&bytes_of(&words));
    let len = if random.once_in(10) {
        (whole + random.index(16)).saturating_sub(random.index(16))
    } else {
        whole
    };
    Sample { buffer, start, end: start + len }
}

/// The words of a message that is taken, in either form.
pub fn sound(random: &mut Random) -> Vec<u32> {
    let mut terms = normal(&any_terms(random));
    terms.truncate(MOST_TERMS as usize);
    let sender = random.below(NAMES.into()) as u32;
    let (epochs, interval) = (epochs(random), sound_interval(random));
    sealed(sender, &epochs, &interval, &terms)
}

/// The words of a message that may have flaws in its parts, in its words, or none.
fn flawed(random: &mut Random) -> Vec<u32> {
    let mut words = if random.once_in(2) { sound(random) } else { flawed_parts(random) };
    let damages = random.pick(&[0, 0, 0, 1, 1, 2]);
    for _ in 0..damages {
        damage(random, &mut words);
    }
    // Most damage would end at the check word, were it not corrected.
    if damages > 0 && !random.once_in(3) {
        correct(&mut words);
    }
    words
}

/// A message with right kinds and a right check word, each part of it flawed now and then.
fn flawed_parts(random: &mut Random) -> Vec<u32> {
    let terms = if random.once_in(2) { flawed_terms(random) } else { normal(&any_terms(random)) };
    let interval = if random.once_in(2) { flawed_interval(random) } else { sound_interval(random) };
    let (sender, epochs) = (random.below(NAMES.into()) as u32, epochs(random));
    let mut words = sealed(sender, &epochs, &interval, &terms);
    if random.once_in(5) {
        words[0] = flawed_head(random, words[0]);
        correct(&mut words);
    }
    words
}

/// Head, the epoch words that there have to be, interval and terms, closed by the check word.
fn sealed(sender: u32, epochs: &Epochs, interval: &[u32], terms: &[Term]) -> Vec<u32> {
    let mut words = vec![word(kind::HEAD, (terms.len() as u32) << 5 | sender)];
    let named = places(named(sender, terms).into()).map(|n| Name::at(epochs, n as u32));
    words.extend(named.map(epoch_word));
    words.extend(interval);
    words.extend(terms.iter().map(|&t| word(kind::TERM, t)));
    words.push(check_word(&words));
    words
}

/// An epoch for each identifier: mostly the first ones.
pub fn epochs(random: &mut Random) -> Epochs {
    let most = random.pick(&[0, 0, 0, 1, 2, GREATEST_EPOCH]);
    FIRST_EPOCHS.map(|_| random.below(u64::from(most) + 1) as u8)
}

/// Makes the last word's payload that of the check word, and leaves its kind.
fn correct(words: &mut [u32]) {
    if let Some((last, earlier)) = words.split_last_mut() {
        *last = *last & !PAYLOAD | check_word(earlier) & PAYLOAD;
    }
}

/// A head with another sender, another term count or a bit where zero should be.
fn flawed_head(random: &mut Random, head: u32) -> u32 {
    match random.below(3) {
        0 => head & !31 | (u64::from(GREATEST_NAME) + random.below(4)) as u32,
        1 => head & !(31 << 5) | (random.below(32) as u32) << 5,
        _ => head | 1 << (10 + random.below(19)),
    }
}

/// An end, often at a boundary of its range or of its two words.
fn end(random: &mut Random) -> u64 {
    let word_end = u64::from(PAYLOAD);
    let (low, high) = (random.below(4), GREATEST_END - random.below(4));
    let edges = [0, low, word_end, word_end + 1, high, GREATEST_END];
    match random.below(3) {
        0 => random.pick(&edges),
        1 => random.below(2 * word_end),
        _ => random.below(GREATEST_END + 1),
    }
}

/// Millionths of a microsecond: none, few that come again, an edge, or any.
pub fn millionths(random: &mut Random) -> u32 {
    let any = random.below(u64::from(GREATEST_MILLIONTHS) + 1) as u32;
    random.pick(&[0, 0, 1, 200_000, 500_000, GREATEST_MILLIONTHS, any, any])
}

/// An end in that microsecond, if it can be stored with a fraction.
pub fn end_within(random: &mut Random, whole: u64) -> Instant {
    joined(whole, millionths(random)).min(GREATEST_INSTANT)
}

/// The greatest half width that the centre and a payload leave room for.
fn room(centre: u64) -> u64 {
    centre.min(GREATEST_END - centre).min(PAYLOAD.into())
}

fn sound_interval(random: &mut Random) -> Vec<u32> {
    let (one, other) = (end(random), end(random));
    if random.once_in(2) {
        let room = room(one);
        let half = random.below(room + 1);
        centre_form(one, random.pick(&[0, half, room]))
    } else {
        ends_form(one.min(other), one.max(other))
    }
}

/// Ends in any order, near each other too, or a half width at the edge of its room and past it.
fn flawed_interval(random: &mut Random) -> Vec<u32> {
    let (one, other) = (end(random), end(random));
    if random.once_in(2) {
        let any = random.below(u64::from(PAYLOAD) + 1);
        let past = (room(one) + 1).min(PAYLOAD.into());
        centre_form(one, random.pick(&[room(one), past, any]))
    } else {
        let below = one.saturating_sub(1);
        ends_form(one, random.pick(&[one, below, other]))
    }
}

fn ends_form(left: u64, right: u64) -> Vec<u32> {
    [split(kind::LEFT, left), split(kind::RIGHT, right)].concat()
}

fn centre_form(centre: u64, half: u64) -> Vec<u32> {
    let [high, low] = split(kind::CENTRE, centre);
    vec![high, low, word(kind::HALF, half as u32)]
}

/// Up to the most terms; of few names they often contain each other, pairs of many names seldom.
fn any_terms(random: &mut Random) -> Vec<Term> {
    let count = random.below(u64::from(MOST_TERMS) + 1);
    let count = random.pick(&[count, count, count, MOST_TERMS.into()]);
    let (any, many) = (1 + random.below(NAMES.into()), 18 + random.below(12));
    let names = random.pick(&[2, 3, 5, 8, any, any, many, many, NAMES.into()]);
    let pairs = random.once_in(3);
    (0..count)
        .map(|_| {
            if pairs {
                1 << random.below(names) | 1 << random.below(names)
            } else {
                random.below(1 << names) as Term
            }
        })
        .collect()
}

/// A term of one or two names below a number, or of any of them.
fn term(random: &mut Random, names: u64) -> Term {
    if random.once_in(4) {
        random.below(1 << names) as Term
    } else {
        1 << random.below(names) | 1 << random.below(names)
    }
}

/// Terms as they come; or rising, so that only equal or contained ones are flaws; or normal but
/// for the empty term or one more.
fn flawed_terms(random: &mut Random) -> Vec<Term> {
    let mut terms = any_terms(random);
    match random.below(4) {
        0 => {}
        1 => terms.sort_unstable(),
        2 => {
            terms.sort_unstable();
            terms.dedup();
        }
        _ => {
            terms = normal(&terms);
            terms.truncate(MOST_TERMS as usize - 1);
            let more = any_terms(random).first().copied().unwrap_or(0);
            let place = random.index(terms.len() + 1);
            terms.insert(place, random.pick(&[0, more]));
        }
    }
    terms
}

/// One damage to the words: a bit, a kind, a whole word, one lost, doubled, moved, the epoch words,
/// or the length.
fn damage(random: &mut Random, words: &mut Vec<u32>) {
    if words.is_empty() {
        return;
    }
    let (one, other) = (random.index(words.len()), random.index(words.len()));
    match random.below(10) {
        0 => words[one] ^= 1 << random.below(32),
        1 => words[one] = word(random.below(8) as u32, words[one] & PAYLOAD),
        2 => words[one] = words[one] & !PAYLOAD | random.bits() as u32 & PAYLOAD,
        3 => words[one] = random.bits() as u32,
        4 => words.swap(one, other),
        5 => drop(words.remove(one)),
        6 => words.insert(one, words[other]),
        7 | 8 => damage_epochs(random, words),
        _ => {
            let (last, len) = (words[words.len() - 1], random.index(NOISE_WORDS + 1));
            words.resize(len, last);
        }
    }
}

/// One damage to the epoch words: one lost, all lost, two changed round, one doubled or one too
/// many, or a bit or an identifier that none has.
fn damage_epochs(random: &mut Random, words: &mut Vec<u32>) {
    let count = epoch_words(words).len();
    if count == 0 {
        return;
    }
    let (one, other) = (1 + random.index(count), 1 + random.index(count));
    let any = random.below(NAMES.into()) as u32;
    match random.below(7) {
        0 => drop(words.remove(one)),
        1 => drop(words.drain(1..=count)),
        2 => words.swap(one, other),
        3 => words.insert(one, words[one]),
        4 => {
            let place = (1..=count).find(|&i| words[i] & 31 > any).unwrap_or(1 + count);
            words.insert(place, random.below(16) as u32 >> 2 << 5 | any);
        }
        5 => words[one] |= 1 << (9 + random.below(20)),
        _ => words[count] = words[count] & !31 | (NAMES + random.below(3) as u32),
    }
}

/// Noise has 0 to so many words: more than any message.
const NOISE_WORDS: usize = MOST_WORDS + 6;

/// Words of any bits, the first often a sound head, those next to it often epoch words, and the
/// next one often of a form's kind, if there is one.
fn noise(random: &mut Random) -> Vec<u32> {
    let count = random.index(NOISE_WORDS + 1);
    let mut words: Vec<u32> = (0..count).map(|_| random.bits() as u32).collect();
    if words.len() > 1 && !random.once_in(4) {
        let (sender, count) = (random.below(NAMES.into()), random.below(u64::from(MOST_TERMS) + 1));
        words[0] = word(kind::HEAD, (count << 5 | sender) as u32);
        let some = random.index(words.len());
        let epochs = random.pick(&[0, 1, some, words.len() - 1]);
        for (n, w) in words[1..=epochs].iter_mut().enumerate() {
            *w = word(kind::EPOCH, random.pick(&[n as u32 & 511, *w & 511, *w & PAYLOAD]));
        }
        if let Some(opening) = words.get_mut(1 + epochs) {
            let kind = random.pick(&[kind::LEFT, kind::CENTRE, kind::HALF]);
            *opening = word(kind, *opening & PAYLOAD);
        }
    }
    words
}
