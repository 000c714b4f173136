//! The radio message (document 01, "The radio message"; document 02, W-204) as words, and the two
//! calls over bytes.

use crate::claims::places;
use crate::epochs::{Epochs, Name, FIRST_EPOCHS, GREATEST_EPOCH};
use crate::instants::Interval;
use crate::predicates::{self, Predicate, Term, GREATEST_NAME, NAMES};
use crate::refusal;
use crate::state::DATUM_TERMS;
use std::ops::Deref;

/// The kinds of a word: its top 3 bits.
pub mod kind {
    pub const EPOCH: u32 = 0;
    pub const HEAD: u32 = 1;
    pub const LEFT: u32 = 2;
    pub const RIGHT: u32 = 3;
    pub const CENTRE: u32 = 4;
    pub const HALF: u32 = 5;
    pub const TERM: u32 = 6;
    pub const CHECK: u32 = 7;
}

/// The low bits of a word.
pub const PAYLOAD_BITS: u32 = 29;
/// The greatest payload, and the mask of one.
pub const PAYLOAD: u32 = (1 << PAYLOAD_BITS) - 1;
/// A message has at most this many terms, so that any datum can be written.
pub const MOST_TERMS: u32 = DATUM_TERMS as u32;
/// The words of a message in ends form, its epoch words and terms aside.
pub const ENDS_WORDS: usize = 1 + 4 + 1;
/// The shortest message, in words: centre form without terms, so that only the sender has an epoch.
pub const LEAST_WORDS: usize = 1 + 1 + 3 + 1;
/// The longest message, in words and in bytes: ends form with every identifier.
pub const MOST_WORDS: usize = ENDS_WORDS + NAMES as usize + MOST_TERMS as usize;
pub const MESSAGE_BYTES: usize = ends_form_bytes(NAMES as usize, MOST_TERMS as usize);
/// How many bytes reading writes: sender, left, right and term count.
pub const READING_BYTES: usize = 4 * 8;

/// The bytes of a message in ends form that has so many epoch words and terms.
pub const fn ends_form_bytes(epochs: usize, terms: usize) -> usize {
    WORD_BYTES * (ENDS_WORDS + epochs + terms)
}

const WORD_BYTES: usize = 4;

// Sums as document 02 has them.
const _: () = assert!(LEAST_WORDS == 6 && MOST_WORDS == 43 && MESSAGE_BYTES == 172);

/// What a message says, whichever form it came in.
#[derive(Clone, Debug, PartialEq, Eq)]
pub struct Message {
    pub sender: u32,
    /// Of the sender and of each identifier in the terms; others play no part, and are 0 once read.
    pub epochs: Epochs,
    pub interval: Interval<u64>,
    /// In normal form.
    pub terms: Predicate,
}

impl Message {
    /// The message of these parts, every epoch being the first.
    pub fn of(sender: u32, left: u64, right: u64, p: &[Term]) -> Message {
        let interval = Interval { left, right };
        Message { sender, epochs: FIRST_EPOCHS, interval, terms: Predicate::of(p) }
    }

    /// The same with other epochs for some identifiers.
    pub fn at(mut self, epochs: &[(u32, u8)]) -> Message {
        for &(identifier, epoch) in epochs {
            self.epochs[identifier as usize] = epoch;
        }
        self
    }

    /// The names that it has an epoch word for: the sender and those in the terms, by identifier.
    pub fn names(&self) -> impl Iterator<Item = Name> + '_ {
        let named = named(self.sender, &self.terms);
        places(named.into()).map(|n| Name::at(&self.epochs, n as u32))
    }

    /// Its bytes in ends form.
    pub fn bytes(&self) -> Vec<u8> {
        bytes_of(&write(self))
    }
}

/// The words of a message, held in place. They read as a slice.
#[derive(Clone, Copy, Debug, PartialEq, Eq)]
pub struct Words {
    len: usize,
    words: [u32; MOST_WORDS],
}

impl Default for Words {
    fn default() -> Words {
        Words { len: 0, words: [0; MOST_WORDS] }
    }
}

impl Words {
    fn push(&mut self, word: u32) {
        self.words[self.len] = word;
        self.len += 1;
    }
}

impl Deref for Words {
    type Target = [u32];

    fn deref(&self) -> &[u32] {
        &self.words[..self.len]
    }
}

/// The word of a kind with a payload of at most 29 bits.
pub fn word(kind: u32, payload: u32) -> u32 {
    kind << PAYLOAD_BITS | payload
}

fn kind_of(word: u32) -> u32 {
    word >> PAYLOAD_BITS
}

fn payload_of(word: u32) -> u32 {
    word & PAYLOAD
}

/// The word that closes a message: the sum of all earlier words, wrapping, modulo 2^29.
pub fn check_word(earlier: &[u32]) -> u32 {
    let sum = earlier.iter().fold(0u32, |sum, &w| sum.wrapping_add(w));
    word(kind::CHECK, payload_of(sum))
}

/// What the first word says.
struct Head {
    sender: u32,
    count: u32,
}

impl Head {
    fn of(word: u32) -> Option<Head> {
        let payload = payload_of(word);
        let head = Head { sender: payload & 31, count: payload >> 5 & 31 };
        let sound = kind_of(word) == kind::HEAD
            && head.sender <= GREATEST_NAME
            && head.count <= MOST_TERMS
            && payload >> 10 == 0;
        sound.then_some(head)
    }

    fn word(&self) -> u32 {
        word(kind::HEAD, self.count << 5 | self.sender)
    }
}

/// The identifiers that a message has an epoch word for: its sender and those in its terms,
/// whatever becomes of these.
pub fn named(sender: u32, terms: &[Term]) -> Term {
    terms.iter().fold(1 << sender, |named, t| named | t)
}

/// The word of a name.
pub fn epoch_word(name: Name) -> u32 {
    word(kind::EPOCH, u32::from(name.epoch) << 5 | name.identifier)
}

/// All words of kind 0 next to the head.
pub fn epoch_words(words: &[u32]) -> &[u32] {
    let behind = words.get(1..).unwrap_or_default();
    let count = behind.iter().take_while(|&&w| kind_of(w) == kind::EPOCH).count();
    &behind[..count]
}

/// The epochs that these words give; none unless they are those of the named identifiers, rising.
fn epochs_of(words: &[u32], mut named: Term) -> Option<Epochs> {
    let mut epochs = FIRST_EPOCHS;
    for w in words {
        let (identifier, epoch) = (w & 31, w >> 5);
        // Rising, each word's identifier is the least of those to come; behind the last there is
        // none.
        if epoch > GREATEST_EPOCH.into() || named.trailing_zeros() != identifier {
            return None;
        }
        epochs[identifier as usize] = epoch as u8;
        named &= named - 1;
    }
    (named == 0).then_some(epochs)
}

/// How a message gives its interval; the kind of the word behind the epoch words tells.
#[derive(Clone, Copy)]
enum Form {
    Ends,
    Centre,
}

impl Form {
    fn of(opening: u32) -> Option<Form> {
        match kind_of(opening) {
            kind::LEFT => Some(Form::Ends),
            kind::CENTRE => Some(Form::Centre),
            _ => None,
        }
    }

    /// The kinds of the words that give the interval.
    fn kinds(self) -> &'static [u32] {
        match self {
            Form::Ends => &[kind::LEFT, kind::LEFT, kind::RIGHT, kind::RIGHT],
            Form::Centre => &[kind::CENTRE, kind::CENTRE, kind::HALF],
        }
    }

    /// The interval that those words give, if its ends can be stored.
    fn interval(self, words: &[u32]) -> Option<Interval<u64>> {
        match self {
            Form::Ends => Interval::of_ends(joined(words[0], words[1]), joined(words[2], words[3])),
            Form::Centre => {
                Interval::of_centre(joined(words[0], words[1]), payload_of(words[2]).into())
            }
        }
    }
}

/// The number of 58 bits in two payloads, high then low.
fn joined(high: u32, low: u32) -> u64 {
    u64::from(payload_of(high)) << PAYLOAD_BITS | u64::from(payload_of(low))
}

/// The two words of a kind that carry a number of 58 bits.
pub fn split(kind: u32, number: u64) -> [u32; 2] {
    let low = number as u32 & PAYLOAD;
    let high = (number >> PAYLOAD_BITS) as u32;
    [word(kind, high), word(kind, low)]
}

/// What the words of a message say, or the refusal's number in the order 10, 12, 11, 13, 14, 42, 15
/// to 17.
pub fn read(words: &[u32]) -> Result<Message, u32> {
    if !(LEAST_WORDS..=MOST_WORDS).contains(&words.len()) {
        return Err(refusal::WORD_COUNT);
    }
    let head = Head::of(words[0]).ok_or(refusal::HEAD)?;
    let epochs = epoch_words(words);
    let behind = &words[1 + epochs.len()..];
    let form = behind.first().and_then(|&opening| Form::of(opening)).ok_or(refusal::FORM)?;
    let places = form.kinds().len();
    if behind.len() != places + head.count as usize + 1 {
        return Err(refusal::HEAD_AND_FORM);
    }
    let (check, earlier) = (behind[behind.len() - 1], &behind[..behind.len() - 1]);
    let (ends, terms) = earlier.split_at(places);
    let kinds_fit = ends.iter().map(|&w| kind_of(w)).eq(form.kinds().iter().copied())
        && terms.iter().all(|&w| kind_of(w) == kind::TERM)
        && kind_of(check) == kind::CHECK;
    if !kinds_fit {
        return Err(refusal::KIND);
    }
    let terms = payloads(terms);
    let epochs = epochs_of(epochs, named(head.sender, &terms)).ok_or(refusal::EPOCHS)?;
    if check != check_word(&words[..words.len() - 1]) {
        return Err(refusal::CHECK);
    }
    let interval = form.interval(ends).ok_or(refusal::ENDS)?;
    if !predicates::is_normal(&terms) {
        return Err(refusal::TERMS);
    }
    Ok(Message { sender: head.sender, epochs, interval, terms })
}

/// The payloads of term words, as they come.
fn payloads(terms: &[u32]) -> Predicate {
    let mut payloads = [0; Predicate::MOST_TERMS];
    for (payload, &w) in payloads.iter_mut().zip(terms) {
        *payload = payload_of(w);
    }
    Predicate::of_array(terms.len(), payloads)
}

/// The words of a message, in ends form.
pub fn write(message: &Message) -> Words {
    let Message { sender, epochs, interval, terms } = message;
    write_parts(*sender, epochs, *interval, terms)
}

/// The words of a message that has these parts; of the epochs it has those that it needs.
pub(crate) fn write_parts(
    sender: u32,
    epochs: &Epochs,
    interval: Interval<u64>,
    terms: &[Term],
) -> Words {
    let mut words = Words::default();
    words.push(Head { sender, count: terms.len() as u32 }.word());
    for identifier in places(named(sender, terms).into()) {
        words.push(epoch_word(Name::at(epochs, identifier as u32)));
    }
    let Interval { left, right } = interval;
    for half in [split(kind::LEFT, left), split(kind::RIGHT, right)].as_flattened() {
        words.push(*half);
    }
    for &t in terms {
        words.push(word(kind::TERM, t));
    }
    words.push(check_word(&words));
    words
}

/// The same message in ends form, or the refusal's number as in reading.
pub fn rewrite(words: &[u32]) -> Result<Words, u32> {
    read(words).map(|message| write(&message))
}

/// `monitor_message_read`: sender, left, right and term count, 8 bytes a number.
pub fn read_call(message: &[u8], out: &mut [u8]) -> u32 {
    let reading = words_of(message).and_then(|words| read(&words));
    answer(reading.map(|message| reading_bytes(&message)), out)
}

/// `monitor_message_rewrite`: the message in ends form.
pub fn rewrite_call(message: &[u8], out: &mut [u8]) -> u32 {
    let written = words_of(message).and_then(|words| rewrite(&words));
    answer_words(written, out)
}

/// Four bytes make a word, little-endian; a byte length that is not a multiple of 4 is 10, and so
/// is one above that of the longest message.
pub fn words_of(bytes: &[u8]) -> Result<Words, u32> {
    let (all, rest) = bytes.as_chunks::<WORD_BYTES>();
    if !rest.is_empty() || all.len() > MOST_WORDS {
        return Err(refusal::WORD_COUNT);
    }
    let mut words = Words::default();
    for &word in all {
        words.push(u32::from_le_bytes(word));
    }
    Ok(words)
}

/// The bytes of words, little-endian.
pub fn bytes_of(words: &[u32]) -> Vec<u8> {
    words.iter().map(|word| word.to_le_bytes()).collect::<Vec<_>>().into_flattened()
}

fn reading_bytes(message: &Message) -> [u8; READING_BYTES] {
    let Interval { left, right } = message.interval;
    numbers([message.sender.into(), left, right, message.terms.len() as u64])
}

/// 8 bytes a number, little-endian.
pub(crate) fn numbers<const N: usize, const BYTES: usize>(all: [u64; N]) -> [u8; BYTES] {
    let mut bytes = [0; BYTES];
    bytes.as_chunks_mut().0.copy_from_slice(&all.map(u64::to_le_bytes));
    bytes
}

/// Writes the result at the output's front. 24 for the output comes last, and a refusal leaves
/// every byte as it was.
pub(crate) fn answer(result: Result<impl AsRef<[u8]>, u32>, out: &mut [u8]) -> u32 {
    let bytes = match &result {
        Ok(bytes) => bytes.as_ref(),
        Err(number) => return *number,
    };
    let Some(front) = out.get_mut(..bytes.len()) else {
        return refusal::BUFFER;
    };
    front.copy_from_slice(bytes);
    refusal::TAKEN
}

/// The same for words.
pub(crate) fn answer_words(result: Result<Words, u32>, out: &mut [u8]) -> u32 {
    let words = match result {
        Ok(words) => words,
        Err(number) => return number,
    };
    let Some(front) = out.get_mut(..WORD_BYTES * words.len()) else {
        return refusal::BUFFER;
    };
    for (place, word) in front.as_chunks_mut().0.iter_mut().zip(&words[..]) {
        *place = word.to_le_bytes();
    }
    refusal::TAKEN
}
