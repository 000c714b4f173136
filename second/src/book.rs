//! The book of a run (demand 3; document 01, "Asking"; document 02, W-201, W-202, W-204 and W-205):
//! what the calls were handed and which were taken, and from that alone the instants that are
//! possible. No state is looked at.
//!
//! Names are pairs here, each with the epoch that its message had. A set has names that are current
//! at the run's end, and every older name has failed without being counted.

use crate::ageing::advance;
use crate::asking::GREATEST_LIMIT;
use crate::calls::Call;
use crate::claims::places;
use crate::clocks::{Readings, Saved, Triple};
use crate::epochs::{Epochs, Name, FIRST_EPOCHS};
use crate::instants::{Instant, Instants, Interval};
use crate::message::{self, Message};
use crate::predicates::{sets, Term, NAMES};
use crate::receiving::grown;
use crate::refusal;
use std::ops::Deref;

/// What a taken call enters.
#[derive(Clone, Debug, PartialEq, Eq)]
pub enum Line {
    /// The least and the greatest advance since the last reading.
    Aged { least: Instant, greatest: Instant },
    /// The grown interval, and the terms of the predicate as it was formed, a true one too.
    Received { interval: Interval, terms: Vec<Vec<Name>> },
    /// A sender that violated test (20): from here on its name has to have failed.
    Blamed(Name),
}

#[derive(Clone, Debug, PartialEq, Eq)]
pub struct Book {
    own: u32,
    drift: u32,
    /// The last one.
    reading: u64,
    lines: Vec<Line>,
    /// By identifier: every triple that taken receipts brought of its current name, in order.
    histories: [Vec<Triple>; NAMES as usize],
    known: Epochs,
}

impl Book {
    /// The book of a run that was just set up.
    pub fn new(own: u32, drift: u32, reading: u64, epoch: u8) -> Book {
        let histories = std::array::from_fn(|_| vec![]);
        let mut known = FIRST_EPOCHS;
        known[own as usize] = epoch;
        Book { own, drift, reading, lines: vec![], histories, known }
    }

    /// What was entered, in order.
    pub fn lines(&self) -> &[Line] {
        &self.lines
    }

    /// The epochs that are known, by identifier.
    pub fn known(&self) -> &Epochs {
        &self.known
    }

    /// Enters a call that gave a number. A refused one enters nothing, and a question neither.
    pub fn enter(&mut self, call: &Call, number: u32) {
        if number != refusal::TAKEN {
            return;
        }
        match *call {
            Call::SetUp { own, drift, reading, epoch } => {
                *self = Book::new(own, drift, reading, epoch as u8);
            }
            Call::Age { reading } => {
                let (least, greatest) = advance(reading - self.reading, self.drift);
                self.reading = reading;
                self.lines.push(Line::Aged { least, greatest });
            }
            Call::Receive { least, greatest, readings, ref message } => {
                let message = read(message).expect("a taken message");
                self.hear(&message);
                if let Some(readings) = readings {
                    self.watch(Name::at(&message.epochs, message.sender), readings);
                }
                let interval = grown(message.interval, least, greatest, self.drift);
                let (interval, terms) = (interval.expect("a taken message"), self.formed(&message));
                self.lines.push(Line::Received { interval, terms });
            }
            Call::Write { .. } | Call::Ask { .. } | Call::Fewest => {}
        }
    }

    /// Whether the message brings an epoch above the one known.
    pub fn raises(&self, message: &Message) -> bool {
        message.names().any(|name| self.is_above(name))
    }

    /// The own identifier is never heard.
    fn is_above(&self, Name { identifier, epoch }: Name) -> bool {
        identifier != self.own && epoch > self.known[identifier as usize]
    }

    /// Keeps the epochs that are above the known ones; a name's history goes with its old epoch.
    fn hear(&mut self, message: &Message) {
        for name in message.names() {
            if self.is_above(name) {
                self.known[name.identifier as usize] = name.epoch;
                self.histories[name.identifier as usize].clear();
            }
        }
    }

    /// The sender alone, and each term of the message without the receiver.
    fn formed(&self, message: &Message) -> Vec<Vec<Name>> {
        let names = |t: Term| {
            let identifiers = (0..NAMES).filter(move |n| t >> n & 1 != 0);
            identifiers.map(|n| Name::at(&message.epochs, n)).collect::<Vec<Name>>()
        };
        let terms = message.terms.iter().map(|&t| names(t));
        let terms = terms.filter(|term| term.iter().all(|name| name.identifier != self.own));
        [names(1 << message.sender)].into_iter().chain(terms).collect()
    }

    /// Tests the sender's triple against the three of its history, and adds it there. An older
    /// sender's is not heeded.
    fn watch(&mut self, sender: Name, Readings { triple, drift }: Readings) {
        if sender.is_old(&self.known) {
            return;
        }
        let saved = self.saved(sender.identifier);
        if saved.is_some_and(|saved| saved.violated_by(triple, self.drift + drift)) {
            self.lines.push(Line::Blamed(sender));
        }
        self.histories[sender.identifier as usize].push(triple);
    }

    /// The three triples of a name, looked for in its whole history; none where that is empty.
    pub fn saved(&self, identifier: u32) -> Option<Saved> {
        let history = &self.histories[identifier as usize];
        Some(Saved {
            previous: *history.last()?,
            ahead: first_largest(history, |t| i128::from(t.a) - i128::from(t.b) + i128::from(t.w)),
            behind: first_largest(history, |t| i128::from(t.b) - i128::from(t.a) + i128::from(t.w)),
        })
    }

    /// The book as it counts at the run's end.
    pub fn ended(&self) -> Ended {
        let lines = self.lines.iter().filter_map(|line| match line {
            Line::Received { interval, terms } => {
                let terms = terms.iter().map(|term| current(term, &self.known)).collect();
                Some(Line::Received { interval: *interval, terms })
            }
            Line::Blamed(name) if name.is_old(&self.known) => None,
            line => Some(line.clone()),
        });
        Ended { own: self.own, known: self.known, lines: lines.collect() }
    }
}

/// The names of a term that are current; the others have failed.
fn current(term: &[Name], known: &Epochs) -> Vec<Name> {
    term.iter().copied().filter(|name| !name.is_old(known)).collect()
}

/// The lines of a book with names that are current at the run's end: a term has lost the older
/// ones, and an older sender is blamed no more.
pub struct Ended {
    own: u32,
    known: Epochs,
    lines: Vec<Line>,
}

impl Ended {
    /// Where the paths can end that agree with the failed names and the book. They start with any
    /// whole count of millionths, and as each advance is by any such count within its bounds, no gap
    /// comes up on the way.
    pub fn reached(&self, failed: &[Name]) -> Instants {
        let mut instants = Instants::All;
        for line in &self.lines {
            instants = match line {
                Line::Aged { least, greatest } => instants.advanced(*least, *greatest),
                Line::Received { terms, .. } if holds(failed, terms) => instants,
                Line::Received { interval, .. } => instants.meet(*interval),
                Line::Blamed(name) if failed.contains(name) => instants,
                Line::Blamed(_) => Instants::Empty,
            };
            // Nothing comes of no instants.
            if instants == Instants::Empty {
                break;
            }
        }
        instants
    }

    /// The sets within the greatest limit that can differ in what they reach, smaller ones first
    /// and those of one size by rising masks of identifiers. Names of no term within the limit and
    /// of no blamed sender change nothing, and no line has the own identifier.
    fn sets(&self) -> impl Iterator<Item = Set> + '_ {
        let names = self.lines.iter().fold(0, |names, line| names | names_within(line));
        let sets = sets(names & !(1 << self.own), GREATEST_LIMIT).into_iter();
        sets.map(|s| Set::of(places(s.into()).map(|n| Name::at(&self.known, n as u32))))
    }

    /// What each of those sets reaches.
    pub fn by_set(&self) -> BySet {
        BySet(self.sets().map(|set| (self.reached(&set), set)).collect())
    }
}

/// Names within the greatest limit, held in place. They read as a slice.
struct Set {
    count: usize,
    names: [Name; GREATEST_LIMIT as usize],
}

impl Set {
    fn of(names: impl Iterator<Item = Name>) -> Set {
        let none = Name { identifier: 0, epoch: 0 };
        let mut set = Set { count: 0, names: [none; GREATEST_LIMIT as usize] };
        for name in names {
            set.names[set.count] = name;
            set.count += 1;
        }
        set
    }
}

impl Deref for Set {
    type Target = [Name];

    fn deref(&self) -> &[Name] {
        &self.names[..self.count]
    }
}

/// What the sets within the greatest limit reach, in their order.
pub struct BySet(Vec<(Instants, Set)>);

impl BySet {
    pub fn iter(&self) -> impl Iterator<Item = (Instants, &[Name])> {
        self.0.iter().map(|(reached, set)| (*reached, &set[..]))
    }

    /// From the least to the greatest instant that is possible within the limit, exactly; all or
    /// none.
    pub fn possible(&self, limit: u32) -> Instants {
        let within = self.iter().filter(|(_, set)| set.len() <= limit as usize);
        within.fold(Instants::Empty, |all, (reached, _)| all.join(reached))
    }

    /// The smallest set for which an instant is possible, and of those the least mask.
    pub fn fewest(&self) -> Option<&[Name]> {
        self.iter().find(|(reached, _)| *reached != Instants::Empty).map(|(_, set)| set)
    }
}

/// Whether the names make the sum of the terms true: they have all of one term.
fn holds(failed: &[Name], terms: &[Vec<Name>]) -> bool {
    terms.iter().any(|term| term.iter().all(|name| failed.contains(name)))
}

/// The identifiers in a line that a set within the greatest limit can have to do with.
fn names_within(line: &Line) -> Term {
    let identifiers = |names: &[Name]| names.iter().fold(0, |all, name| all | 1 << name.identifier);
    match line {
        Line::Aged { .. } => 0,
        Line::Received { terms, .. } => {
            let within = terms.iter().filter(|term| term.len() <= GREATEST_LIMIT as usize);
            within.fold(0, |all, term| all | identifiers(term))
        }
        Line::Blamed(name) => identifiers(&[*name]),
    }
}

/// What a message's bytes say, if they are sound.
pub fn read(bytes: &[u8]) -> Option<Message> {
    message::words_of(bytes).and_then(|words| message::read(&words)).ok()
}

/// The earliest of those with the largest value.
fn first_largest(history: &[Triple], value: impl Fn(&Triple) -> i128) -> Triple {
    let largest = history.iter().map(&value).max().expect("a triple");
    *history.iter().find(|&triple| value(triple) == largest).expect("the largest is among them")
}
