//! A simulated hotel, by the engine alone: 4 gateways that know true time to within two milliseconds,
//! and 8 monitors, of which each hears two gateways and three monitors, sends on what it holds, and is
//! asked what time it is.
//!
//! Clocks keep the ageing rule and delays the bounds of their channel, so demand 3 says which answers
//! cannot be wrong: those at a limit of at least as many names as have failed. Names count as document
//! 02, W-204, has it: current ones, by the epochs that the asked monitor knows, and without its own;
//! and those have failed whose lies are in its book. All else that is counted was only seen.
//!
//! True time counts in millionths of a microsecond. What happens to a monitor, and what anyone sends,
//! happens when its clock comes to a whole reading: the engine takes a reading as exact (`clock`).

use crate::ageing::advance;
use crate::asking::{ANSWER_BYTES, GREATEST_LIMIT};
use crate::book;
use crate::clocks::Readings;
use crate::engine;
use crate::epochs::{Epochs, Name, FIRST_EPOCHS};
use crate::instants::{Instant, Interval, MILLION};
use crate::message::{ends_form_bytes, epoch_words, words_of, Message, MESSAGE_BYTES};
use crate::random::Random;
use crate::refusal;
use crate::state::{self, State, STATE_BYTES};
use clock::Clock;
use scenario::{Lie, Scenario, Who, HOUR};
use seen::Seen;
use std::collections::{BTreeMap, BTreeSet};
use std::rc::Rc;

pub mod clock;
pub mod scenario;
pub mod seen;
pub mod table;

pub const GATEWAYS: usize = 4;
pub const MONITORS: usize = 8;
/// The identifiers of the first gateway and the first monitor; the others follow.
pub const FIRST_GATEWAY: u32 = 1;
pub const FIRST_MONITOR: u32 = FIRST_GATEWAY + GATEWAYS as u32;

/// When the hotel opens, in microseconds of true time.
const OPENING: u64 = 1_700_000_000_000_000;
/// What a gateway says reaches up to so many microseconds beyond true time, on either side.
const KNOWS: u64 = 1_000;
/// A monitor is asked about so often, on its clock.
const ASKED_EVERY: u64 = HOUR / 4;
/// The greatest drift of a clock, in parts per million. Test (20) of clock readings leaves out what
/// two drifts make together, so that with readings honest clocks keep a tenth away from it.
const DRIFT: i32 = 100;
const DRIFT_WITH_READINGS: i32 = 90;

/// One who sends.
struct Sender {
    name: Name,
    clock: Clock,
    /// The places of the monitors that hear it.
    heard_by: Vec<usize>,
    /// How it lies, and since when.
    lies: Option<(Lie, Instant)>,
}

/// One who is told: a state of the engine, and what the hotel knows about it.
struct Monitor {
    sender: Sender,
    state: Vec<u8>,
    /// What the state was last aged to.
    reading: u64,
    /// The epochs that taken messages brought, as the book of demand 3 keeps them.
    known: Epochs,
    /// The names whose lies are in its book. Of all that it holds they make the predicate true, with
    /// the older names, where the interval is wrong.
    liars: BTreeSet<Name>,
    /// Whether what it said itself may be wrong and come back to it, where its name is struck out:
    /// it then has nothing to explain it by, and may pass it on.
    has_lied: bool,
    seen: Seen,
}

/// A message on its way, and what the hotel knows about it.
struct Letter {
    bytes: Vec<u8>,
    message: Message,
    sent: Instant,
    /// What the sender says that its clock read.
    reading: u64,
    /// If it is wrong, those whose lies can have made it so: the sender if it has lied, and the liars
    /// of its book.
    liars: BTreeSet<Name>,
}

/// What happens at an instant.
enum Event {
    Tells(usize),
    Relays(usize),
    Hears(usize, Rc<Letter>),
    Asked(usize),
    Fails(Who, Lie),
    Mended(Who),
}

struct Hotel<'a> {
    scenario: &'a Scenario,
    random: Random,
    gateways: Vec<Sender>,
    monitors: Vec<Monitor>,
    /// By instant, and then as they were entered.
    queue: BTreeMap<(Instant, u64), Event>,
    entered: u64,
    end: Instant,
}

/// Runs a scenario for so many hours, and gives what was seen of each monitor.
pub fn run(scenario: &Scenario, seed: u64, hours: u64) -> Vec<Seen> {
    let mut hotel = Hotel::new(scenario, Random::new(seed), hours);
    while let Some(((time, _), event)) = hotel.queue.pop_first() {
        match event {
            Event::Tells(gateway) => hotel.tells(gateway, time),
            Event::Relays(monitor) => hotel.relays(monitor, time),
            Event::Hears(monitor, letter) => hotel.hears(monitor, &letter, time),
            Event::Asked(monitor) => hotel.asked(monitor, time),
            Event::Fails(who, lie) => hotel.sender(who).lies = Some((lie, time)),
            Event::Mended(who) => hotel.mended(who, time),
        }
    }
    hotel.monitors.into_iter().map(Monitor::ended).collect()
}

impl Hotel<'_> {
    fn new(scenario: &Scenario, mut random: Random, hours: u64) -> Hotel<'_> {
        let opening = micros(OPENING);
        let gateways = (FIRST_GATEWAY..).zip(0..GATEWAYS).map(|(identifier, gateway)| {
            // Each monitor hears two of them.
            let hears = |monitor: &usize| [monitor % 4, (monitor + 1) % 4].contains(&gateway);
            let heard_by = (0..MONITORS).filter(hears).collect();
            Sender::new(identifier, heard_by, scenario, &mut random)
        });
        let gateways: Vec<Sender> = gateways.collect();
        let monitors = (FIRST_MONITOR..).zip(0..MONITORS).map(|(identifier, monitor)| {
            let heard_by = [1, 3, 7].map(|away| (monitor + away) % MONITORS).to_vec();
            let sender = Sender::new(identifier, heard_by, scenario, &mut random);
            Monitor::new(sender, opening, scenario.drift)
        });
        let monitors = monitors.collect();
        let end = opening + micros(hours * HOUR);
        let queue = BTreeMap::new();
        let mut hotel = Hotel { scenario, random, gateways, monitors, queue, entered: 0, end };
        hotel.enter_all(opening);
        hotel
    }

    /// Enters what goes wrong and when, and the first of all that comes again and again.
    fn enter_all(&mut self, opening: Instant) {
        let hundredth = (self.end - opening) / 100;
        for fault in self.scenario.faults {
            let at = |hundredths: u64| opening + hundredth * Instant::from(hundredths);
            self.enter(at(fault.from), Event::Fails(fault.who, fault.lie));
            if let Some(mended) = fault.mended {
                self.enter(at(mended), Event::Mended(fault.who));
            }
        }
        let every = self.scenario.radio.every;
        for gateway in 0..GATEWAYS {
            self.enter_next(Who::Gateway(gateway), opening, every, Event::Tells(gateway));
        }
        for monitor in 0..MONITORS {
            let who = Who::Monitor(monitor);
            self.enter_next(who, opening, every, Event::Relays(monitor));
            self.enter_next(who, opening, ASKED_EVERY, Event::Asked(monitor));
        }
    }

    fn enter(&mut self, time: Instant, event: Event) {
        self.entered += 1;
        if time < self.end {
            self.queue.insert((time, self.entered), event);
        }
    }

    /// Enters what comes again after about so many microseconds on one's clock.
    fn enter_next(&mut self, who: Who, time: Instant, every: u64, event: Event) {
        let wait = every / 2 + self.random.below(every);
        let clock = self.sender(who).clock;
        self.enter(clock.true_at(clock.first_from(time) + wait), event);
    }

    fn sender(&mut self, who: Who) -> &mut Sender {
        match who {
            Who::Gateway(gateway) => &mut self.gateways[gateway],
            Who::Monitor(monitor) => &mut self.monitors[monitor].sender,
        }
    }

    /// A gateway says what time it is, when its clock comes to its next reading.
    fn tells(&mut self, place: usize, time: Instant) {
        let (who, every) = (Who::Gateway(place), self.scenario.radio.every);
        let gateway = &self.gateways[place];
        let reading = gateway.clock.first_from(time);
        let sent = gateway.clock.true_at(reading);
        let off = gateway.off(sent, &mut self.random);
        let [before, after] = [(); 2].map(|()| self.random.below(KNOWS + 1));
        let Interval { left, right } = Interval { left: sent, right: sent }.rounded();
        let Name { identifier, epoch } = gateway.name;
        let message = Message::of(identifier, left - before + off, right + after + off, &[]);
        let message = message.at(&[(identifier, epoch)]);
        let liars = (off > 0).then_some(gateway.name).into_iter().collect();
        let bytes = message.bytes();
        let letter = Letter { bytes, message, sent, reading: reading + off, liars };
        self.send(who, letter);
        self.enter_next(who, time, every, Event::Tells(place));
    }

    /// A monitor sends on some of what it holds.
    fn relays(&mut self, place: usize, time: Instant) {
        let (who, radio) = (Who::Monitor(place), self.scenario.radio);
        self.monitors[place].age(time, self.scenario);
        let held = self.monitors[place].held();
        let first = self.random.below(held.max(1));
        for position in (first..first + radio.relayed.min(held)).map(|position| position % held) {
            let letter = self.monitors[place].written(position, time, &mut self.random);
            self.send(who, letter);
        }
        self.enter_next(who, time, radio.every, Event::Relays(place));
    }

    /// Sends a letter to all that hear the sender. Counted on the receiver's clock, which stands
    /// between two readings at first, the delay is from the drawn one to less than one more.
    fn send(&mut self, from: Who, letter: Letter) {
        let (letter, radio) = (Rc::new(letter), self.scenario.radio);
        for place in self.sender(from).heard_by.clone() {
            if self.random.once_in(radio.lost) {
                continue;
            }
            let delay = radio.least + self.random.below(radio.greatest - radio.least);
            let clock = self.monitors[place].sender.clock;
            let heard = clock.true_at(clock.first_from(letter.sent) + delay);
            self.enter(heard, Event::Hears(place, Rc::clone(&letter)));
        }
    }

    /// A monitor receives a letter, unless its host leaves it out.
    fn hears(&mut self, place: usize, letter: &Letter, time: Instant) {
        let (monitor, scenario) = (&mut self.monitors[place], self.scenario);
        let own = monitor.sender.name;
        let older = |name: Name| name.identifier == own.identifier && name.epoch < own.epoch;
        if !(scenario.careful && letter.message.names().any(older)) {
            monitor.hears(letter, time, scenario);
        }
    }

    fn asked(&mut self, place: usize, time: Instant) {
        self.monitors[place].age(time, self.scenario);
        self.monitors[place].answers(time);
        self.enter_next(Who::Monitor(place), time, ASKED_EVERY, Event::Asked(place));
    }

    /// One comes back under the next epoch: a gateway with its clock at 0, a monitor with nothing
    /// held.
    fn mended(&mut self, who: Who, time: Instant) {
        let sender = self.sender(who);
        sender.lies = None;
        sender.name.epoch += 1;
        match who {
            Who::Gateway(gateway) => {
                let slow = drawn_drift(self.scenario, &mut self.random);
                self.gateways[gateway].clock = Clock::new(0, time, slow);
            }
            Who::Monitor(monitor) => {
                let monitor = &mut self.monitors[monitor];
                monitor.set_up(time, self.scenario.drift);
                monitor.has_lied &= !self.scenario.careful;
            }
        }
    }
}

impl Sender {
    /// One whose clock has been running for some minutes.
    fn new(
        identifier: u32,
        heard_by: Vec<usize>,
        scenario: &Scenario,
        random: &mut Random,
    ) -> Sender {
        let name = Name { identifier, epoch: 0 };
        let (reading, part) = (HOUR + random.below(HOUR), random.below(MILLION as u64));
        let at = micros(OPENING) - Instant::from(part);
        let clock = Clock::new(reading, at, drawn_drift(scenario, random));
        Sender { name, clock, heard_by, lies: None }
    }

    /// By how many microseconds what it sends is wrong.
    fn off(&self, time: Instant, random: &mut Random) -> u64 {
        match self.lies {
            None => 0,
            Some((Lie::Ahead(off), _)) => off,
            Some((Lie::Creeping(parts), since)) => {
                ((time - since) / MILLION * Instant::from(parts) / MILLION) as u64
            }
            Some((Lie::Wild(most), _)) => random.below(most + 1),
        }
    }
}

impl Monitor {
    fn new(sender: Sender, opening: Instant, drift: u32) -> Monitor {
        let (liars, seen) = (BTreeSet::new(), Seen::default());
        let (state, known) = (vec![0; STATE_BYTES], FIRST_EPOCHS);
        let mut monitor =
            Monitor { sender, state, reading: 0, known, liars, has_lied: false, seen };
        monitor.set_up(opening, drift);
        monitor
    }

    /// Sets it up afresh under its epoch.
    fn set_up(&mut self, time: Instant, drift: u32) {
        let Sender { name: Name { identifier, epoch }, clock, .. } = self.sender;
        self.reading = clock.first_from(time);
        let number =
            engine::monitor_set_up(&mut self.state, identifier, drift, self.reading, epoch.into());
        assert_eq!(number, refusal::TAKEN);
        self.known = FIRST_EPOCHS;
        self.known[identifier as usize] = epoch;
        self.liars.clear();
    }

    /// Ages it to its clock, which has just come to a reading.
    fn age(&mut self, time: Instant, scenario: &Scenario) {
        let reading = self.sender.clock.first_from(time);
        let (least, greatest) = advance(reading - self.reading, scenario.drift);
        let passed = time - self.sender.clock.true_at(self.reading);
        self.seen.keeps(least <= passed && passed <= greatest);
        assert_eq!(engine::monitor_age(&mut self.state, reading), refusal::TAKEN);
        self.reading = reading;
    }

    /// Receives a letter when its clock comes to a reading.
    fn hears(&mut self, letter: &Letter, time: Instant, scenario: &Scenario) {
        self.age(time, scenario);
        let (radio, late) = (scenario.radio, time - letter.sent);
        let (least, greatest) =
            (advance(radio.least, scenario.drift).0, advance(radio.greatest, scenario.drift).1);
        self.seen.keeps(least <= late && late <= greatest);
        let number = self.received(letter, scenario);
        let own = self.sender.name.identifier;
        let above = |name: &Name| {
            name.identifier != own && name.epoch > self.known[name.identifier as usize]
        };
        let risen: Vec<Name> = letter.message.names().filter(above).collect();
        self.seen.received(number, !risen.is_empty());
        if number == refusal::TAKEN {
            risen.iter().for_each(|name| self.known[name.identifier as usize] = name.epoch);
            self.liars.extend(&letter.liars);
        }
    }

    /// The receipt's number. With readings: what the sender's clock read, and the own one at that
    /// moment, which is as far back as the delay may have been.
    fn received(&mut self, letter: &Letter, scenario: &Scenario) -> u32 {
        let (least, greatest) = (scenario.radio.least, scenario.radio.greatest);
        if !scenario.readings {
            return engine::monitor_receive(&mut self.state, least, greatest, &letter.bytes);
        }
        let half = (greatest - least).div_ceil(2);
        let own = self.reading - greatest + half;
        let readings = Readings::of(letter.reading, own, half, scenario.drift);
        let (state, bytes) = (&mut self.state, &letter.bytes);
        engine::monitor_receive_with_readings(state, least, greatest, readings, bytes)
    }

    /// How many data it holds.
    fn held(&self) -> u64 {
        let bytes = state::checked(&self.state).expect("a state in form");
        state::Head::of(bytes).held as u64
    }

    /// The held datum at a position as a letter; a liar's has other ends.
    fn written(&mut self, position: u64, sent: Instant, random: &mut Random) -> Letter {
        let mut bytes = vec![0; MESSAGE_BYTES];
        let number = engine::monitor_write(&self.state, position, &mut bytes);
        assert_eq!(number, refusal::TAKEN);
        bytes.truncate(written_len(&bytes));
        let mut message = book::read(&bytes).expect("a written message");
        let off = self.sender.off(sent, random);
        if off > 0 {
            self.has_lied = true;
            message.interval.left += off;
            message.interval.right += off;
            bytes = message.bytes();
        }
        let Interval { left, right } = message.interval.exact();
        let mut liars = BTreeSet::new();
        if sent < left || right < sent {
            liars.clone_from(&self.liars);
            liars.extend(self.has_lied.then_some(self.sender.name));
        }
        Letter { bytes, message, sent, reading: self.reading, liars }
    }

    /// Asks at each limit, and enters what comes.
    fn answers(&mut self, time: Instant) {
        let own = self.sender.name.identifier;
        let current = |name: &&Name| !name.is_old(&self.known) && name.identifier != own;
        let failed = self.liars.iter().filter(current).count();
        for limit in 0..=GREATEST_LIMIT {
            let mut out = [0; ANSWER_BYTES];
            let number = engine::monitor_ask(&self.state, limit.into(), &mut out);
            assert_eq!(number, refusal::TAKEN);
            let promised = !self.has_lied && failed <= limit as usize;
            self.seen.answered(limit, out, time, promised);
        }
    }

    /// What was seen of it, at the end.
    fn ended(self) -> Seen {
        let state = State::of(&self.state).expect("a state in form");
        Seen { held: state.held.len(), entries: state.entries.len(), ..self.seen }
    }
}

/// How many bytes the message has that was written to the front.
fn written_len(bytes: &[u8]) -> usize {
    let words = words_of(bytes).expect("room for the longest message");
    let terms = words[0] >> 5 & 31;
    ends_form_bytes(epoch_words(&words).len(), terms as usize)
}

/// By how much a clock is slow: as much as it may be, as little, or anything between.
fn drawn_drift(scenario: &Scenario, random: &mut Random) -> i32 {
    let most = if scenario.readings { DRIFT_WITH_READINGS } else { DRIFT };
    let any = random.below(2 * most as u64 + 1) as i32 - most;
    random.pick(&[-most, most, any, any])
}

fn micros(whole: u64) -> Instant {
    Instant::from(whole) * MILLION
}
