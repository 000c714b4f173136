//! Seeded runs: worlds in which data often meet, contradict, explain and better each other.

use crate::ageing::advance;
use crate::asking::GREATEST_LIMIT;
use crate::calls::Call;
use crate::claims::places;
use crate::clocks::{Readings, Triple, GREATEST_CLOCK};
use crate::epochs::{Epochs, GREATEST_EPOCH};
use crate::instants::{split, Interval, GREATEST_END};
use crate::message::{bytes_of, named, MOST_TERMS};
use crate::predicates::{holds, normal, Predicate, Term, GREATEST_NAME, NAMES};
use crate::random::Random;
use crate::receiving::GREATEST_DELAY;
use crate::state::{State, GREATEST_DRIFT, GREATEST_READING, MOST_ENTRIES};
use std::ops::RangeInclusive;

/// Delays above document 01's greatest: a radio that takes so long has slept (document 02, W-202).
pub const SLEPT: RangeInclusive<u64> = 60_000_001..=GREATEST_DELAY;

/// Whether it is a receipt from a radio that has slept.
pub fn has_slept(call: &Call) -> bool {
    matches!(call, Call::Receive { greatest, .. } if SLEPT.contains(greatest))
}

/// What the calls of a run are drawn from.
pub struct World {
    pub own: u32,
    drift: u32,
    /// At the start of the run.
    reading: u64,
    /// The own one.
    epoch: u8,
    /// Once in so many names a message brings another epoch than the known one.
    steady: u64,
    /// Once in so many messages one is about a held datum.
    about: u64,
    /// Senders and terms name those below it.
    names: u64,
    /// Intervals lie from here on at the start of the run, and move on with the reading.
    base: u64,
    span: u64,
    /// Disjoint places for intervals, or none where ends lie anywhere in the span.
    places: u64,
}

impl World {
    /// Few names and small numbers, sometimes close to the greatest end.
    pub fn small(random: &mut Random) -> World {
        let names = random.pick(&[3, 3, 4, 4, 5, 6, 9, NAMES]).into();
        let span = random.pick(&[6, 12, 12, 30, 1000]);
        let drift = random.below(u64::from(GREATEST_DRIFT) + 1) as u32;
        World {
            own: random.below(names) as u32,
            drift: random.pick(&[0, 1, 100, drift, GREATEST_DRIFT]),
            reading: random.pick(&[0, 5, 1_000_000, GREATEST_READING - 3 * span]),
            epoch: own_epoch(random),
            steady: 40,
            about: 10,
            names,
            base: random.pick(&[0, 0, 0, 1 << 29, GREATEST_END - 3 * span]),
            span,
            places: 0,
        }
    }

    /// The same, with names that are often mended and often old, and seldom few.
    pub fn mending(random: &mut Random) -> World {
        let world = World::small(random);
        let names = random.pick(&[world.names, world.names, 7, 9]);
        World { steady: random.pick(&[3, 6, 12]), names, ..world }
    }

    /// Many names and disjoint places, so that all rows fill.
    pub fn crowded(random: &mut Random) -> World {
        World {
            own: random.below(NAMES.into()) as u32,
            drift: random.pick(&[0, 1, 100]),
            reading: random.below(1_000_000),
            epoch: own_epoch(random),
            steady: 200,
            about: 5,
            names: random.pick(&[12, 20, NAMES]).into(),
            base: random.pick(&[0, 1 << 29, 1 << 40]),
            span: 1000,
            places: random.pick(&[8, 9, 10]),
        }
    }

    /// Few names and small numbers in any state.
    pub fn around(random: &mut Random, state: &State) -> World {
        let left = state.held.first().map_or(0, |datum| split(datum.interval.left).0);
        World {
            own: state.own,
            drift: state.drift,
            reading: state.reading,
            epoch: state.epochs[state.own as usize],
            steady: 12,
            about: 2,
            names: random.pick(&[3, 4, 5, 8, NAMES]).into(),
            base: random.pick(&[0, 0, left]),
            span: random.pick(&[12, 40]),
            places: 0,
        }
    }

    pub fn set_up(&self) -> Call {
        let World { own, drift, reading, epoch, .. } = *self;
        Call::SetUp { own, drift, reading, epoch: epoch.into() }
    }

    /// A call in a state: mostly receipts, and flawed arguments now and then.
    pub fn call(&self, random: &mut Random, state: &State) -> Call {
        match random.below(46) {
            0..=32 => self.step(random, state),
            33..=37 => Call::Write { position: position(random, state) },
            38..=42 => Call::Ask { limit: limit(random) },
            43 | 44 => Call::Fewest,
            _ => flawed_set_up(random),
        }
    }

    /// A receipt or an ageing in a state, with flawed arguments now and then.
    pub fn step(&self, random: &mut Random, state: &State) -> Call {
        if random.below(33) < 28 {
            self.receive(random, state)
        } else {
            Call::Age { reading: self.reading(random, state) }
        }
    }

    fn receive(&self, random: &mut Random, state: &State) -> Call {
        if random.once_in(self.steady) {
            if let Some(mended) = self.mended(random, state) {
                return mended;
            }
        }
        if state.entries.len() == MOST_ENTRIES && random.once_in(4) {
            if let Some(jump) = self.jump(random, state) {
                return jump;
            }
        }
        let (least, greatest) = self.delays(random);
        let message = if random.once_in(12) {
            super::message(random).message().to_vec()
        } else {
            self.message(random, state, greatest)
        };
        let readings = random.once_in(2).then(|| self.readings(random, state, &message));
        Call::Receive { least, greatest, readings, message }
    }

    /// A receipt from a sender whose clock has jumped and whom no entry names, if there is one: where
    /// all entries are in use there is no place for its name.
    fn jump(&self, random: &mut Random, state: &State) -> Option<Call> {
        let named = names_in_use(state);
        let unnamed = |sender: u32| named >> sender & 1 == 0 && sender != state.own;
        let saved = (0..NAMES).filter(|&sender| unnamed(sender)).filter_map(|sender| {
            state.clocks[sender as usize].map(|saved| (sender, saved.previous))
        });
        let saved: Vec<(u32, Triple)> = saved.collect();
        if saved.is_empty() {
            return None;
        }
        let (sender, Triple { a, b, w }) = random.pick(&saved);
        let readings = Some(Readings::of(a, (b + 3 * w + 1_000).min(GREATEST_CLOCK), w, 0));
        let interval = self.interval(random, state, 0);
        let terms: &[Term] = random.pick(&[&[][..], &[0]]);
        let words = super::sealed(sender, &state.epochs, &in_any_form(random, interval), terms);
        Some(Call::Receive { least: 0, greatest: 0, readings, message: bytes_of(&words) })
    }

    /// A receipt from a mended sender without whose old name two held data come under one
    /// predicate, or an entry comes to imply a held one, if there is such a sender.
    fn mended(&self, random: &mut Random, state: &State) -> Option<Call> {
        // Only a term of several names becomes a smaller one.
        let terms = state.held.iter().flat_map(|datum| datum.predicate.iter());
        let several = terms.filter(|t| !t.is_power_of_two()).fold(0, |names, t| names | t);
        let names = || places(several.into()).map(|n| n as u32);
        let mut tell: Vec<u32> = names().filter(|&n| meet_without(state, n)).collect();
        if tell.is_empty() {
            tell = names().filter(|&n| implied_without(state, n)).collect();
        }
        if tell.is_empty() {
            return None;
        }
        let (sender, mut epochs) = (random.pick(&tell), state.epochs);
        let epoch = &mut epochs[sender as usize];
        *epoch = (*epoch + 1).min(GREATEST_EPOCH);
        let interval = self.interval(random, state, 0);
        let terms: &[Term] = random.pick(&[&[][..], &[0], &[0]]);
        let words = super::sealed(sender, &epochs, &in_any_form(random, interval), terms);
        let (readings, message) = (None, bytes_of(&words));
        Some(Call::Receive { least: 0, greatest: 0, readings, message })
    }

    /// Readings of the message's sender.
    fn readings(&self, random: &mut Random, state: &State, message: &[u8]) -> Readings {
        let sender = message.first().map_or(0, |byte| byte & 31);
        let saved = state.clocks.get(usize::from(sender)).copied().flatten();
        super::clocks::readings(random, saved, state.drift)
    }

    /// Small delays; flawed or at the edge now and then, and those of a radio that has slept.
    fn delays(&self, random: &mut Random) -> (u64, u64) {
        let most = self.span / 6;
        let (least, more) = (random.below(most + 1), random.below(most + 1));
        let any = random.bits();
        match random.below(40) {
            0 => (least + 1, least),
            1 => (any, random.pick(&[least, any, u64::MAX])),
            2 => (least, random.pick(&[GREATEST_DELAY, GREATEST_DELAY + 1, 1 << 32, u64::MAX])),
            3 | 4 => slept(random, more),
            5..=20 => (0, 0),
            _ => (least, least + more),
        }
    }

    /// The bytes of a message whose parts are small, damaged now and then.
    fn message(&self, random: &mut Random, state: &State, delay: u64) -> Vec<u8> {
        let about = random.once_in(self.about).then(|| self.about_held(random, state)).flatten();
        let (sender, terms, interval) = about.unwrap_or_else(|| {
            let (sender, terms) = self.predicate(random, state);
            (sender, terms, self.interval(random, state, delay))
        });
        let epochs = self.epochs(random, state, named(sender, &terms));
        let mut words = super::sealed(sender, &epochs, &in_any_form(random, interval), &terms);
        if random.once_in(12) {
            super::damage(random, &mut words);
            if !random.once_in(3) {
                super::correct(&mut words);
            }
        }
        let mut bytes = bytes_of(&words);
        if random.once_in(60) {
            bytes.truncate(bytes.len().saturating_sub(1 + random.index(3)));
        }
        bytes
    }

    /// The known epochs, the own one among them, and now and then others for those that are named.
    /// Where all entries are in use, a name that has none is mended more often: that makes no room.
    fn epochs(&self, random: &mut Random, state: &State, named: Term) -> Epochs {
        let (mut epochs, full) = (state.epochs, state.entries.len() == MOST_ENTRIES);
        let in_use = if full { names_in_use(state) } else { !0 };
        for identifier in places(named.into()) {
            let steady = if in_use >> identifier & 1 == 0 { 8 } else { self.steady };
            if random.once_in(steady) {
                epochs[identifier] = other_epoch(random, epochs[identifier]);
            }
        }
        epochs
    }

    /// A sender, seldom the own name, and terms; now and then they repeat a held predicate.
    fn predicate(&self, random: &mut Random, state: &State) -> (u32, Vec<Term>) {
        if !state.held.is_empty() && random.once_in(self.steady.clamp(6, 10)) {
            let mut terms = state.held[random.index(state.held.len())].predicate.to_vec();
            if let Some(sender) =
                terms.iter().find(|t| t.is_power_of_two()).map(|t| t.trailing_zeros())
            {
                if random.once_in(self.steady.div_ceil(12)) {
                    self.vary(random, &mut terms, 1 << sender | 1 << state.own);
                }
                return (sender, terms);
            }
        }
        let mut sender = random.below(self.names) as u32;
        if sender == state.own && !random.once_in(6) {
            sender = (sender + 1) % self.names as u32;
        }
        if self.names >= 7 && random.once_in(24) {
            return (sender, self.pairs(random, 1 << sender | 1 << state.own));
        }
        (sender, self.terms(random))
    }

    /// Sender, terms and interval about those of a held datum, so that a fraction can decide: its
    /// predicate, with a term more or with fewer, and ends in the same microseconds or the next. None
    /// where nothing is held, or where the predicate has no term for a sender.
    fn about_held(
        &self,
        random: &mut Random,
        state: &State,
    ) -> Option<(u32, Vec<Term>, Interval<u64>)> {
        let held = state.held.get(random.index(state.held.len().max(1)))?;
        let mut terms = held.predicate.to_vec();
        let sender = *terms.iter().find(|t| t.is_power_of_two())?;
        match random.below(4) {
            0 => terms.push(1 << random.below(self.names)),
            1 | 2 => terms.retain(|&t| t == sender || random.once_in(2)),
            _ => {}
        }
        terms = normal(&terms);
        terms.truncate(MOST_TERMS as usize);
        let Interval { left, right } = held.interval.rounded();
        let right = right - u64::from(random.once_in(2) && left < right);
        let left = random.pick(&[left, left, left + 1]).min(right);
        Some((sender.trailing_zeros(), terms, Interval { left, right }))
    }

    /// Adds a name but these to a term that has none of them, or takes one from it: once the name
    /// is mended the predicate is the same as before.
    fn vary(&self, random: &mut Random, terms: &mut Vec<Term>, but: Term) {
        let name = 1 << random.below(self.names) & !but;
        if let Some(t) = terms.iter_mut().find(|t| **t & but == 0) {
            *t = if t.is_power_of_two() { *t | name } else { *t & (*t - 1) };
        }
        *terms = normal(terms);
    }

    /// The most terms, each a pair of five names but these: with the sender's there are too many,
    /// unless one of the names is old.
    fn pairs(&self, random: &mut Random, but: Term) -> Vec<Term> {
        let mut names: Vec<u64> = (0..self.names).filter(|n| but >> n & 1 == 0).collect();
        while names.len() > 5 {
            names.remove(random.index(names.len()));
        }
        let pairs =
            names.iter().flat_map(|m| names.iter().filter(move |n| m < n).map(move |n| (m, n)));
        let mut pairs: Vec<Term> = pairs.map(|(m, n)| 1 << m | 1 << n).collect();
        while pairs.len() > MOST_TERMS as usize {
            pairs.remove(random.index(pairs.len()));
        }
        normal(&pairs)
    }

    /// Mostly none or few terms, also the most and the empty one.
    fn terms(&self, random: &mut Random) -> Vec<Term> {
        let count = match random.below(16) {
            0..=7 => 0,
            8..=12 => 1 + random.index(3),
            13 => MOST_TERMS as usize,
            14 => 2 * MOST_TERMS as usize,
            _ => return vec![0],
        };
        let terms: Vec<Term> = (0..count).map(|_| super::term(random, self.names)).collect();
        let mut terms = normal(&terms);
        // Beside others the empty term would be all that is left.
        terms.retain(|&t| t != 0);
        terms.truncate(MOST_TERMS as usize);
        terms
    }

    /// An interval as it is sent, so long before.
    fn interval(&self, random: &mut Random, state: &State, delay: u64) -> Interval<u64> {
        let from = self.base + state.reading.saturating_sub(self.reading);
        let Interval { left, right } = if !state.held.is_empty() && random.once_in(4) {
            near(random, state)
        } else if self.places > 0 {
            self.placed(random, from)
        } else {
            let (left, width) = (random.below(self.span), random.pick(&[1, 4, self.span]));
            Interval { left: from + left, right: from + left + random.below(width) }
        };
        let right = right.min(GREATEST_END);
        let here = Interval { left: left.min(right), right };
        if delay <= GREATEST_DELAY && random.once_in(40) {
            return past(delay, state.drift).unwrap_or(here);
        }
        if SLEPT.contains(&delay) && !random.once_in(4) {
            return before(random, here, delay, state.drift);
        }
        here
    }

    /// One place, or several beside each other, or far from all.
    fn placed(&self, random: &mut Random, from: u64) -> Interval<u64> {
        let place = random.below(self.places);
        let left = from + 100 * place;
        match random.below(10) {
            0..=5 => Interval { left, right: left + 40 + random.below(20) },
            6 => Interval { left, right: left + 100 * random.below(self.places) + 50 },
            7 | 8 => Interval { left: from, right: from + 5_000 },
            _ => Interval { left: from + 10_000, right: from + 10_000 + random.below(100) },
        }
    }

    /// A little later; flawed or at the edge now and then.
    fn reading(&self, random: &mut Random, state: &State) -> u64 {
        let last = state.reading;
        match random.below(20) {
            0 => last.saturating_sub(1 + random.below(10)),
            1 => random.pick(&[GREATEST_READING, GREATEST_READING + 1, u64::MAX]),
            2 => last + random.below(3_000_000),
            3 => last,
            _ => last + random.below(self.span),
        }
    }
}

/// The names in a state's entries.
fn names_in_use(state: &State) -> Term {
    state.entries.iter().flat_map(|entry| entry.iter()).fold(0, |all, t| all | t)
}

/// Whether without a name two predicates of held data become one.
fn meet_without(state: &State, name: u32) -> bool {
    let left = without(state.held.iter().map(|datum| &datum.predicate), name);
    let same = |i: usize, j: usize| left[i].0 != left[j].0 && left[i].1 == left[j].1;
    let stays = |i: usize| !holds(0, &left[i].1);
    (0..left.len()).any(|i| stays(i) && (0..i).any(|j| same(i, j)))
}

/// Whether without a name an entry comes to imply a held datum.
fn implied_without(state: &State, name: u32) -> bool {
    let held = without(state.held.iter().map(|datum| &datum.predicate), name);
    let entries = without(state.entries.iter(), name);
    let implied = |p: &Predicate, left: &Predicate| {
        entries.iter().any(|(entry, after)| after.implies(left) && !entry.implies(p))
    };
    held.iter().any(|(p, left)| !holds(0, left) && implied(p, left))
}

/// Predicates, each with what is left of it without a name.
fn without<'a>(
    predicates: impl Iterator<Item = &'a Predicate>,
    name: u32,
) -> Vec<(Predicate, Predicate)> {
    predicates.map(|p| (*p, p.after(1 << name))).collect()
}

/// Mostly the first one.
fn own_epoch(random: &mut Random) -> u8 {
    random.pick(&[0, 0, 1, 2, GREATEST_EPOCH])
}

/// An epoch about the known one, seldom any.
fn other_epoch(random: &mut Random, known: u8) -> u8 {
    let any = random.below(u64::from(GREATEST_EPOCH) + 1) as u8;
    let (above, below) = ((known + 1).min(GREATEST_EPOCH), known.saturating_sub(1));
    match random.below(24) {
        0 => any,
        1 => GREATEST_EPOCH,
        2..=12 => above,
        13 => 0,
        _ => below,
    }
}

/// Delays of a radio that has slept, which differ by a little or by far.
fn slept(random: &mut Random, more: u64) -> (u64, u64) {
    let (first, last) = SLEPT.into_inner();
    let any = first + random.below(last - first + 1);
    let greatest = random.pick(&[first, any, any, any, last]);
    let least = random.below(greatest);
    (random.pick(&[greatest, greatest - more, greatest - more, least]), greatest)
}

/// The interval that grows to the microsecond before this right end in a delay, or past this end by
/// less than another, if there is room below.
fn before(random: &mut Random, here: Interval<u64>, delay: u64, drift: u32) -> Interval<u64> {
    let gained = Interval { left: 0, right: advance(delay, drift).1 }.rounded().right;
    let gained = gained - u64::from(random.once_in(3));
    match here.right.checked_sub(gained) {
        Some(right) => Interval { left: here.left.saturating_sub(gained), right },
        None => here,
    }
}

/// The interval that grows past the greatest end by its fraction alone, if the delay has one.
fn past(delay: u64, drift: u32) -> Option<Interval<u64>> {
    let (gained, millionths) = split(advance(delay, drift).1);
    let end = GREATEST_END - gained;
    (millionths > 0).then_some(Interval { left: end, right: end })
}

/// Ends that are about those of a held datum, or next to them.
fn near(random: &mut Random, state: &State) -> Interval<u64> {
    let held = state.held[random.index(state.held.len())].interval;
    let inner = Interval { left: held.rounded().left, right: split(held.right).0 };
    let Interval { left, right } = random.pick(&[inner, held.rounded()]);
    let (low, high) = (random.pick(&[0, 0, 1, 2]), random.pick(&[0, 0, 1, 2]));
    let (one, other) = match random.below(5) {
        0 => (left.saturating_sub(low), right + high),
        1 => (left + low, right.saturating_sub(high)),
        2 => (left + low, right + high),
        3 => (right + low, right + low + high),
        _ => (left.saturating_sub(low + high), left.saturating_sub(low)),
    };
    Interval { left: one.min(other), right: one.max(other) }
}

/// The interval's words, in centre form now and then if it has one.
fn in_any_form(random: &mut Random, Interval { left, right }: Interval<u64>) -> Vec<u32> {
    let width = right - left;
    if width.is_multiple_of(2) && width < 1 << 29 && random.once_in(2) {
        super::centre_form(left + width / 2, width / 2)
    } else {
        super::ends_form(left, right)
    }
}

/// A position of a held datum, or one past them.
fn position(random: &mut Random, state: &State) -> u64 {
    let held = state.held.len() as u64;
    let any = random.below(held + 2);
    random.pick(&[any, any, any, held.saturating_sub(1), held, 1 << 32, u64::MAX])
}

/// Every limit, and one past them.
fn limit(random: &mut Random) -> u64 {
    let (any, most) = (random.bits(), u64::from(GREATEST_LIMIT));
    random.pick(&[0, 1, 2, 3, most, most + 1, 1 << 32, any])
}

/// Numbers at the edges of what is taken, and past them.
fn flawed_set_up(random: &mut Random) -> Call {
    let (name, drift, low) = (GREATEST_NAME, GREATEST_DRIFT, random.bits() as u32);
    let epoch = u64::from(GREATEST_EPOCH);
    Call::SetUp {
        own: random.pick(&[0, 2, name, name, name + 1, 256, low]),
        drift: random.pick(&[0, 1, drift, drift, drift + 1, 65_536, low]),
        reading: random.pick(&[0, 9, GREATEST_READING, GREATEST_READING + 1, u64::MAX]),
        epoch: random.pick(&[0, 9, epoch, epoch, epoch + 1, 256, 1 << 32, u64::MAX]),
    }
}
