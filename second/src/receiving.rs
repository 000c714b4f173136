//! Receiving (document 01, "Receiving"; document 02, W-201, W-202, W-204 and W-205): a function for
//! each of its steps. Epochs are heard in `hearing`.

use crate::ageing::advance;
use crate::branches::{Branch, Branches};
use crate::clocks::{Readings, Saved, Triple};
use crate::hearing::{formed, hear};
use crate::instants::{by_fraction, Interval, GREATEST_INSTANT};
use crate::message::{self, Message};
use crate::predicates::{holds, Predicate};
use crate::refusal;
use crate::state::{Datum, State, DATUM_TERMS, MOST_DATA, MOST_ENTRIES};

/// The greatest delay of a channel, in microseconds on the receiver's clock (document 02, W-202).
pub const GREATEST_DELAY: u64 = 600_000_000;

/// `monitor_receive`, or `monitor_receive_with_readings` where there are some: the state after the
/// receipt, or 24, 25, 21, 40, 10, 12, 11, 13, 14, 42, 15 to 18, 30 to 32.
pub fn call(
    lent: &mut [u8],
    least: u64,
    greatest: u64,
    readings: Option<Readings>,
    message: &[u8],
) -> u32 {
    call_seen(lent, least, greatest, readings, message, &mut Branches::default())
}

/// The same, and enters the branches that it came through.
pub fn call_seen(
    lent: &mut [u8],
    least: u64,
    greatest: u64,
    readings: Option<Readings>,
    message: &[u8],
    seen: &mut Branches,
) -> u32 {
    match received(lent, least, greatest, readings, message, seen) {
        Ok(state) => state.encode(lent),
        Err(number) => return number,
    }
    refusal::TAKEN
}

/// The state after a receipt, and nothing of it if it is refused, whatever it has come to by then.
fn received(
    lent: &[u8],
    least: u64,
    greatest: u64,
    readings: Option<Readings>,
    message: &[u8],
    seen: &mut Branches,
) -> Result<State, u32> {
    let (mut state, message) = checked(lent, least, greatest, readings, message)?;
    let old = hear(&mut state, &message, seen);
    let Some(interval) = grown(message.interval, least, greatest, state.drift) else {
        enter_passed(message.interval, greatest, state.drift, seen);
        return Err(refusal::PASSES_END);
    };
    let predicate = formed(state.own, &message, old, seen);
    if predicate.len() > DATUM_TERMS {
        return Err(refusal::NEW_TERMS);
    }
    let heeded = old >> message.sender & 1 == 0;
    seen.enter(Branch::Unheeded, readings.is_some() && !heeded);
    let readings = readings.filter(|_| heeded);
    let violated = readings.is_some_and(|new| watch(&mut state, message.sender, new, seen));
    if violated {
        blame(&mut state, message.sender, seen);
    }
    let always = holds(0, &predicate);
    seen.enter(Branch::True, always);
    if !always {
        take(&mut state, Datum { interval, predicate }, seen);
    } else if violated {
        clear(&mut state, seen);
    }
    counted(&state, seen)?;
    Ok(state)
}

/// The state and the message, or the numbers that stand before 30.
fn checked(
    lent: &[u8],
    least: u64,
    greatest: u64,
    readings: Option<Readings>,
    message: &[u8],
) -> Result<(State, Message), u32> {
    let state = State::of(lent)?;
    if least > greatest || greatest > GREATEST_DELAY {
        return Err(refusal::DELAYS);
    }
    if readings.is_some_and(|readings| !readings.fit()) {
        return Err(refusal::READINGS);
    }
    let message = message::read(&message::words_of(message)?)?;
    if message.sender == state.own {
        return Err(refusal::SENDER);
    }
    Ok((state, message))
}

/// The interval grown by delays, which count by the ageing rule on the receiver's clock: the least
/// as a left end's advance, the greatest as a right end's (document 02, W-202). None if an end would
/// pass the greatest one.
pub fn grown(sent: Interval<u64>, least: u64, greatest: u64, drift: u32) -> Option<Interval> {
    let (left_gains, _) = advance(least, drift);
    let (_, right_gains) = advance(greatest, drift);
    sent.exact().advanced(left_gains, right_gains)
}

/// Enters whether a right end that passes the greatest one does so by its fraction alone.
fn enter_passed(sent: Interval<u64>, greatest: u64, drift: u32, seen: &mut Branches) {
    let right = sent.exact().right + advance(greatest, drift).1;
    seen.enter(Branch::PassesByFraction, by_fraction(right, GREATEST_INSTANT));
}

/// Test (20) against what is saved of the sender; then the triple is saved. Whether it violates.
fn watch(state: &mut State, sender: u32, new: Readings, seen: &mut Branches) -> bool {
    let drifts = state.drift + new.drift;
    let place = &mut state.clocks[sender as usize];
    seen.enter(Branch::SavedFirst, place.is_none());
    let Some(saved) = *place else {
        *place = Some(Saved::first(new.triple));
        return false;
    };
    *place = Some(saved.with(new.triple));
    enter_test(saved, new.triple, drifts, seen);
    saved.violated_by(new.triple, drifts)
}

/// Enters how the test went, and whether there is a tie.
fn enter_test(saved: Saved, new: Triple, drifts: u32, seen: &mut Branches) {
    let excesses = saved.excesses(new, drifts);
    let violated = excesses.map(|excess| excess > 0);
    seen.enter(Branch::Tested, true);
    seen.enter(Branch::Violated, violated.contains(&true));
    seen.enter(Branch::ByPrevious, violated == [true, false, false]);
    seen.enter(Branch::ByAhead, violated == [false, true, false]);
    seen.enter(Branch::ByBehind, violated == [false, false, true]);
    seen.enter(Branch::AtBound, !violated.contains(&true) && excesses.contains(&0));
    seen.enter(Branch::OwnBack, saved.triples().iter().any(|old| new.b < old.b));
    seen.enter(Branch::SenderBack, saved.triples().iter().any(|old| new.a < old.a));
    let ahead = saved.ahead != new && saved.ahead.ahead() == new.ahead();
    let behind = saved.behind != new && saved.behind.behind() == new.behind();
    seen.enter(Branch::Tie, ahead || behind);
}

/// A violation: the sender's name is an entry, placed as in step 1.
fn blame(state: &mut State, sender: u32, seen: &mut Branches) {
    let mut placed = Branches::default();
    add_entry(&mut state.entries, Predicate::of(&[1 << sender]), &mut placed);
    seen.enter(Branch::NameImplied, placed.has(Branch::EntryImplied));
    seen.enter(Branch::NameAdded, placed.has(Branch::EntryAdded));
    seen.enter(Branch::NameDroveOut, placed.has(Branch::EntriesGone));
}

/// The four steps.
fn take(state: &mut State, new: Datum, seen: &mut Branches) {
    learn(state, &new, seen);
    clear(state, seen);
    let ends = explained(&new.predicate, &state.entries);
    seen.enter(Branch::NewExplained, ends);
    if !ends {
        let new = meet(state, new, seen);
        store(state, new, seen);
    }
}

/// The counts at the end.
fn counted(state: &State, seen: &mut Branches) -> Result<(), u32> {
    let (data, entries) = (state.held.len() > MOST_DATA, state.entries.len() > MOST_ENTRIES);
    seen.enter(Branch::TooManyData, data);
    seen.enter(Branch::TooManyEntries, entries);
    if data || entries {
        return Err(refusal::TOO_MANY);
    }
    Ok(())
}

/// Step 1: where intervals are disjoint, the sum of both predicates is an entry.
fn learn(state: &mut State, new: &Datum, seen: &mut Branches) {
    for datum in state.held.iter().filter(|datum| datum.interval.disjoint(new.interval)) {
        seen.enter(Branch::Disjoint, true);
        let (one, other) = (datum.interval, new.interval);
        let fraction = by_fraction(one.right, other.left) || by_fraction(other.right, one.left);
        seen.enter(Branch::DisjointByFraction, fraction);
        let entry = Predicate::sum(&datum.predicate, &new.predicate);
        add_entry(&mut state.entries, entry, seen);
    }
}

/// Unless an entry implies it: the entries that it implies go, and it stands last.
fn add_entry(entries: &mut Vec<Predicate>, entry: Predicate, seen: &mut Branches) {
    if explained(&entry, entries) {
        seen.enter(Branch::EntryImplied, true);
        return;
    }
    let count = entries.len();
    entries.retain(|old| !entry.implies(old));
    seen.enter(Branch::EntriesGone, entries.len() < count);
    entries.push(entry);
    seen.enter(Branch::EntryAdded, true);
    seen.enter(Branch::EntriesOver, entries.len() > MOST_ENTRIES);
}

/// Step 2: held data that an entry explains go.
fn clear(state: &mut State, seen: &mut Branches) {
    let State { held, entries, .. } = state;
    let count = held.len();
    held.retain(|datum| !explained(&datum.predicate, entries));
    seen.enter(Branch::HeldExplained, held.len() < count);
}

/// Whether p is implied by one entry.
fn explained(p: &Predicate, entries: &[Predicate]) -> bool {
    entries.iter().any(|entry| entry.implies(p))
}

/// Step 3, rule 15: the oldest held datum with the same predicate goes into the new interval.
fn meet(state: &mut State, new: Datum, seen: &mut Branches) -> Datum {
    let same = state.held.iter().position(|datum| datum.predicate == new.predicate);
    seen.enter(Branch::Met, same.is_some());
    let Some(place) = same else {
        return new;
    };
    let (old, interval) = (state.held.remove(place).interval, new.interval);
    seen.enter(Branch::LeftByFraction, by_fraction(old.left, interval.left));
    seen.enter(Branch::RightByFraction, by_fraction(old.right, interval.right));
    Datum { interval: old.meet(interval), ..new }
}

/// Step 4, rule 14: stored last, unless a held datum betters it; those that it betters go.
fn store(state: &mut State, new: Datum, seen: &mut Branches) {
    if state.held.iter().any(|datum| betters(datum, &new)) {
        seen.enter(Branch::NotStored, true);
        return;
    }
    let spared = state.held.iter().any(|datum| fails_by_fraction(datum, &new));
    seen.enter(Branch::NewSparedByFraction, spared);
    let count = state.held.len();
    state.held.retain(|datum| !betters(&new, datum));
    seen.enter(Branch::HeldBettered, state.held.len() < count);
    let spared = state.held.iter().any(|datum| fails_by_fraction(&new, datum));
    seen.enter(Branch::HeldSparedByFraction, spared);
    state.held.push(new);
    seen.enter(Branch::Stored, true);
}

/// Whether a implies b's predicate and lies within b's interval.
fn betters(a: &Datum, b: &Datum) -> bool {
    a.interval.within(b.interval) && a.predicate.implies(&b.predicate)
}

/// Whether a would better b if the fractions were passed over, and does not.
fn fails_by_fraction(a: &Datum, b: &Datum) -> bool {
    let (inner, outer) = (a.interval, b.interval);
    let left = outer.left <= inner.left || by_fraction(outer.left, inner.left);
    let right = inner.right <= outer.right || by_fraction(inner.right, outer.right);
    left && right && !inner.within(outer) && a.predicate.implies(&b.predicate)
}
