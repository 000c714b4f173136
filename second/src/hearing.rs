//! Hearing the epochs of a message (document 02, W-204), which comes first in receiving: which old
//! names it withdraws, and which names of its own are old.

use crate::branches::{Branch, Branches};
use crate::claims::places;
use crate::epochs::Name;
use crate::message::Message;
use crate::predicates::{holds, struck, Predicate, Term};
use crate::state::{State, DATUM_TERMS};

/// Hears every epoch but the own identifier's, whatever becomes of the terms: those above the known
/// ones are known from now on and withdraw the old names. The identifiers whose epochs are older.
pub fn hear(state: &mut State, message: &Message, seen: &mut Branches) -> Term {
    let (mut risen, mut old) = (0, 0);
    for Name { identifier, epoch } in message.names() {
        let known = &mut state.epochs[identifier as usize];
        if identifier == state.own {
            seen.enter(Branch::OwnEpoch, epoch != *known);
        } else if epoch > *known {
            *known = epoch;
            risen |= 1 << identifier;
        } else if epoch < *known {
            old |= 1 << identifier;
        }
    }
    if risen != 0 {
        enter_risen(state, message, risen, seen);
        withdraw(state, risen, seen);
    }
    old
}

/// Enters where the message has the identifiers that have risen, and whether they had triples.
fn enter_risen(state: &State, message: &Message, risen: Term, seen: &mut Branches) {
    let (sender, others) = (1 << message.sender, struck(state.own, &message.terms));
    let others = others.iter().fold(0, |names, t| names | t);
    seen.enter(Branch::RisenSender, risen & sender != 0);
    seen.enter(Branch::RisenInTerm, risen & others & !sender != 0);
    seen.enter(Branch::RisenInStruck, risen & !others & !sender != 0);
    for identifier in places(risen.into()).filter(|&n| state.clocks[n].is_some()) {
        let of_sender = identifier == message.sender as usize;
        seen.enter(Branch::TriplesOfSender, of_sender);
        seen.enter(Branch::TriplesInTerm, !of_sender);
    }
}

/// The old names count as failed in all held data and entries, and their triples go. Nothing is
/// merged, and nothing goes that an entry explains.
fn withdraw(state: &mut State, risen: Term, seen: &mut Branches) {
    let (of_data, of_entries) =
        ([Branch::DatumGone, Branch::DatumRewritten], [Branch::EntryGone, Branch::EntryRewritten]);
    state.held.retain_mut(|datum| stays(&mut datum.predicate, risen, of_data, seen));
    state.entries.retain_mut(|entry| stays(entry, risen, of_entries, seen));
    for identifier in places(risen.into()) {
        state.clocks[identifier] = None;
    }
}

/// Makes the predicate what is left once these have failed. Whether it stays: it goes if it is
/// true.
fn stays(p: &mut Predicate, failed: Term, branches: [Branch; 2], seen: &mut Branches) -> bool {
    if p.iter().all(|t| t & failed == 0) {
        return true;
    }
    let left = p.after(failed);
    let (gone, [went, rewritten]) = (holds(0, &left), branches);
    seen.enter(went, gone);
    seen.enter(rewritten, !gone);
    seen.enter(Branch::FewerTerms, !gone && left.len() < p.len());
    *p = left;
    !gone
}

/// Sender + predicate with every term that names the receiver struck out, the older names counting
/// as failed; in normal form.
pub fn formed(own: u32, message: &Message, old: Term, seen: &mut Branches) -> Predicate {
    let others = struck(own, &message.terms);
    seen.enter(Branch::Struck, others.len() < message.terms.len());
    let whole = Predicate::sum(&[1 << message.sender], &others);
    if old == 0 {
        return whole;
    }
    let left = whole.after(old);
    let (of_sender, always) = (old >> message.sender & 1 != 0, holds(0, &left));
    seen.enter(Branch::OldSender, of_sender);
    seen.enter(Branch::OldInTerm, !always && left != whole);
    seen.enter(Branch::OldMadeTrue, always && !of_sender && !holds(0, &whole));
    seen.enter(Branch::OldSpared, whole.len() > DATUM_TERMS && left.len() <= DATUM_TERMS);
    left
}
