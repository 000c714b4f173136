//! Asking and fewest failures (document 01, "Asking"; document 02, W-205), made fast: `every_set`
//! has them as the papers word them.
//!
//! The search goes from a claim that has to be explained to the names that explain it. Letters as
//! in `predicates`: s is a set of failed names.

use crate::claims::{places, Claims};
use crate::instants::{Instant, Instants, Interval, GREATEST_INSTANT};
use crate::message;
use crate::predicates::{Term, ALL_NAMES};
use crate::refusal;
use crate::state::{self, Head, STATE_BYTES};

/// The asker's limit is 0 to this one; fewest looks among the sets of so many names.
pub const GREATEST_LIMIT: u32 = 4;
/// The count that fewest writes where no such set does.
pub const OVER: u64 = GREATEST_LIMIT as u64 + 1;
/// How many bytes asking writes: its kind, left and right.
pub const ANSWER_BYTES: usize = 3 * 8;
/// How many bytes fewest writes: count and mask.
pub const FEWEST_BYTES: usize = 2 * 8;

// ---- the search

/// Where the search is: a set, the claims that it may leave unexplained, the names that may still
/// be added and how many of them.
#[derive(Clone, Copy)]
struct Node {
    s: Term,
    /// Those that a name of s explains alone are not among them.
    unexplained: u64,
    free: Term,
    room: u32,
}

impl Node {
    fn first(claims: &Claims, own: u32, limit: u32) -> Node {
        let unexplained = claims.entries | claims.data;
        Node { s: 0, unexplained, free: ALL_NAMES & !(1 << own), room: limit }
    }

    /// With more names, which are free.
    fn with(self, claims: &Claims, new: Term) -> Node {
        let unexplained = self.unexplained & !claims.explained_by(new);
        Node { s: self.s | new, unexplained, room: self.room - new.count_ones(), ..self }
    }

    /// Those of the needed claims from the first on that s leaves unexplained.
    fn needed(&mut self, claims: &Claims, needed: u64) -> u64 {
        for i in places(self.unexplained & needed) {
            if !claims.holds(i, self.s) {
                break;
            }
            self.unexplained &= !(1 << i);
        }
        self.unexplained & needed
    }

    /// The first instant that all data contain which s leaves unexplained, where all entries are
    /// explained; none where two of them are apart.
    fn first_instant(&self, claims: &Claims) -> Option<Instant> {
        let several = places(self.unexplained).filter(|&i| claims.holds(i, self.s));
        let active = several.fold(self.unexplained, |active, i| active & !(1 << i));
        let left = claims.greatest_left(active);
        (active & claims.without(left) == 0).then_some(left)
    }
}

/// What to do at a node where all that has to be explained is.
enum Next {
    /// The search is over.
    Stop,
    /// No larger set is of use.
    Back,
    /// Something more has to be explained now.
    Again,
}

/// What a search is after.
trait Aim {
    /// The claims that have to be explained; they may become more.
    fn needed(&self) -> u64;

    /// Whether s or a larger set can be of use.
    fn worth(&self, s: Term) -> bool;

    fn reached(&mut self, claims: &Claims, node: &Node) -> Next;
}

/// Tries the sets from a node on. Whether the search is over.
fn search(claims: &Claims, aim: &mut impl Aim, mut node: Node) -> bool {
    loop {
        let needed = node.needed(claims, aim.needed());
        if needed != 0 {
            return match node.room {
                0 => false,
                1 => last_name(claims, aim, node, needed),
                _ => terms(claims, aim, node, needed.trailing_zeros() as usize),
            };
        }
        match aim.reached(claims, &node) {
            Next::Stop => return true,
            Next::Back => return false,
            Next::Again => {}
        }
    }
}

/// With one name to add: those that explain all that is needed.
fn last_name(claims: &Claims, aim: &mut impl Aim, node: Node, needed: u64) -> bool {
    let mut last = node.free;
    for i in places(needed) {
        last &= claims.alone_beside(i, node.s);
        if last == 0 {
            return false;
        }
    }
    places(last.into()).any(|n| {
        let new = 1 << n;
        aim.worth(node.s | new) && search(claims, aim, node.with(claims, new))
    })
}

/// With more names to add: the terms of a claim, those of one name first. A name that was tried is
/// forbidden from then on, since all sets with it have been looked at.
fn terms(claims: &Claims, aim: &mut impl Aim, mut node: Node, claim: usize) -> bool {
    for n in places((claims.alone(claim) & node.free).into()) {
        let new = 1 << n;
        if aim.worth(node.s | new) && search(claims, aim, node.with(claims, new)) {
            return true;
        }
        node.free &= !new;
    }
    for t in claims.several(claim) {
        let new = t & !node.s;
        if new & !node.free != 0 || new.count_ones() > node.room || !aim.worth(node.s | new) {
            continue;
        }
        if search(claims, aim, node.with(claims, new)) {
            return true;
        }
        if new.is_power_of_two() {
            node.free &= !new;
        }
    }
    false
}

// ---- what is searched for

/// A set that explains these claims.
struct Explain(u64);

impl Aim for Explain {
    fn needed(&self) -> u64 {
        self.0
    }

    fn worth(&self, _: Term) -> bool {
        true
    }

    fn reached(&mut self, _: &Claims, _: &Node) -> Next {
        Next::Stop
    }
}

/// The least instant that counts for some set, where no set explains all claims. A set with an
/// earlier one explains all data that do not begin before it, so that one search does for all ends.
/// It is given up where intervals are apart though no entry says so, as no run leaves them: then
/// each end is better searched for alone.
struct First {
    needed: u64,
    instant: Option<Instant>,
    apart: bool,
}

impl Aim for First {
    fn needed(&self) -> u64 {
        self.needed
    }

    fn worth(&self, _: Term) -> bool {
        true
    }

    fn reached(&mut self, claims: &Claims, node: &Node) -> Next {
        let Some(left) = node.first_instant(claims) else {
            self.apart = true;
            return Next::Stop;
        };
        self.needed = claims.entries | claims.from_left(left);
        self.instant = Some(left);
        Next::Again
    }
}

/// The least set for which an instant counts, where no smaller one has any; given up likewise.
struct Least {
    needed: u64,
    s: Option<Term>,
    apart: bool,
}

impl Aim for Least {
    fn needed(&self) -> u64 {
        self.needed
    }

    fn worth(&self, s: Term) -> bool {
        self.s.is_none_or(|least| s < least)
    }

    fn reached(&mut self, claims: &Claims, node: &Node) -> Next {
        if node.first_instant(claims).is_none() {
            self.apart = true;
            return Next::Stop;
        }
        self.s = Some(node.s);
        Next::Back
    }
}

// ---- the answers

/// The exact answer over a state in form: all that counts for some set within the limit, and the
/// gaps. None is 'contradicted', all is 'open'.
pub fn ask(bytes: &[u8; STATE_BYTES], limit: u32) -> Instants {
    if limit == 0 {
        return without_failures(bytes);
    }
    let mut claims = Claims::of(bytes, limit);
    let first = Node::first(&claims, Head::of(bytes).own, limit);
    if search(&claims, &mut Explain(first.unexplained), first) {
        return Instants::All;
    }
    let Some(left) = first_instant(&claims, first) else {
        return Instants::Empty;
    };
    claims.mirror();
    let right = first_instant(&claims, first).expect("an instant counts");
    Instants::Between(left, GREATEST_INSTANT - right)
}

/// The answer at limit 0: what all held intervals have in common, unless a failure is known.
fn without_failures(bytes: &[u8; STATE_BYTES]) -> Instants {
    let Head { held, entries, .. } = Head::of(bytes);
    if entries > 0 {
        return Instants::Empty;
    }
    let intervals = state::data_rows(bytes)[..held].iter().map(state::ends);
    intervals.fold(Instants::All, Instants::meet)
}

fn first_instant(claims: &Claims, node: Node) -> Option<Instant> {
    let mut first = First { needed: claims.entries, instant: None, apart: false };
    search(claims, &mut first, node);
    if !first.apart {
        return first.instant;
    }
    let counts = |&x: &Instant| search(claims, &mut Explain(claims.without(x)), node);
    let earlier = |&x: &Instant| first.instant.is_none_or(|instant| x < instant);
    claims.lefts().into_iter().filter(earlier).find(counts).or(first.instant)
}

/// The smallest set within the greatest limit for which an instant counts, and of those the least
/// mask; none is 'over'.
pub fn fewest(bytes: &[u8; STATE_BYTES]) -> Option<Term> {
    if without_failures(bytes) != Instants::Empty {
        return Some(0);
    }
    let claims = Claims::of(bytes, GREATEST_LIMIT);
    let first = |limit| Node::first(&claims, Head::of(bytes).own, limit);
    (1..=GREATEST_LIMIT).find_map(|limit| least_set(&claims, first(limit)))
}

fn least_set(claims: &Claims, node: Node) -> Option<Term> {
    let mut least = Least { needed: claims.entries, s: None, apart: false };
    search(claims, &mut least, node);
    if least.apart {
        for x in claims.lefts() {
            least.needed = claims.without(x);
            search(claims, &mut least, node);
        }
    }
    least.s
}

// ---- the calls

/// `monitor_ask`: the answer's bytes, or 24 (state), 25, 22, 24 (output).
pub fn ask_call(lent: &[u8], limit: u64, out: &mut [u8]) -> u32 {
    message::answer(asked(lent, limit).map(answer_bytes), out)
}

fn asked(lent: &[u8], limit: u64) -> Result<Instants, u32> {
    let bytes = state::checked(lent)?;
    if limit > GREATEST_LIMIT.into() {
        return Err(refusal::LIMIT);
    }
    Ok(ask(bytes, limit as u32))
}

/// `monitor_fewest`: the bytes of count and mask, or 24 (state), 25, 24 (output).
pub fn fewest_call(lent: &[u8], out: &mut [u8]) -> u32 {
    message::answer(state::checked(lent).map(fewest).map(fewest_bytes), out)
}

/// 0 contradicted, 1 open, 2 between; left and right in whole microseconds, both 0 unless between.
pub fn answer_bytes(answer: Instants) -> [u8; ANSWER_BYTES] {
    message::numbers(match answer {
        Instants::Empty => [0, 0, 0],
        Instants::All => [1, 0, 0],
        Instants::Between(left, right) => {
            let Interval { left, right } = Interval { left, right }.rounded();
            [2, left, right]
        }
    })
}

/// Count and mask; `OVER` and 0 for none.
pub fn fewest_bytes(found: Option<Term>) -> [u8; FEWEST_BYTES] {
    message::numbers(match found {
        Some(s) => [s.count_ones().into(), s.into()],
        None => [OVER, 0],
    })
}
