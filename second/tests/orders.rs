//! Receipts in another order (document 02, W-206): after one and the same history, with no ageing
//! between them, no epoch change, none refused in either order, and the receipts of one sender that
//! carry clock readings kept in their order, any two orders of the same receipts give the same
//! answer for each limit and the same fewest failures. Stored bytes may differ.
//!
//! A sender is a current name: an older one's readings are not heeded, and need keep no order.

use second::asking::{ANSWER_BYTES, FEWEST_BYTES, GREATEST_LIMIT};
use second::book;
use second::booked::{Past, Run};
use second::branches::Branch;
use second::calls::{refused, taken, tried, Call};
use second::clocks::Readings;
use second::epochs::{Epochs, Name};
use second::instants::Instants;
use second::message::Message;
use second::predicates::Term;
use second::random::Random;
use second::samples::runs::World;
use second::samples::Tally;
use second::state::{State, DATA_AT, MOST_DATA, STATE_BYTES};
use std::ops::{Range, RangeInclusive};

const LIMITS: RangeInclusive<u32> = 0..=GREATEST_LIMIT;

// ---- orders by name

/// A receipt without delay.
fn receipt(message: Message, readings: Option<Readings>) -> Call {
    Call::Receive { least: 0, greatest: 0, readings, message: message.bytes() }
}

/// The same without readings, at the first epochs.
fn heard(sender: u32, left: u64, right: u64, terms: &[Term]) -> Call {
    receipt(Message::of(sender, left, right, terms), None)
}

/// 0 to 10 from sender 1 without drift, at the first epochs, with these readings.
fn read(a: u64, b: u64, w: u64) -> Call {
    receipt(Message::of(1, 0, 10, &[]), Some(Readings::of(a, b, w, 0)))
}

/// The state after calls that are taken.
fn after(before: &State, calls: &[Call]) -> State {
    calls.iter().fold(before.clone(), |state, call| taken(&state, call).0)
}

/// The bytes that both programs write: the answer for each limit, and the fewest failures.
fn told(state: &State) -> Vec<Vec<u8>> {
    let asked = LIMITS.map(|limit| (Call::Ask { limit: limit.into() }, ANSWER_BYTES));
    let calls = asked.chain([(Call::Fewest, FEWEST_BYTES)]);
    calls.map(|(call, len)| tried(&call, &state.bytes(), len).2).collect()
}

/// The numbers in an output.
fn numbers(out: &[u8]) -> Vec<u64> {
    out.as_chunks().0.iter().map(|&number| u64::from_le_bytes(number)).collect()
}

/// Own identifier 5, drift 0, nothing held.
fn fresh() -> State {
    State::fresh(5, 0, 0)
}

#[test]
fn orders_of_two_receipts_hold_other_bytes_and_answer_alike() {
    let (one, other) = (heard(1, 0, 10, &[]), heard(2, 5, 20, &[]));
    let [first, second] =
        [[&one, &other], [&other, &one]].map(|order| after(&fresh(), &order.map(Call::clone)));
    // What is held stands in the order of its receipts: the first left end is 0, or 5.
    let left = |state: &State| state.bytes()[DATA_AT..][..8].to_vec();
    assert_eq!((left(&first), left(&second)), (vec![0; 8], vec![5, 0, 0, 0, 0, 0, 0, 0]));
    assert_eq!(told(&first), told(&second));
    assert_eq!(numbers(&told(&first)[0]), [2, 5, 10]);
}

#[test]
fn orders_of_the_same_receipt_twice_answer_alike() {
    let (one, other) = (heard(1, 0, 10, &[]), heard(2, 20, 30, &[4]));
    let orders = [[&one, &one, &other], [&one, &other, &one], [&other, &one, &one]];
    let [first, rest @ ..] = orders.map(|order| told(&after(&fresh(), &order.map(Call::clone))));
    assert!(rest.iter().all(|answers| *answers == first));
}

/// The premise on readings is needed.
#[test]
fn orders_of_one_senders_readings_give_other_answers() {
    let [quiet, violated] = [[read(0, 0, 0), read(10, 10, 0)], [read(10, 10, 0), read(0, 0, 0)]]
        .map(|order| told(&after(&fresh(), &order)));
    assert_eq!(numbers(&quiet[0]), [2, 0, 10]);
    assert_eq!(numbers(&violated[0]), [0, 0, 0]);
    assert_eq!(numbers(&quiet[5]), [0, 0]);
    assert_eq!(numbers(&violated[5]), [1, 2]);
}

/// But only for a current name.
#[test]
fn orders_of_an_older_names_readings_answer_alike() {
    let mended = receipt(Message::of(1, 0, 10, &[]).at(&[(1, 1)]), None);
    let known = after(&fresh(), &[mended]);
    let orders = [[read(0, 0, 0), read(10, 10, 0)], [read(10, 10, 0), read(0, 0, 0)]];
    let [one, other] = orders.map(|order| after(&known, &order));
    assert_eq!(told(&one), told(&other));
    assert_eq!(numbers(&told(&one)[0]), [2, 0, 10]);
    assert_eq!((one.bytes(), other.bytes()), (known.bytes(), known.bytes()));
}

/// A batch with a refused receipt is outside the statement: that depends on the order. Here one that
/// two held data go for makes room for another.
#[test]
fn orders_can_be_refused_where_another_is_taken() {
    let wide = |sender: u32, terms: &[Term]| heard(sender, 0, 100, terms);
    let many = (10..10 + MOST_DATA as u32 - 2).map(|sender| wide(sender, &[]));
    let held: Vec<Call> = [wide(1, &[4]), wide(1, &[8])].into_iter().chain(many).collect();
    let full = after(&fresh(), &held);
    assert_eq!(full.held.len(), MOST_DATA);
    let (betters, more) = (wide(1, &[]), wide(4, &[]));
    assert_eq!(after(&full, &[betters.clone(), more.clone()]).held.len(), MOST_DATA);
    refused(&full, &more, 32);
    assert_eq!(after(&full, &[betters]).held.len(), MOST_DATA - 1);
}

// ---- seeded batches

const HISTORIES: u64 = 20_000;
/// Of one batch.
const MOST_RECEIPTS: usize = 5;
const MOST_ORDERS: usize = 24;

/// A run, and receipts that may come after it in any order.
struct Batch {
    run: Run,
    past: Past,
    /// The epochs that are known after the run.
    known: Epochs,
    receipts: Vec<Call>,
    /// What comes after them in every order: an ageing and two steps.
    more: Vec<Call>,
}

impl Batch {
    fn drawn(seed: u64) -> Batch {
        let mut random = Random::new(seed);
        let (world, steps) = match random.below(12) {
            0 => (World::crowded(&mut random), 60 + random.below(60)),
            1..=6 => (World::mending(&mut random), random.below(30)),
            _ => (World::small(&mut random), random.below(30)),
        };
        let mut run = Run::new(seed, random, &world);
        for _ in 0..steps {
            let state = run.state();
            let step = world.step(&mut run.random, &state);
            run.call(&step);
        }
        let (past, state) = (run.past(), run.state());
        let count = 2 + run.random.index(MOST_RECEIPTS - 1);
        let mut receipts: Vec<Call> = vec![];
        while receipts.len() < count {
            let again = receipts.get(run.random.index(2 * MOST_RECEIPTS)).cloned();
            let step = match again {
                Some(receipt) if run.random.once_in(3) => receipt,
                Some(receipt) => read_otherwise(&mut run.random, receipt),
                None => world.step(&mut run.random, &state),
            };
            if may_come(&mut run, &past, &step) {
                receipts.push(step);
            }
        }
        let reading = state.reading + run.random.below(1_000);
        let steps = (0..2).map(|_| world.step(&mut run.random, &state));
        let more = [Call::Age { reading }].into_iter().chain(steps).collect();
        Batch { run, past, known: state.epochs, receipts, more }
    }

    /// The current name whose clock readings a receipt carries.
    fn watched(&self, receipt: usize) -> Option<Name> {
        self.read_from(receipt).filter(|name| !name.is_old(&self.known))
    }

    /// The name, current or older, whose clock readings it carries.
    fn read_from(&self, receipt: usize) -> Option<Name> {
        match &self.receipts[receipt] {
            Call::Receive { readings: Some(_), message, .. } => {
                book::read(message).map(|message| Name::at(&message.epochs, message.sender))
            }
            _ => None,
        }
    }

    /// Whether an order is another one written otherwise: equal receipts have changed places.
    fn is_copy(&self, order: &[usize]) -> bool {
        turned(order).any(|(i, j)| self.receipts[i] == self.receipts[j])
    }

    /// Whether readings of one current name have changed places.
    fn breaks_readings(&self, order: &[usize]) -> bool {
        turned(order)
            .any(|(i, j)| self.watched(i).is_some_and(|name| self.watched(j) == Some(name)))
    }

    /// Whether readings of one older name have, which are not heeded.
    fn turns_older_readings(&self, order: &[usize]) -> bool {
        let older = |i: usize| self.read_from(i).filter(|_| self.watched(i).is_none());
        turned(order).any(|(i, j)| older(i).is_some_and(|name| older(j) == Some(name)))
    }

    /// After the history, the receipts in an order; none if one is refused.
    fn made(&mut self, order: &[usize]) -> Option<Made> {
        self.run.back_to(&self.past);
        let mut inside = [false; INSIDE.len()];
        for &i in order {
            if self.run.call(&self.receipts[i]) != 0 {
                return None;
            }
            for (met, (_, branch)) in inside.iter_mut().zip(INSIDE) {
                *met |= self.run.branches.has(branch);
            }
        }
        let (bytes, answers) = (self.run.bytes()[..STATE_BYTES].to_vec(), answers(&mut self.run));
        let by_set = self.run.book.ended().by_set();
        let by_set = by_set.iter().map(|(reached, set)| (reached, set.to_vec())).collect();
        Some(Made { bytes, answers, by_set, inside })
    }

    /// What is answered after more; none if a step of it is refused.
    fn later(&mut self) -> Option<Vec<Vec<u8>>> {
        let Batch { run, more, .. } = self;
        more.iter().all(|step| run.call(step) == 0).then(|| answers(run))
    }
}

/// The same receipt with readings a little later or earlier, if it has any.
fn read_otherwise(random: &mut Random, mut receipt: Call) -> Call {
    if let Call::Receive { readings: Some(Readings { triple, .. }), .. } = &mut receipt {
        let (back, on) = (random.below(4), random.below(8));
        triple.a = triple.a.saturating_sub(back) + on;
        triple.b = triple.b.saturating_sub(back) + on;
    }
    receipt
}

/// Whether it is a receipt that brings no epoch above the one known, and that is taken after the
/// history or only lacks room there.
fn may_come(run: &mut Run, past: &Past, step: &Call) -> bool {
    let Call::Receive { message, .. } = step else {
        return false;
    };
    if book::read(message).is_none_or(|message| run.book.raises(&message)) {
        return false;
    }
    let number = run.call(step);
    run.back_to(past);
    [0, 32].contains(&number)
}

/// What a receipt of a batch can come to that an order could matter for.
const INSIDE: [(&str, Branch); 4] = [
    ("a violation inside", Branch::Violated),
    ("a late sender inside", Branch::OldSender),
    ("readings of one", Branch::Unheeded),
    ("a late name in a term", Branch::OldInTerm),
];

/// What came of an order.
struct Made {
    bytes: Vec<u8>,
    answers: Vec<Vec<u8>>,
    /// By the book, what is reached with each set of failed names.
    by_set: Vec<(Instants, Vec<Name>)>,
    inside: [bool; INSIDE.len()],
}

/// What both programs answer for each limit, and the fewest failures.
fn answers(run: &mut Run) -> Vec<Vec<u8>> {
    let mut answers: Vec<Vec<u8>> = LIMITS.map(|limit| run.answer(limit)).collect();
    answers.push(run.fewest());
    answers
}

/// The pairs that an order has changed round: the second comes before the first.
fn turned(order: &[usize]) -> impl Iterator<Item = (usize, usize)> + '_ {
    let before = move |at: usize| order[..at].iter().map(move |&j| (order[at], j));
    (0..order.len()).flat_map(before).filter(|(i, j)| i < j)
}

/// The orders of so many receipts, or as many of them as are tried. The one in which they were drawn
/// comes first.
fn orders(count: usize, random: &mut Random) -> Vec<Vec<usize>> {
    let mut orders = vec![vec![]];
    for i in 0..count {
        let placed = |order: Vec<usize>| {
            (0..=i).rev().map(move |at| [&order[..at], &[i], &order[at..]].concat())
        };
        orders = orders.into_iter().flat_map(placed).collect();
    }
    while orders.len() > MOST_ORDERS {
        orders.remove(1 + random.index(orders.len() - 1));
    }
    orders
}

/// Tries the orders of a batch against the first of them that is taken.
fn compare(batch: &mut Batch, tally: &mut Tally) {
    let mut first: Option<(Made, Option<Vec<Vec<u8>>>)> = None;
    for order in orders(batch.receipts.len(), &mut batch.run.random) {
        if batch.is_copy(&order) {
            tally.count("left out as another one's copy", true);
            continue;
        }
        let (breaks, made) = (batch.breaks_readings(&order), batch.made(&order));
        tally.count("left out for readings", breaks);
        tally.count("left out for a refusal", !breaks && made.is_none());
        match (made, &first) {
            (Some(made), None) => first = (!breaks).then(|| (made, batch.later())),
            (Some(made), Some((known, _))) if breaks => {
                tally.count("other answers for readings left out", made.answers != known.answers);
            }
            (Some(made), Some((known, later))) => {
                alike(batch, &order, &made, known);
                count(batch, &order, &made, known, tally);
                let both = (later, batch.later());
                tally.count("compared after more steps", both.0.is_some() && both.1.is_some());
                if let (Some(known), Some(later)) = both {
                    assert_eq!(later, *known, "later: {order:?}: {}", batch.run.case());
                }
            }
            (None, _) => {}
        }
    }
}

/// Both orders give the same, by the programs and by their books.
fn alike(batch: &Batch, order: &[usize], made: &Made, known: &Made) {
    let case = || format!("{order:?}: {}", batch.run.case());
    assert_eq!(made.answers, known.answers, "{}", case());
    assert_eq!(made.by_set, known.by_set, "{}", case());
}

/// Counts what the order has met.
fn count(batch: &Batch, order: &[usize], made: &Made, known: &Made, tally: &mut Tally) {
    tally.count("orders compared", true);
    tally.count("bytes differ", made.bytes != known.bytes);
    for (met, (what, _)) in made.inside.into_iter().zip(INSIDE) {
        tally.count(what, met);
    }
    tally.count("an older name's readings changed round", batch.turns_older_readings(order));
}

/// Tries the batches after the histories of these seeds.
fn compare_all(seeds: Range<u64>) {
    let mut tally = Tally::default();
    for seed in seeds.clone() {
        let mut batch = Batch::drawn(seed);
        let twice = |i: usize| batch.receipts[..i].contains(&batch.receipts[i]);
        tally.count("batches with a receipt twice", (0..batch.receipts.len()).any(twice));
        compare(&mut batch, &mut tally);
    }
    tally.check(&format!("receipts in other orders, {} histories", seeds.count()), 200);
}

// Two tests, so that they run beside each other.

#[test]
fn orders_after_10_000_histories_answer_alike() {
    compare_all(0..HISTORIES / 2);
}

#[test]
fn orders_after_10_000_more_histories_answer_alike() {
    compare_all(HISTORIES / 2..HISTORIES);
}
