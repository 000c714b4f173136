//! Normal forms of sums (document 02, W-203): those that the second program makes of seeded sums,
//! and those that both programs make of the same sums, dealt out to receipts and to entries.

use second::branches::Branches;
use second::calls::Call;
use second::instants::Interval;
use second::lent::Lent;
use second::message::Message;
use second::predicates::{
    holds, implies, is_normal, normal, sets, Predicate, Term, ALL_NAMES, NAMES,
};
use second::random::Random;
use second::samples::{sums, Tally};
use second::state::{Datum, State, DATUM_TERMS, ENTRY_TERMS, STATE_BYTES};
use std::collections::BTreeSet;
use std::ops::Range;

// ---- what is expected

/// A sum of terms in any order, and its normal form by document 01's words: masks strictly rising
/// as numbers, no term containing another.
struct Sum {
    terms: Vec<Term>,
    form: Vec<Term>,
}

impl Sum {
    fn of(terms: Vec<Term>) -> Sum {
        let contains_none = |t: &Term| terms.iter().all(|u| u == t || t & u != *u);
        let kept: BTreeSet<Term> = terms.iter().copied().filter(contains_none).collect();
        Sum { form: kept.into_iter().collect(), terms }
    }

    /// How many of its terms the normal form does not have.
    fn struck(&self) -> usize {
        self.terms.len() - self.form.len()
    }

    /// How many of its terms differ.
    fn distinct(&self) -> usize {
        self.terms.iter().collect::<BTreeSet<_>>().len()
    }

    fn names(&self) -> Term {
        self.terms.iter().fold(0, |names, t| names | t)
    }

    /// Whether all sets of its names can be tried.
    fn has_few_names(&self) -> bool {
        self.names().count_ones() <= FEW_NAMES
    }
}

const FEW_NAMES: u32 = 6;

// ---- what was reached

/// By how many terms were struck.
const STRUCK: [&str; ENTRY_TERMS] =
    ["struck 0", "1", "2", "3", "4", "5", "6", "7", "8", "9", "10", "11", "12", "13", "14", "15"];

/// Counts the sum by how many terms were struck, at most so many, and by what it had.
fn count(tally: &mut Tally, sum: &Sum, most: usize, features: &[(&'static str, bool)]) {
    assert!(sum.struck() <= most, "{:?}", sum.terms);
    for (n, what) in STRUCK[..=most].iter().enumerate() {
        tally.count(what, sum.struck() == n);
    }
    for (what, met) in features {
        tally.count(what, *met);
    }
}

/// What a sum of any terms may have.
fn features(sum: &Sum) -> [(&'static str, bool); 7] {
    let Sum { terms, form } = sum;
    let one_of_16 = terms.len() == ENTRY_TERMS && form.len() == 1;
    let (equal, always) = (sum.distinct() == 1, terms.contains(&0));
    [
        ("with equal masks", sum.distinct() < terms.len()),
        ("with the empty term", always),
        ("with four terms in a chain", longest_chain(terms) >= 4),
        ("of six names at most", sum.has_few_names()),
        ("16 struck but one by equal masks", one_of_16 && equal),
        ("by the empty term", one_of_16 && !equal && always),
        ("by a small term", one_of_16 && !equal && !always),
    ]
}

/// How many terms there are at most of which each contains the one before it and has more names.
fn longest_chain(terms: &[Term]) -> usize {
    let mut rising = terms.to_vec();
    rising.sort_unstable();
    let mut lengths = [0; ENTRY_TERMS];
    for (i, t) in rising.iter().enumerate() {
        let within = (0..i).filter(|&j| rising[j] != *t && rising[j] & t == rising[j]);
        lengths[i] = 1 + within.map(|j| lengths[j]).max().unwrap_or(0);
    }
    lengths.into_iter().max().unwrap_or(0)
}

// ---- the second program's own

#[test]
fn sums_by_hand_have_these_normal_forms() {
    // Two names, and seven terms with each of them.
    let crossed = (2..9).flat_map(|x| [1 | 1 << x, 2 | 1 << x]).chain([2, 1]).collect();
    let cases: [(Vec<Term>, &[Term]); 8] = [
        (vec![], &[]),
        (vec![6, 5, 3], &[3, 5, 6]),
        (vec![4, 4, 2, 4], &[2, 4]),
        (vec![15, 7, 8, 3], &[3, 8]),
        (vec![2, 0, 4], &[0]),
        (vec![1 << 28; ENTRY_TERMS], &[1 << 28]),
        ((0..ENTRY_TERMS).map(|n| (2 << n) - 1).collect(), &[1]),
        (crossed, &[1, 2]),
    ];
    for (terms, form) in cases {
        assert_eq!((&normal(&terms)[..], &Sum::of(terms).form[..]), (form, form));
    }
}

/// A sum for each seed, in both tests the same.
const SUMS: u64 = 1_000_000;

#[test]
fn sums_have_the_normal_forms_of_document_01() {
    let mut tally = Tally::default();
    for seed in 0..SUMS {
        let sum = Sum::of(sums::parts(&mut Random::new(seed)).concat());
        let form = normal(&sum.terms);
        assert_eq!(form, sum.form, "seed {seed}: {:?}", sum.terms);
        assert!(is_normal(&form), "seed {seed}: {:?}", sum.terms);
        if sum.has_few_names() {
            let same = |&s: &Term| holds(s, &form) == holds(s, &sum.terms);
            assert!(sets(sum.names(), FEW_NAMES).iter().all(same), "seed {seed}: {:?}", sum.terms);
        }
        count(&mut tally, &sum, ENTRY_TERMS - 1, &features(&sum));
    }
    tally.check("1,000,000 sums", 20_000);
}

// ---- dealt out to both programs

/// A receipt in a state that holds one datum or none, disjoint from the new one. One part of a sum
/// is the held datum's predicate, the other gives the message's terms.
struct Receipt {
    before: State,
    message: Message,
    /// Its normal form is the new predicate.
    new: Sum,
    /// Its normal form is the entry that is learnt, if one is.
    entry: Option<Sum>,
}

impl Receipt {
    fn dealt(random: &mut Random) -> Receipt {
        let [mut held, sent] = sums::parts(random);
        let unused = ALL_NAMES & !held.iter().chain(&sent).fold(0, |names, t| names | t);
        let own = name_in(random, &[unused, unused, unused, ALL_NAMES]);
        // In form a datum has neither the empty term nor the own name.
        held.retain(|t| *t != 0 && t >> own & 1 == 0);
        let before = State::fresh(own, 100, 1_000);
        let message = message(random, own, sent);
        Receipt::in_state(before, &Sum::of(held).form, message)
    }

    fn in_state(mut before: State, held: &[Term], message: Message) -> Receipt {
        if !held.is_empty() {
            before.held.push(Datum::of(0, 10, held));
        }
        let others = message.terms.iter().copied().filter(|t| t >> before.own & 1 == 0);
        let new = Sum::of([1 << message.sender].into_iter().chain(others).collect());
        let learns = !held.is_empty() && new.form != [0] && new.form.len() <= DATUM_TERMS;
        let entry = learns.then(|| Sum::of([held, &new.form].concat()));
        Receipt { before, message, new, entry }
    }

    fn call(&self) -> Call {
        Call::Receive { least: 0, greatest: 0, readings: None, message: self.message.bytes() }
    }

    /// The number and the state that are to come of it, by steps 1 and 2: disjoint data never
    /// better each other, and two under one predicate both go by their entry.
    fn wanted(&self) -> (u32, State) {
        let (mut after, new) = (self.before.clone(), &self.new.form);
        if new.len() > DATUM_TERMS {
            return (31, after);
        }
        if *new == [0] {
            return (0, after);
        }
        let Interval { left, right } = self.message.interval;
        after.held.push(Datum::of(left, right, new));
        if let Some(Sum { form, .. }) = &self.entry {
            after.entries.push(Predicate::of(form));
            after.held.retain(|datum| !implies(form, &datum.predicate));
        }
        (0, after)
    }
}

/// A message of the terms in normal form. Its sender is often a name that is a term by itself,
/// which then may be left out, or the name that most terms have.
fn message(random: &mut Random, own: u32, sent: Vec<Term>) -> Message {
    let mut terms = Sum::of(sent).form;
    let others = ALL_NAMES & !(1 << own);
    let alone = terms.iter().filter(|t| t.is_power_of_two()).fold(0, |names, t| names | t) & others;
    let having = |n: &u32| terms.iter().filter(|&t| (t & others) >> n & 1 != 0).count();
    let frequent = 1 << (0..NAMES).max_by_key(having).expect("a name") & others;
    let sender = name_in(random, &[alone, alone, frequent, frequent, others]);
    if random.once_in(2) {
        terms.retain(|&t| t != 1 << sender);
    }
    Message::of(sender, 20, 30, &terms)
}

/// A name of one of the sets, or of the last one if that has none.
fn name_in(random: &mut Random, sets: &[Term]) -> u32 {
    let set = match random.pick(sets) {
        0 => sets[sets.len() - 1],
        set => set,
    };
    let first = random.below(NAMES.into()) as u32;
    (0..NAMES).map(|n| (first + n) % NAMES).find(|n| set >> n & 1 != 0).expect("a name")
}

/// Of an entry's 16 terms at most so many are struck: two predicates of 8 terms leave two or more,
/// since a single one would lie in the others of its own predicate too. A receipt strikes at most 8
/// of 9. So only a sum that no call can meet strikes 15.
const MOST_STRUCK: usize = ENTRY_TERMS - 2;

/// What was made of dealt sums: the forms that a state showed, and what came of each receipt.
#[derive(Default)]
struct Made {
    data: Tally,
    entries: Tally,
    outcomes: Tally,
}

impl Made {
    fn count(&mut self, receipt: &Receipt, number: u32, after: &State) {
        let Receipt { before, message, new, entry } = receipt;
        let equal = |sum: &Sum| ("with equal masks", sum.distinct() < sum.terms.len());
        if after.held.iter().any(|datum| datum.interval == message.interval.exact()) {
            let named = ("the receiver named", new.terms.len() < 1 + message.terms.len());
            count(&mut self.data, new, DATUM_TERMS, &[equal(new), named]);
        }
        if let Some(sum) = entry {
            let full = sum.terms.len() == ENTRY_TERMS;
            let (most, none) = (full && sum.struck() == MOST_STRUCK, full && sum.struck() == 0);
            let features = [equal(sum), ("14 of 16", most), ("none of 16", none)];
            count(&mut self.entries, sum, MOST_STRUCK, &features);
        }
        let (held, left) = (before.held.len(), after.held.len());
        for (what, met) in [
            ("31", number == 31),
            ("true", new.form == [0]),
            ("the first datum", held == 0 && left == 1),
            ("an entry and both data", entry.is_some() && left == 2),
            ("and one", entry.is_some() && left == 1),
            ("and none", entry.is_some() && left == 0),
        ] {
            self.outcomes.count(what, met);
        }
    }
}

/// Receives in both programs, in the same lent bytes.
fn receive(seeds: Range<u64>, made: &mut Made) {
    let mut random = Random::new(seeds.start);
    let mut state = Lent::new(&[0; STATE_BYTES], &mut random);
    let mut none = Lent::new(&[], &mut random);
    for seed in seeds {
        let receipt = Receipt::dealt(&mut Random::new(seed));
        let (call, before) = (receipt.call(), &receipt.before);
        state.put(&before.bytes());
        let number = call.both(&mut state, &mut none, &mut Branches::default());
        let number =
            number.unwrap_or_else(|fault| panic!("seed {seed}: {fault}: {call:?} in {before:?}"));
        let (wanted, after) = receipt.wanted();
        assert_eq!(number, wanted, "seed {seed}: {call:?} in {before:?}");
        let came = state.bytes();
        assert!(came == after.bytes(), "seed {seed}: {:?}, not {after:?}", State::of(came));
        made.count(&receipt, number, &after);
    }
}

#[test]
fn sums_in_receipts_and_entries_have_the_normal_forms_of_document_01() {
    let mut made = Made::default();
    for first in (0..SUMS).step_by(10_000) {
        receive(first..first + 10_000, &mut made);
    }
    made.outcomes.check("1,000,000 receipts of dealt sums", 1_000);
    made.data.check("new data of them", 1_000);
    made.entries.check("entries of them", 1_000);
}
