//! Demand 3 over seeded runs: both programs' answers after a run are those that its book gives, set
//! by set and at every limit, and further receipts make nothing possible that was not. Half of the
//! receipts bring clock readings, of which the book keeps every sender's whole history; names are
//! mended, and the book keeps them with their epochs.

use second::asking::{answer_bytes, fewest_bytes, GREATEST_LIMIT};
use second::book::{self, Book, Ended, Line};
use second::booked::Run;
use second::branches::{Branch, Branches, Counts};
use second::calls::Call;
use second::clocks::{Readings, Saved, Triple, GREATEST_CLOCK};
use second::epochs::Name;
use second::every_set::counting;
use second::instants::{joined, split, Instant, Instants, Interval};
use second::message::Message;
use second::predicates::{Predicate, Term, ALL_NAMES, GREATEST_NAME, NAMES};
use second::random::Random;
use second::samples::runs::{has_slept, World};
use second::samples::{self, report};
use second::state::{State, GREATEST_DRIFT};
use std::collections::BTreeSet;
use std::ops::RangeInclusive;

const LIMITS: RangeInclusive<u32> = 0..=GREATEST_LIMIT;

// ---- a run against its book

/// Compares the answers, the fewest failures and the instants of each set with what the book says
/// is possible; and what is known and saved of each name with what the book has heard.
fn agrees(run: &mut Run, tally: &mut Tally) {
    let ended = run.book.ended();
    let by_set = ended.by_set();
    for limit in LIMITS {
        let (possible, answer) = (by_set.possible(limit), run.answer(limit));
        assert_eq!(answer, answer_bytes(possible), "limit {limit}: {possible:?}: {}", run.case());
        tally.count(limit, possible);
    }
    let fewest = by_set.fewest();
    assert_eq!(run.fewest(), fewest_bytes(fewest.map(mask)), "{fewest:?}: {}", run.case());
    tally.fewest[fewest.map_or(OVER, |set| set.len())] += 1;
    let state = run.state();
    assert_eq!(state.epochs, *run.book.known(), "{}", run.case());
    for (name, clock) in (0..).zip(state.clocks) {
        assert_eq!(clock, run.book.saved(name), "name {name}: {}", run.case());
    }
    for (reached, set) in by_set.iter() {
        assert_eq!(counting(mask(set), &state), reached, "set {set:?}: {}", run.case());
    }
    agrees_for_large_sets(run, &state, &ended);
}

/// Sets past every limit count too: a withdrawn name adds to them from then on.
fn agrees_for_large_sets(run: &mut Run, state: &State, ended: &Ended) {
    for _ in 0..4 {
        let s = run.random.bits() as Term & ALL_NAMES & !(1 << state.own);
        let names = (0..NAMES).filter(|n| s >> n & 1 != 0);
        let set: Vec<Name> = names.map(|n| Name::at(run.book.known(), n)).collect();
        let reached = ended.reached(&set);
        assert_eq!(counting(s, state), reached, "set {set:?}: {}", run.case());
    }
}

/// The names as a mask of identifiers, as a state has them.
fn mask(set: &[Name]) -> Term {
    set.iter().fold(0, |s, name| s | 1 << name.identifier)
}

/// Where the fewest are counted that are over the greatest limit.
const OVER: usize = GREATEST_LIMIT as usize + 1;

/// What was possible, by limit: nothing, all, or something between; of how many left and right ends
/// an answer loses the fraction; and how many the fewest were.
#[derive(Default)]
struct Tally {
    possible: [[u64; 3]; GREATEST_LIMIT as usize + 1],
    fractions: [u64; 2],
    fewest: [u64; OVER + 1],
}

impl Tally {
    fn count(&mut self, limit: u32, possible: Instants) {
        let kind = match possible {
            Instants::Empty => 0,
            Instants::All => 1,
            Instants::Between(left, right) => {
                let fractions = [left, right].map(|end| u64::from(split(end).1 > 0));
                (0..2).for_each(|i| self.fractions[i] += fractions[i]);
                2
            }
        };
        self.possible[limit as usize][kind] += 1;
    }

    /// Prints the counts, and checks that each is enough.
    fn check(&self, title: &str, enough: u64) {
        let Tally { possible, fractions, fewest } = self;
        report(&format!(
            "{title}: possible is nothing, all, between by limit {possible:?}; left and right with a \
             fraction {fractions:?}; fewest by count and over {GREATEST_LIMIT} {fewest:?}\n"
        ));
        let least = possible.as_flattened().iter().chain(fractions).chain(fewest).min();
        assert!(least >= Some(&enough), "{title}: too few of an answer");
    }
}

// ---- what is entered

fn received(sender: u32, left: u64, right: u64, terms: &[Term]) -> Call {
    let message = Message::of(sender, left, right, terms).bytes();
    Call::Receive { least: 0, greatest: 50, readings: None, message }
}

/// The same from 0 to 10 without terms, with readings.
fn watched(sender: u32, a: u64, b: u64, w: u64, drift: u32) -> Call {
    watched_at(0, sender, a, b, w, drift)
}

/// The same at an epoch of the sender.
fn watched_at(epoch: u8, sender: u32, a: u64, b: u64, w: u64, drift: u32) -> Call {
    let message = Message::of(sender, 0, 10, &[]).at(&[(sender, epoch)]).bytes();
    let readings = Some(Readings::of(a, b, w, drift));
    Call::Receive { least: 0, greatest: 0, readings, message }
}

/// A receipt without delay.
fn told(message: Message) -> Call {
    Call::Receive { least: 0, greatest: 0, readings: None, message: message.bytes() }
}

/// Names by identifier and epoch.
fn names(all: &[(u32, u8)]) -> Vec<Name> {
    all.iter().map(|&(identifier, epoch)| Name { identifier, epoch }).collect()
}

/// A line of a receipt: its ends in millionths, and its terms of names by identifier and epoch.
fn grown(left: Instant, right: Instant, terms: &[&[(u32, u8)]]) -> Line {
    let terms = terms.iter().map(|term| names(term)).collect();
    Line::Received { interval: Interval { left, right }, terms }
}

/// The same of whole microseconds.
fn heard(left: u64, right: u64, terms: &[&[(u32, u8)]]) -> Line {
    grown(joined(left, 0), joined(right, 0), terms)
}

fn blamed(identifier: u32, epoch: u8) -> Line {
    Line::Blamed(Name { identifier, epoch })
}

/// What a book says is possible.
fn possible(book: &Book, limit: u32) -> Instants {
    book.ended().by_set().possible(limit)
}

/// From the first whole microsecond to the second.
fn between(left: u64, right: u64) -> Instants {
    Instants::Between(joined(left, 0), joined(right, 0))
}

#[test]
fn book_enters_advances_and_what_was_formed() {
    let mut book = Book::new(5, 100, 0, 0);
    book.enter(&received(1, 1_000, 1_200, &[12, 1 << 5]), 0);
    book.enter(&Call::Age { reading: 2_000_000 }, 0);
    book.enter(&Call::Age { reading: 2_000_000 }, 0);
    book.enter(&Call::Age { reading: 2_000_001 }, 0);
    book.enter(&received(2, 7, 7, &[0]), 0);
    let lines = [
        grown(1_000_000_000, 1_250_005_000, &[&[(1, 0)], &[(2, 0), (3, 0)]]),
        Line::Aged { least: 1_999_800_000_000, greatest: 2_000_200_000_000 },
        Line::Aged { least: 0, greatest: 0 },
        Line::Aged { least: 999_900, greatest: 1_000_100 },
        grown(7_000_000, 57_005_000, &[&[(2, 0)], &[]]),
    ];
    assert_eq!(book.lines(), lines);
    // The first line's ends with each advance since.
    assert_eq!(possible(&book, 0), Instants::Between(2_000_800_999_900, 2_001_451_005_100));
}

#[test]
fn book_enters_intervals_grown_by_the_own_drift() {
    // Own drift, both delays, and what 10 to 10 grows to.
    let cases = [
        (0, 600_000_000, (600_000_010_000_000, 600_000_010_000_000)),
        (100, 1, (10_999_900, 11_000_100)),
        (100, 5, (14_999_500, 15_000_500)),
        (100, 60_000_001, (59_994_010_999_900, 60_006_011_000_100)),
        (1_000, 600_000_000, (599_400_010_000_000, 600_600_010_000_000)),
    ];
    for (drift, delay, (left, right)) in cases {
        let message = Message::of(1, 10, 10, &[]).bytes();
        // The sender's drift is another.
        let readings = Some(Readings::of(0, 0, 0, GREATEST_DRIFT - drift));
        let mut book = Book::new(5, drift, 0, 0);
        book.enter(&Call::Receive { least: delay, greatest: delay, readings, message }, 0);
        assert_eq!(book.lines(), [grown(left, right, &[&[(1, 0)]])]);
        assert_eq!(possible(&book, 0), Instants::Between(left, right));
    }
}

#[test]
fn book_enters_a_violation_before_what_was_formed() {
    let mut book = Book::new(5, 0, 0, 0);
    let heard = heard(0, 10, &[&[(1, 0)]]);
    // Nothing is saved; exactly at the bound; one past it.
    book.enter(&watched(1, 0, 0, 1, 0), 0);
    book.enter(&watched(1, 100, 102, 1, 0), 0);
    assert_eq!(book.lines(), [heard.clone(), heard.clone()]);
    assert_eq!(possible(&book, 0), between(0, 10));
    book.enter(&watched(1, 200, 203, 1, 0), 0);
    let lines = [heard.clone(), heard.clone(), blamed(1, 0), heard];
    assert_eq!(book.lines(), lines);
    assert_eq!(possible(&book, 0), Instants::Empty);
    assert_eq!(possible(&book, 1), Instants::All);
    // The own drift counts too.
    let mut book = Book::new(5, 100, 0, 0);
    for call in [watched(1, 0, 0, 0, 100), watched(1, 5_000, 5_001, 0, 100)] {
        book.enter(&call, 0);
    }
    assert!(!book.lines().contains(&blamed(1, 0)));
}

#[test]
fn book_finds_the_three_triples_in_the_whole_history() {
    let mut book = Book::new(5, 0, 0, 0);
    assert_eq!(book.saved(1), None);
    for (a, b, w) in [(4, 0, 1), (10, 6, 1), (10, 14, 0), (20, 25, 1), (21, 27, 0), (22, 22, 0)] {
        book.enter(&watched(1, a, b, w, 0), 0);
    }
    book.enter(&watched(2, 9, 9, 9, 0), 0);
    let [previous, ahead, behind] = [(22, 22, 0), (4, 0, 1), (20, 25, 1)];
    let [previous, ahead, behind] = [previous, ahead, behind].map(|(a, b, w)| Triple { a, b, w });
    assert_eq!(book.saved(1), Some(Saved { previous, ahead, behind }));
    assert_eq!(book.saved(2), Some(Saved::first(Triple::of(9, 9, 9))));
    // A refused receipt is not in it, and a setting up starts afresh.
    book.enter(&watched(1, 90, 9, 9, 0), 32);
    assert_eq!(book.saved(1), Some(Saved { previous, ahead, behind }));
    book.enter(&Call::SetUp { own: 5, drift: 0, reading: 0, epoch: 0 }, 0);
    assert_eq!(book.saved(1), None);
}

#[test]
fn book_enters_nothing_for_refused_calls_and_for_questions() {
    let mut book = Book::new(5, 100, 0, 3);
    book.enter(&Call::SetUp { own: GREATEST_NAME + 1, drift: 0, reading: 0, epoch: 0 }, 1);
    book.enter(&Call::Age { reading: 7 }, 30);
    book.enter(&received(1, 0, 10, &[]), 32);
    book.enter(&told(Message::of(1, 0, 10, &[4]).at(&[(1, 1), (2, 2)])), 31);
    for question in [Call::Write { position: 0 }, Call::Ask { limit: 0 }, Call::Fewest] {
        book.enter(&question, 0);
    }
    assert_eq!(book, Book::new(5, 100, 0, 3));
    book.enter(&told(Message::of(1, 0, 10, &[4]).at(&[(1, 1), (2, 2)])), 0);
    book.enter(&Call::SetUp { own: 6, drift: 1, reading: 2, epoch: 4 }, 0);
    assert_eq!(book, Book::new(6, 1, 2, 4));
}

#[test]
fn book_keeps_names_with_the_epochs_of_their_message() {
    let mut book = Book::new(5, 0, 0, 2);
    // The own identifier's is another, its term is struck, and 4 is heard in it.
    let message = Message::of(1, 0, 9, &[6, 48, 136]);
    book.enter(&told(message.clone().at(&[(1, 3), (2, 1), (4, 2), (5, 9), (7, 15)])), 0);
    let first = heard(0, 9, &[&[(1, 3)], &[(1, 3), (2, 1)], &[(3, 0), (7, 15)]]);
    assert_eq!(book.lines(), std::slice::from_ref(&first));
    let known = [(1, 3), (2, 1), (4, 2), (5, 2), (7, 15)];
    let wanted = |n: u32| known.iter().find(|(m, _)| *m == n).map_or(0, |(_, epoch)| *epoch);
    assert!((0..NAMES).all(|n| book.known()[n as usize] == wanted(n)));
    // An old sender's message keeps its names, and raises another.
    book.enter(&told(message.at(&[(1, 1), (3, 1), (7, 15), (5, 1)])), 0);
    let second = heard(0, 9, &[&[(1, 1)], &[(1, 1), (2, 0)], &[(3, 1), (7, 15)]]);
    assert_eq!(book.lines(), [first, second]);
    assert_eq!([book.known()[1], book.known()[2], book.known()[3], book.known()[5]], [3, 1, 1, 2]);
}

#[test]
fn book_counts_names_that_are_current_at_the_runs_end() {
    let mut book = Book::new(5, 0, 0, 0);
    book.enter(&told(Message::of(1, 0, 10, &[])), 0);
    book.enter(&told(Message::of(2, 20, 30, &[])), 0);
    assert_eq!([possible(&book, 0), possible(&book, 1)], [Instants::Empty, between(0, 30)]);
    // Once 1 is mended, its old name has failed for free; so has it from the start in an earlier
    // line.
    book.enter(&told(Message::of(1, 22, 40, &[]).at(&[(1, 1)])), 0);
    assert_eq!(possible(&book, 0), between(22, 30));
    assert_eq!(book.ended().reached(&[]), between(22, 30));
    assert_eq!(book.ended().reached(&names(&[(1, 1)])), between(20, 30));
    // An older name in a set would say nothing more.
    assert_eq!(book.ended().reached(&names(&[(1, 0)])), between(22, 30));
}

#[test]
fn book_blames_a_name_until_its_epoch_rises() {
    let mut book = Book::new(5, 0, 0, 0);
    for call in [watched(1, 0, 0, 0, 0), watched(1, 0, 9, 0, 0)] {
        book.enter(&call, 0);
    }
    assert_eq!([possible(&book, 0), possible(&book, 1)], [Instants::Empty, Instants::All]);
    // Readings of the mended one are tested against none, of the old one they are not heeded.
    book.enter(&watched_at(1, 1, 0, 5_000, 0, 0), 0);
    assert_eq!(book.saved(1), Some(Saved::first(Triple::of(0, 5_000, 0))));
    book.enter(&watched(1, 77, 0, 0, 0), 0);
    assert_eq!(book.saved(1), Some(Saved::first(Triple::of(0, 5_000, 0))));
    assert_eq!(possible(&book, 0), between(0, 10));
    // Heard in another's term, the history goes too.
    book.enter(&told(Message::of(2, 0, 10, &[2]).at(&[(1, 2)])), 0);
    assert_eq!(book.saved(1), None);
    book.enter(&watched_at(2, 1, 0, 0, 0, 0), 0);
    book.enter(&watched_at(2, 1, 0, 1, 0, 0), 0);
    assert_eq!(book.lines().last_chunk(), Some(&[blamed(1, 2), heard(0, 10, &[&[(1, 2)]])]));
    assert_eq!(possible(&book, 0), Instants::Empty);
}

/// Document 01's listing, its messages written out.
#[test]
fn book_of_the_listing_gives_its_answers() {
    let mut book = Book::new(5, 100, 0, 0);
    book.enter(&received(1, 1_000_000, 1_000_200, &[]), 0);
    assert_eq!(possible(&book, 0), Instants::Between(1_000_000_000_000, 1_000_250_005_000));
    book.enter(&Call::Age { reading: 2_000_000 }, 0);
    assert_eq!(possible(&book, 0), Instants::Between(2_999_800_000_000, 3_000_450_005_000));
    book.enter(&told(Message::of(2, 3_001_000, 3_001_000, &[])), 0);
    assert_eq!(possible(&book, 0), Instants::Empty);
    assert_eq!(possible(&book, 1), between(2_999_800, 3_001_000));
    assert_eq!(possible(&book, 2), Instants::All);
    assert_eq!(book.ended().by_set().fewest(), Some(&names(&[(1, 0)])[..]));
}

// ---- paths, one by one

/// So many millionths are a step: all ends and advances of the small books are whole steps, and so
/// are the outermost paths.
const STEP: Instant = 100_000;
/// Where paths start, in steps around 1,000 µs; further away than the ends below reach.
const STARTS: RangeInclusive<Instant> = 10_000 - 200..=10_000 + 400;

/// An end or an advance in steps.
fn steps(millionths: Instant) -> Instant {
    assert_eq!(millionths % STEP, 0);
    millionths / STEP
}

/// Where the paths from there end that agree with the set and the book, each of them walked: a name
/// has failed if it is in the set, or is not the one that its identifier has at the end.
fn walked(book: &Book, set: &[Name]) -> BTreeSet<Instant> {
    let current = |name: &Name| book.known()[name.identifier as usize] == name.epoch;
    let failed = |name: &Name| set.contains(name) || !current(name);
    let holds = |terms: &[Vec<Name>]| terms.iter().any(|term| term.iter().all(failed));
    book.lines().iter().fold(STARTS.collect(), |here: BTreeSet<Instant>, line| match line {
        Line::Aged { least, greatest } => {
            let amounts = steps(*least)..=steps(*greatest);
            here.into_iter().flat_map(|x| amounts.clone().map(move |amount| x + amount)).collect()
        }
        Line::Received { interval, terms } => {
            let inside = steps(interval.left)..=steps(interval.right);
            here.into_iter().filter(|x| inside.contains(x) || holds(terms)).collect()
        }
        Line::Blamed(name) => here.into_iter().filter(|_| failed(name)).collect(),
    })
}

/// A book of few names and epochs, and of numbers that keep true time about 1,000 µs ahead of the
/// reading, as if every call was taken.
fn small_book(random: &mut Random) -> Book {
    let drift = random.pick(&[0, GREATEST_DRIFT, GREATEST_DRIFT]);
    let (mut book, mut reading) = (Book::new(4, drift, 0, 1), 0);
    let epochs = random.pick(&[1, 2, 2, 2]);
    for _ in 0..random.below(20) {
        if random.once_in(3) {
            reading += 100 * random.below(3);
            book.enter(&Call::Age { reading }, 0);
        } else {
            // At the drift only these are whole steps.
            let delays = if drift == 0 {
                [(0, 0), (0, 2), (1, 3)]
            } else {
                [(0, 0), (100, 100), (200, 200)]
            };
            let (least, greatest) = random.pick(&delays);
            let left = 1_000 + reading - least + random.below(20);
            let right = left + random.below(15);
            let terms: &[&[Term]] = &[&[], &[], &[1], &[6], &[8], &[3, 12], &[0], &[17], &[4, 24]];
            let (sender, terms) = (random.below(4) as u32, random.pick(terms));
            let mut message = Message::of(sender, left, right, terms);
            message.epochs = message.epochs.map(|_| random.below(epochs) as u8);
            let (a, b, w) = (random.below(6), random.below(6), random.below(2));
            let readings = random.once_in(2).then_some(Readings::of(a, b, w, 0));
            book.enter(&Call::Receive { least, greatest, readings, message: message.bytes() }, 0);
        }
    }
    book
}

/// Where all paths end that a receipt stops nowhere.
fn unstopped(book: &Book) -> RangeInclusive<Instant> {
    book.lines().iter().fold(STARTS, |range, line| match line {
        Line::Aged { least, greatest } => {
            range.start() + steps(*least)..=range.end() + steps(*greatest)
        }
        Line::Received { .. } | Line::Blamed(_) => range,
    })
}

#[test]
fn book_reaches_what_paths_walked_one_by_one_do() {
    let (mut met, mut blamed, mut forgiven, mut old) = ([0; 3], 0, 0, 0);
    for seed in 0..3_000 {
        let book = small_book(&mut Random::new(seed));
        let old_ones = |names: &[Name]| names.iter().any(|name| name.is_old(book.known()));
        let has = |wanted: &dyn Fn(&Line) -> bool| u64::from(book.lines().iter().any(wanted));
        blamed += has(&|line| matches!(line, Line::Blamed(name) if !old_ones(&[*name])));
        forgiven += has(&|line| matches!(line, Line::Blamed(name) if old_ones(&[*name])));
        old += has(&|line| match line {
            Line::Received { terms, .. } => terms.iter().any(|term| old_ones(term)),
            _ => false,
        });
        for s in 0..1 << 4 {
            let set: Vec<Name> =
                (0..4).filter(|n| s >> n & 1 != 0).map(|n| Name::at(book.known(), n)).collect();
            let walked = walked(&book, &set).into_iter();
            let (kind, same) = match book.ended().reached(&set) {
                Instants::Empty => (0, walked.eq([])),
                Instants::All => (1, walked.eq(unstopped(&book))),
                Instants::Between(left, right) => (2, walked.eq(steps(left)..=steps(right))),
            };
            assert!(same, "seed {seed}: set {s}: {book:?}");
            met[kind] += 1;
        }
    }
    assert!(met.iter().all(|&count| count > 2_000), "{met:?}");
    assert!(blamed > 300 && forgiven > 50 && old > 1_000, "{blamed}, {forgiven}, {old}");
}

// ---- the answers

/// What the receipts with readings came to.
#[derive(Default)]
struct Watched {
    receipts: u64,
    with_readings: u64,
    /// Of taken receipts.
    branches: Counts,
    /// Violations of taken receipts: with a true predicate, and such that cleared held data.
    with_true: u64,
    cleared: u64,
    /// Refused 32 after a violation.
    refused: u64,
    /// Refused 40 for one flaw alone: a, b, w and the sender's drift.
    flaws: [u64; 4],
}

impl Watched {
    /// What a receipt with readings can come to beside what any receipt can: these branches stand
    /// together.
    fn branches() -> impl Iterator<Item = Branch> {
        let of_readings = Branch::SavedFirst as usize..=Branch::NameDroveOut as usize;
        Branch::ALL.into_iter().filter(move |&branch| of_readings.contains(&(branch as usize)))
    }

    fn count(&mut self, call: &Call, number: u32, branches: Branches) {
        let Call::Receive { readings, .. } = call else {
            return;
        };
        self.receipts += 1;
        let Some(Readings { triple: Triple { a, b, w }, drift }) = *readings else {
            return;
        };
        self.with_readings += 1;
        match number {
            0 => {
                for branch in Branch::ALL.into_iter().filter(|&branch| branches.has(branch)) {
                    self.branches[branch] += 1;
                }
                let violated = |branch| branches.has(Branch::Violated) && branches.has(branch);
                self.with_true += u64::from(violated(Branch::True));
                self.cleared += u64::from(violated(Branch::HeldExplained));
            }
            32 => self.refused += u64::from(branches.has(Branch::NameAdded)),
            40 => {
                let past = |number: u64| number > GREATEST_CLOCK;
                let flaws = [past(a), past(b), past(w), drift > GREATEST_DRIFT];
                if flaws.iter().filter(|&&flaw| flaw).count() == 1 {
                    (0..4).for_each(|i| self.flaws[i] += u64::from(flaws[i]));
                }
            }
            _ => {}
        }
    }

    /// Prints the counts, and checks that each is enough.
    fn check(&self, enough: u64) {
        let branches = Watched::branches().map(|b| (format!("{b:?}"), self.branches[b]));
        let more = [
            ("violated with a true predicate", self.with_true),
            ("held data cleared", self.cleared),
            ("32 by a violation", self.refused),
            ("40 by a", self.flaws[0]),
            ("40 by b", self.flaws[1]),
            ("40 by w", self.flaws[2]),
            ("40 by the drift", self.flaws[3]),
        ];
        let more = more.map(|(what, count)| (what.to_string(), count));
        let all: Vec<(String, u64)> = branches.chain(more).collect();
        let texts: Vec<String> =
            all.iter().map(|(what, count)| format!("{what} {count}")).collect();
        let (with, receipts) = (self.with_readings, self.receipts);
        report(&format!("{receipts} receipts, {with} with readings: {}\n", texts.join(", ")));
        assert!(receipts.abs_diff(2 * with) < receipts / 50, "half of the receipts have readings");
        for (what, count) in all {
            assert!(count >= enough, "{what} came {count} times");
        }
    }
}

/// What a run is drawn from, how many steps it has, and that once in so many it is compared with its
/// book on the way: few names and small numbers, or now and then crowded places, so that all rows fill.
fn drawn(random: &mut Random) -> (World, u64, u64) {
    if random.once_in(10) {
        (World::crowded(random), 60 + random.below(60), 100)
    } else {
        (World::small(random), random.below(40), 10)
    }
}

#[test]
fn book_of_a_run_gives_the_answers() {
    let (mut tally, mut watched) = (Tally::default(), Watched::default());
    let (mut steps, mut refused, mut slept) = (0, 0, 0);
    for seed in 0..20_000 {
        let mut random = Random::new(seed);
        let (world, count, times) = drawn(&mut random);
        let mut run = Run::new(seed, random, &world);
        for _ in 0..count {
            let state = run.state();
            let step = world.step(&mut run.random, &state);
            let number = run.call(&step);
            watched.count(&step, number, run.branches);
            steps += 1;
            refused += u64::from(number != 0);
            slept += u64::from(number == 0 && has_slept(&step));
            if run.random.once_in(times) {
                agrees(&mut run, &mut tally);
            }
        }
        agrees(&mut run, &mut tally);
    }
    report(&format!(
        "20,000 runs, {steps} steps of which {refused} were refused, {slept} receipts after a sleep\n"
    ));
    tally.check("20,000 runs", 1_000);
    watched.check(200);
    assert!(steps >= 300_000 && refused >= 50_000, "too few steps or refusals");
    assert!(slept >= 10_000, "too few receipts after a sleep");
}

// ---- mended names

/// A receipt of a run, the states before and after it, and the run's book.
struct Step<'a> {
    before: &'a State,
    call: &'a Call,
    number: u32,
    branches: Branches,
    after: &'a State,
    book: &'a Book,
}

impl Step<'_> {
    /// Whether it was taken and came through a branch.
    fn has(&self, branch: Branch) -> bool {
        self.number == 0 && self.branches.has(branch)
    }

    /// Whether it was taken and raised an epoch.
    fn has_risen(&self) -> bool {
        [Branch::RisenSender, Branch::RisenInTerm, Branch::RisenInStruck]
            .map(|b| self.has(b))
            .contains(&true)
    }

    /// What the epochs of a taken one came to, by its branches.
    fn heard(&self) -> [(&'static str, bool); 16] {
        let (risen, old) = (self.has_risen(), self.has(Branch::OldSender));
        [
            ("risen by its sender", self.has(Branch::RisenSender)),
            ("by a term", self.has(Branch::RisenInTerm)),
            ("by a struck term", self.has(Branch::RisenInStruck)),
            ("by an old sender's message", risen && old),
            ("with a true predicate", risen && !old && self.has(Branch::True)),
            ("an older sender", old),
            ("an older name left a smaller term", self.has(Branch::OldInTerm)),
            ("made the predicate true", self.has(Branch::OldMadeTrue)),
            ("prevented 31", self.has(Branch::OldSpared)),
            ("the own epoch passed over", self.has(Branch::OwnEpoch)),
            ("a datum gone", self.has(Branch::DatumGone)),
            ("rewritten", self.has(Branch::DatumRewritten)),
            ("an entry gone", self.has(Branch::EntryGone)),
            ("an entry rewritten", self.has(Branch::EntryRewritten)),
            ("with fewer terms", self.has(Branch::FewerTerms)),
            ("readings unheeded", self.has(Branch::Unheeded)),
        ]
    }

    /// And by what the states show.
    fn left(&self) -> [(&'static str, bool); 7] {
        let Step { before, after, .. } = *self;
        let more = |count: fn(&State) -> usize| self.has_risen() && count(after) > count(before);
        let [of_sender, in_term] =
            [Branch::TriplesOfSender, Branch::TriplesInTerm].map(|branch| self.has(branch));
        let readings = matches!(self.call, Call::Receive { readings: Some(_), .. });
        [
            ("two data under one predicate", more(alike)),
            ("held data implied by an entry", more(implied)),
            ("triples gone by the own message", of_sender),
            ("by another's term", in_term),
            ("no test across a mending", of_sender && readings),
            ("which would have been violated", of_sender && self.would_violate()),
            ("a violation's entry gone", self.has_risen() && self.forgives()),
        ]
    }

    /// Whether a refusal left epochs as they were which the message would have raised.
    fn undone(&self) -> [(&'static str, bool); 3] {
        let risen = self.before.epochs == self.after.epochs && self.risen().next().is_some();
        [
            ("30 that undid a rise", risen && self.number == 30),
            ("31 that did", risen && self.number == 31),
            ("32 that did", risen && self.number == 32),
        ]
    }

    fn message(&self) -> Option<Message> {
        match self.call {
            Call::Receive { message, .. } => book::read(message),
            _ => None,
        }
    }

    /// The names that were known before, and that the message's epochs are above.
    fn risen(&self) -> impl Iterator<Item = Name> + use<'_> {
        let names: Vec<Name> =
            self.message().iter().flat_map(|m| m.names().collect::<Vec<Name>>()).collect();
        let others = names.into_iter().filter(|name| name.identifier != self.before.own);
        let known = others.map(|name| (name.epoch, Name::at(&self.before.epochs, name.identifier)));
        known.filter(|(epoch, known)| *epoch > known.epoch).map(|(_, known)| known)
    }

    /// Whether the readings violate test (20) against what was saved of the sender.
    fn would_violate(&self) -> bool {
        let Call::Receive { readings: Some(readings), .. } = self.call else {
            return false;
        };
        let saved = self.message().and_then(|m| self.before.clocks[m.sender as usize]);
        let drifts = self.before.drift + readings.drift;
        saved.is_some_and(|saved| saved.violated_by(readings.triple, drifts))
    }

    /// Whether a blamed name has risen that was an entry by itself.
    fn forgives(&self) -> bool {
        let is_entry = |name: &Name| {
            let entry = Predicate::of(&[1 << name.identifier]);
            self.before.entries.contains(&entry) && !self.after.entries.contains(&entry)
        };
        self.risen().any(|name| is_entry(&name) && self.book.lines().contains(&Line::Blamed(name)))
    }
}

/// How many pairs of held data have one predicate.
fn alike(state: &State) -> usize {
    let same =
        |i: usize| state.held[..i].iter().filter(move |d| d.predicate == state.held[i].predicate);
    (0..state.held.len()).map(|i| same(i).count()).sum()
}

/// How many held data are implied by an entry.
fn implied(state: &State) -> usize {
    let known = |p: &Predicate| state.entries.iter().any(|entry| entry.implies(p));
    state.held.iter().filter(|datum| known(&datum.predicate)).count()
}

/// Few names that are often mended, or now and then crowded places.
fn drawn_mending(random: &mut Random) -> (World, u64, u64) {
    if random.once_in(12) {
        (World::crowded(random), 60 + random.below(60), 100)
    } else {
        (World::mending(random), random.below(40), 10)
    }
}

#[test]
fn book_of_a_run_with_mended_names_gives_the_answers() {
    let (mut tally, mut mended) = (Tally::default(), samples::Tally::default());
    for seed in 0..20_000 {
        let mut random = Random::new(seed);
        let (world, count, times) = drawn_mending(&mut random);
        let mut run = Run::new(seed, random, &world);
        for _ in 0..count {
            let before = run.state();
            let call = world.step(&mut run.random, &before);
            let number = run.call(&call);
            let (after, branches) = (run.state(), run.branches);
            let step = Step {
                before: &before,
                call: &call,
                number,
                branches,
                after: &after,
                book: &run.book,
            };
            let met = step.heard().into_iter().chain(step.left()).chain(step.undone());
            met.for_each(|(what, met)| mended.count(what, met));
            if run.random.once_in(times) {
                agrees(&mut run, &mut tally);
            }
        }
        agrees(&mut run, &mut tally);
    }
    tally.check("20,000 runs with mended names", 1_000);
    mended.check("20,000 runs with mended names", 200);
}

// ---- further receipts

/// What an answer's bytes say, in whole microseconds.
fn instants(answer: &[u8]) -> Instants {
    let numbers = answer.as_chunks().0.iter().map(|&number| u64::from_le_bytes(number));
    match numbers.collect::<Vec<u64>>()[..] {
        [0, 0, 0] => Instants::Empty,
        [1, 0, 0] => Instants::All,
        [2, left, right] => Instants::Between(left.into(), right.into()),
        _ => panic!("{answer:?}"),
    }
}

/// Runs P and Q, set up alike, whose taken steps differ in further receipts alone.
struct Pair {
    p: Run,
    q: Run,
    /// A shared step raised an epoch.
    risen: bool,
    /// A further receipt had an older name, its sender's or another.
    old: bool,
}

impl Pair {
    /// Q is drawn, and P makes the same steps without some receipts, which come without readings
    /// and bring no epoch above the one known. None if taken steps differ in more.
    fn drawn(seed: u64) -> Option<Pair> {
        let mut random = Random::new(seed);
        let mending = random.once_in(2);
        let world = if mending { World::mending(&mut random) } else { World::small(&mut random) };
        let p = Run::new(seed, Random::new(!seed), &world);
        let q = Run::new(seed, random, &world);
        let mut pair = Pair { p, q, risen: false, old: false };
        let mut shared = vec![];
        for _ in 0..pair.q.random.below(40) {
            let state = pair.q.state();
            let step = world.step(&mut pair.q.random, &state);
            if !pair.receives_further(&step) && pair.shares(&step) {
                shared.push(step);
            }
        }
        (pair.p.taken == shared).then_some(pair)
    }

    /// Makes the step in Q alone if it is a receipt that may be a further one. Whether it was made.
    fn receives_further(&mut self, step: &Call) -> bool {
        let Call::Receive { message, .. } = step else {
            return false;
        };
        let raises = book::read(message).is_some_and(|message| self.q.book.raises(&message));
        if raises || !self.q.random.once_in(3) {
            return false;
        }
        let taken = self.q.call(&step.clone().without_readings()) == 0;
        let old = [Branch::OldSender, Branch::OldInTerm, Branch::OldMadeTrue];
        self.old |= taken && old.iter().any(|&branch| self.q.branches.has(branch));
        true
    }

    /// Makes the step in both. Whether Q took it.
    fn shares(&mut self, step: &Call) -> bool {
        let known = *self.q.book.known();
        let taken = self.q.call(step) == 0;
        self.risen |= known != *self.q.book.known();
        self.p.call(step);
        taken
    }
}

/// Each instant possible for Q is possible for P: set by set, and by the answers, where P is asked
/// with a limit no smaller. Whether one of Q's answers says more.
fn allows_no_more(Pair { p, q, .. }: &mut Pair) -> bool {
    assert_eq!(p.book.known(), q.book.known(), "seed {}", q.seed);
    let of_p = p.book.ended();
    for (less, set) in q.book.ended().by_set().iter() {
        let more = of_p.reached(set);
        assert!(less.within(more), "seed {}: set {set:?}: {less:?} {more:?}", q.seed);
    }
    let answers = |run: &mut Run| LIMITS.map(|limit| instants(&run.answer(limit))).collect();
    let (of_p, of_q): (Vec<Instants>, Vec<Instants>) = (answers(p), answers(q));
    for (limit, less) in of_q.iter().enumerate() {
        for more in &of_p[limit..] {
            assert!(less.within(*more), "seed {}: limit {limit}: {less:?} {more:?}", q.seed);
        }
    }
    of_p != of_q
}

#[test]
fn book_with_further_receipts_allows_no_more() {
    let (mut pairs, mut longer, mut narrower, mut risen, mut old) = (0, 0, 0, 0, 0);
    for seed in 0..24_000 {
        if let Some(mut pair) = Pair::drawn(seed) {
            pairs += 1;
            let further = pair.p.taken.len() < pair.q.taken.len();
            longer += u64::from(further);
            risen += u64::from(further && pair.risen);
            old += u64::from(pair.old);
            narrower += u64::from(allows_no_more(&mut pair));
        }
    }
    report(&format!(
        "{pairs} pairs of runs, {longer} of them with further receipts, {risen} with these and a rise, \
         {old} with an older name in one of these, {narrower} with an answer that says more\n"
    ));
    assert!(pairs >= 20_000 && longer >= 15_000 && narrower >= 5_000, "too few");
    assert!(risen >= 5_000 && old >= 1_000, "too few with mended names");
}
