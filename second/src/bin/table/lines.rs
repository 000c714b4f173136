//! The lines of the table: a call in states of one kind, and what it may take there.

use crate::calls::{
    Call, Case, AGE, ASK, COPY_AND_RECEIVE, COPY_AND_RISE, FEWEST, FORM, READ, RECEIVE,
    RECEIVE_WITH_READINGS, REWRITE, SET_UP, WRITE,
};
use second::samples::loads::{self, Filling, Load, FULL, QUIET, SINGLE, USUAL};

/// What a call may take at most, as multiples of the C's time and of the copying of a state; none
/// where no goal is set. The Rust program's own time is the goal everywhere.
#[derive(Clone, Copy)]
pub struct Goals {
    pub hand: Option<f64>,
    pub copies: Option<f64>,
}

/// A call and the cases that it takes in turn.
pub struct Line {
    pub call: &'static Call,
    pub state: String,
    pub cases: Vec<Case>,
    pub goals: Goals,
}

/// Twice the C by hand.
const TWICE: Option<f64> = Some(2.);

/// Goals for all calls on the states of a filling.
#[derive(Clone, Copy)]
pub struct FillingGoals {
    /// In copies: for the form check and ageing, and for receiving.
    form: Option<f64>,
    receive: Option<f64>,
    /// For asking at limits 0, 2 and 4.
    ask: [Option<f64>; 3],
    /// Against the C: for the form check and the four calls that are hardly more than it.
    form_by_hand: Option<f64>,
}

/// The fillings with their goals: those of the table, and one more.
pub const FILLINGS: [(Filling, FillingGoals); 4] = [
    (
        QUIET,
        FillingGoals {
            form: Some(2.),
            receive: Some(2.5),
            ask: [Some(2.), Some(4.), Some(2.)],
            form_by_hand: TWICE,
        },
    ),
    (
        USUAL,
        FillingGoals {
            form: None,
            receive: None,
            ask: [Some(2.5), Some(10.), Some(30.)],
            form_by_hand: TWICE,
        },
    ),
    (
        FULL,
        FillingGoals {
            form: Some(10.),
            receive: Some(46.),
            ask: [Some(10.), Some(60.), Some(500.)],
            form_by_hand: None,
        },
    ),
    (SINGLE, FillingGoals { form: None, receive: None, ask: [None; 3], form_by_hand: TWICE }),
];

/// The worst states' goal.
pub const WORST_GOALS: Goals = Goals { hand: TWICE, copies: Some(20_000.) };

/// Every line but those of the worst states: with so many states to a line, filled in these ways,
/// and where that is asked for with triples saved too. States are made when their line comes.
pub fn lines(
    count: usize,
    fillings: impl Iterator<Item = (Filling, FillingGoals)>,
    saved: bool,
) -> impl Iterator<Item = Line> {
    let set_up = line(&SET_UP, "any", &[Case::fresh()], TWICE, None);
    let filled = fillings.flat_map(move |(filling, goals)| filled(count, filling, &goals, saved));
    std::iter::once(set_up).chain(filled).chain((0..1).flat_map(move |_| messages(count)))
}

fn line(
    call: &'static Call,
    state: &str,
    cases: &[Case],
    hand: Option<f64>,
    copies: Option<f64>,
) -> Line {
    Line { call, state: state.into(), cases: cases.to_vec(), goals: Goals { hand, copies } }
}

/// What receipts of one kind, from near or from far off, have led to: with messages to be received
/// again, and with messages whose sender has been mended, beside the same states' own.
struct Loads {
    far: bool,
    heard: Vec<Load>,
    before: Vec<Load>,
    mended: Vec<Load>,
}

impl Loads {
    fn new(count: usize, filling: Filling, far: bool) -> Loads {
        let mut every = filling.every(far);
        let heard: Vec<Load> = every.by_ref().take(count).collect();
        // Some states are too full for what comes of a mended sender's message.
        let takes = |load: Load| load.mended().map(|mended| (load, mended));
        let both = heard.clone().into_iter().chain(every).filter_map(takes);
        let (before, mended) = both.take(count).unzip();
        Loads { far, heard, before, mended }
    }
}

/// The lines of states that are filled in one way: with nothing saved of any sender's clock, and, if
/// that is asked for, with triples saved of all 28.
fn filled(count: usize, filling: Filling, goals: &FillingGoals, saved: bool) -> Vec<Line> {
    let far = (filling.entries > 0).then(|| Loads::new(count, filling, true));
    let loads: Vec<Loads> = [Loads::new(count, filling, false)].into_iter().chain(far).collect();
    let mut lines = on_states(&loads, filling.name, goals, Case::new);
    if saved {
        let name = format!("{}, 28 saved", filling.name);
        let with_clocks = |load: &Load| Case::new(&load.with_clocks());
        lines.extend(on_states(&loads, &name, goals, with_clocks));
    }
    lines
}

/// The lines of the calls on a state; `case` makes of a load what they are lent. The first loads are
/// those from near.
fn on_states(
    loads: &[Loads],
    state: &str,
    goals: &FillingGoals,
    case: impl Fn(&Load) -> Case,
) -> Vec<Line> {
    let cases = |loads: &[Load]| loads.iter().map(&case).collect::<Vec<Case>>();
    let near = &cases(&loads[0].heard)[..];
    let by_hand = goals.form_by_hand;
    let mut lines = vec![
        line(&FORM, state, near, by_hand, goals.form),
        line(&AGE, state, near, by_hand, goals.form),
    ];
    for Loads { far, heard, before, mended } in loads {
        let state = format!("{state}{}", if *far { ", far off" } else { "" });
        let receive = goals.receive;
        lines.extend([
            line(&RECEIVE, &state, &cases(heard), TWICE, receive),
            line(&RECEIVE_WITH_READINGS, &state, &cases(heard), TWICE, receive),
            line(&COPY_AND_RECEIVE, &state, &cases(before), TWICE, None),
            line(&COPY_AND_RISE, &state, &cases(mended), TWICE, None),
        ]);
    }
    let [at_0, at_2, at_4] = goals.ask;
    let by = [by_hand, by_hand, TWICE, TWICE, TWICE];
    for ((call, copies), hand) in ASK.iter().zip([at_0, None, at_2, None, at_4]).zip(by) {
        lines.push(line(call, state, near, hand, copies));
    }
    lines.push(line(&FEWEST, state, near, TWICE, None));
    lines.push(line(&WRITE, state, near, by_hand, None));
    lines
}

/// The lines of the calls on messages alone.
fn messages(count: usize) -> Vec<Line> {
    let filled = [QUIET, USUAL, FULL].map(|filling| {
        (filling.name, filling.loads(count, false).iter().map(Case::new).collect::<Vec<Case>>())
    });
    let fresh = Case::fresh();
    let named = loads::by_epoch_words()
        .map(|(name, message)| (name, vec![Case::of(&fresh.state, &message)]));
    let both = filled.into_iter().chain(named);
    both.flat_map(|(name, cases)| {
        [&READ, &REWRITE].map(|call| line(call, name, &cases, TWICE, None))
    })
    .collect()
}
