//! What can go wrong in the hotel, and how its radio is.

/// Microseconds in an hour.
pub const HOUR: u64 = 3_600_000_000;

/// One who sends: a gateway or a monitor, by its place.
#[derive(Clone, Copy, Debug, PartialEq, Eq)]
pub enum Who {
    Gateway(usize),
    Monitor(usize),
}

/// By how much a liar's times are wrong, in microseconds.
#[derive(Clone, Copy, Debug, PartialEq, Eq)]
pub enum Lie {
    /// Always ahead by as much.
    Ahead(u64),
    /// Ahead by so many parts per million of the time since it began.
    Creeping(u64),
    /// Ahead by any number up to this one, another in each message.
    Wild(u64),
}

/// One who begins to lie, and perhaps is mended: it then tells the truth under the next epoch. Both
/// times are in hundredths of the run.
#[derive(Clone, Copy, Debug, PartialEq, Eq)]
pub struct Fault {
    pub who: Who,
    pub lie: Lie,
    pub from: u64,
    pub mended: Option<u64>,
}

impl Fault {
    /// From the first message to the last.
    const fn always(who: Who, lie: Lie) -> Fault {
        Fault { who, lie, from: 0, mended: None }
    }

    const fn begins(self, from: u64) -> Fault {
        Fault { from, ..self }
    }

    const fn mended_half_way(self) -> Fault {
        Fault { mended: Some(50), ..self }
    }
}

/// How often is sent, and what becomes of it on the air.
#[derive(Clone, Copy, Debug, PartialEq, Eq)]
pub struct Radio {
    /// A sender sends about once in so many microseconds on its clock.
    pub every: u64,
    /// So many held data a monitor sends on each time.
    pub relayed: u64,
    /// One in so many messages is lost to one who should hear it.
    pub lost: u64,
    /// The bounds of a delay on the receiver's clock; the greatest is above the least.
    pub least: u64,
    pub greatest: u64,
}

/// A message of each sender about every ten minutes, on its way for up to 50 ms.
const USUAL: Radio = Radio { every: HOUR / 6, relayed: 1, lost: 10, least: 0, greatest: 50_000 };
const NO_RELAYS: Radio = Radio { relayed: 0, ..USUAL };
/// Monitors send on all that they hold.
const BUSY: Radio = Radio { relayed: 16, ..USUAL };
/// Radios that sleep: every four hours, half of it lost, and up to ten minutes late.
const SPARSE: Radio =
    Radio { every: 4 * HOUR, relayed: 1, lost: 2, least: 0, greatest: 600_000_000 };

/// A run of the hotel.
#[derive(Clone, Copy, Debug, PartialEq, Eq)]
pub struct Scenario {
    pub name: &'static str,
    pub faults: &'static [Fault],
    pub radio: Radio,
    /// Whether receipts come with clock readings (document 02, W-201).
    pub readings: bool,
    /// What monitors are set up with, and what they are told of a sender's clock.
    pub drift: u32,
    /// Whether the host of a mended monitor leaves out messages that name it under an older epoch.
    /// They can hold what it said before, and receiving strikes its name out of them.
    pub careful: bool,
}

/// Nobody lies, and the radio is usual.
pub const QUIET: Scenario = Scenario {
    name: "nobody lies",
    faults: &[],
    radio: USUAL,
    readings: false,
    drift: 100,
    careful: false,
};

const AN_HOUR: Lie = Lie::Ahead(HOUR);
const LIAR: Fault = Fault::always(Who::Gateway(0), AN_HOUR);
const LYING_RELAY: Fault = Fault::always(Who::Monitor(3), AN_HOUR);
/// An hour ahead of true time within a week, which no interval shows at first.
const CREEPS: Fault = Fault::always(Who::Gateway(0), Lie::Creeping(6_000));
const JUMPS: Fault = Fault::always(Who::Gateway(0), Lie::Wild(2 * HOUR));

/// The runs of the hotel, each with another fault or radio.
pub const SCENARIOS: [Scenario; 20] = [
    QUIET,
    Scenario { name: "nobody lies, no relays", radio: NO_RELAYS, ..QUIET },
    Scenario { name: "nobody lies, readings", readings: true, ..QUIET },
    Scenario { name: "nobody lies, sparse radio", radio: SPARSE, ..QUIET },
    Scenario { name: "liar from the first message", faults: &[LIAR], ..QUIET },
    Scenario { name: "liar, no relays", faults: &[LIAR], radio: NO_RELAYS, ..QUIET },
    Scenario { name: "liar, all is relayed", faults: &[LIAR], radio: BUSY, ..QUIET },
    Scenario { name: "liar, sparse radio", faults: &[LIAR], radio: SPARSE, ..QUIET },
    Scenario { name: "liar that begins later", faults: &[LIAR.begins(20)], ..QUIET },
    Scenario {
        name: "begins later, readings",
        faults: &[LIAR.begins(20)],
        readings: true,
        ..QUIET
    },
    Scenario { name: "liar that creeps away", faults: &[CREEPS], ..QUIET },
    Scenario { name: "liar that jumps about", faults: &[JUMPS], ..QUIET },
    Scenario { name: "liar mended half-way", faults: &[LIAR.mended_half_way()], ..QUIET },
    Scenario {
        name: "jumps about, mended, readings",
        faults: &[JUMPS.mended_half_way()],
        readings: true,
        ..QUIET
    },
    Scenario {
        name: "mended, all is relayed",
        faults: &[LIAR.mended_half_way()],
        radio: BUSY,
        ..QUIET
    },
    Scenario {
        name: "jumps about, mended, all relayed",
        faults: &[JUMPS.mended_half_way()],
        radio: BUSY,
        ..QUIET
    },
    Scenario { name: "relay that lies", faults: &[LYING_RELAY], ..QUIET },
    Scenario { name: "relay mended half-way", faults: &[LYING_RELAY.mended_half_way()], ..QUIET },
    Scenario {
        name: "relay mended, by a careful host",
        faults: &[LYING_RELAY.mended_half_way()],
        careful: true,
        ..QUIET
    },
    Scenario {
        name: "two liars that agree",
        faults: &[LIAR, Fault::always(Who::Gateway(2), AN_HOUR)],
        ..QUIET
    },
];
