//! Seeded texts for the listing: lines of runs, damaged ones, other bytes, and lines around the
//! length that is allowed.

use super::runs::World;
use crate::branches::Branches;
use crate::calls::Call;
use crate::listing::LONGEST_LINE;
use crate::message::MESSAGE_BYTES;
use crate::random::Random;
use crate::state::{State, GREATEST_READING, STATE_BYTES};

/// Document 01's listing with epochs (document 02, W-204).
pub const DOCUMENT_01: &str = "\
set 5 100 0 0
get 0 50 536870913 1 1073741824 1074741824 1610612736 1611612936 3760096586
ask 0
age 2000000
ask 0
get 0 0 536870914 2 1073741824 1076742824 1610612736 1613613736 3764098388
ask 0
ask 1
ask 2
fewest
";

/// And what it prints, delays counting by the ageing rule (document 02, W-202): 1,000,250.005 and
/// 3,000,450.005 are rounded up (W-205).
pub const PRINTED: &str = "\
ok
ok
between 1000000 1000251
ok
between 2999800 3000451
ok
contradicted
between 2999800 3001000
open
fewest 1 2
";

/// A text that begins with a taken `set` and ends with a line feed. Among others it yields the same
/// lines as alone.
pub fn text(random: &mut Random) -> Vec<u8> {
    let crowded = random.once_in(6);
    let world = if crowded { World::crowded(random) } else { World::small(random) };
    let mut state = vec![0; STATE_BYTES];
    let mut text = line(&world.set_up());
    text.push(b'\n');
    take(&world.set_up(), &mut state);
    let damages = random.pick(&[0, 0, 2, 2, 4]);
    for _ in 0..random.below(if crowded { 60 } else { 30 }) {
        let call = world.call(random, &State::of(&state).expect("a state in form"));
        // The listing has no readings.
        let call = call.without_readings();
        let mut bytes = line(&call);
        if damages > 0 && random.below(10) < damages {
            bytes = flawed(random, bytes);
        } else {
            take(&call, &mut state);
        }
        text.extend(bytes);
        text.push(b'\n');
    }
    text
}

/// A short text of any kind, without a taken `set` or without a line feed at its end too.
pub fn loose(random: &mut Random) -> Vec<u8> {
    let mut text = text(random);
    let lines: Vec<&[u8]> = text.split_inclusive(|&byte| byte == b'\n').collect();
    let from = random.index(lines.len());
    let to = from + 1 + random.index((lines.len() - from).min(4));
    text = lines[from..to].concat();
    if random.once_in(3) {
        text.pop();
    }
    if random.once_in(3) {
        text = [line(&World::small(random).set_up()), vec![b'\n'], text].concat();
    }
    text
}

/// Keeps the state that the next call is drawn from.
fn take(call: &Call, state: &mut [u8]) {
    call.second(state, &mut [0; MESSAGE_BYTES], &mut Branches::default());
}

/// A call as a line. One that the listing does not have is another question.
fn line(call: &Call) -> Vec<u8> {
    let line = match call {
        Call::SetUp { own, drift, reading, epoch } => {
            format!("set {own} {drift} {reading} {epoch}")
        }
        Call::Age { reading } => format!("age {reading}"),
        Call::Receive { least, greatest, message, .. } => {
            let words = message.as_chunks().0.iter().map(|&word| u32::from_le_bytes(word));
            let words: String = words.map(|word| format!(" {word}")).collect();
            format!("get {least} {greatest}{words}")
        }
        Call::Ask { limit } => format!("ask {limit}"),
        Call::Write { position } => format!("ask {position}"),
        Call::Fewest => "fewest".into(),
    };
    line.into_bytes()
}

// ---- flaws

/// The line with flaws, other bytes or another length.
fn flawed(random: &mut Random, mut line: Vec<u8>) -> Vec<u8> {
    match random.below(12) {
        0 => {
            let len = random.index(60);
            return random.bytes(len);
        }
        1 => return vec![],
        2 | 3 => return of_length(random, line),
        4 | 5 => return other_field(random, &line),
        6 => line.push(b'\r'),
        _ => {
            for _ in 0..1 + random.index(3) {
                other_byte(random, &mut line);
            }
        }
    }
    line
}

/// A byte changed, lost or added; it is often one that lines have.
fn other_byte(random: &mut Random, line: &mut Vec<u8>) {
    let place = random.index(line.len() + 1);
    let any = random.bits() as u8;
    let byte = random.pick(&[b' ', b'0', b'1', b'9', b'\t', b'\n', b'-', b'+', b'a', 0, any]);
    match random.below(3) {
        0 => line.insert(place, byte),
        1 if place < line.len() => drop(line.remove(place)),
        _ if place < line.len() => line[place] = byte,
        _ => {}
    }
}

/// A field changed, lost, doubled or longer; often a number at the edge of its place.
fn other_field(random: &mut Random, line: &[u8]) -> Vec<u8> {
    let mut fields: Vec<Vec<u8>> = line.split(|&byte| byte == b' ').map(Vec::from).collect();
    let place = random.index(fields.len());
    let edges = [
        u128::from(u32::MAX),
        1 << 32,
        GREATEST_READING.into(),
        u128::from(GREATEST_READING) + 1,
        u128::from(u64::MAX),
        1 << 64,
        99_999_999_999_999_999_999,
        100_000_000_000_000_000_000,
    ];
    match random.below(6) {
        0 => fields[place] = random.pick(&edges).to_string().into_bytes(),
        1 => drop(fields.remove(place)),
        2 => fields.insert(place, fields[place].clone()),
        3 => fields[place] = format!("{:0>1$}", random.below(9), 18 + random.index(4)).into_bytes(),
        4 => fields[place].splice(..0, *b"0").for_each(drop),
        _ => fields[place] = random.pick(&["set", "age", "get", "ask", "fewest", ""]).into(),
    }
    fields.join(&b' ')
}

/// A line of about the length that is allowed, or far longer; it has a meaning now and then.
fn of_length(random: &mut Random, line: Vec<u8>) -> Vec<u8> {
    let about = LONGEST_LINE - 1 + random.index(3);
    // Lines of single digits have 255 numbers in 513 bytes.
    let many = 507 + 2 * random.index(6);
    let len =
        random.pick(&[about, about, about, many, many, 200, 201, 4_095, 4_096, 4_097, 70_000]);
    match random.below(4) {
        0 => vec![b'0'; len],
        1 => line.iter().copied().cycle().take(len).collect(),
        2 => [&b"get 0 0"[..], &b" 9".repeat(len / 2)].concat()[..len].to_vec(),
        _ => with_zeros(line, len),
    }
}

/// The line made longer by zeros that lead its fields, as far as 20 digits allow.
fn with_zeros(line: Vec<u8>, len: usize) -> Vec<u8> {
    let mut missing = len.saturating_sub(line.len());
    let mut fields = line.split(|&byte| byte == b' ').map(Vec::from);
    let name: Vec<u8> = fields.next().unwrap_or_default();
    let numbers = fields.map(|mut field| {
        let zeros = missing.min(20 - field.len().min(20));
        missing -= zeros;
        field.splice(..0, vec![b'0'; zeros]).for_each(drop);
        field
    });
    [name].into_iter().chain(numbers).collect::<Vec<_>>().join(&b' ')
}
