//! Bytes lent to both programs: the same ones, at any alignment and between filled guards, so that
//! a difference shows and so does a byte changed out of place.

use crate::random::Random;

/// Filled bytes on both sides.
const GUARD: usize = 64;

pub struct Lent {
    second: Vec<u8>,
    engine: Vec<u8>,
    start: usize,
    len: usize,
}

impl Lent {
    pub fn new(bytes: &[u8], random: &mut Random) -> Lent {
        let start = GUARD + random.index(8);
        let mut second = random.bytes(start + bytes.len() + GUARD);
        second[start..][..bytes.len()].copy_from_slice(bytes);
        Lent { engine: second.clone(), second, start, len: bytes.len() }
    }

    /// What is lent, as the last call left it.
    pub fn bytes(&self) -> &[u8] {
        &self.second[self.start..][..self.len]
    }

    /// Lends other bytes from the same start, for both programs.
    pub fn put(&mut self, bytes: &[u8]) {
        self.lend(bytes.len());
        self.second[self.start..][..self.len].copy_from_slice(bytes);
        self.engine[self.start..][..self.len].copy_from_slice(bytes);
    }

    /// Lends so many bytes from now on; those behind them keep what they have.
    pub fn lend(&mut self, len: usize) {
        assert!(self.start + len <= self.second.len(), "no room for {len} bytes");
        self.len = len;
    }

    fn second_mut(&mut self) -> &mut [u8] {
        &mut self.second[self.start..][..self.len]
    }

    fn engine_mut(&mut self) -> &mut [u8] {
        &mut self.engine[self.start..][..self.len]
    }

    /// What is wrong after a call that may change so many bytes at the front, if so many are lent.
    fn fault(&self, before: &[u8], front: usize) -> Option<String> {
        let place = |at: usize| at as isize - self.start as isize;
        if let Some(at) = difference(&self.engine, &self.second) {
            let (engine, second) = (self.engine[at], self.second[at]);
            return Some(format!("byte {}: engine {engine}, second {second}", place(at)));
        }
        let beyond = self.start + front.min(self.len);
        let changed = difference(&self.second[..self.start], &before[..self.start]).or(difference(
            &self.second[beyond..],
            &before[beyond..],
        )
        .map(|at| at + beyond));
        changed.map(|at| format!("byte {} was changed out of place", place(at)))
    }
}

/// The first place where the two differ.
fn difference(one: &[u8], other: &[u8]) -> Option<usize> {
    if one == other {
        return None;
    }
    one.iter().zip(other).position(|(a, b)| a != b)
}

/// Runs a call in both programs, and compares the numbers and every byte. If it is taken it may
/// change so many bytes at the front of the state and of the output, and nothing if it is refused.
/// Gives the number, or says what is wrong.
pub fn compare(
    state: &mut Lent,
    out: &mut Lent,
    fronts: [usize; 2],
    second: impl FnOnce(&mut [u8], &mut [u8]) -> u32,
    engine: impl FnOnce(&mut [u8], &mut [u8]) -> u32,
) -> Result<u32, String> {
    let before = [state.second.clone(), out.second.clone()];
    let number = second(state.second_mut(), out.second_mut());
    let engine_number = engine(state.engine_mut(), out.engine_mut());
    if engine_number != number {
        return Err(format!("numbers: engine {engine_number}, second {number}"));
    }
    let fronts = if number == 0 { fronts } else { [0, 0] };
    let in_state = state.fault(&before[0], fronts[0]).map(|fault| format!("state, {fault}"));
    let in_out = out.fault(&before[1], fronts[1]).map(|fault| format!("output, {fault}"));
    match in_state.or(in_out) {
        Some(fault) => Err(format!("{fault} (number {number})")),
        None => Ok(number),
    }
}
