//! A small seeded generator (splitmix64): the same seed gives the same inputs everywhere.
//!
//! `MONITOR_SEED`, a number, moves all seeds, so that other inputs are tried; without it, or with 0,
//! they are those that the tests name. It is printed once by each program that draws.

use std::env;
use std::io::{self, Write};
use std::sync::OnceLock;

pub struct Random {
    state: u64,
}

impl Random {
    pub fn new(seed: u64) -> Random {
        Random { state: seed ^ moved_by() }
    }

    /// 64 bits, all as likely.
    pub fn bits(&mut self) -> u64 {
        self.state = self.state.wrapping_add(STEP);
        mixed(self.state)
    }

    /// A number from 0 to below `bound`, which is above 0.
    pub fn below(&mut self, bound: u64) -> u64 {
        ((u128::from(self.bits()) * u128::from(bound)) >> 64) as u64
    }

    /// A place in something of `len` parts, which is above 0.
    pub fn index(&mut self, len: usize) -> usize {
        self.below(len as u64) as usize
    }

    /// True once in `times`.
    pub fn once_in(&mut self, times: u64) -> bool {
        self.below(times) == 0
    }

    /// One of the choices.
    pub fn pick<T: Copy>(&mut self, choices: &[T]) -> T {
        choices[self.index(choices.len())]
    }

    /// So many bytes.
    pub fn bytes(&mut self, len: usize) -> Vec<u8> {
        (0..len).map(|_| self.bits() as u8).collect()
    }
}

const STEP: u64 = 0x9e37_79b9_7f4a_7c15;

fn mixed(mut z: u64) -> u64 {
    z = (z ^ (z >> 30)).wrapping_mul(0xbf58_476d_1ce4_e5b9);
    z = (z ^ (z >> 27)).wrapping_mul(0x94d0_49bb_1331_11eb);
    z ^ (z >> 31)
}

/// What `MONITOR_SEED` moves seeds by: nothing for 0.
fn moved_by() -> u64 {
    static MOVED: OnceLock<u64> = OnceLock::new();
    *MOVED.get_or_init(|| {
        let outside: u64 = match env::var("MONITOR_SEED") {
            Err(env::VarError::NotPresent) => 0,
            text => text.ok().and_then(|text| text.parse().ok()).expect("MONITOR_SEED is a number"),
        };
        // Past the capture of a passing test's output.
        writeln!(io::stderr(), "MONITOR_SEED={outside}").expect("standard error");
        mixed(outside)
    })
}
