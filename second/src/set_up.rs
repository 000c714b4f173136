//! Setting up (document 01, "State bytes" and "Who can cause which refusal"; document 02, W-204).

use crate::epochs::GREATEST_EPOCH;
use crate::predicates::GREATEST_NAME;
use crate::refusal;
use crate::state::{State, GREATEST_DRIFT, GREATEST_READING, STATE_BYTES};

/// `monitor_set_up`: a state that holds nothing and knows the own epoch, or 24, 1, 41, 2, 3.
pub fn call(lent: &mut [u8], own: u32, drift: u32, reading: u64, epoch: u64) -> u32 {
    if lent.len() < STATE_BYTES {
        return refusal::BUFFER;
    }
    if own > GREATEST_NAME {
        return refusal::OWN_NAME;
    }
    if epoch > GREATEST_EPOCH.into() {
        return refusal::OWN_EPOCH;
    }
    if drift > GREATEST_DRIFT {
        return refusal::DRIFT;
    }
    if reading > GREATEST_READING {
        return refusal::READING;
    }
    State::fresh(own, drift, reading).at(&[(own, epoch as u8)]).encode(lent);
    refusal::TAKEN
}
