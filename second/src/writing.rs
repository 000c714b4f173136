//! Writing (document 01, "The radio message"; document 02, W-204 and W-205): one held datum as a
//! message in ends form, with the epochs that are known and in whole microseconds.

use crate::message::{self, Words};
use crate::refusal;
use crate::state::{self, Head};

/// `monitor_write`: the words of a message in ends form, or 24 (state), 25, 23, 24 (output).
pub fn call(lent: &[u8], position: u64, out: &mut [u8]) -> u32 {
    message::answer_words(written(lent, position), out)
}

/// The words of the held datum's message, with the own name as sender.
fn written(lent: &[u8], position: u64) -> Result<Words, u32> {
    let bytes = state::checked(lent)?;
    let datum = state::held_at(bytes, position).ok_or(refusal::POSITION)?;
    let (own, epochs) = (Head::of(bytes).own, state::epochs(bytes));
    Ok(message::write_parts(own, epochs, datum.interval.rounded(), &datum.predicate))
}
