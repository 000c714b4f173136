//! Ageing (document 01, "Ageing"; document 02, W-205), by whose rule delays count too (document 02,
//! W-202).

use crate::instants::{Instant, MILLION};
use crate::refusal;
use crate::state::{self, Head, GREATEST_READING, STATE_BYTES};

/// By how much true time advances at least and at most while d local microseconds pass, with a
/// drift of r parts per million: exactly, in millionths.
pub fn advance(d: u64, r: u32) -> (Instant, Instant) {
    let (d, r) = (Instant::from(d), Instant::from(r));
    (d * (MILLION - r), d * (MILLION + r))
}

/// `monitor_age`: every end advanced and the new reading, or 24, 25, 3, 20, 30.
pub fn call(lent: &mut [u8], reading: u64) -> u32 {
    match advances(lent, reading) {
        Ok((least, greatest)) => age(lent, reading, least, greatest),
        Err(number) => number,
    }
}

/// The advances since the last reading, or 24, 25, 3, 20.
fn advances(lent: &[u8], reading: u64) -> Result<(Instant, Instant), u32> {
    let head = Head::of(state::checked(lent)?);
    if reading > GREATEST_READING {
        return Err(refusal::READING);
    }
    let passed = reading.checked_sub(head.reading).ok_or(refusal::EARLIER)?;
    Ok(advance(passed, head.drift))
}

/// Advances the ends of a state in form, unless one of them would pass the greatest.
fn age(lent: &mut [u8], reading: u64, least: Instant, greatest: Instant) -> u32 {
    let bytes = lent.first_chunk_mut::<STATE_BYTES>().expect("a checked state");
    let rows = state::held_rows_mut(bytes);
    if rows.iter().any(|row| state::ends(row).advanced(least, greatest).is_none()) {
        return refusal::PASSES_END;
    }
    for row in rows {
        let aged = state::ends(row).advanced(least, greatest).expect("ends that can be stored");
        state::put_ends(row, aged);
    }
    state::put_reading(bytes, reading);
    refusal::TAKEN
}
