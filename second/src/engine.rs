//! The engine's calls, each behind a safe function. No other file speaks C,
//! but that of the program `table` for the C by hand.
//!
//! Lent slices do not overlap; `&` and `&mut` see to that. A test that leaves a call out links
//! with an archive that does not have it.

use crate::clocks::{Readings, Triple};

mod c {
    extern "C" {
        pub fn monitor_message_read(
            message: *const u8,
            message_len: usize,
            reading: *mut u8,
            reading_len: usize,
        ) -> u32;

        pub fn monitor_message_rewrite(
            message: *const u8,
            message_len: usize,
            out: *mut u8,
            out_len: usize,
        ) -> u32;

        pub fn monitor_set_up(
            state: *mut u8,
            state_len: usize,
            own: u32,
            drift: u32,
            reading: u64,
            epoch: u64,
        ) -> u32;

        pub fn monitor_age(state: *mut u8, state_len: usize, reading: u64) -> u32;

        pub fn monitor_receive(
            state: *mut u8,
            state_len: usize,
            least: u64,
            greatest: u64,
            message: *const u8,
            message_len: usize,
        ) -> u32;

        pub fn monitor_receive_with_readings(
            state: *mut u8,
            state_len: usize,
            least: u64,
            greatest: u64,
            sender_reading: u64,
            own_reading: u64,
            half_width: u64,
            sender_drift: u32,
            message: *const u8,
            message_len: usize,
        ) -> u32;

        pub fn monitor_write(
            state: *const u8,
            state_len: usize,
            position: u64,
            message: *mut u8,
            message_len: usize,
        ) -> u32;

        pub fn monitor_ask(
            state: *const u8,
            state_len: usize,
            limit: u64,
            answer: *mut u8,
            answer_len: usize,
        ) -> u32;

        pub fn monitor_fewest(
            state: *const u8,
            state_len: usize,
            answer: *mut u8,
            answer_len: usize,
        ) -> u32;
    }
}

/// The engine's `monitor_message_read`.
pub fn monitor_message_read(message: &[u8], reading: &mut [u8]) -> u32 {
    // Safe: each pointer goes with the length of its own slice.
    unsafe {
        c::monitor_message_read(
            message.as_ptr(),
            message.len(),
            reading.as_mut_ptr(),
            reading.len(),
        )
    }
}

/// The engine's `monitor_message_rewrite`.
pub fn monitor_message_rewrite(message: &[u8], out: &mut [u8]) -> u32 {
    // Safe: as above.
    unsafe {
        c::monitor_message_rewrite(message.as_ptr(), message.len(), out.as_mut_ptr(), out.len())
    }
}

/// The engine's `monitor_set_up`.
pub fn monitor_set_up(state: &mut [u8], own: u32, drift: u32, reading: u64, epoch: u64) -> u32 {
    // Safe: as above.
    unsafe { c::monitor_set_up(state.as_mut_ptr(), state.len(), own, drift, reading, epoch) }
}

/// The engine's `monitor_age`.
pub fn monitor_age(state: &mut [u8], reading: u64) -> u32 {
    // Safe: as above.
    unsafe { c::monitor_age(state.as_mut_ptr(), state.len(), reading) }
}

/// The engine's `monitor_receive`.
pub fn monitor_receive(state: &mut [u8], least: u64, greatest: u64, message: &[u8]) -> u32 {
    let (state, state_len) = (state.as_mut_ptr(), state.len());
    // Safe: as above.
    unsafe {
        c::monitor_receive(state, state_len, least, greatest, message.as_ptr(), message.len())
    }
}

/// The engine's `monitor_receive_with_readings`.
pub fn monitor_receive_with_readings(
    state: &mut [u8],
    least: u64,
    greatest: u64,
    readings: Readings,
    message: &[u8],
) -> u32 {
    let (state, state_len) = (state.as_mut_ptr(), state.len());
    let Readings { triple: Triple { a, b, w }, drift } = readings;
    let (message, message_len) = (message.as_ptr(), message.len());
    // Safe: as above.
    unsafe {
        c::monitor_receive_with_readings(
            state,
            state_len,
            least,
            greatest,
            a,
            b,
            w,
            drift,
            message,
            message_len,
        )
    }
}

/// The engine's `monitor_write`.
pub fn monitor_write(state: &[u8], position: u64, message: &mut [u8]) -> u32 {
    let (message, message_len) = (message.as_mut_ptr(), message.len());
    // Safe: as above.
    unsafe { c::monitor_write(state.as_ptr(), state.len(), position, message, message_len) }
}

/// The engine's `monitor_ask`.
pub fn monitor_ask(state: &[u8], limit: u64, answer: &mut [u8]) -> u32 {
    let (answer, answer_len) = (answer.as_mut_ptr(), answer.len());
    // Safe: as above.
    unsafe { c::monitor_ask(state.as_ptr(), state.len(), limit, answer, answer_len) }
}

/// The engine's `monitor_fewest`.
pub fn monitor_fewest(state: &[u8], answer: &mut [u8]) -> u32 {
    // Safe: as above.
    unsafe { c::monitor_fewest(state.as_ptr(), state.len(), answer.as_mut_ptr(), answer.len()) }
}
