//! The calls of the C by hand (second/hand/hand.c), each behind a safe function, as
//! `second::engine` has those of the engine. None is inlined, since none of the engine's is: what
//! is timed goes through one function more in both.

use second::clocks::{Readings, Triple};

mod c {
    extern "C" {
        pub fn hand_set_up(
            state: *mut u8,
            state_len: usize,
            own: u32,
            drift: u32,
            reading: u64,
            epoch: u64,
        ) -> u32;

        pub fn hand_age(state: *mut u8, state_len: usize, reading: u64) -> u32;

        pub fn hand_receive(
            state: *mut u8,
            state_len: usize,
            least: u64,
            greatest: u64,
            message: *const u8,
            message_len: usize,
        ) -> u32;

        pub fn hand_receive_with_readings(
            state: *mut u8,
            state_len: usize,
            least: u64,
            greatest: u64,
            sender_reading: u64,
            own_reading: u64,
            half_width: u64,
            sender_drift: u32,
            message: *const u8,
            message_len: usize,
        ) -> u32;

        pub fn hand_write(
            state: *const u8,
            state_len: usize,
            position: u64,
            message: *mut u8,
            message_len: usize,
        ) -> u32;

        pub fn hand_ask(
            state: *const u8,
            state_len: usize,
            limit: u64,
            answer: *mut u8,
            answer_len: usize,
        ) -> u32;

        pub fn hand_fewest(
            state: *const u8,
            state_len: usize,
            answer: *mut u8,
            answer_len: usize,
        ) -> u32;

        pub fn hand_message_read(
            message: *const u8,
            message_len: usize,
            reading: *mut u8,
            reading_len: usize,
        ) -> u32;

        pub fn hand_message_rewrite(
            message: *const u8,
            message_len: usize,
            out: *mut u8,
            out_len: usize,
        ) -> u32;
    }
}

#[inline(never)]
pub fn set_up(state: &mut [u8], own: u32, drift: u32, reading: u64, epoch: u64) -> u32 {
    // Safe: each pointer goes with the length of its own slice.
    unsafe { c::hand_set_up(state.as_mut_ptr(), state.len(), own, drift, reading, epoch) }
}

#[inline(never)]
pub fn age(state: &mut [u8], reading: u64) -> u32 {
    // Safe: as above.
    unsafe { c::hand_age(state.as_mut_ptr(), state.len(), reading) }
}

#[inline(never)]
pub fn receive(state: &mut [u8], least: u64, greatest: u64, message: &[u8]) -> u32 {
    let (state, state_len) = (state.as_mut_ptr(), state.len());
    // Safe: as above.
    unsafe { c::hand_receive(state, state_len, least, greatest, message.as_ptr(), message.len()) }
}

#[inline(never)]
pub fn receive_with_readings(
    state: &mut [u8],
    least: u64,
    greatest: u64,
    readings: Readings,
    message: &[u8],
) -> u32 {
    let (state, state_len) = (state.as_mut_ptr(), state.len());
    let Readings { triple: Triple { a, b, w }, drift } = readings;
    let (message, len) = (message.as_ptr(), message.len());
    // Safe: as above.
    unsafe {
        c::hand_receive_with_readings(
            state, state_len, least, greatest, a, b, w, drift, message, len,
        )
    }
}

#[inline(never)]
pub fn write(state: &[u8], position: u64, message: &mut [u8]) -> u32 {
    let (message, message_len) = (message.as_mut_ptr(), message.len());
    // Safe: as above.
    unsafe { c::hand_write(state.as_ptr(), state.len(), position, message, message_len) }
}

#[inline(never)]
pub fn ask(state: &[u8], limit: u64, answer: &mut [u8]) -> u32 {
    let (answer, answer_len) = (answer.as_mut_ptr(), answer.len());
    // Safe: as above.
    unsafe { c::hand_ask(state.as_ptr(), state.len(), limit, answer, answer_len) }
}

#[inline(never)]
pub fn fewest(state: &[u8], answer: &mut [u8]) -> u32 {
    // Safe: as above.
    unsafe { c::hand_fewest(state.as_ptr(), state.len(), answer.as_mut_ptr(), answer.len()) }
}

#[inline(never)]
pub fn message_read(message: &[u8], reading: &mut [u8]) -> u32 {
    let (reading, reading_len) = (reading.as_mut_ptr(), reading.len());
    // Safe: as above.
    unsafe { c::hand_message_read(message.as_ptr(), message.len(), reading, reading_len) }
}

#[inline(never)]
pub fn message_rewrite(message: &[u8], out: &mut [u8]) -> u32 {
    let (out, out_len) = (out.as_mut_ptr(), out.len());
    // Safe: as above.
    unsafe { c::hand_message_rewrite(message.as_ptr(), message.len(), out, out_len) }
}
