//! The second program: documents 01 and 02 in Rust, written from these papers alone and sharing no
//! table or code with the engine, so that a misreading in one of them shows as a difference.
//!
//! A module for each section of document 01, `clocks` and `epochs` for what document 02 adds, and
//! others to compare with: `engine` calls the archive, `calls` and `lent` lend the same bytes to
//! both programs, `random` and `samples` make the seeded inputs, `timing` takes times. `book` has
//! what demand 3 says of a whole run, without any state, and `booked` runs that are made beside it;
//! `every_set` has asking as the paper words it, which `asking` is a fast form of, and `ranks` has
//! ends by their order alone. `hotel` is a simulation that uses the engine as hosts do.

pub mod ageing;
pub mod asking;
pub mod book;
pub mod booked;
pub mod branches;
pub mod calls;
pub mod claims;
pub mod clocks;
pub mod engine;
pub mod epochs;
pub mod every_set;
pub mod hearing;
pub mod hotel;
pub mod instants;
pub mod lent;
pub mod listing;
pub mod message;
pub mod predicates;
pub mod random;
pub mod ranks;
pub mod receiving;
pub mod refusal;
pub mod samples;
pub mod set_up;
pub mod state;
pub mod timing;
pub mod writing;
