//! The numbers that calls return (document 01, "Who can cause which refusal";
//! document 02).

/// Not a refusal.
pub const TAKEN: u32 = 0;

// The installer's.
/// Own name above the greatest.
pub const OWN_NAME: u32 = 1;
/// Drift above the greatest.
pub const DRIFT: u32 = 2;
/// Reading above the greatest.
pub const READING: u32 = 3;

// The sender's.
/// Word count outside that of messages, or a byte length that is not a multiple of 4.
pub const WORD_COUNT: u32 = 10;
/// The word behind the epoch words neither kind 2 nor 4, or no such word.
pub const FORM: u32 = 11;
/// Head not of kind 1, sender or term count above the greatest, or bits 10–28 not zero.
pub const HEAD: u32 = 12;
/// Word count not that of head, epoch words and form.
pub const HEAD_AND_FORM: u32 = 13;
/// A later word of the wrong kind.
pub const KIND: u32 = 14;
/// The check word.
pub const CHECK: u32 = 15;
/// Left above right, or an end that cannot be stored.
pub const ENDS: u32 = 16;
/// Terms not in normal form.
pub const TERMS: u32 = 17;
/// Sender is the own name.
pub const SENDER: u32 = 18;

// The host program's.
/// Reading below the last.
pub const EARLIER: u32 = 20;
/// Least delay above greatest, or greatest above that of any channel.
pub const DELAYS: u32 = 21;
/// Limit above the greatest.
pub const LIMIT: u32 = 22;
/// No held datum there.
pub const POSITION: u32 = 23;
/// Buffer too short.
pub const BUFFER: u32 = 24;
/// State out of form.
pub const STATE: u32 = 25;

// A filling site's.
/// An end would pass the greatest.
pub const PASSES_END: u32 = 30;
/// More terms in the new predicate's normal form than a datum has, stored or not.
pub const NEW_TERMS: u32 = 31;
/// Too many data or entries.
pub const TOO_MANY: u32 = 32;

// The host program's, with clock readings.
/// A clock reading or half width above the greatest, or the sender's drift.
pub const READINGS: u32 = 40;

// With epochs, the installer's and the sender's.
/// Own epoch above the greatest.
pub const OWN_EPOCH: u32 = 41;
/// Epoch words missing, unordered, too many or ill formed.
pub const EPOCHS: u32 = 42;
