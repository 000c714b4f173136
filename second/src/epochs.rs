//! Names of mended monitors (document 02, W-204): one that comes back has its identifier and a
//! higher epoch, and is another name.

use crate::predicates::NAMES;

/// Epochs are 0 to this one.
pub const GREATEST_EPOCH: u8 = 15;

/// An epoch for each identifier.
pub type Epochs = [u8; NAMES as usize];
/// All of them before any mending.
pub const FIRST_EPOCHS: Epochs = [0; NAMES as usize];

/// Two names are equal only if identifier and epoch are equal.
#[derive(Clone, Copy, Debug, PartialEq, Eq, PartialOrd, Ord)]
pub struct Name {
    pub identifier: u32,
    pub epoch: u8,
}

impl Name {
    /// The one that an identifier has at these epochs.
    pub fn at(epochs: &Epochs, identifier: u32) -> Name {
        Name { identifier, epoch: epochs[identifier as usize] }
    }

    /// Whether it is older than the one that its identifier has at these epochs.
    pub fn is_old(self, known: &Epochs) -> bool {
        self.epoch < known[self.identifier as usize]
    }
}
