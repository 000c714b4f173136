//! What a receipt came to do, so that a test can tell what it has met.

use std::ops::{Index, IndexMut};

/// A thing that a receipt may come to do.
#[derive(Clone, Copy, Debug, PartialEq, Eq)]
pub enum Branch {
    /// A term that names the receiver was struck out.
    Struck,
    /// Hearing: the own identifier had another epoch than the own, which was passed over.
    OwnEpoch,
    /// Hearing: the sender's epoch was above the one known.
    RisenSender,
    /// Hearing: that of another identifier was, in a term that is not struck.
    RisenInTerm,
    /// Hearing: that of an identifier was which is in struck terms alone.
    RisenInStruck,
    /// Withdrawal: a held datum became true and went.
    DatumGone,
    /// Withdrawal: a held datum's predicate became another.
    DatumRewritten,
    /// Withdrawal: an entry became true and went.
    EntryGone,
    /// Withdrawal: an entry became another.
    EntryRewritten,
    /// Withdrawal: a predicate that stayed has fewer terms.
    FewerTerms,
    /// Withdrawal: triples of the sender went.
    TriplesOfSender,
    /// Withdrawal: triples of another identifier went.
    TriplesInTerm,
    /// The sender was older than the name known.
    OldSender,
    /// Older names in terms left a smaller term.
    OldInTerm,
    /// Older names in terms made the predicate true.
    OldMadeTrue,
    /// With the older names there would have been too many terms.
    OldSpared,
    /// The predicate was true.
    True,
    /// Readings: an older sender's, neither tested nor saved.
    Unheeded,
    /// Readings: nothing was saved of the sender before.
    SavedFirst,
    /// Readings: test (20) was made.
    Tested,
    /// Test (20): violated.
    Violated,
    /// Test (20): violated against the previous triple alone.
    ByPrevious,
    /// Test (20): violated against the one with the largest a − b + w alone.
    ByAhead,
    /// Test (20): violated against the one with the largest b − a + w alone.
    ByBehind,
    /// Test (20): not violated, and both sides equal against one of the three.
    AtBound,
    /// Test (20): the own reading was below a saved one.
    OwnBack,
    /// Test (20): the sender's reading was below a saved one.
    SenderBack,
    /// Saving: another triple had the largest a − b + w or b − a + w as well, and stayed.
    Tie,
    /// Violation: the name was not made an entry, since one implies it.
    NameImplied,
    /// Violation: the name was made an entry.
    NameAdded,
    /// Violation: entries went that the name implies.
    NameDroveOut,
    /// An end would pass the greatest, and does so by its fraction alone.
    PassesByFraction,
    /// Step 1: a held datum's interval was disjoint from the new one.
    Disjoint,
    /// Step 1: one was by the fraction alone.
    DisjointByFraction,
    /// Step 1: an entry was not added, since one implies it.
    EntryImplied,
    /// Step 1: an entry was added.
    EntryAdded,
    /// Step 1: entries went that the added one implies.
    EntriesGone,
    /// In between there were too many entries.
    EntriesOver,
    /// Step 2: held data went.
    HeldExplained,
    /// Step 2: the new datum went.
    NewExplained,
    /// Step 3: rule 15.
    Met,
    /// Rule 15: the fraction alone told the left ends apart.
    LeftByFraction,
    /// Rule 15: the fraction alone told the right ends apart.
    RightByFraction,
    /// Step 4: by rule 14 the new datum was not stored.
    NotStored,
    /// Rule 14: the fraction alone kept a held datum from bettering the new one.
    NewSparedByFraction,
    /// Step 4: by rule 14 held data went.
    HeldBettered,
    /// Rule 14: the fraction alone kept the new datum from bettering a held one.
    HeldSparedByFraction,
    /// Step 4: the new datum was stored.
    Stored,
    /// At the end there were too many data.
    TooManyData,
    /// At the end there were too many entries.
    TooManyEntries,
}

impl Branch {
    pub const ALL: [Branch; 50] = [
        Branch::Struck,
        Branch::OwnEpoch,
        Branch::RisenSender,
        Branch::RisenInTerm,
        Branch::RisenInStruck,
        Branch::DatumGone,
        Branch::DatumRewritten,
        Branch::EntryGone,
        Branch::EntryRewritten,
        Branch::FewerTerms,
        Branch::TriplesOfSender,
        Branch::TriplesInTerm,
        Branch::OldSender,
        Branch::OldInTerm,
        Branch::OldMadeTrue,
        Branch::OldSpared,
        Branch::True,
        Branch::Unheeded,
        Branch::SavedFirst,
        Branch::Tested,
        Branch::Violated,
        Branch::ByPrevious,
        Branch::ByAhead,
        Branch::ByBehind,
        Branch::AtBound,
        Branch::OwnBack,
        Branch::SenderBack,
        Branch::Tie,
        Branch::NameImplied,
        Branch::NameAdded,
        Branch::NameDroveOut,
        Branch::PassesByFraction,
        Branch::Disjoint,
        Branch::DisjointByFraction,
        Branch::EntryImplied,
        Branch::EntryAdded,
        Branch::EntriesGone,
        Branch::EntriesOver,
        Branch::HeldExplained,
        Branch::NewExplained,
        Branch::Met,
        Branch::LeftByFraction,
        Branch::RightByFraction,
        Branch::NotStored,
        Branch::NewSparedByFraction,
        Branch::HeldBettered,
        Branch::HeldSparedByFraction,
        Branch::Stored,
        Branch::TooManyData,
        Branch::TooManyEntries,
    ];
}

// One bit each.
const _: () = assert!(Branch::ALL.len() <= u64::BITS as usize);

/// The branches of one receipt.
#[derive(Clone, Copy, Debug, Default, PartialEq, Eq)]
pub struct Branches(u64);

impl Branches {
    pub fn has(self, branch: Branch) -> bool {
        self.0 >> branch as u32 & 1 != 0
    }

    /// Enters a branch where the condition is met.
    pub(crate) fn enter(&mut self, branch: Branch, met: bool) {
        self.0 |= u64::from(met) << branch as u32;
    }
}

/// How often each branch was met.
pub struct Counts([u64; Branch::ALL.len()]);

impl Default for Counts {
    fn default() -> Counts {
        Counts([0; Branch::ALL.len()])
    }
}

impl Index<Branch> for Counts {
    type Output = u64;

    fn index(&self, branch: Branch) -> &u64 {
        &self.0[branch as usize]
    }
}

impl IndexMut<Branch> for Counts {
    fn index_mut(&mut self, branch: Branch) -> &mut u64 {
        &mut self.0[branch as usize]
    }
}
