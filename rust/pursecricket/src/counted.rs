//! What a call answers that may make contexts.

use crate::ContextId;

/// The answer of a singleton.
#[derive(Clone, Copy, Debug, Eq, Hash, PartialEq)]
pub struct Interned {
    /// The context of the state on top of the parent's stacks.
    pub context: ContextId,
    /// How many contexts the call made, as in [`Merged`]: 1, or 0 where it was found.
    pub made: u32,
}

/// The answer of a merge.
#[derive(Clone, Copy, Debug, Eq, Hash, PartialEq)]
pub struct Merged {
    /// The context of the merged sets.
    pub context: ContextId,
    /// How many merges the call counted, this one and those beneath it: each that is neither of equal contexts
    /// nor answered from the first 1,024 results of the call. At most 65,536.
    pub merges: u32,
    /// How many contexts the call made, this one and those beneath it: the store's count after the call less
    /// the count before. It depends on what others stored before.
    pub made: u32,
}

/// The answer of a config that was added.
#[derive(Clone, Copy, Debug, Eq, Hash, PartialEq)]
pub struct Added {
    /// Was it put last, its key being new? Otherwise it was merged into the one of its key.
    pub inserted: bool,
    /// How many merges the call counted, as in [`Merged`]; 0 where the config was put last.
    pub merges: u32,
    /// How many contexts the call made, as in [`Merged`]; 0 where the config was put last.
    pub made: u32,
}
