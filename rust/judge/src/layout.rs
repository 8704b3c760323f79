//! Where things stand in the lent words, and how they are read.

pub const MOST_CONTEXTS: usize = 512;
pub const MOST_ENTRIES: usize = 2_048;

pub const RECORDS_AT: usize = 2;
pub const PARENTS_AT: usize = RECORDS_AT + 3 * MOST_CONTEXTS;
pub const STATES_AT: usize = PARENTS_AT + MOST_ENTRIES;
pub const STORE_WORDS: usize = STATES_AT + MOST_ENTRIES;
pub const SCRATCH_WORDS: usize = 16_384;

pub const MOST_CONFIGS: usize = 256;
pub const CONFIGS_AT: usize = 2;
pub const CONFIG_WORDS: usize = 6;
pub const SET_WORDS: usize = CONFIGS_AT + CONFIG_WORDS * MOST_CONFIGS;

/// What subsets and conflicting alternatives are written to.
pub const SUBSET_WORDS: usize = 1 + 4 * MOST_CONFIGS;
pub const CONFLICT_WORDS: usize = 1 + MOST_CONFIGS;

/// The most stop states of a verdict.
pub const MOST_STOPS: usize = 64;

/// The flags of a set.
pub const FULL_CONTEXT: u32 = 1;
pub const HAS_SEMANTIC: u32 = 2;
pub const DIPS: u32 = 4;
pub const READ_ONLY: u32 = 8;

pub const EMPTY: u32 = 0;
pub const SINGLETON: u32 = 1;
pub const ARRAY: u32 = 2;

/// The state word of the entry `$`.
pub const DOLLAR: u32 = 4_294_967_295;
/// The empty mark as callers give and get it.
pub const EMPTY_MARK: u64 = 18_446_744_073_709_551_615;

/// Kind, a and b of a record.
pub fn record(words: &[u32], context: usize) -> (u32, u32, u32) {
    let at = RECORDS_AT + 3 * context;
    (words[at], words[at + 1], words[at + 2])
}

pub fn pool_parent(words: &[u32], place: usize) -> u32 {
    words[PARENTS_AT + place]
}

pub fn pool_state(words: &[u32], place: usize) -> u32 {
    words[STATES_AT + place]
}

/// A word as a place or a count.
pub fn wide(word: u32) -> usize {
    usize::try_from(word).expect("the host has at least 32 bits")
}

/// A number that is known to be small, as a word.
pub fn narrow(number: usize) -> u32 {
    u32::try_from(number).expect("counts and places are small")
}
