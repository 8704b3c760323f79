//! Plain Rust with the same duties over the same lent words: check and index in one pass, work, clear.

mod check;
mod index;
mod merge;
mod results;
mod sets;
#[cfg(test)]
mod tests;

use check::check;
use index::{find, hash_of, singleton_hash};
use merge::merge_indexed;
pub use sets::add;

const MOST_CONTEXTS: usize = 512;
const MOST_ENTRIES: usize = 2_048;
const RECORDS: usize = 2;
const PARENTS: usize = RECORDS + 3 * MOST_CONTEXTS;
const STATES: usize = PARENTS + MOST_ENTRIES;

type Store = [u32; STATES + MOST_ENTRIES];
type Scratch = [u32; 16_384];

/// Kinds of records but the first.
const SINGLETON: u32 = 1;
const ARRAY: u32 = 2;
/// The empty mark as stored.
const DOLLAR: u32 = u32::MAX;

/// A singleton that was answered.
#[derive(Clone, Copy, Debug, Eq, PartialEq)]
pub struct Interned {
    pub context: u32,
    /// How many contexts were made.
    pub made: u32,
}

/// A singleton, or the number of a refusal.
#[inline(never)]
pub fn singleton(store: &mut [u32], scratch: &mut [u32], parent: u32, state: u64) -> Result<Interned, u32> {
    let Ok(store) = <&mut Store>::try_from(store) else {
        return Err(2);
    };
    let Ok(scratch) = <&mut Scratch>::try_from(scratch) else {
        return Err(2);
    };
    let answer = singleton_in(store, scratch, parent, state);
    scratch.fill(0);
    answer
}

fn singleton_in(store: &mut Store, scratch: &mut Scratch, parent: u32, state: u64) -> Result<Interned, u32> {
    if !check(store, scratch) {
        return Err(1);
    }
    let count = store[0];
    if parent >= count {
        return Err(4);
    }
    if state == u64::MAX {
        return Ok(Interned { context: 0, made: 0 });
    }
    if state >= u64::from(DOLLAR) {
        return Err(5);
    }
    let state = state as u32;
    let hash = singleton_hash(hash_of(scratch, parent as usize), state);
    if let Some(known) = find(scratch, hash, |other| record(store, other) == [SINGLETON, parent, state]) {
        return Ok(Interned { context: known as u32, made: 0 });
    }
    if count as usize == MOST_CONTEXTS {
        return Err(6);
    }
    let at = RECORDS + 3 * count as usize;
    store[at..at + 3].copy_from_slice(&[SINGLETON, parent, state]);
    store[0] = count + 1;
    Ok(Interned { context: count, made: 1 })
}

/// A merge that was answered.
#[derive(Clone, Copy, Debug, Eq, PartialEq)]
pub struct Merged {
    pub context: u32,
    /// How many merges were counted.
    pub merges: u32,
    /// How many contexts were made.
    pub made: u32,
}

/// A merge, or the number of a refusal.
#[inline(never)]
pub fn merge(
    store: &mut [u32],
    scratch: &mut [u32],
    left: u32,
    right: u32,
    wildcard: bool,
) -> Result<Merged, u32> {
    let Ok(store) = <&mut Store>::try_from(store) else {
        return Err(2);
    };
    let Ok(scratch) = <&mut Scratch>::try_from(scratch) else {
        return Err(2);
    };
    let answer = match check(store, scratch) {
        false => Err(1),
        true if left.max(right) >= store[0] => Err(4),
        true => merge_indexed(store, scratch, left, right, wildcard),
    };
    scratch.fill(0);
    answer
}

/// Kind, a and b.
fn record(store: &Store, context: usize) -> [u32; 3] {
    let at = RECORDS + 3 * context;
    [store[at], store[at + 1], store[at + 2]]
}
