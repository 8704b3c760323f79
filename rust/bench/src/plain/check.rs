//! One pass that judges a store's words and indexes its contexts.

use super::index::{add, array_hash, clear_heads, find, hash_of, singleton_hash};
use super::merge::same_array;
use super::{
    ARRAY, DOLLAR, MOST_CONTEXTS, MOST_ENTRIES, PARENTS, RECORDS, SINGLETON, STATES, Scratch, Store, record,
};

/// Is the store sound? If so, all its contexts are indexed.
pub fn check(store: &Store, scratch: &mut Scratch) -> bool {
    let (count, pool) = (store[0] as usize, store[1] as usize);
    if count == 0 || count > MOST_CONTEXTS || pool > MOST_ENTRIES || record(store, 0) != [0, 0, 0] {
        return false;
    }
    clear_heads(scratch);
    add(scratch, 0, 0);
    let mut filled = 0;
    for context in 1..count {
        match check_record(store, scratch, context, filled) {
            Some(end) => filled = end,
            None => return false,
        }
    }
    filled == pool
        && all_zero(&store[RECORDS + 3 * count..PARENTS])
        && all_zero(&store[PARENTS + pool..STATES])
        && all_zero(&store[STATES + pool..])
}

/// Where the pool stands after a sound record.
fn check_record(store: &Store, scratch: &mut Scratch, context: usize, filled: usize) -> Option<usize> {
    let (hash, end) = match record(store, context) {
        [SINGLETON, parent, state] => (check_single(store, scratch, context, parent, state)?, filled),
        [ARRAY, first, length] if first as usize == filled => {
            let end = filled.checked_add(length as usize).filter(|&end| end <= MOST_ENTRIES)?;
            (check_array(store, scratch, context, filled, end)?, end)
        }
        _ => return None,
    };
    add(scratch, context, hash);
    Some(end)
}

/// The hash of a singleton that is sound and new.
fn check_single(store: &Store, scratch: &Scratch, context: usize, parent: u32, state: u32) -> Option<u64> {
    if parent as usize >= context || state == DOLLAR {
        return None;
    }
    let hash = singleton_hash(hash_of(scratch, parent as usize), state);
    match find(scratch, hash, |other| record(store, other) == [SINGLETON, parent, state]) {
        Some(_) => None,
        None => Some(hash),
    }
}

/// The hash of an array that is sound and new.
fn check_array(store: &Store, scratch: &Scratch, context: usize, first: usize, end: usize) -> Option<u64> {
    let parents = &store[PARENTS + first..PARENTS + end];
    let states = &store[STATES + first..STATES + end];
    let older = parents.iter().all(|&parent| (parent as usize) < context);
    let rising = states.windows(2).all(|pair| pair[0] < pair[1]);
    if parents.len() < 2 || !older || !rising {
        return None;
    }
    if states[states.len() - 1] == DOLLAR && parents[parents.len() - 1] != 0 {
        return None;
    }
    let hash = array_hash(scratch, parents, states);
    match find(scratch, hash, |other| same_array(store, other, parents, states)) {
        Some(_) => None,
        None => Some(hash),
    }
}

pub fn all_zero(words: &[u32]) -> bool {
    words.iter().fold(0, |seen, word| seen | word) == 0
}
