//! Soundness of a store's words, clause by clause as document 01 lists it.

use std::collections::HashSet;

use crate::layout::{
    ARRAY, DOLLAR, EMPTY, MOST_CONTEXTS, MOST_ENTRIES, PARENTS_AT, RECORDS_AT, SINGLETON, STATES_AT,
    STORE_WORDS, pool_parent, pool_state, record, wide,
};
use crate::store::decoded;

/// Are these words, of whatever length, a sound store? Each clause may rely on those before it.
pub fn is_sound(words: &[u32]) -> bool {
    words.len() == STORE_WORDS
        && counts_in_range(words)
        && kinds_known(words)
        && singletons_good(words)
        && arrays_fill_the_pool(words)
        && entries_good(words)
        && unused_words_zero(words)
        && no_two_alike(words)
}

/// "Word 0 is the context count (1 to 512), word 1 the pool entries in use (0 to 2,048)."
fn counts_in_range(words: &[u32]) -> bool {
    (1..=MOST_CONTEXTS).contains(&wide(words[0])) && wide(words[1]) <= MOST_ENTRIES
}

/// "Kind 0 stands only in record 0, with a and b 0": and nothing else can stand there, since no parent is
/// below 0. "No other kind is sound."
fn kinds_known(words: &[u32]) -> bool {
    let known = |context| matches!(record(words, context).0, SINGLETON | ARRAY);
    record(words, 0) == (EMPTY, 0, 0) && (1..wide(words[0])).all(known)
}

/// "Each parent's number is below its child's; singleton states are at most 4294967294."
fn singletons_good(words: &[u32]) -> bool {
    (1..wide(words[0])).all(|context| match record(words, context) {
        (SINGLETON, parent, state) => wide(parent) < context && state <= 4_294_967_294,
        _ => true,
    })
}

/// "Array lengths are at least 2; arrays fill the pool in record order without gaps."
fn arrays_fill_the_pool(words: &[u32]) -> bool {
    let mut filled = 0u64;
    for context in 1..wide(words[0]) {
        let (kind, first, length) = record(words, context);
        if kind != ARRAY {
            continue;
        }
        if length < 2 || u64::from(first) != filled {
            return false;
        }
        filled += u64::from(length);
    }
    filled == u64::from(words[1])
}

/// "Each parent's number is below its child's; states rise strictly, a `$` has parent 0."
fn entries_good(words: &[u32]) -> bool {
    (1..wide(words[0])).all(|context| {
        let (kind, first, length) = record(words, context);
        kind != ARRAY || array_good(words, context, wide(first), wide(length))
    })
}

fn array_good(words: &[u32], context: usize, first: usize, length: usize) -> bool {
    let places = first..first + length;
    let rises = places.clone().skip(1).all(|place| pool_state(words, place - 1) < pool_state(words, place));
    rises
        && places.into_iter().all(|place| {
            let (parent, state) = (pool_parent(words, place), pool_state(words, place));
            wide(parent) < context && (state != DOLLAR || parent == 0)
        })
}

/// "All unused words are 0": records from the count on, and both halves of the pool from its end on.
fn unused_words_zero(words: &[u32]) -> bool {
    let (count, pool) = (wide(words[0]), wide(words[1]));
    let zero = |from: usize, to: usize| words[from..to].iter().all(|&word| word == 0);
    zero(RECORDS_AT + 3 * count, PARENTS_AT)
        && zero(PARENTS_AT + pool, STATES_AT)
        && zero(STATES_AT + pool, STORE_WORDS)
}

/// "No two records have the same meaning field by field (arrays by their entries)."
fn no_two_alike(words: &[u32]) -> bool {
    let mut seen = HashSet::new();
    (0..wide(words[0])).all(|context| seen.insert(decoded(words, context)))
}
