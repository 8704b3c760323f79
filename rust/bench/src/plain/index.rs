//! The index in the scratch: chains of contexts by the top bits of their hashes, newest first.

use super::{MOST_CONTEXTS, Scratch};

const BUCKETS: usize = 512;
/// Number + 1 of the next older context of the same bucket.
const LINKS: usize = BUCKETS;
/// Low halves of the hashes, then high halves.
const LOWS: usize = LINKS + MOST_CONTEXTS;
const HIGHS: usize = LOWS + MOST_CONTEXTS;

pub fn mix(hash: u64, word: u64) -> u64 {
    (hash.rotate_left(5) ^ word).wrapping_mul(0x517c_c1b7_2722_0a95)
}

pub fn singleton_hash(parent: u64, state: u32) -> u64 {
    mix(mix(mix(0, 1), parent), u64::from(state))
}

pub fn array_hash(scratch: &Scratch, parents: &[u32], states: &[u32]) -> u64 {
    let length = parents.len() as u64;
    let mut hash = mix(mix(0, 2), length);
    for &parent in parents {
        hash = mix(hash, hash_of(scratch, parent as usize));
    }
    hash = mix(hash, length);
    states.iter().fold(hash, |hash, &state| mix(hash, u64::from(state)))
}

pub fn hash_of(scratch: &Scratch, context: usize) -> u64 {
    u64::from(scratch[HIGHS + context]) << 32 | u64::from(scratch[LOWS + context])
}

/// Makes every chain empty, whatever the scratch held.
pub fn clear_heads(scratch: &mut Scratch) {
    scratch[..BUCKETS].fill(0);
}

/// Puts a context in front of its chain.
pub fn add(scratch: &mut Scratch, context: usize, hash: u64) {
    let bucket = bucket(hash);
    scratch[LINKS + context] = scratch[bucket];
    scratch[LOWS + context] = hash as u32;
    scratch[HIGHS + context] = (hash >> 32) as u32;
    scratch[bucket] = context as u32 + 1;
}

/// The context of this hash whose payload is the same.
pub fn find(scratch: &Scratch, hash: u64, same: impl Fn(usize) -> bool) -> Option<usize> {
    let mut next = scratch[bucket(hash)];
    while next != 0 {
        let context = next as usize - 1;
        if hash_of(scratch, context) == hash && same(context) {
            return Some(context);
        }
        next = scratch[LINKS + context];
    }
    None
}

fn bucket(hash: u64) -> usize {
    (hash >> 55) as usize
}
