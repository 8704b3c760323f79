//! Results of merges in a call: the first 1,024 in order of completion, found by chains; and how many merges
//! were counted.

use super::{MOST_CONTEXTS, Scratch};

const MOST_RESULTS: usize = 1_024;
const MOST_MERGES: u32 = 65_536;
const BUCKETS: usize = 1_024;

/// After the index: words that hold both sides and the result, links to older results, heads of chains.
const RESULTS: usize = 2_048;
const LINKS: usize = RESULTS + MOST_RESULTS;
const HEADS: usize = LINKS + MOST_RESULTS;
/// After the entry stack.
const KEPT: usize = 16_336;
const MERGES: usize = KEPT + 1;

pub fn no_results(scratch: &mut Scratch) {
    scratch[HEADS..HEADS + BUCKETS].fill(0);
    (scratch[KEPT], scratch[MERGES]) = (0, 0);
}

pub fn merges(scratch: &Scratch) -> u32 {
    scratch[MERGES]
}

/// Counts a merge that begins; `None` where it is too much.
pub fn count(scratch: &mut Scratch) -> Option<()> {
    scratch[MERGES] += 1;
    (scratch[MERGES] <= MOST_MERGES).then_some(())
}

/// Kind of merge and sides, the smaller first.
pub type Sides = (bool, u32, u32);

fn key((wildcard, smaller, larger): Sides) -> u32 {
    let size = MOST_CONTEXTS as u32;
    (u32::from(wildcard) * size + smaller) * size + larger
}

fn bucket(key: u32) -> usize {
    (key.wrapping_mul(0x9e37_79b9) >> 22) as usize
}

pub fn kept(scratch: &Scratch, sides: Sides) -> Option<u32> {
    let key = key(sides);
    let mut next = scratch[HEADS + bucket(key)] as usize;
    while next != 0 {
        let word = scratch[RESULTS + next - 1];
        if word / MOST_CONTEXTS as u32 == key {
            return Some(word % MOST_CONTEXTS as u32);
        }
        next = scratch[LINKS + next - 1] as usize;
    }
    None
}

pub fn keep(scratch: &mut Scratch, sides: Sides, result: u32) {
    let (key, place) = (key(sides), scratch[KEPT] as usize);
    if place == MOST_RESULTS {
        return;
    }
    let head = HEADS + bucket(key);
    scratch[RESULTS + place] = key * MOST_CONTEXTS as u32 + result;
    scratch[LINKS + place] = scratch[head];
    scratch[head] = place as u32 + 1;
    scratch[KEPT] = place as u32 + 1;
}
