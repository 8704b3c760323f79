//! Families at the ceilings and at the borders of what is accepted.

use crate::generate::builder::Builder;
use crate::generate::stores;
use crate::prediction::driver::{MOST_CONTEXTS, MOST_ENTRIES};
use crate::record::{Mode, Record};

/// New singletons, each with a state of its own, until the store has `contexts`.
pub fn fill_contexts(b: &mut Builder, contexts: usize) {
    let mut state = 10_000;
    while b.count() < contexts {
        let parent = if b.rng.chance(30) { b.any_context() } else { 0 };
        b.singleton(parent, state);
        state += 1;
    }
}

/// 511 or 512 contexts: what is new is refused from there on, what is old is still found.
pub fn full_contexts(b: &mut Builder) {
    stores::mixed(b, 20);
    let before_end = b.rng.between(0, 2);
    fill_contexts(b, MOST_CONTEXTS - before_end);
    for fresh in 0..4 {
        b.singleton(0, 900_000 + fresh);
        b.singleton(0, 900_000);
        let (left, right, mode) = (b.any_context(), b.any_context(), b.any_mode());
        b.merge(left, right, mode);
        b.merge(left, left, mode);
    }
    for context in [510, 511, 512] {
        b.show(context);
    }
    stores::mixed(b, 15);
}

/// A pool of 2,048 entries exactly, or a few less, then arrays of all sizes.
pub fn full_pool(b: &mut Builder) {
    let short_of_full = b.rng.pick(&[0, 0, 0, 1, 2, 3]);
    let by_size = fill_pool(b, MOST_ENTRIES - short_of_full);
    for _ in 0..6 {
        let (array, state) = (b.rng.pick(&by_size), 20_000 + b.rng.below(3) as u64);
        let single = b.singleton(0, state);
        b.merge(array, single, Mode::Full);
        b.merge(array, 0, Mode::Full);
        b.merge(array, 0, Mode::Wildcard);
    }
    let (left, right) = (b.rng.pick(&by_size), b.rng.pick(&by_size));
    b.merge(left, right, Mode::Full);
    b.show(by_size[4]);
    stores::mixed(b, 15);
}

/// Fills the pool to exactly `target` entries; answers contexts by size, from 1 entry on.
pub fn fill_pool(b: &mut Builder, target: usize) -> Vec<u32> {
    let mut state = 1;
    let mut by_size = vec![b.singleton(0, state)];
    while b.machine.entries() < target {
        let left = target - b.machine.entries();
        // Growing a context of this size costs one entry more than it has; one single entry is never left.
        let mut size = by_size.len().min(left - 1);
        if left - size == 2 {
            size -= 1;
        }
        if size == 0 {
            break;
        }
        state += 1;
        let single = b.singleton(0, state);
        let grown = b.merge(by_size[size - 1], single, Mode::Full);
        if size == by_size.len() {
            by_size.push(grown);
        }
    }
    by_size
}

/// Two chains with the same states over different bottoms; their merge makes a context a level.
pub fn twin_chains(b: &mut Builder, depth: usize) -> (Vec<u32>, Vec<u32>) {
    let bottoms = [b.rng.between(100, 900) as u64, b.rng.between(1_000, 2_000) as u64];
    let states: Vec<u64> = (0..depth).map(|_| b.small_state()).collect();
    let mut chains = bottoms.map(|bottom| vec![b.singleton(0, bottom)]);
    for chain in &mut chains {
        for &state in &states {
            let below = chain[chain.len() - 1];
            chain.push(b.singleton(below, state));
        }
    }
    let [left, right] = chains;
    (left, right)
}

/// Merges that make many contexts before they lack room, between calls that still have it.
pub fn refused_merges(b: &mut Builder) {
    let (left, right) = twin_chains(b, 30);
    let (more_left, more_right) = twin_chains(b, 12);
    let room = b.rng.between(0, 24);
    fill_contexts(b, MOST_CONTEXTS - room);
    for _ in 0..10 {
        let (one, other) = if b.rng.chance(60) { (&left, &right) } else { (&more_left, &more_right) };
        let depth = b.rng.below(one.len());
        let mode = b.any_mode();
        let merged = b.merge(one[depth], other[depth], mode);
        b.show(merged);
        let (parent, state) = (b.any_context(), b.small_state());
        b.singleton(parent, state);
        let next = b.count() as u32;
        b.show(next);
    }
    stores::mixed(b, 10);
}

/// Merges of wide arrays whose inner arrays lack pool entries half way.
pub fn refused_wide_merges(b: &mut Builder) {
    let width = b.rng.between(4, 12) as u64;
    let mut sides = Vec::new();
    for side in 0..2 {
        let inner: Vec<(u32, u64)> = (0..width).map(|state| (0, 100 + 2 * state + side)).collect();
        let inner = b.array(&inner);
        let mut entries: Vec<(u32, u64)> = (1..=width).map(|state| (inner, state)).collect();
        entries.push((0, 50 + side));
        sides.push(b.array(&entries));
    }
    let room = b.rng.below(5 * width as usize);
    let by_size = fill_pool(b, MOST_ENTRIES - room);
    for _ in 0..4 {
        let mode = b.any_mode();
        let merged = b.merge(sides[0], sides[1], mode);
        b.show(merged);
        let left = (MOST_ENTRIES - b.machine.entries()).min(by_size.len());
        let (size, state) = (b.rng.between(1, left.max(1)), 700 + b.rng.below(4) as u64);
        let single = b.singleton(0, state);
        b.merge(by_size[size - 1], single, Mode::Full);
    }
    stores::mixed(b, 10);
}

const BORDERS: [u64; 9] =
    [0, 1, 2_147_483_648, 4_294_967_293, 4_294_967_294, 4_294_967_295, 4_294_967_296, u64::MAX - 1, u64::MAX];

/// States around the last good one and the empty mark, over known and unknown parents.
pub fn border_states(b: &mut Builder) {
    for _ in 0..b.rng.between(3, 20) {
        match b.rng.below(5) {
            0 | 1 => {
                let (parent, state) = (b.any_context(), b.rng.pick(&BORDERS));
                b.singleton(parent, state);
            }
            2 => {
                let unknown = b.count() as u32 + b.rng.below(2) as u32;
                let state = b.rng.pick(&BORDERS);
                b.singleton(unknown, state);
            }
            3 => {
                let (left, right, mode) = (b.any_context(), b.any_context(), b.any_mode());
                b.merge(left, right, mode);
            }
            _ => {
                let context = b.any_context();
                b.show(context);
            }
        }
    }
}

/// Numbers at and above the count in every place that takes one.
pub fn unknown_contexts(b: &mut Builder) {
    let good = b.rng.below(6);
    stores::mixed(b, good);
    for _ in 0..b.rng.between(1, 8) {
        let count = b.count() as u32;
        let unknown = b.rng.pick(&[count, count + 1, 511, 512, 65_536, 1 << 31, u32::MAX]);
        let known = b.any_context();
        let mode = b.any_mode();
        match b.rng.below(5) {
            0 => drop(b.put(Record::Merge { left: unknown, right: known, mode })),
            1 => drop(b.put(Record::Merge { left: known, right: unknown, mode })),
            2 => drop(b.put(Record::Merge { left: unknown, right: unknown, mode })),
            3 => b.show(unknown),
            _ => {
                let state = b.rng.pick(&BORDERS);
                b.singleton(unknown, state);
            }
        }
        stores::mixed(b, 1);
    }
}
