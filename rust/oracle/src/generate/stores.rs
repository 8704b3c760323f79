//! Families about contexts and merges alone.

use crate::generate::builder::Builder;
use crate::generate::sets;
use crate::record::{Kinds, Mode};

pub fn tiny(b: &mut Builder) {
    let records = b.rng.below(5);
    mixed(b, records);
}

pub fn small(b: &mut Builder) {
    let records = b.rng.between(5, 30);
    mixed(b, records);
}

pub fn medium(b: &mut Builder) {
    let records = b.rng.between(40, 160);
    mixed(b, records);
}

/// Records of all known kinds, mostly over contexts that exist.
pub fn mixed(b: &mut Builder, records: usize) {
    for _ in 0..records {
        if b.kinds == Kinds::All && b.rng.chance(40) {
            sets::any_set_record(b);
        } else {
            any_store_record(b);
        }
    }
}

pub fn any_store_record(b: &mut Builder) {
    let choice = b.rng.below(100);
    let context = context_or_unknown(b);
    if choice < 45 {
        let state = state_or_border(b);
        b.singleton(context, state);
    } else if choice < 80 {
        let other = context_or_unknown(b);
        let mode = b.any_mode();
        b.merge(context, other, mode);
    } else {
        b.show(context);
    }
}

fn context_or_unknown(b: &mut Builder) -> u32 {
    if b.rng.chance(3) {
        return b.count() as u32 + b.rng.below(3) as u32;
    }
    b.any_context()
}

fn state_or_border(b: &mut Builder) -> u64 {
    if b.rng.chance(4) {
        return b.rng.pick(&[0, 4_294_967_294, 4_294_967_295, u64::MAX - 1, u64::MAX]);
    }
    b.small_state()
}

/// Two chains that fill the store: the deepest recursion of a merge. By wildcard the result is the one over
/// 0 and nothing is made; by full merge every level lacks room.
pub fn deepest_chains(b: &mut Builder) {
    let width = b.rng.between(1, 3);
    let states: Vec<u64> = (0..255).map(|_| b.rng.between(1, width) as u64).collect();
    let short = b.rng.between(0, 3);
    let over_empty = b.chain(0, &states[short..]);
    let base = b.singleton(0, 100);
    let over_other = b.chain(base, &states[short..]);
    for mode in [Mode::Wildcard, Mode::Full, Mode::Wildcard] {
        let merged = b.merge(over_other, over_empty, mode);
        b.show(merged);
    }
    any_store_record(b);
}

/// Long chains that share their tops, their bottoms or both, and merges of them.
pub fn deep_chains(b: &mut Builder) {
    let most = if b.rng.chance(10) { 165 } else { 70 };
    let length = b.rng.between(2, most);
    let width = b.rng.between(1, 3);
    let states: Vec<u64> = (0..length).map(|_| b.rng.between(1, width) as u64).collect();
    let mut tops = Vec::new();
    for bottom in 1..=b.rng.between(2, 3) as u64 {
        let base = b.chain(0, &[100 + bottom]);
        let mut own = states.clone();
        if b.rng.chance(50) {
            let at = b.rng.below(length);
            own[at] = 9;
        }
        tops.push(b.chain(base, &own));
    }
    if b.rng.chance(50) {
        tops.push(b.chain(0, &states[length / 2..]));
    }
    for _ in 0..4 {
        let (left, right, mode) = (b.rng.pick(&tops), b.rng.pick(&tops), b.any_mode());
        let merged = b.merge(left, right, mode);
        b.show(merged);
        tops.push(merged);
    }
}

/// Arrays of many entries, grown in any order, that overlap in part.
pub fn wide_arrays(b: &mut Builder) {
    let width = b.rng.between(2, 24);
    let parents = b.rng.between(1, 4);
    let mut known = vec![0];
    for parent in 0..parents {
        known.push(b.singleton(0, 1_000 + parent as u64));
    }
    let mut arrays = Vec::new();
    for _ in 0..b.rng.between(2, 3) {
        let mut states: Vec<u64> = (0..=width as u64).collect();
        b.rng.shuffle(&mut states);
        states.truncate(b.rng.between(1, width));
        let entries: Vec<(u32, u64)> = states.iter().map(|&state| (b.rng.pick(&known), state)).collect();
        arrays.push(b.array(&entries));
    }
    arrays.push(0);
    for _ in 0..5 {
        let (left, right, mode) = (b.rng.pick(&arrays), b.rng.pick(&arrays), b.any_mode());
        let merged = b.merge(left, right, mode);
        b.show(merged);
        arrays.push(merged);
    }
}

/// Levels over shared parts: each stands twice over earlier ones, so stacks double and contexts do not.
pub fn ladders(b: &mut Builder) {
    let mut levels = vec![0, b.singleton(0, 50)];
    for _ in 0..b.rng.between(3, 25) {
        let back = b.rng.between(1, levels.len().min(3));
        let (near, far) = (levels[levels.len() - 1], levels[levels.len() - back]);
        let (left, right) = (b.singleton(near, 1), b.singleton(far, 2));
        let mode = b.any_mode();
        let level = b.merge(left, right, mode);
        levels.push(level);
    }
    for _ in 0..b.rng.between(2, 8) {
        let (left, right, mode) = (b.rng.pick(&levels), b.rng.pick(&levels), b.any_mode());
        let merged = b.merge(left, right, mode);
        b.show(merged);
        levels.push(merged);
    }
}

/// The same pairs by both kinds and in both orders.
pub fn both_kinds(b: &mut Builder) {
    for _ in 0..b.rng.between(3, 12) {
        let (parent, state) = (b.any_context(), b.small_state());
        b.singleton(parent, state);
    }
    for _ in 0..b.rng.between(1, 5) {
        let (left, right) = (b.any_context(), b.any_context());
        let mut orders = [(left, right), (right, left)];
        b.rng.shuffle(&mut orders);
        let first = b.any_mode();
        let second = if first == Mode::Full { Mode::Wildcard } else { Mode::Full };
        for (left, right) in orders {
            for mode in [first, second] {
                let merged = b.merge(left, right, mode);
                b.show(merged);
            }
        }
    }
}

/// Makes one context over a fresh part of the store.
type Maker = fn(&mut Builder) -> u32;

/// Different contexts with one 64-bit hash, side by side: chains; context 0 and a chain of its hash, 0; an
/// array and a chain; arrays of two and of three entries; arrays of three entries each.
const COLLISIONS: [[Maker; 2]; 5] = [
    [|b| b.chain(0, &[52, 1]), |b| b.chain(0, &[11_975, 515_144_035])],
    [|_| 0, |b| b.chain(0, &[523_633_496, 999_192_160])],
    [|b| b.array(&[(0, 41_776), (0, 946_387_694)]), |b| b.chain(0, &[160_315, 7])],
    [
        |b| b.array(&[(0, 7), (0, 1_549_421_363)]),
        |b| b.array(&[(0, 7), (0, 1_549_421_363), (0, 1_829_705_404)]),
    ],
    [
        |b| b.array(&[(0, 66_550), (0, 1_311_049_642), (0, 2_147_483_653)]),
        |b| b.array(&[(0, 963_443), (0, 306_341_760), (0, 2_160_661_468)]),
    ],
];

/// Colliding contexts in any order, and contexts over them that then differ in a parent alone.
pub fn collisions(b: &mut Builder) {
    let mut pairs = COLLISIONS;
    b.rng.shuffle(&mut pairs);
    let mut made = vec![0];
    for mut pair in pairs.into_iter().take(b.rng.between(1, 5)) {
        b.rng.shuffle(&mut pair);
        for maker in [pair[0], pair[1], pair[0]] {
            let context = maker(b);
            b.show(context);
            let above = b.singleton(context, 5);
            let array = b.array(&[(context, 5), (0, 9)]);
            b.show(array);
            made.extend([context, above, array]);
        }
    }
    for _ in 0..6 {
        let (left, right, mode) = (b.rng.pick(&made), b.rng.pick(&made), b.any_mode());
        let merged = b.merge(left, right, mode);
        b.singleton(merged, 3);
    }
}
