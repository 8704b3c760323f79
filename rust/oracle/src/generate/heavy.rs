//! Families of merges with much work: thousands of different inner pairs, more than a call keeps results of.

use crate::counted::{MOST_MERGES, MOST_RESULTS};
use crate::generate::builder::Builder;
use crate::generate::limits::fill_contexts;
use crate::prediction::driver::MOST_CONTEXTS;
use crate::record::{Kinds, Mode, Record};

/// Contexts that are nested, and how they stand over one another.
///
/// Level i stands under state 1 over level i - 1 and under state 2 over level `below[i]`, which never falls
/// as i rises. Levels then are nested: by wildcard a merge of two is the lower one, and by full merge, where
/// each level also holds the empty stack, the higher one. So no inner merge makes a context, and the pairs
/// of levels that are met fill much of a triangle.
struct Levels {
    mode: Mode,
    below: Vec<usize>,
    contexts: Vec<u32>,
}

impl Levels {
    fn height(&self) -> usize {
        self.contexts.len() - 1
    }
}

/// Merges that the family "many pairs" asks of a call at most.
const MANY_MERGES: u32 = 6_000;

/// Accepted merges of more pairs than a call keeps results of.
pub fn many_pairs(b: &mut Builder) {
    let levels = any_levels(b);
    for apart in any_distances(b, &levels) {
        let top = highest(apart, levels.height(), |top| {
            let (left, right) = (levels.contexts[top], levels.contexts[top - apart]);
            b.machine.counts_at_most(left, right, levels.mode, MANY_MERGES)
        });
        merge_two(b, &levels, top, top - apart);
    }
}

/// Merges of up to some 9,000 pairs: nearly all are too much work.
pub fn too_many_pairs(b: &mut Builder) {
    let levels = any_levels(b);
    for apart in any_distances(b, &levels) {
        let most_pairs = b.rng.pick(&[4_000, usize::MAX]);
        let fits = |top: &usize| pairs_met(&levels.below, *top, *top - apart) <= most_pairs;
        let top = (apart..=levels.height()).rev().find(fits).unwrap_or(apart);
        merge_two(b, &levels, top, top - apart);
    }
}

/// How far the level beneath state 2 rises from level to level, in the ladder of the most pairs known.
const RISES: &[u8] = b"0003020000300304010010300331100310013000041020311000400301031000012000000000000100000210000000000020\
03020202000030000300050100030000500100004543400034005040100200020502300005034003000010350505304402110010003300112\
3";
/// Two of its levels that meet 3,655 different pairs, and two that meet 16,364.
const MEET_3_655: (usize, usize) = (174, 150);
const MEET_16_364: (usize, usize) = (214, 204);

/// Merges in the ladder of the most pairs known, by wildcard.
pub fn most_pairs(b: &mut Builder) {
    let rise = |below: &mut usize, rise: &u8| {
        *below += usize::from(rise - b'0');
        Some(*below)
    };
    let below = [0].into_iter().chain(RISES.iter().scan(0, rise)).collect();
    let levels = levels_over(b, Mode::Wildcard, below);
    let (high, low) = (b.rng.between(20, 60), b.rng.between(1, 19));
    for (high, low) in [(high, low), MEET_3_655, MEET_16_364] {
        merge_two(b, &levels, high, low);
    }
}

fn any_levels(b: &mut Builder) -> Levels {
    let mode = b.any_mode();
    let most = if mode == Mode::Wildcard { 169 } else { 127 };
    let height = b.rng.between(most - 20, most);
    let below = any_below(b, height);
    levels_over(b, mode, below)
}

fn levels_over(b: &mut Builder, mode: Mode, below: Vec<usize>) -> Levels {
    let mut contexts = vec![0];
    for level in 1..below.len() {
        let (near, far) = (contexts[level - 1], contexts[below[level]]);
        let (left, right) = (b.singleton(near, 1), b.singleton(far, 2));
        let mut made = b.merge(left, right, Mode::Full);
        if mode == Mode::Full {
            made = b.merge(made, 0, Mode::Full);
        }
        contexts.push(made);
    }
    Levels { mode, below, contexts }
}

/// For each level the one beneath state 2: never falling, and not far behind.
fn any_below(b: &mut Builder, height: usize) -> Vec<usize> {
    let mut below = vec![0];
    for level in 1..=height {
        let next = below[level - 1] + b.rng.pick(&[0, 0, 0, 0, 1, 5]);
        below.push(next.min(level - 1).max(level.saturating_sub(7)));
    }
    below
}

/// How far apart two levels are that are merged.
fn any_distances(b: &mut Builder, levels: &Levels) -> [usize; 3] {
    let height = levels.height();
    [height / 6, height / 4, b.rng.between(1, height / 2)]
}

fn merge_two(b: &mut Builder, levels: &Levels, high: usize, low: usize) {
    let merged = b.merge(levels.contexts[high], levels.contexts[low], levels.mode);
    b.show(merged);
}

/// The highest number that fits, where `low` does and those that fit come first.
fn highest(mut low: usize, most: usize, mut fits: impl FnMut(usize) -> bool) -> usize {
    let mut high = most + 1;
    while high - low > 1 {
        let middle = (low + high) / 2;
        if fits(middle) {
            low = middle;
        } else {
            high = middle;
        }
    }
    low
}

/// Different pairs of levels that a merge of these two meets, itself included.
fn pairs_met(below: &[usize], high: usize, low: usize) -> usize {
    let size = below.len();
    let mut met = vec![false; size * size];
    let mut open = vec![(high, low)];
    let mut count = 0;
    while let Some((high, low)) = open.pop() {
        let place = &mut met[high * size + low];
        if high == low || *place {
            continue;
        }
        *place = true;
        count += 1;
        if low > 0 {
            open.extend([(high - 1, low - 1), (below[high], below[low])]);
        }
    }
    count
}

/// Two sides of a merge.
type Sides = (u32, u32);

/// Copies of a pair beneath one pair of arrays, and of that beneath the next.
const COPIES: usize = 8;

/// Merges that count exactly as much as is allowed, and one more; then with no room beside it, so that the
/// ceiling that is reached first is told.
pub fn work_ceiling(b: &mut Builder) {
    let [at, above] = sides_at_the_ceiling(b);
    let new = [b.singleton(0, 900), b.singleton(0, 901)];
    let makes_first = (place_beside(b, above.0, (new[0], 0)), place_beside(b, above.1, (new[1], 0)));
    let makes_last = (place_beside(b, above.0, (new[0], 2_000)), place_beside(b, above.1, (new[1], 2_000)));
    for (left, right) in [at, (at.1, at.0), above] {
        let merged = b.merge(left, right, Mode::Wildcard);
        b.show(merged);
    }
    if b.kinds == Kinds::All {
        add_both(b, at, above);
    }
    fill_contexts(b, MOST_CONTEXTS);
    for (left, right) in [makes_first, makes_last, (at.1, at.0)] {
        b.merge(left, right, Mode::Wildcard);
    }
    b.singleton(0, 902);
}

/// The same by configs of one key: what is refused leaves the set.
fn add_both(b: &mut Builder, at: Sides, above: Sides) {
    b.put(Record::NewSet { mode: Mode::Wildcard });
    b.add([7, 1, above.0, 0, 0, 0]);
    b.add([7, 1, above.1, 0, 3, 1 << 31]);
    b.add([7, 2, above.0, 0, 0, 0]);
    b.put(Record::Verdict);
    b.add([8, 1, at.0, 0, 0, 0]);
    b.add([8, 1, at.1, 0, 3, 1 << 31]);
    b.add([8, 2, at.1, 0, 0, 0]);
    b.put(Record::Verdict);
}

/// Sides whose merge by wildcard counts 65,536, and sides of one more.
///
/// A chain's level i is state 1 over level i - 1: a merge of levels i and j < i is level j, and meets j + 1
/// pairs, all as far apart. Pairs at small distances fill the cache; at the distance after these no result is
/// kept, and each time counts in full.
fn sides_at_the_ceiling(b: &mut Builder) -> [Sides; 2] {
    let height = b.rng.between(60, 120);
    let mut chain = vec![0];
    for level in 1..=height {
        chain.push(b.singleton(chain[level - 1], 1));
    }
    let mut pairs = Vec::new();
    let (mut apart, mut counted) = (1, 1);
    while counted < 1 + MOST_RESULTS {
        pairs.push((chain[height], chain[height - apart]));
        counted += height - apart + 1;
        apart += 1;
    }
    // From here on, what costs most comes first; the last pair counts what is left.
    let mut heavy = vec![(height - apart + 1, (chain[height], chain[height - apart]))];
    for _ in 0..2 {
        let (cost, pair) = heavy[heavy.len() - 1];
        heavy.push((1 + COPIES * cost, array_sides(b, &[pair; COPIES])));
    }
    let mut left = MOST_MERGES as usize - counted;
    for (cost, pair) in heavy.into_iter().rev() {
        let times = (left - 1) / cost;
        pairs.extend(vec![pair; times]);
        left -= times * cost;
    }
    pairs.push((chain[apart + left - 1], chain[left - 1]));
    let at = array_sides(b, &pairs);
    let above = (place_beside(b, at.0, (chain[apart], 1_000)), place_beside(b, at.1, (0, 1_000)));
    [at, above]
}

/// Arrays that meet these pairs, under the states 1, 2, ..
fn array_sides(b: &mut Builder, pairs: &[Sides]) -> Sides {
    let side = |b: &mut Builder, parents: Vec<u32>| {
        let singles: Vec<u32> =
            (1..).zip(parents).map(|(state, parent)| b.singleton(parent, state)).collect();
        b.union(&singles)
    };
    let left = side(b, pairs.iter().map(|pair| pair.0).collect());
    (left, side(b, pairs.iter().map(|pair| pair.1).collect()))
}

/// An array with one entry more.
fn place_beside(b: &mut Builder, array: u32, (parent, state): (u32, u64)) -> u32 {
    let single = b.singleton(parent, state);
    b.merge(array, single, Mode::Full)
}
