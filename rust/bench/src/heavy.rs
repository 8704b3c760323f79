//! The slowest merges found that are answered, by public calls from a fresh store and in any sound store that is
//! lent: how long one call takes, how many merges it counts and how many entries these walk.
//!
//! A call keeps 1,024 results. Pairs of levels fill these first; from there on a pair counts each time that it is
//! met, so that a few nested arrays meet one pair some 60,000 times, and what is walked beneath it is not bounded by
//! the count: entries copied, entries with equal parents, entries answered from the results kept.

use std::hint::black_box;
use std::time::Instant;

use judge::Entry;
use judge::layout::{DOLLAR, SCRATCH_WORDS};
use judge::makers::Maker;
use oracle::counted::{Contexts, Counted};
use oracle::prediction::driver::Machine;
use oracle::record::{Mode, Record};
use oracle::reply::Reply;
use pursecricket::{ContextId, raw};

use crate::plain;

const MOST_MERGES: usize = 65_536;
const MOST_RESULTS: usize = 1_024;
/// Layers of arrays, each over so many copies of the one beneath.
#[derive(Clone, Copy)]
struct Layers {
    copies: usize,
    layers: usize,
}

const LAYERS: [Layers; 5] = [
    Layers { copies: 40, layers: 2 },
    Layers { copies: 16, layers: 3 },
    Layers { copies: 8, layers: 4 },
    Layers { copies: 6, layers: 5 },
    Layers { copies: 4, layers: 6 },
];

/// Two sides of a merge: the answer is the right one.
type Sides = (u32, u32);

/// How contexts come into a store; `None` where there is no room.
trait Makes {
    /// A context of entries, each a state and a parent, with rising states.
    fn context(&mut self, entries: &[(u32, u32)]) -> Option<u32>;
    fn words(&self) -> Vec<u32>;
}

/// Any sound store: a context takes its own room alone.
impl Makes for Maker {
    fn context(&mut self, entries: &[(u32, u32)]) -> Option<u32> {
        self.array(entries.iter().map(|&(state, parent)| Entry { state, parent }).collect())
    }

    fn words(&self) -> Vec<u32> {
        self.store.words()
    }
}

/// Public calls: singletons, and their full merges by halves.
impl Makes for Machine {
    fn context(&mut self, entries: &[(u32, u32)]) -> Option<u32> {
        let record = match *entries {
            [(DOLLAR, _)] => return Some(0),
            [(state, parent)] => Record::Singleton { parent, state: state.into() },
            _ => {
                let (low, high) = entries.split_at(entries.len() / 2);
                let (left, right) = (self.context(low)?, self.context(high)?);
                Record::Merge { left, right, mode: Mode::Full }
            }
        };
        match self.call(&record) {
            Ok(Reply::Context { number, .. }) => Some(number),
            _ => None,
        }
    }

    fn words(&self) -> Vec<u32> {
        self.store_words()
    }
}

/// A merge in the words of a store, and how often it meets entries of the widest arrays.
struct Case {
    what: String,
    store: Vec<u32>,
    sides: Sides,
    wildcard: bool,
    weight: usize,
}

pub fn time_all() {
    for wildcard in [false, true] {
        time(&widest("public calls", wildcard, || Box::new(Machine::new())));
        time(&widest("a lent store", wildcard, || Box::new(Maker::new(1))));
    }
    time(&results_of_one_bucket_by_calls());
    time(&results_of_one_bucket());
}

/// The most entries walked: the widest array that there is room for, merged with a part of itself again and again.
fn widest(how: &str, wildcard: bool, fresh: impl Fn() -> Box<dyn Makes>) -> Case {
    let mut best: Option<Case> = None;
    for height in [48, 64, 96, 128, 200, 300] {
        for layers in LAYERS {
            let try_width = |width| wide_beneath(&mut *fresh(), wildcard, height, layers, width);
            let Some(case) = highest(2_047, try_width) else {
                continue;
            };
            if best.as_ref().is_none_or(|best| best.weight < case.weight) {
                best = Some(case);
            }
        }
    }
    let case = best.expect("some width has room");
    let kind = if wildcard { "wildcard" } else { "full" };
    Case { what: format!("{kind} merge over a wide array, by {how}, {}", case.what), ..case }
}

/// The case of the largest number that has one, where those that have one come first.
fn highest(most: usize, mut case_of: impl FnMut(usize) -> Option<Case>) -> Option<Case> {
    let (mut low, mut high, mut found) = (1, most + 1, None);
    while high - low > 1 {
        let middle = (low + high) / 2;
        match case_of(middle) {
            Some(case) => (low, found) = (middle, Some(case)),
            None => high = middle,
        }
    }
    found
}

/// A wide array beneath the pairs that are met again and again, its other side one entry of it.
fn wide_beneath(
    make: &mut dyn Makes,
    wildcard: bool,
    height: usize,
    layers: Layers,
    width: usize,
) -> Option<Case> {
    let levels = levels(make, wildcard, height)?;
    let wide: Vec<(u32, u32)> = (1..=width as u32).map(|state| (state, 0)).collect();
    let array = make.context(&wide)?;
    let part = make.context(&wide[width - 1..])?;
    let mut pairs = Vec::new();
    let counted = 1 + fill(&levels, wildcard, &mut pairs);
    let times = repeat(make, &mut pairs, (part, array), layers, MOST_MERGES - counted)?;
    let sides = array_sides(make, &pairs)?;
    let what = format!("{width} entries wide");
    Some(Case { what, store: make.words(), sides, wildcard, weight: times * width })
}

/// Nested levels over context 0: by wildcard the lower one swallows, by full merge each also holds the empty stack.
fn levels(make: &mut dyn Makes, wildcard: bool, height: usize) -> Option<Vec<u32>> {
    let mut levels = vec![0];
    for level in 1..=height {
        let below = levels[level - 1];
        let entries = [(1, below), (DOLLAR, 0)];
        levels.push(make.context(if wildcard { &entries[..1] } else { &entries })?);
    }
    Some(levels)
}

/// Pairs of levels, each pair as far apart as no other, until all results are kept; answers what they count.
fn fill(levels: &[u32], wildcard: bool, pairs: &mut Vec<Sides>) -> usize {
    let height = levels.len() - 1;
    let (mut counted, mut apart) = (0, 1);
    while counted < MOST_RESULTS && apart < height {
        let (high, low) = (levels[height], levels[height - apart]);
        pairs.push(if wildcard { (high, low) } else { (low, high) });
        counted += height - apart + 1;
        apart += 1;
    }
    counted
}

/// One pair, which counts 1, beneath layers of arrays, nearly as often as may be counted: what the two outermost
/// layers leave is not used. Answers how often.
fn repeat(
    make: &mut dyn Makes,
    pairs: &mut Vec<Sides>,
    pair: Sides,
    Layers { copies, layers }: Layers,
    mut left: usize,
) -> Option<usize> {
    let mut made = vec![(1, 1, pair)];
    for layer in 0..layers {
        let (cost, times, pair) = made[layer];
        made.push((1 + copies * cost, copies * times, array_sides(make, &vec![pair; copies])?));
    }
    let mut met = 0;
    for (cost, times, pair) in made.into_iter().rev().take(2) {
        pairs.extend(vec![pair; left / cost]);
        met += left / cost * times;
        left %= cost;
    }
    Some(met)
}

/// Arrays that meet these pairs, under the states 1, 2, ..
fn array_sides(make: &mut dyn Makes, pairs: &[Sides]) -> Option<Sides> {
    let left: Vec<(u32, u32)> = (1..).zip(pairs.iter().map(|pair| pair.0)).collect();
    let right: Vec<(u32, u32)> = (1..).zip(pairs.iter().map(|pair| pair.1)).collect();
    Some((make.context(&left)?, make.context(&right)?))
}

/// Contexts whose numbers are chosen: as many pairs as can be whose results have one bucket, and wide arrays that meet
/// the oldest of these results at every entry.
fn results_of_one_bucket() -> Case {
    const NUMBERS: u32 = 400;
    const HEIGHT: usize = 60;
    let pairs = pairs_of_one_bucket(NUMBERS, false);
    let mut make = Maker::new(1);
    place_pairs(&mut make, NUMBERS, &pairs, |make, number| make.context(&[(number, 0)])).expect("room");
    let levels = levels(&mut make, false, HEIGHT).expect("room");
    let width_of = |width| {
        let mut make = Maker::over(make.store.clone(), 1);
        let case = oldest_met(&mut make, false, &pairs, &levels, LAYERS[0], width)?;
        Some(Case { what: format!("full merge in a lent store, {}", case.what), ..case })
    };
    highest(2_047, width_of).expect("some width has room")
}

/// The same by public calls: levels stand between the pairs.
fn results_of_one_bucket_by_calls() -> Case {
    let mut best: Option<Case> = None;
    for (numbers, most, height) in
        [(150, 6, 64), (200, 8, 64), (200, 12, 96), (250, 16, 96), (300, 20, 96), (300, 12, 128)]
    {
        let mut pairs = pairs_of_one_bucket(numbers, true);
        pairs.truncate(most);
        for layers in LAYERS {
            let Some(case) = highest(200, |width| met_by_calls(numbers, height, &pairs, layers, width))
            else {
                continue;
            };
            if best.as_ref().is_none_or(|best| best.weight < case.weight) {
                best = Some(case);
            }
        }
    }
    best.expect("some width has room")
}

fn met_by_calls(numbers: u32, height: usize, pairs: &[Sides], layers: Layers, width: usize) -> Option<Case> {
    let mut make = Machine::new();
    let mut levels = vec![0];
    let next_level = |make: &mut Machine, _| {
        let level = make.context(&[(1, levels[levels.len() - 1])])?;
        levels.push(level);
        Some(level)
    };
    place_pairs(&mut make, numbers, pairs, next_level)?;
    while levels.len() <= height {
        levels.push(make.context(&[(1, levels[levels.len() - 1])])?);
    }
    let case = oldest_met(&mut make, true, pairs, &levels, layers, width)?;
    Some(Case { what: format!("wildcard merge by public calls, {}", case.what), ..case })
}

/// Makes the contexts 1 to `numbers`: 1 is state 999 over 0; the smaller of a pair has a state of its own over 0, and the
/// larger has that entry and 999; between these stand others.
fn place_pairs<M: Makes>(
    make: &mut M,
    numbers: u32,
    pairs: &[Sides],
    mut other: impl FnMut(&mut M, u32) -> Option<u32>,
) -> Option<()> {
    for number in 1..=numbers {
        let pair = pairs.iter().find(|pair| pair.0 == number || pair.1 == number);
        let made = match pair {
            _ if number == 1 => make.context(&[(999, 0)])?,
            Some(&(smaller, _)) if smaller == number => make.context(&[(1_000 + smaller, 0)])?,
            Some(&(smaller, _)) => make.context(&[(999, 0), (1_000 + smaller, 0)])?,
            None => other(make, number)?,
        };
        assert_eq!(made, number, "each is new");
    }
    Some(())
}

/// The pairs are met first; then, when no more results are kept, the first of them at every entry of wide arrays.
fn oldest_met(
    make: &mut dyn Makes,
    wildcard: bool,
    pairs: &[Sides],
    levels: &[u32],
    layers: Layers,
    width: usize,
) -> Option<Case> {
    let mut met = pairs.to_vec();
    let counted = 1 + pairs.len() + fill(levels, wildcard, &mut met);
    let wide = array_sides(make, &vec![pairs[0]; width])?;
    let times = repeat(make, &mut met, wide, layers, MOST_MERGES - counted)?;
    let sides = array_sides(make, &met)?;
    let what = format!("{width} entries answered by the oldest of {} results of one bucket", pairs.len());
    Some(Case { what, store: make.words(), sides, wildcard, weight: times * width * pairs.len() })
}

/// As many pairs of numbers from 2 on as can be in one bucket of the port's, no number in two of them.
fn pairs_of_one_bucket(numbers: u32, wildcard: bool) -> Vec<Sides> {
    let mut all = vec![(vec![false; numbers as usize + 1], Vec::new()); 1_024];
    for smaller in 2..=numbers {
        for larger in smaller + 1..=numbers {
            let key = (u32::from(wildcard) * 512 + smaller) * 512 + larger;
            let (used, pairs) = &mut all[(key.wrapping_mul(2_654_435_769) >> 22) as usize];
            if !used[smaller as usize] && !used[larger as usize] {
                (used[smaller as usize], used[larger as usize]) = (true, true);
                pairs.push((smaller, larger));
            }
        }
    }
    all.into_iter().map(|(_, pairs)| pairs).max_by_key(Vec::len).expect("a bucket")
}

/// The contexts of sound words.
fn copied(store: &[u32]) -> Contexts {
    let sound = judge::Store::decode(store).expect("sound words");
    let mut contexts = Contexts::new();
    for number in 1..store[0] {
        let entries = sound.entries(number).iter().map(|entry| (entry.state, entry.parent));
        contexts.push(&entries.collect::<Vec<_>>());
    }
    contexts
}

/// Seconds of the best of three calls.
fn best_of_three(mut call: impl FnMut() -> (u32, u32), expected: Counted) -> f64 {
    let mut best = f64::MAX;
    for _ in 0..3 {
        let began = Instant::now();
        let answer = call();
        best = best.min(began.elapsed().as_secs_f64());
        assert_eq!(answer, (expected.context, expected.merges));
    }
    best
}

fn time(case: &Case) {
    let (left, right) = black_box(case.sides);
    let counted = copied(&case.store).merge(left, right, case.wildcard).expect("within the ceilings");
    assert_eq!(counted.context, right, "{}: the right side holds the left one", case.what);
    let (mut store, mut scratch) = (case.store.clone(), vec![0; SCRATCH_WORDS]);
    let port = || {
        let merged = raw::merge(&mut store, &mut scratch, ContextId(left), ContextId(right), case.wildcard);
        let merged = merged.expect("the model answers it");
        (merged.context.0, merged.merges)
    };
    let port = best_of_three(port, counted);
    let plain = || {
        let merged = plain::merge(&mut store, &mut scratch, left, right, case.wildcard);
        let merged = merged.expect("the model answers it");
        (merged.context, merged.merges)
    };
    let plain = best_of_three(plain, counted);
    let Counted { merges, walked, .. } = counted;
    println!(
        "{}: port {port:.3} s, plain Rust {plain:.3} s; {merges} merges, {walked} entries walked",
        case.what
    );
}
