//! Makes scripts, seeded, by families: each family aims at one part of document 01.

pub mod alphabet;
mod builder;
mod heavy;
mod limits;
pub mod malformed;
mod rng;
mod sets;
mod stores;

use crate::record::Kinds;
use builder::Builder;
use rng::Rng;

/// A way to make scripts.
pub struct Family {
    pub name: &'static str,
    /// Scripts of this family in every round; those with none are heavy and have a count of their own.
    share: usize,
    /// Whether it needs the records of config sets.
    with_sets: bool,
    build: fn(&mut Builder),
}

/// Cheap families have large shares: a script of a full store runs a thousand times longer than a tiny one.
pub const FAMILIES: &[Family] = &[
    family("tiny", 12, stores::tiny),
    family("small", 14, stores::small),
    family("medium", 4, stores::medium),
    family("deep chains", 6, stores::deep_chains),
    family("deepest chains", 1, stores::deepest_chains),
    family("wide arrays", 4, stores::wide_arrays),
    family("ladders", 6, stores::ladders),
    family("both kinds", 8, stores::both_kinds),
    family("hash collisions", 3, stores::collisions),
    family("many pairs", 1, heavy::many_pairs),
    family("too many pairs", 0, heavy::too_many_pairs),
    family("most pairs", 0, heavy::most_pairs),
    family("work ceiling", 0, heavy::work_ceiling),
    family("full contexts", 2, limits::full_contexts),
    family("full pool", 2, limits::full_pool),
    family("refused merges", 2, limits::refused_merges),
    family("refused wide merges", 2, limits::refused_wide_merges),
    family("border states", 6, limits::border_states),
    family("unknown contexts", 6, limits::unknown_contexts),
    family("malformed", 12, malformed::malformed),
    family("input lengths", 1, malformed::input_lengths),
    family("mutated", 10, malformed::mutated),
    family_of_sets("small sets", 14, sets::small_sets),
    family_of_sets("key clashes", 8, sets::key_clashes),
    family_of_sets("verdicts", 10, sets::verdicts),
    family_of_sets("full set", 2, sets::full_set),
    family_of_sets("stop lists", 4, sets::stop_lists),
    family_of_sets("read-only sets", 4, sets::read_only),
    family_of_sets("refused adds", 2, sets::refused_adds),
];

const fn family(name: &'static str, share: usize, build: fn(&mut Builder)) -> Family {
    Family { name, share, with_sets: false, build }
}

const fn family_of_sets(name: &'static str, share: usize, build: fn(&mut Builder)) -> Family {
    Family { name, share, with_sets: true, build }
}

/// A script that was made, and by which family.
pub struct Made {
    pub family: &'static str,
    pub script: Vec<u8>,
}

/// The script of this seed and index; it uses no known record outside `kinds`.
pub fn script(seed: u64, index: u64, kinds: Kinds) -> Made {
    script_of(family_at(index, |family| family.fits(kinds)), seed, index, kinds)
}

/// The same, of the heavy families, which take turns: a script of these takes the time of many others.
pub fn heavy_script(seed: u64, index: u64, kinds: Kinds) -> Made {
    let heavy: Vec<&Family> = FAMILIES.iter().filter(|family| family.share == 0).collect();
    script_of(heavy[(index % heavy.len() as u64) as usize], seed, index, kinds)
}

/// The same, of the families about config sets alone.
pub fn script_about_sets(seed: u64, index: u64) -> Made {
    script_of(family_at(index, |family| family.with_sets), seed, index, Kinds::All)
}

/// The same, of a given family.
pub fn script_of(family: &Family, seed: u64, index: u64, kinds: Kinds) -> Made {
    let mut builder = Builder::new(Rng::new(seed, index), kinds);
    (family.build)(&mut builder);
    Made { family: family.name, script: builder.script }
}

impl Family {
    /// Whether it makes scripts of these kinds.
    fn fits(&self, kinds: Kinds) -> bool {
        kinds == Kinds::All || !self.with_sets
    }
}

/// The families that fit take turns, by their shares, so that every stretch of indices has them all.
fn family_at(index: u64, fits: impl Fn(&Family) -> bool) -> &'static Family {
    let families = || FAMILIES.iter().filter(|family| fits(family));
    let round: usize = families().map(|family| family.share).sum();
    // A step that shares no factor with the round visits each slot once, neighbours far apart.
    let step = (round / 2..).find(|&step| gcd(step, round) == 1).unwrap_or(1);
    let mut slot = (index % round as u64) as usize * step % round;
    for family in families() {
        if slot < family.share {
            return family;
        }
        slot -= family.share;
    }
    unreachable!("a slot is below the sum of the shares")
}

fn gcd(a: usize, b: usize) -> usize {
    if b == 0 { a } else { gcd(b, a % b) }
}
