//! Config sets: check and chains of keys in one pass, then the work.

use super::check::{all_zero, check};
use super::index::mix;
use super::merge::merge_indexed;
use super::{Merged, Scratch, Store};

const MOST_CONFIGS: usize = 256;
const CONFIGS: usize = 2;
const CONFIG_WORDS: usize = 6;

type Set = [u32; CONFIGS + CONFIG_WORDS * MOST_CONFIGS];
/// State, alternative, context, semantic id, reach, provenance.
pub type Config = [u32; CONFIG_WORDS];

const FULL_CONTEXT: u32 = 1;
const HAS_SEMANTIC: u32 = 2;
const DIPS: u32 = 4;
const READ_ONLY: u32 = 8;
const MARK: u32 = 1 << 31;

/// Chains of keys, after the index; a merge takes their place.
const BUCKETS: usize = 256;
const HEADS: usize = 2_048;
const LINKS: usize = HEADS + BUCKETS;

/// A config that was added.
#[derive(Clone, Copy, Debug, Eq, PartialEq)]
pub struct Added {
    pub inserted: bool,
    /// How many merges were counted.
    pub merges: u32,
    /// How many contexts were made.
    pub made: u32,
}

/// Adds a config, or answers the number of a refusal.
#[inline(never)]
pub fn add(store: &mut [u32], set: &mut [u32], scratch: &mut [u32], config: Config) -> Result<Added, u32> {
    let Ok(store) = <&mut Store>::try_from(store) else {
        return Err(2);
    };
    let Ok(set) = <&mut Set>::try_from(set) else {
        return Err(2);
    };
    let Ok(scratch) = <&mut Scratch>::try_from(scratch) else {
        return Err(2);
    };
    let answer = add_in(store, set, scratch, config);
    scratch.fill(0);
    answer
}

fn add_in(store: &mut Store, set: &mut Set, scratch: &mut Scratch, config: Config) -> Result<Added, u32> {
    if !check(store, scratch) {
        return Err(1);
    }
    if !check_set(set, scratch, store[0]) {
        return Err(3);
    }
    if set[1] & READ_ONLY != 0 {
        return Err(7);
    }
    if config[2] >= store[0] {
        return Err(4);
    }
    let Some(place) = find(set, scratch, &config, bucket(&config)) else {
        return insert(set, config).map(|()| Added { inserted: true, merges: 0, made: 0 });
    };
    let wildcard = set[1] & FULL_CONTEXT == 0;
    let mut held = *config_at(set, place);
    let Merged { context, merges, made } = merge_indexed(store, scratch, held[2], config[2], wildcard)?;
    held[2] = context;
    held[4] = held[4].max(config[4]);
    held[5] |= config[5] & MARK;
    put(set, place, held);
    Ok(Added { inserted: false, merges, made })
}

fn insert(set: &mut Set, config: Config) -> Result<(), u32> {
    let count = set[0] as usize;
    if count == MOST_CONFIGS {
        return Err(8);
    }
    set[0] += 1;
    put(set, count, config);
    Ok(())
}

fn put(set: &mut Set, place: usize, config: Config) {
    let at = CONFIGS + CONFIG_WORDS * place;
    set[at..at + CONFIG_WORDS].copy_from_slice(&config);
    set[1] |= flags(&config);
}

/// The flags that a config asks for.
fn flags(config: &Config) -> u32 {
    let has_semantic = if config[3] != 0 { HAS_SEMANTIC } else { 0 };
    let dips = if config[4] != 0 { DIPS } else { 0 };
    has_semantic | dips
}

/// Is the set sound? If so, all its keys are chained.
fn check_set(set: &Set, scratch: &mut Scratch, contexts: u32) -> bool {
    let count = set[0] as usize;
    if count > MOST_CONFIGS || set[1] >= 16 {
        return false;
    }
    scratch[HEADS..LINKS].fill(0);
    let mut asked = 0;
    for place in 0..count {
        let config = config_at(set, place);
        let bucket = bucket(config);
        if config[2] >= contexts || find(set, scratch, config, bucket).is_some() {
            return false;
        }
        scratch[LINKS + place] = scratch[HEADS + bucket];
        scratch[HEADS + bucket] = place as u32 + 1;
        asked |= flags(config);
    }
    set[1] & (HAS_SEMANTIC | DIPS) == asked && all_zero(&set[CONFIGS + CONFIG_WORDS * count..])
}

fn config_at(set: &Set, place: usize) -> &Config {
    let (configs, _) = set[CONFIGS..].as_chunks();
    &configs[place]
}

/// Where the config of the same key stands among those chained.
fn find(set: &Set, scratch: &Scratch, config: &Config, bucket: usize) -> Option<usize> {
    let mut next = scratch[HEADS + bucket];
    while next != 0 {
        let place = next as usize - 1;
        if same_key(config_at(set, place), config) {
            return Some(place);
        }
        next = scratch[LINKS + place];
    }
    None
}

fn same_key(one: &Config, other: &Config) -> bool {
    one[0] == other[0] && one[1] == other[1] && one[3] == other[3] && (one[5] ^ other[5]) & !MARK == 0
}

fn bucket(config: &Config) -> usize {
    let pair = |high: u32, low: u32| u64::from(high) << 32 | u64::from(low);
    let hash = mix(pair(config[3], config[5] & !MARK), pair(config[1], config[0]));
    (hash >> 56) as usize
}
