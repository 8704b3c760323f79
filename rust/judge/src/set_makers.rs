//! Makes sound config sets and configs for them, seeded.

use std::collections::HashSet;

use crate::layout::{MOST_CONFIGS, narrow};
use crate::random::Random;
use crate::set::{Config, ConfigSet};

/// The precedence-filter mark of a provenance word.
pub const MARK: u32 = 1 << 31;

/// A config over few states, alternatives and ids, so that keys meet, and a context below a count.
pub fn any_config(random: &mut Random, contexts: usize) -> Config {
    Config {
        state: small(random, 12),
        alternative: small(random, 5),
        context: narrow(random.below(contexts)),
        semantic: random.pick(&[0, 0, 0, 0, 1, 2, u32::MAX]),
        reach: random.pick(&[0, 0, 0, 1, 5, u32::MAX]),
        provenance: random.pick(&[0, 0, 1, MARK, MARK | 1, MARK - 1, u32::MAX]),
    }
}

/// A number up to a bound, now and then any word.
fn small(random: &mut Random, most: usize) -> u32 {
    if random.chance(3) { random.word() } else { narrow(random.below(most + 1)) }
}

/// A sound set of so many configs, of any flags, beside a store of so many contexts.
pub fn random_set(random: &mut Random, configs: usize, contexts: usize) -> ConfigSet {
    let mut set = ConfigSet::fresh(random.chance(50));
    set.read_only = random.chance(10);
    let plain = random.chance(20);
    let mut keys = HashSet::new();
    while set.configs.len() < configs {
        let mut config = any_config(random, contexts);
        if plain {
            (config.semantic, config.reach) = (0, 0);
            config.state = narrow(random.below(200));
        }
        if keys.insert(config.key()) {
            set.configs.push(config);
        }
    }
    set
}

/// A sound set of 256 configs.
pub fn full_set(random: &mut Random, contexts: usize) -> ConfigSet {
    random_set(random, MOST_CONFIGS, contexts)
}
