//! Soundness of a set's words beside a store, clause by clause as document 01 lists it.

use std::collections::HashSet;

use crate::layout::{CONFIG_WORDS, CONFIGS_AT, DIPS, HAS_SEMANTIC, MOST_CONFIGS, SET_WORDS, wide};
use crate::set::{Config, config_at};

/// Are these words, of whatever length, a sound set beside a store of so many contexts? Each clause may rely
/// on those before it.
pub fn is_sound_set(words: &[u32], contexts: usize) -> bool {
    words.len() == SET_WORDS
        && count_in_range(words)
        && contexts_known(words, contexts)
        && no_two_equal_keys(words)
        && flag_2_exact(words)
        && flag_4_exact(words)
        && other_flag_bits_zero(words)
        && unused_words_zero(words)
}

/// "Count (0 to 256)."
fn count_in_range(words: &[u32]) -> bool {
    wide(words[0]) <= MOST_CONFIGS
}

fn configs(words: &[u32]) -> impl Iterator<Item = Config> {
    (0..wide(words[0])).map(|place| config_at(words, place))
}

/// "Contexts known."
fn contexts_known(words: &[u32], contexts: usize) -> bool {
    configs(words).all(|config| wide(config.context) < contexts)
}

/// "No two equal keys."
fn no_two_equal_keys(words: &[u32]) -> bool {
    let mut seen = HashSet::new();
    configs(words).all(|config| seen.insert(config.key()))
}

/// "Flag 2 exactly if some semantic id is not 0."
fn flag_2_exact(words: &[u32]) -> bool {
    (words[1] & HAS_SEMANTIC != 0) == configs(words).any(|config| config.semantic != 0)
}

/// "Flag 4 exactly if some reach is above 0."
fn flag_4_exact(words: &[u32]) -> bool {
    (words[1] & DIPS != 0) == configs(words).any(|config| config.reach > 0)
}

/// "Other flag bits 0": four flags have a meaning, 1 and 8 in either way.
fn other_flag_bits_zero(words: &[u32]) -> bool {
    words[1] < 16
}

/// "Unused words 0": those from the last config on.
fn unused_words_zero(words: &[u32]) -> bool {
    words[CONFIGS_AT + CONFIG_WORDS * wide(words[0])..].iter().all(|&word| word == 0)
}
