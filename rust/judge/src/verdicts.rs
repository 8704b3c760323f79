//! Subsets of a set's configs, and what they say of its alternatives, by document 01's sentences.

use std::collections::BTreeSet;

use crate::layout::{CONFLICT_WORDS, SUBSET_WORDS, narrow};
use crate::set::Config;

/// The alternatives of the configs of one state and context.
#[derive(Clone, Debug, Eq, PartialEq)]
pub struct Subset {
    pub state: u32,
    pub context: u32,
    pub alternatives: BTreeSet<u32>,
}

impl Subset {
    fn conflicts(&self) -> bool {
        self.alternatives.len() >= 2
    }
}

/// "Configs grouped by state and context, in order of each group's first config, alternatives rising."
pub fn subsets(configs: &[Config]) -> Vec<Subset> {
    let mut subsets: Vec<Subset> = Vec::new();
    for &Config { state, context, alternative, .. } in configs {
        let known = subsets.iter_mut().find(|subset| subset.state == state && subset.context == context);
        match known {
            Some(subset) => drop(subset.alternatives.insert(alternative)),
            None => subsets.push(Subset { state, context, alternatives: BTreeSet::from([alternative]) }),
        }
    }
    subsets
}

/// "Group count, then per group state, context, alternative count, alternatives; rest 0."
pub fn subset_words(subsets: &[Subset]) -> Vec<u32> {
    let mut words = vec![narrow(subsets.len())];
    for Subset { state, context, alternatives } in subsets {
        words.extend([*state, *context, narrow(alternatives.len())]);
        words.extend(alternatives);
    }
    padded(words, SUBSET_WORDS)
}

/// "The union of the groups with two or more."
pub fn conflicting_alts(configs: &[Config]) -> BTreeSet<u32> {
    subsets(configs).into_iter().filter(Subset::conflicts).flat_map(|subset| subset.alternatives).collect()
}

/// "Count, alternatives rising, rest 0."
pub fn conflict_words(alternatives: &BTreeSet<u32>) -> Vec<u32> {
    let mut words = vec![narrow(alternatives.len())];
    words.extend(alternatives);
    padded(words, CONFLICT_WORDS)
}

/// The alternative of all configs, where they have one in common.
pub fn unique_alt(configs: &[Config]) -> Option<u32> {
    the_only(configs.iter().map(|config| config.alternative))
}

/// The least alternative of all subsets, where they have it in common.
pub fn single_viable_alt(configs: &[Config]) -> Option<u32> {
    the_only(subsets(configs).iter().filter_map(|subset| subset.alternatives.first().copied()))
}

/// Have all subsets two or more alternatives? "Of a set without subsets" yes.
pub fn all_subsets_conflict(configs: &[Config]) -> bool {
    subsets(configs).iter().all(Subset::conflicts)
}

/// Have all subsets the same alternatives? "Of a set without subsets" yes.
pub fn all_subsets_equal(configs: &[Config]) -> bool {
    let subsets = subsets(configs);
    subsets.iter().all(|subset| subset.alternatives == subsets[0].alternatives)
}

/// "Yes if every config is in a listed stop state, an empty set included. Else yes exactly if some subset has
/// two or more alternatives and no state has just one."
pub fn verdict(configs: &[Config], stops: &[u32]) -> bool {
    if configs.iter().all(|config| stops.contains(&config.state)) {
        return true;
    }
    let some_conflict = subsets(configs).iter().any(Subset::conflicts);
    some_conflict && configs.iter().all(|config| alternatives_of(configs, config.state) >= 2)
}

/// Why the verdict is what it is; the alternatives of a clash are told beside it.
#[derive(Clone, Copy, Debug, Eq, PartialEq)]
pub enum Reason {
    Stop,
    NoClash,
    One { state: u32, alternative: u32 },
    Clash { state: u32, context: u32 },
}

/// "Every config has stopped; no subset holds two alternatives; state s has only alternative a, the first such
/// state in set order; or a clash, with state, context and alternatives of the first subset that holds two or
/// more. The reasons are tried in that order."
pub fn reason(configs: &[Config], stops: &[u32]) -> (Reason, BTreeSet<u32>) {
    if configs.iter().all(|config| stops.contains(&config.state)) {
        return (Reason::Stop, BTreeSet::new());
    }
    let Some(clash) = subsets(configs).into_iter().find(Subset::conflicts) else {
        return (Reason::NoClash, BTreeSet::new());
    };
    let lone = configs.iter().find(|config| alternatives_of(configs, config.state) == 1);
    match lone {
        Some(&Config { state, alternative, .. }) => (Reason::One { state, alternative }, BTreeSet::new()),
        None => (Reason::Clash { state: clash.state, context: clash.context }, clash.alternatives),
    }
}

/// How many alternatives a state has.
fn alternatives_of(configs: &[Config], state: u32) -> usize {
    let of_state = configs.iter().filter(|config| config.state == state);
    of_state.map(|config| config.alternative).collect::<BTreeSet<u32>>().len()
}

/// The value that all have; none of nothing.
fn the_only(values: impl Iterator<Item = u32>) -> Option<u32> {
    let values: BTreeSet<u32> = values.collect();
    if values.len() == 1 { values.first().copied() } else { None }
}

fn padded(mut words: Vec<u32>, length: usize) -> Vec<u32> {
    assert!(words.len() <= length, "a set has at most 256 configs");
    words.resize(length, 0);
    words
}
