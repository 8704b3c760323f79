//! The lent words that store, set and answers would stand in, as document 01 lays them out.
#![warn(dead_code)]

use std::collections::BTreeSet;

use super::driver::{MOST_CONTEXTS, MOST_ENTRIES, Machine, narrow};
use super::{ContextTag, conflicting_alt_subsets};

pub const STORE_WORDS: usize = 5_634;
pub const SET_WORDS: usize = 1_538;
pub const SUBSET_WORDS: usize = 1_025;
pub const CONFLICT_WORDS: usize = 257;

/// Words before the records of a store.
const RECORDS_AT: usize = 2;
const PARENTS_AT: usize = RECORDS_AT + 3 * MOST_CONTEXTS;
const STATES_AT: usize = PARENTS_AT + MOST_ENTRIES;

/// Configs of one state and context, with their alternatives.
struct Group {
    state: usize,
    context: u32,
    alternatives: BTreeSet<usize>,
}

impl Machine {
    /// Count, pool entries, records of three words, parents, states; the rest 0.
    pub fn store_words(&self) -> Vec<u32> {
        let mut words = vec![0; STORE_WORDS];
        words[0] = narrow(self.contexts());
        words[1] = narrow(self.entries());
        for (number, record) in self.arena.records.iter().enumerate() {
            let at = RECORDS_AT + 3 * number;
            words[at] = match record.tag {
                ContextTag::Empty => 0,
                ContextTag::Singleton => 1,
                ContextTag::Array => 2,
            };
            words[at + 1] = record.parent_or_start;
            words[at + 2] = record.return_state_or_len;
        }
        for (entry, parent) in self.arena.array_parents.iter().enumerate() {
            words[PARENTS_AT + entry] = parent.0;
            words[STATES_AT + entry] = self.arena.array_return_states[entry];
        }
        words
    }

    /// Count, flags, six words a config; the rest 0.
    pub fn set_words(&self) -> Vec<u32> {
        let mut words = vec![narrow(self.set.len()), self.set_flags()];
        for config in &self.set.configs {
            words.extend([
                narrow(config.state),
                narrow(config.alt),
                config.context.0,
                config.semantic_context.0,
                narrow(config.reaches_into_outer_context),
                config.semantic_provenance_and_flags,
            ]);
        }
        padded(words, SET_WORDS)
    }

    fn set_flags(&self) -> u32 {
        u32::from(self.set.full_context)
            | u32::from(self.set.has_semantic_context) << 1
            | u32::from(self.set.dips_into_outer_context) << 2
            | u32::from(self.set.readonly) << 3
    }

    /// Group count, then each group: state, context, alternative count, alternatives; the rest 0.
    pub fn subset_words(&self) -> Vec<u32> {
        let groups = self.groups();
        let mut words = vec![narrow(groups.len())];
        for group in &groups {
            words.extend([narrow(group.state), group.context, narrow(group.alternatives.len())]);
            words.extend(group.alternatives.iter().copied().map(narrow));
        }
        padded(words, SUBSET_WORDS)
    }

    /// Count, then the alternatives of all groups that hold two or more; the rest 0.
    pub fn conflict_words(&self) -> Vec<u32> {
        // On a copy: the runtime keeps the answer in the set.
        let alternatives = self.set.clone().conflicting_alts();
        let mut words = vec![narrow(alternatives.len())];
        words.extend(alternatives.into_iter().map(narrow));
        padded(words, CONFLICT_WORDS)
    }

    /// The runtime's subsets come in its hash map's order; here in order of each group's first config.
    fn groups(&self) -> Vec<Group> {
        let mut groups: Vec<Group> = Vec::new();
        for config in &self.set.configs {
            let (state, context) = (config.state, config.context.0);
            let known = groups.iter_mut().find(|group| group.state == state && group.context == context);
            match known {
                Some(group) => drop(group.alternatives.insert(config.alt)),
                None => groups.push(Group { state, context, alternatives: BTreeSet::from([config.alt]) }),
            }
        }
        self.assert_same_subsets(&groups);
        groups
    }

    /// Our groups hold what the runtime's subsets hold, whatever their order.
    fn assert_same_subsets(&self, groups: &[Group]) {
        let mut theirs = conflicting_alt_subsets(&self.set.configs);
        let mut ours: Vec<_> = groups.iter().map(|group| group.alternatives.clone()).collect();
        theirs.sort();
        ours.sort();
        assert_eq!(ours, theirs, "groups differ from the runtime's subsets");
    }
}

fn padded(mut words: Vec<u32>, length: usize) -> Vec<u32> {
    assert!(words.len() <= length, "the words have room for the largest set");
    words.resize(length, 0);
    words
}
