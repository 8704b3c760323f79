//! A store as lists of entries, without ceilings.

use std::collections::HashMap;

use crate::layout::{
    ARRAY, DOLLAR, EMPTY, MOST_CONTEXTS, MOST_ENTRIES, PARENTS_AT, RECORDS_AT, SINGLETON, STATES_AT,
    STORE_WORDS, narrow, pool_parent, pool_state, record, wide,
};
use crate::sound::is_sound;

/// A state on top of the stacks of a parent; or `$`, the empty stack, whose parent is 0.
#[derive(Clone, Copy, Debug, Eq, Hash, PartialEq)]
pub struct Entry {
    pub state: u32,
    pub parent: u32,
}

pub const THE_EMPTY_STACK: Entry = Entry { state: DOLLAR, parent: 0 };

/// Contexts by number, each the list of its entries; and the number of each list.
#[derive(Clone, Debug)]
pub struct Store {
    contexts: Vec<Vec<Entry>>,
    numbers: HashMap<Vec<Entry>, u32>,
}

/// What a record of sound words means: context 0 is `$` alone.
pub(crate) fn decoded(words: &[u32], context: usize) -> Vec<Entry> {
    match record(words, context) {
        (SINGLETON, parent, state) => vec![Entry { state, parent }],
        (ARRAY, first, length) => (wide(first)..wide(first) + wide(length))
            .map(|place| Entry { state: pool_state(words, place), parent: pool_parent(words, place) })
            .collect(),
        _ => vec![THE_EMPTY_STACK],
    }
}

impl Store {
    /// Context 0 alone.
    pub fn fresh() -> Self {
        Self::of(vec![vec![THE_EMPTY_STACK]])
    }

    /// The store in these words, if they are sound.
    pub fn decode(words: &[u32]) -> Option<Self> {
        is_sound(words)
            .then(|| Self::of((0..wide(words[0])).map(|context| decoded(words, context)).collect()))
    }

    fn of(contexts: Vec<Vec<Entry>>) -> Self {
        let numbers =
            contexts.iter().enumerate().map(|(number, list)| (list.clone(), narrow(number))).collect();
        Store { contexts, numbers }
    }

    pub fn count(&self) -> usize {
        self.contexts.len()
    }

    /// "Exactly the count after less the count before" (request A3).
    pub fn made_since(&self, before: &Store) -> u32 {
        narrow(self.count() - before.count())
    }

    pub fn knows(&self, context: u32) -> bool {
        wide(context) < self.count()
    }

    /// The entries of a known context; context 0 has one, `$`.
    pub fn entries(&self, context: u32) -> &[Entry] {
        &self.contexts[wide(context)]
    }

    /// Pool entries in use: those of arrays.
    pub fn pool(&self) -> usize {
        self.contexts.iter().map(Vec::len).filter(|&length| length >= 2).sum()
    }

    /// The number of a list of entries with rising states, which is made where it is not there.
    pub fn intern(&mut self, entries: Vec<Entry>) -> u32 {
        if entries.is_empty() {
            return 0;
        }
        if let Some(&number) = self.numbers.get(&entries) {
            return number;
        }
        let number = narrow(self.count());
        self.numbers.insert(entries.clone(), number);
        self.contexts.push(entries);
        number
    }

    /// A state, not the empty mark, on top of each stack of a known parent.
    pub fn singleton(&mut self, parent: u32, state: u32) -> u32 {
        self.intern(vec![Entry { state, parent }])
    }

    /// Makes something, or takes it out again where the store would end above 512 contexts or 2,048 entries.
    pub fn within_ceilings(&mut self, make: impl FnOnce(&mut Self) -> u32) -> Option<u32> {
        self.within(MOST_CONTEXTS, MOST_ENTRIES, make)
    }

    /// The same with ceilings of the caller's.
    pub fn within(
        &mut self,
        contexts: usize,
        entries: usize,
        make: impl FnOnce(&mut Self) -> u32,
    ) -> Option<u32> {
        let before = self.count();
        let answer = make(self);
        if self.count() <= contexts && self.pool() <= entries {
            return Some(answer);
        }
        for list in self.contexts.drain(before..) {
            self.numbers.remove(&list);
        }
        None
    }

    /// The words of a store within the ceilings.
    pub fn words(&self) -> Vec<u32> {
        let mut words = vec![0; STORE_WORDS];
        let mut pool = 0;
        for (number, entries) in self.contexts.iter().enumerate() {
            let at = RECORDS_AT + 3 * number;
            let (kind, a, b) = match entries[..] {
                [THE_EMPTY_STACK] => (EMPTY, 0, 0),
                [Entry { state, parent }] => (SINGLETON, parent, state),
                _ => (ARRAY, narrow(pool), narrow(entries.len())),
            };
            words[at..at + 3].copy_from_slice(&[kind, a, b]);
            if kind == ARRAY {
                pool = lay_out(&mut words, pool, entries);
            }
        }
        words[0] = narrow(self.count());
        words[1] = narrow(pool);
        words
    }
}

/// Writes entries to the pool from a place on; answers where they end.
fn lay_out(words: &mut [u32], from: usize, entries: &[Entry]) -> usize {
    for (place, entry) in (from..).zip(entries) {
        words[PARENTS_AT + place] = entry.parent;
        words[STATES_AT + place] = entry.state;
    }
    from + entries.len()
}
