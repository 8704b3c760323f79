//! Builds a script while running it, so that a family can steer by counts and numbers.

use crate::generate::rng::Rng;
use crate::prediction::driver::Machine;
use crate::record::{Config, Kinds, Mode, Record};
use crate::reply::Reply;

pub struct Builder {
    pub rng: Rng,
    pub kinds: Kinds,
    pub machine: Machine,
    pub script: Vec<u8>,
}

impl Builder {
    pub fn new(rng: Rng, kinds: Kinds) -> Self {
        Builder { rng, kinds, machine: Machine::new(), script: Vec::new() }
    }

    pub fn count(&self) -> usize {
        self.machine.contexts()
    }

    /// Appends a record and runs it; `None` where it is refused.
    pub fn put(&mut self, record: Record) -> Option<Reply> {
        record.encode(&mut self.script);
        self.machine.call(&record).ok()
    }

    /// The answer of a record that makes or finds a context; 0 where it is refused.
    fn context(&mut self, record: Record) -> u32 {
        match self.put(record) {
            Some(Reply::Context { number, .. }) => number,
            _ => 0,
        }
    }

    pub fn singleton(&mut self, parent: u32, state: u64) -> u32 {
        self.context(Record::Singleton { parent, state })
    }

    pub fn merge(&mut self, left: u32, right: u32, mode: Mode) -> u32 {
        self.context(Record::Merge { left, right, mode })
    }

    pub fn show(&mut self, context: u32) {
        self.put(Record::Show { context });
    }

    pub fn add(&mut self, words: [u32; 6]) {
        let [state, alternative, context, semantic, reach, provenance] = words;
        self.put(Record::Add(Config { state, alternative, context, semantic, reach, provenance }));
    }

    /// A context of the store, newer ones more often.
    pub fn any_context(&mut self) -> u32 {
        let count = self.count();
        let number = self.rng.below(count);
        let number = if self.rng.chance(50) { number.max(self.rng.below(count)) } else { number };
        number as u32
    }

    pub fn any_mode(&mut self) -> Mode {
        if self.rng.chance(50) { Mode::Full } else { Mode::Wildcard }
    }

    /// A return state of a small alphabet, so that merges meet.
    pub fn small_state(&mut self) -> u64 {
        self.rng.between(1, 5) as u64
    }

    /// States over `states`, each placed on the one before, from `base` on.
    pub fn chain(&mut self, base: u32, states: &[u64]) -> u32 {
        let mut context = base;
        for &state in states {
            context = self.singleton(context, state);
        }
        context
    }

    /// An array (or less) of the given entries, made by full merges of singletons.
    pub fn array(&mut self, entries: &[(u32, u64)]) -> u32 {
        let mut whole = None;
        for &(parent, state) in entries {
            let single = self.singleton(parent, state);
            whole = Some(match whole {
                None => single,
                Some(so_far) => self.merge(so_far, single, Mode::Full),
            });
        }
        whole.unwrap_or(0)
    }

    /// The full merge of contexts, by halves: one after another would fill the pool.
    pub fn union(&mut self, contexts: &[u32]) -> u32 {
        if let [context] = contexts {
            return *context;
        }
        let (low, high) = contexts.split_at(contexts.len() / 2);
        let (low, high) = (self.union(low), self.union(high));
        self.merge(low, high, Mode::Full)
    }
}
