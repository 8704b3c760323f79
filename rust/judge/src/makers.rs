//! Makes sound stores, seeded, by the judge's own interning, singletons and merges.

use crate::layout::{DOLLAR, MOST_CONTEXTS, MOST_ENTRIES, narrow};
use crate::random::Random;
use crate::store::{Entry, Store, THE_EMPTY_STACK};

/// A store under way, within ceilings of its own.
pub struct Maker {
    pub store: Store,
    pub random: Random,
    contexts: usize,
    entries: usize,
}

impl Maker {
    pub fn new(seed: u64) -> Self {
        Self::over(Store::fresh(), seed)
    }

    /// Goes on from a store.
    pub fn over(store: Store, seed: u64) -> Self {
        Maker { store, random: Random::new(seed), contexts: MOST_CONTEXTS, entries: MOST_ENTRIES }
    }

    /// `None` where there is no room; then nothing is made.
    pub fn singleton(&mut self, parent: u32, state: u32) -> Option<u32> {
        self.make(|store| store.singleton(parent, state))
    }

    pub fn merge(&mut self, left: u32, right: u32, wildcard: bool) -> Option<u32> {
        self.make(|store| store.merge(left, right, wildcard))
    }

    pub fn array(&mut self, entries: Vec<Entry>) -> Option<u32> {
        self.make(|store| store.intern(entries))
    }

    fn make(&mut self, call: impl FnOnce(&mut Store) -> u32) -> Option<u32> {
        self.store.within(self.contexts, self.entries, call)
    }

    /// A context of the store, newer ones more often.
    pub fn any_context(&mut self) -> u32 {
        let count = self.store.count();
        let number = self.random.below(count);
        let number = if self.random.chance(50) { number.max(self.random.below(count)) } else { number };
        narrow(number)
    }

    /// A return state, mostly of a small alphabet, so that merges meet.
    pub fn any_state(&mut self) -> u32 {
        match self.random.below(20) {
            0 => self.random.word().min(DOLLAR - 1),
            1 => DOLLAR - 1,
            2 => 0,
            _ => narrow(self.random.between(1, 6)),
        }
    }

    /// So many entries over known contexts, with rising states; every fourth list ends in `$`.
    pub fn any_entries(&mut self, length: usize) -> Vec<Entry> {
        let mut state = 0;
        let mut entries = Vec::new();
        for _ in 0..length {
            state += narrow(self.random.between(1, 3));
            entries.push(Entry { state, parent: self.any_context() });
        }
        if self.random.chance(25) {
            entries.pop();
            entries.push(THE_EMPTY_STACK);
        }
        entries
    }

    /// One call of any kind, where there is room for it.
    pub fn any_call(&mut self) -> Option<u32> {
        let context = self.any_context();
        match self.random.below(100) {
            0..45 => {
                let state = self.any_state();
                self.singleton(context, state)
            }
            45..65 => {
                let (other, wildcard) = (self.any_context(), self.random.chance(40));
                self.merge(context, other, wildcard)
            }
            _ => {
                let length = self.random.between(2, 15);
                let entries = self.any_entries(length);
                self.array(entries)
            }
        }
    }

    /// States, each placed on the one before, from a base on.
    pub fn chain(&mut self, base: u32, states: &[u32]) -> Option<u32> {
        states.iter().try_fold(base, |below, &state| self.singleton(below, state))
    }

    /// New singletons until the store has so many contexts.
    pub fn fill_contexts(&mut self, contexts: usize) {
        let mut state = 1_000_000;
        while self.store.count() < contexts {
            let parent = if self.random.chance(30) { self.any_context() } else { 0 };
            self.singleton(parent, state);
            state += 1;
        }
    }

    /// New arrays until the pool has exactly so many entries, at most `widest` at a time.
    pub fn fill_pool(&mut self, entries: usize, widest: usize) {
        while self.store.pool() < entries {
            let left = entries - self.store.pool();
            let mut length = self.random.between(2, widest).min(left);
            // No array has one entry.
            if left - length == 1 {
                length = if length > 2 { length - 1 } else { 3 };
            }
            let list = self.any_entries(length);
            self.array(list);
        }
    }
}

/// What so many calls of all kinds leave of a fresh store.
pub fn random_store(seed: u64, calls: usize) -> Store {
    let mut maker = Maker::new(seed);
    for _ in 0..calls {
        maker.any_call();
    }
    maker.store
}

/// Singletons over context 0, with the states 1 to `singletons`.
pub fn singletons_over_0(singletons: u32) -> Store {
    let mut store = Store::fresh();
    for state in 1..=singletons {
        store.singleton(0, state);
    }
    store
}

/// 512 contexts and a pool of 2,048 entries: singletons, arrays and merges in random order, then one array of
/// what is left of the pool and one singleton.
pub fn full_store(seed: u64) -> Store {
    let mut maker = Maker::new(seed);
    (maker.contexts, maker.entries) = (MOST_CONTEXTS - 2, MOST_ENTRIES - 2);
    while maker.store.count() < maker.contexts {
        maker.any_call();
    }
    (maker.contexts, maker.entries) = (MOST_CONTEXTS, MOST_ENTRIES);
    while maker.store.pool() < MOST_ENTRIES {
        let rest = maker.any_entries(MOST_ENTRIES - maker.store.pool());
        maker.array(rest);
    }
    maker.fill_contexts(MOST_CONTEXTS);
    maker.store
}

/// Two chains of the same states over different bottoms: their merge meets every level.
pub fn twin_chains(maker: &mut Maker, bottoms: [u32; 2], states: &[u32]) -> Option<[u32; 2]> {
    Some([maker.chain(bottoms[0], states)?, maker.chain(bottoms[1], states)?])
}

/// Levels over shared parts: each stands twice over earlier ones, so stacks double and contexts do not.
pub fn ladder(maker: &mut Maker, levels: usize) -> Vec<u32> {
    let mut made = vec![0];
    for _ in 0..levels {
        let back = maker.random.between(1, made.len().min(3));
        let (near, far) = (made[made.len() - 1], made[made.len() - back]);
        let entries = vec![Entry { state: 1, parent: near }, Entry { state: 2, parent: far }];
        match maker.array(entries) {
            Some(level) => made.push(level),
            None => break,
        }
    }
    made
}

/// A ladder by public calls alone, up to the ceilings: level i stands under state 1 over level i - 1, and
/// under state 2 over a level that rises now and then. By wildcard a merge of two levels is the lower one, so
/// nothing is made, and the pairs of levels that are met fill much of a triangle.
pub fn irregular_ladder(maker: &mut Maker) -> Vec<u32> {
    let mut levels = vec![0];
    let mut below = 0;
    loop {
        let top = levels.len() - 1;
        if maker.random.chance(50) {
            below = (below + maker.random.below(6)).min(top);
        }
        let left = maker.singleton(levels[top], 1);
        let right = maker.singleton(levels[below], 2);
        let level = left.zip(right).and_then(|(left, right)| maker.merge(left, right, false));
        match level {
            Some(level) => levels.push(level),
            None => return levels,
        }
    }
}
