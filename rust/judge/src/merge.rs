//! The merge of two contexts, by document 01's rules for sets of stacks and request A10's for its work.

use std::cmp::Ordering;
use std::collections::HashMap;

use crate::calls::{FULL_STORE, TOO_MUCH_WORK};
use crate::layout::{MOST_CONTEXTS, MOST_ENTRIES};
use crate::store::{Entry, Store};

/// "Above 65,536 the call is refused."
const MOST_MERGES: u32 = 65_536;
/// "The first 1,024 results of a call, in the order in which they are completed."
const MOST_RESULTS: usize = 1_024;

impl Store {
    /// The number of the merged set. Sets beneath a shared top state are merged first, in rising order of
    /// that state, each before the context above it; nothing else is made.
    pub fn merge(&mut self, left: u32, right: u32, wildcard: bool) -> u32 {
        let mut merge = Merge::new(self, wildcard, false);
        merge.number(left, right).expect("nothing bounds it")
    }

    /// The same in a call: the number and the count; or the ceiling that is reached first, and then what was
    /// made on the way is not taken out.
    pub fn merge_in_call(&mut self, left: u32, right: u32, wildcard: bool) -> Result<(u32, u32), u32> {
        let mut merge = Merge::new(self, wildcard, true);
        let number = merge.number(left, right)?;
        Ok((number, merge.count))
    }
}

struct Merge<'a> {
    store: &'a mut Store,
    wildcard: bool,
    /// Whether the ceilings of a call hold.
    bounded: bool,
    /// Results of this call, by sides with the smaller number first. All have its kind of merge.
    results: HashMap<(u32, u32), u32>,
    count: u32,
}

impl<'a> Merge<'a> {
    fn new(store: &'a mut Store, wildcard: bool, bounded: bool) -> Self {
        Merge { store, wildcard, bounded, results: HashMap::new(), count: 0 }
    }

    /// "Count each merge in a call that is neither of equal numbers nor answered from the cache."
    fn number(&mut self, left: u32, right: u32) -> Result<u32, u32> {
        if left == right {
            return Ok(left);
        }
        let pair = (left.min(right), left.max(right));
        if let Some(&number) = self.results.get(&pair) {
            return Ok(number);
        }
        if self.bounded && self.count == MOST_MERGES {
            return Err(TOO_MUCH_WORK);
        }
        self.count += 1;
        let number = self.merged(left, right)?;
        if !self.bounded || self.results.len() < MOST_RESULTS {
            self.results.insert(pair, number);
        }
        Ok(number)
    }

    fn merged(&mut self, left: u32, right: u32) -> Result<u32, u32> {
        // "If either is exactly the set of the empty stack, the result is that set."
        if self.wildcard && (left == 0 || right == 0) {
            return Ok(0);
        }
        let left = self.store.entries(left).to_vec();
        let right = self.store.entries(right).to_vec();
        let merged = self.entries(&left, &right)?;
        let before = self.store.count();
        let number = self.store.intern(merged);
        if self.bounded && self.store.count() > before && self.is_above_a_ceiling() {
            return Err(FULL_STORE);
        }
        Ok(number)
    }

    fn is_above_a_ceiling(&self) -> bool {
        self.store.count() > MOST_CONTEXTS || self.store.pool() > MOST_ENTRIES
    }

    /// A top state on one side only keeps its stacks; for one on both sides the sets beneath are merged. The
    /// empty stack, whose state word is the highest, is kept if either side has it.
    fn entries(&mut self, left: &[Entry], right: &[Entry]) -> Result<Vec<Entry>, u32> {
        let mut merged = Vec::new();
        let (mut l, mut r) = (0, 0);
        while l < left.len() && r < right.len() {
            let order = left[l].state.cmp(&right[r].state);
            merged.push(match order {
                Ordering::Less => left[l],
                Ordering::Greater => right[r],
                Ordering::Equal => self.beneath(left[l], right[r])?,
            });
            l += usize::from(order != Ordering::Greater);
            r += usize::from(order != Ordering::Less);
        }
        merged.extend(&left[l..]);
        merged.extend(&right[r..]);
        Ok(merged)
    }

    /// One entry for two of the same state; that of two `$` too, since both have parent 0.
    fn beneath(&mut self, left: Entry, right: Entry) -> Result<Entry, u32> {
        Ok(Entry { state: left.state, parent: self.number(left.parent, right.parent)? })
    }
}
