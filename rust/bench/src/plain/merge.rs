//! Merges of contexts: entries put together on a stack in the scratch, results kept there too.

use std::cmp::Ordering;

use super::index::{add, array_hash, find, hash_of, singleton_hash};
use super::results::{count, keep, kept, merges, no_results};
use super::{
    ARRAY, DOLLAR, MOST_CONTEXTS, MOST_ENTRIES, Merged, PARENTS, RECORDS, SINGLETON, STATES, Scratch, Store,
    record,
};

/// Parents and states of the entries under way, after the results kept.
const STACK: usize = 7_936;
const STACK_STATES: usize = STACK + 4_200;

const FULL_STORE: u32 = 6;
const TOO_MUCH_WORK: u32 = 12;

#[derive(Clone, Copy)]
struct Entry {
    parent: u32,
    state: u32,
}

struct Merge<'a> {
    store: &'a mut Store,
    scratch: &'a mut Scratch,
    wildcard: bool,
}

/// The merge of two known contexts of an indexed store; where there is no room or it is too much work, what
/// was made is taken out.
pub fn merge_indexed(
    store: &mut Store,
    scratch: &mut Scratch,
    left: u32,
    right: u32,
    wildcard: bool,
) -> Result<Merged, u32> {
    let (count, pool) = (store[0] as usize, store[1] as usize);
    no_results(scratch);
    let merged = Merge { store, scratch, wildcard }.number(left, right, 0);
    if merged.is_err() {
        cut_back(store, count, pool);
    }
    merged.map(|context| Merged { context, merges: merges(scratch), made: store[0] - count as u32 })
}

fn cut_back(store: &mut Store, count: usize, pool: usize) {
    let (contexts, entries) = (store[0] as usize, store[1] as usize);
    store[RECORDS + 3 * count..RECORDS + 3 * contexts].fill(0);
    store[PARENTS + pool..PARENTS + entries].fill(0);
    store[STATES + pool..STATES + entries].fill(0);
    (store[0], store[1]) = (count as u32, pool as u32);
}

impl Merge<'_> {
    fn number(&mut self, left: u32, right: u32, top: usize) -> Result<u32, u32> {
        if left == right {
            return Ok(left);
        }
        let sides = (self.wildcard, left.min(right), left.max(right));
        if let Some(known) = kept(self.scratch, sides) {
            return Ok(known);
        }
        count(self.scratch).ok_or(TOO_MUCH_WORK)?;
        let swallowed = self.wildcard && (left == 0 || right == 0);
        let merged = if swallowed { 0 } else { self.entries(left, right, top)? };
        keep(self.scratch, sides, merged);
        Ok(merged)
    }

    fn entries(&mut self, left: u32, right: u32, top: usize) -> Result<u32, u32> {
        let (lefts, rights) = (self.len(left), self.len(right));
        let (mut l, mut r, mut end) = (0, 0, top);
        while l < lefts && r < rights {
            let (mine, theirs) = (self.entry(left, l), self.entry(right, r));
            let order = mine.state.cmp(&theirs.state);
            let entry = match order {
                Ordering::Less => mine,
                Ordering::Greater => theirs,
                Ordering::Equal => {
                    Entry { parent: self.number(mine.parent, theirs.parent, end)?, state: mine.state }
                }
            };
            l += usize::from(order != Ordering::Greater);
            r += usize::from(order != Ordering::Less);
            end = self.push(end, entry);
        }
        for at in l..lefts {
            end = self.push(end, self.entry(left, at));
        }
        for at in r..rights {
            end = self.push(end, self.entry(right, at));
        }
        self.intern(top, end).ok_or(FULL_STORE)
    }

    fn len(&self, context: u32) -> usize {
        match record(self.store, context as usize) {
            [ARRAY, _, length] => length as usize,
            _ => 1,
        }
    }

    fn entry(&self, context: u32, at: usize) -> Entry {
        match record(self.store, context as usize) {
            [ARRAY, first, _] => {
                let place = first as usize + at;
                Entry { parent: self.store[PARENTS + place], state: self.store[STATES + place] }
            }
            [SINGLETON, parent, state] => Entry { parent, state },
            _ => Entry { parent: 0, state: DOLLAR },
        }
    }

    fn push(&mut self, end: usize, entry: Entry) -> usize {
        self.scratch[STACK + end] = entry.parent;
        self.scratch[STACK_STATES + end] = entry.state;
        end + 1
    }

    /// The context of the entries on the stack.
    fn intern(&mut self, top: usize, end: usize) -> Option<u32> {
        if end - top > 1 {
            return self.intern_array(top, end);
        }
        let (parent, state) = (self.scratch[STACK + top], self.scratch[STACK_STATES + top]);
        if state == DOLLAR {
            return Some(0);
        }
        let hash = singleton_hash(hash_of(self.scratch, parent as usize), state);
        let same = |other| record(self.store, other) == [SINGLETON, parent, state];
        match find(self.scratch, hash, same) {
            Some(known) => Some(known as u32),
            None => self.push_record(hash, [SINGLETON, parent, state]),
        }
    }

    fn intern_array(&mut self, top: usize, end: usize) -> Option<u32> {
        let parents = &self.scratch[STACK + top..STACK + end];
        let states = &self.scratch[STACK_STATES + top..STACK_STATES + end];
        let hash = array_hash(self.scratch, parents, states);
        let same = |other| same_array(self.store, other, parents, states);
        if let Some(known) = find(self.scratch, hash, same) {
            return Some(known as u32);
        }
        let (first, length) = (self.store[1] as usize, end - top);
        if first + length > MOST_ENTRIES || self.store[0] as usize == MOST_CONTEXTS {
            return None;
        }
        self.store[PARENTS + first..PARENTS + first + length].copy_from_slice(parents);
        self.store[STATES + first..STATES + first + length].copy_from_slice(states);
        self.store[1] += length as u32;
        self.push_record(hash, [ARRAY, first as u32, length as u32])
    }

    fn push_record(&mut self, hash: u64, record: [u32; 3]) -> Option<u32> {
        let number = self.store[0] as usize;
        if number == MOST_CONTEXTS {
            return None;
        }
        let at = RECORDS + 3 * number;
        self.store[at..at + 3].copy_from_slice(&record);
        self.store[0] += 1;
        add(self.scratch, number, hash);
        Some(number as u32)
    }
}

pub fn same_array(store: &Store, other: usize, parents: &[u32], states: &[u32]) -> bool {
    let [kind, first, length] = record(store, other);
    if kind != ARRAY || length as usize != parents.len() {
        return false;
    }
    let (first, length) = (first as usize, length as usize);
    store[PARENTS + first..PARENTS + first + length] == *parents
        && store[STATES + first..STATES + first + length] == *states
}
