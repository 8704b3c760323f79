//! Merges with their work counted, by request A10, over lists of entries.
//!
//! It is written from the request's words and shares no code with the runtime's file: the driver holds what
//! it answers against the runtime's own merge.

use std::collections::HashMap;

use crate::prediction::driver::{MOST_CONTEXTS, MOST_ENTRIES};
use crate::reply::{NO_ROOM, Refusal, TOO_MUCH_WORK};

/// "Above 65,536 the call is refused."
pub const MOST_MERGES: u32 = 65_536;
/// "The first 1,024 results of a call."
pub const MOST_RESULTS: usize = 1_024;

/// A state and the context beneath it.
pub type Entry = (u32, u32);
/// The empty stack: its state is the highest, so that it comes last.
pub const EMPTY_STACK: Entry = (u32::MAX, 0);

/// Contexts by number, each the list of its entries.
#[derive(Clone)]
pub struct Contexts {
    /// The lists, one after the other, and where each ends.
    entries: Vec<Entry>,
    ends: Vec<usize>,
    numbers: HashMap<Vec<Entry>, u32>,
    /// Entries of arrays.
    pool: usize,
}

/// A merge that was answered.
#[derive(Clone, Copy, Debug, Eq, PartialEq)]
pub struct Counted {
    pub context: u32,
    /// "Each merge in a call that is neither of equal numbers nor answered from the cache."
    pub merges: u32,
    /// Entries of both sides of each merge whose entries were merged.
    pub walked: u64,
}

/// What a call has behind it: its results, by kind and by sides with the smaller number first; and its count.
#[derive(Clone, Debug, Default)]
pub struct Standing {
    pub kept: HashMap<(bool, u32, u32), u32>,
    pub merges: u32,
}

impl Default for Contexts {
    fn default() -> Self {
        Self::new()
    }
}

impl Contexts {
    /// Context 0 alone.
    pub fn new() -> Self {
        let mut contexts =
            Contexts { entries: Vec::new(), ends: Vec::new(), numbers: HashMap::new(), pool: 0 };
        contexts.push(&[EMPTY_STACK]);
        contexts
    }

    pub fn count(&self) -> usize {
        self.ends.len()
    }

    pub fn pool(&self) -> usize {
        self.pool
    }

    pub fn entries(&self, context: u32) -> &[Entry] {
        let at = context as usize;
        let start = if at == 0 { 0 } else { self.ends[at - 1] };
        &self.entries[start..self.ends[at]]
    }

    /// The next number, for a list that has none.
    pub fn push(&mut self, list: &[Entry]) -> u32 {
        let number = self.count() as u32;
        let known = self.numbers.insert(list.to_vec(), number);
        assert_eq!(known, None, "a list has one number");
        self.entries.extend(list);
        self.ends.push(self.entries.len());
        self.pool += pool_entries(list);
        number
    }

    /// Takes the newest contexts out again, down to so many.
    pub fn cut_back(&mut self, count: usize) {
        while self.count() > count {
            let newest = self.entries(self.count() as u32 - 1).to_vec();
            self.numbers.remove(&newest);
            self.pool -= pool_entries(&newest);
            self.ends.pop();
            self.entries.truncate(self.entries.len() - newest.len());
        }
    }

    /// A call; where it is refused, nothing is left of it.
    pub fn merge(&mut self, left: u32, right: u32, wildcard: bool) -> Result<Counted, Refusal> {
        self.merge_from(Standing::default(), left, right, wildcard)
    }

    /// A call that has something behind it already.
    pub fn merge_from(
        &mut self,
        standing: Standing,
        left: u32,
        right: u32,
        wildcard: bool,
    ) -> Result<Counted, Refusal> {
        let before = self.count();
        let mut call = Call { contexts: self, wildcard, standing, walked: 0, lists: Vec::new() };
        let answer = call.number(left, right);
        let (merges, walked) = (call.standing.merges, call.walked);
        match answer {
            Ok(context) => Ok(Counted { context, merges, walked }),
            Err(refusal) => {
                self.cut_back(before);
                Err(refusal)
            }
        }
    }
}

/// Entries that a list takes of the pool: a singleton has none there.
fn pool_entries(list: &[Entry]) -> usize {
    if list.len() > 1 { list.len() } else { 0 }
}

/// A call under way.
struct Call<'a> {
    contexts: &'a mut Contexts,
    wildcard: bool,
    standing: Standing,
    walked: u64,
    /// Merged lists that are not whole yet, the innermost last.
    lists: Vec<Entry>,
}

impl Call<'_> {
    fn number(&mut self, left: u32, right: u32) -> Result<u32, Refusal> {
        if left == right {
            return Ok(left);
        }
        let key = (self.wildcard, left.min(right), left.max(right));
        if let Some(&result) = self.standing.kept.get(&key) {
            return Ok(result);
        }
        if self.standing.merges == MOST_MERGES {
            return Err(TOO_MUCH_WORK);
        }
        self.standing.merges += 1;
        let swallowed = self.wildcard && (left == 0 || right == 0);
        let result = if swallowed { 0 } else { self.merged(left, right)? };
        if self.standing.kept.len() < MOST_RESULTS {
            self.standing.kept.insert(key, result);
        }
        Ok(result)
    }

    /// Entries by rising state; for a state on both sides what is beneath is merged before going on.
    fn merged(&mut self, left: u32, right: u32) -> Result<u32, Refusal> {
        let start = self.lists.len();
        let (mut l, mut r) = (0, 0);
        loop {
            let mine = self.contexts.entries(left).get(l).copied();
            let theirs = self.contexts.entries(right).get(r).copied();
            let entry = match (mine, theirs) {
                (None, None) => break,
                (Some(mine), Some(theirs)) if mine.0 == theirs.0 => (mine.0, self.number(mine.1, theirs.1)?),
                (Some(mine), None) => mine,
                (Some(mine), Some(theirs)) if mine.0 < theirs.0 => mine,
                (_, Some(theirs)) => theirs,
            };
            l += usize::from(mine.is_some_and(|mine| mine.0 == entry.0));
            r += usize::from(theirs.is_some_and(|theirs| theirs.0 == entry.0));
            self.lists.push(entry);
        }
        self.walked += (l + r) as u64;
        let number = self.numbered(start);
        self.lists.truncate(start);
        number
    }

    /// The number of the innermost list, which is made where there is room for it.
    fn numbered(&mut self, start: usize) -> Result<u32, Refusal> {
        let list = &self.lists[start..];
        if let Some(&number) = self.contexts.numbers.get(list) {
            return Ok(number);
        }
        let pool = self.contexts.pool + pool_entries(list);
        if self.contexts.count() == MOST_CONTEXTS || pool > MOST_ENTRIES {
            return Err(NO_ROOM);
        }
        Ok(self.contexts.push(list))
    }
}
