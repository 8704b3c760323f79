//! A store that owns the words it lends.

use std::cell::{RefCell, RefMut};
use std::fmt;

use crate::raw::{self, SCRATCH_WORDS, STORE_WORDS};
use crate::{ContextId, Interned, Merged, Refusal, ReturnState};

/// A store of contexts, with the scratch that its calls need.
///
/// Queries borrow the scratch for as long as they run, so an arena is not shared between threads; the
/// functions of [`raw`] take a scratch of the caller's.
#[derive(Clone)]
pub struct ContextArena {
    store: Box<[u32]>,
    scratch: RefCell<Box<[u32]>>,
}

impl ContextArena {
    /// A fresh store: context 0 alone.
    pub fn new() -> Self {
        let mut store = vec![0; STORE_WORDS].into_boxed_slice();
        raw::fresh(&mut store).expect("the length is right");
        ContextArena { store, scratch: RefCell::new(vec![0; SCRATCH_WORDS].into_boxed_slice()) }
    }

    /// The context of a return state on top of each stack of the parent, found or made; that of the empty mark
    /// is 0.
    pub fn singleton(&mut self, parent: ContextId, return_state: ReturnState) -> Result<Interned, Refusal> {
        raw::singleton(&mut self.store, self.scratch.get_mut(), parent, return_state)
    }

    /// The context of the merged sets: their union; or, where `root_is_wildcard`, the merge in which context
    /// 0 swallows whatever it meets, at every depth. Too much work is refused with [`Refusal::TooMuchWork`].
    pub fn merge(
        &mut self,
        left: ContextId,
        right: ContextId,
        root_is_wildcard: bool,
    ) -> Result<Merged, Refusal> {
        raw::merge(&mut self.store, self.scratch.get_mut(), left, right, root_is_wildcard)
    }

    /// Entries of a context; context 0 has one.
    pub fn len(&self, context: ContextId) -> Result<u32, Refusal> {
        raw::len(&self.store, &mut self.scratch(), context)
    }

    /// Is this the context of the empty stack alone?
    pub fn is_empty(&self, context: ContextId) -> Result<bool, Refusal> {
        raw::is_empty(&self.store, &mut self.scratch(), context)
    }

    /// Is the empty stack one of the context's?
    pub fn has_empty_path(&self, context: ContextId) -> Result<bool, Refusal> {
        raw::has_empty_path(&self.store, &mut self.scratch(), context)
    }

    /// The return state of an entry, the empty mark for the empty stack; `None` past the end.
    pub fn return_state(&self, context: ContextId, index: u32) -> Result<Option<ReturnState>, Refusal> {
        raw::return_state(&self.store, &mut self.scratch(), context, index)
    }

    /// The parent of an entry; `None` past the end, and for context 0 at every index.
    pub fn parent(&self, context: ContextId, index: u32) -> Result<Option<ContextId>, Refusal> {
        raw::parent(&self.store, &mut self.scratch(), context, index)
    }

    /// The store's words, as document 01 lays them out.
    pub fn words(&self) -> &[u32] {
        &self.store
    }

    /// Store and scratch, for a call that may write both.
    pub(crate) fn lend(&mut self) -> (&mut [u32], &mut [u32]) {
        (&mut self.store, self.scratch.get_mut())
    }

    /// The scratch, for a call that only reads the store.
    pub(crate) fn scratch(&self) -> RefMut<'_, Box<[u32]>> {
        self.scratch.borrow_mut()
    }
}

impl Default for ContextArena {
    fn default() -> Self {
        Self::new()
    }
}

impl fmt::Debug for ContextArena {
    fn fmt(&self, out: &mut fmt::Formatter<'_>) -> fmt::Result {
        let (contexts, entries) = (self.store[0], self.store[1]);
        write!(out, "ContextArena {{ contexts: {contexts}, entries: {entries} }}")
    }
}
