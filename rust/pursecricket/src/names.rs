//! Context numbers, return states, alternatives and semantic ids, which are never taken for one another.

/// The number of a context of one store.
#[derive(Clone, Copy, Debug, Eq, Hash, Ord, PartialEq, PartialOrd)]
#[repr(transparent)]
pub struct ContextId(pub u32);

/// A return state: at most 4294967294, or [`EMPTY_RETURN_STATE`].
#[derive(Clone, Copy, Debug, Eq, Hash, Ord, PartialEq, PartialOrd)]
pub struct ReturnState(pub u64);

/// An alternative of a decision.
#[derive(Clone, Copy, Debug, Eq, Hash, Ord, PartialEq, PartialOrd)]
#[repr(transparent)]
pub struct Alternative(pub u32);

/// The number of a semantic context, which the caller keeps; 0 is none.
#[derive(Clone, Copy, Debug, Default, Eq, Hash, Ord, PartialEq, PartialOrd)]
#[repr(transparent)]
pub struct SemanticContextId(pub u32);

/// The context of the empty stack alone; every store has it.
pub const EMPTY_CONTEXT: ContextId = ContextId(0);

/// The empty mark: the return state of an entry that is the empty stack.
pub const EMPTY_RETURN_STATE: ReturnState = ReturnState(18_446_744_073_709_551_615);
