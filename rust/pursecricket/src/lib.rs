//! Prediction contexts: finite sets of stacks of return states, interned and merged by a proved library; and
//! the config sets that stand over them.
//!
//! [`ContextArena`] and [`AtnConfigSet`] have the names of the runtime that the library was ported from, and
//! own the words that the library is lent. A call that is refused leaves both as they were and says why with
//! a [`Refusal`].
//!
//! ```
//! use pursecricket::{ContextArena, EMPTY_CONTEXT, Interned, Merged, Refusal, ReturnState};
//!
//! let mut arena = ContextArena::new();
//! let seven = arena.singleton(EMPTY_CONTEXT, ReturnState(7))?.context;
//! let nine = arena.singleton(EMPTY_CONTEXT, ReturnState(9))?.context;
//!
//! // The union of both sets of stacks, whichever side comes first.
//! let both = arena.merge(seven, nine, false)?.context;
//! assert_eq!(arena.merge(nine, seven, false)?.context, both);
//! assert_eq!(arena.len(both)?, 2);
//! assert_eq!(arena.return_state(both, 1)?, Some(ReturnState(9)));
//! assert_eq!(arena.parent(both, 1)?, Some(EMPTY_CONTEXT));
//!
//! // What is merged beneath a state counts too; a call that would count more than 65,536 is refused.
//! let [left, right] = [arena.singleton(seven, ReturnState(5))?, arena.singleton(nine, ReturnState(5))?];
//! let merged = arena.merge(left.context, right.context, false)?;
//! assert_eq!(merged.merges, 2);
//! assert_eq!(arena.merge(left.context, left.context, false)?.merges, 0);
//!
//! // Each call says how many contexts it made: the union beneath was there. What is there is found.
//! assert_eq!((left.made, right.made, merged.made), (1, 1, 1));
//! assert_eq!(arena.singleton(seven, ReturnState(5))?, Interned { made: 0, ..left });
//! assert_eq!(arena.merge(right.context, left.context, false)?, Merged { made: 0, ..merged });
//!
//! // A state that no store can hold is refused, and nothing changes.
//! let before = arena.words().to_vec();
//! assert_eq!(arena.singleton(both, ReturnState(4_294_967_295)), Err(Refusal::StateOutOfRange));
//! assert_eq!(arena.words(), before);
//! # Ok::<(), Refusal>(())
//! ```
#![deny(unsafe_code)]
#![warn(missing_docs)]

mod arena;
mod config;
mod config_set;
mod counted;
mod doors;
mod figures;
mod names;
pub mod raw;
mod reason;
mod refusal;

pub use arena::ContextArena;
pub use config::AtnConfig;
pub use config_set::AtnConfigSet;
pub use counted::{Added, Interned, Merged};
pub use figures::Figures;
pub use names::{Alternative, ContextId, EMPTY_CONTEXT, EMPTY_RETURN_STATE, ReturnState, SemanticContextId};
pub use raw::unique_alt_of as unique_alt;
pub use reason::Reason;
pub use refusal::Refusal;
