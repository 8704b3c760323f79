//! Why a verdict is what it is.

use crate::{Alternative, ContextId};

/// The first of these that holds, in this order. [`Stop`](Self::Stop) and [`Clash`](Self::Clash) go with the
/// verdict yes, the others with no.
#[derive(Clone, Debug, Eq, Hash, PartialEq)]
pub enum Reason {
    /// Every config is at a stop; an empty set is.
    Stop,
    /// No subset holds two alternatives.
    NoClash,
    /// This state has only this alternative: the first such state in set order.
    One {
        /// The state.
        state: u32,
        /// Its one alternative.
        alternative: Alternative,
    },
    /// A clash: the first subset that holds two alternatives or more.
    Clash {
        /// Its state.
        state: u32,
        /// Its context.
        context: ContextId,
        /// Its alternatives, rising.
        alternatives: Vec<Alternative>,
    },
}
