//! A config, field by field.

use crate::{Alternative, ContextId, SemanticContextId};

/// Bit 31 of the provenance word.
const PRECEDENCE_FILTER_SUPPRESSED: u32 = 1 << 31;

/// A state of the network that an alternative has reached, over the stacks of a context.
///
/// State, alternative, semantic context and provenance id are the key: a set has one config of each.
#[derive(Clone, Copy, Debug, Eq, Hash, Ord, PartialEq, PartialOrd)]
#[repr(C)]
pub struct AtnConfig {
    /// The state.
    pub state: u32,
    /// The alternative.
    pub alt: Alternative,
    /// The stacks under the state, by their context in the arena.
    pub context: ContextId,
    /// The semantic context that must hold; 0 is none.
    pub semantic_context: SemanticContextId,
    /// How far the config has gone beneath the decision's own rule.
    pub reaches_into_outer_context: u32,
    /// The id of the semantic provenance in the lower 31 bits, and the precedence-filter mark in bit 31.
    pub semantic_provenance_and_flags: u32,
}

impl AtnConfig {
    /// A config without semantic context, reach, provenance and mark.
    pub const fn new(state: u32, alt: Alternative, context: ContextId) -> Self {
        AtnConfig {
            state,
            alt,
            context,
            semantic_context: SemanticContextId(0),
            reaches_into_outer_context: 0,
            semantic_provenance_and_flags: 0,
        }
    }

    /// The id of the semantic context; 0 is none.
    pub const fn semantic_context_id(&self) -> SemanticContextId {
        self.semantic_context
    }

    /// Has it a semantic context?
    pub const fn has_semantic_context(&self) -> bool {
        self.semantic_context.0 != 0
    }

    /// The id of the semantic provenance: 31 bits.
    pub const fn semantic_provenance_id(&self) -> u32 {
        self.semantic_provenance_and_flags & !PRECEDENCE_FILTER_SUPPRESSED
    }

    /// Has it the precedence-filter mark?
    pub const fn precedence_filter_suppressed(&self) -> bool {
        self.semantic_provenance_and_flags & PRECEDENCE_FILTER_SUPPRESSED != 0
    }

    /// Sets the precedence-filter mark.
    pub const fn suppress_precedence_filter(&mut self) {
        self.semantic_provenance_and_flags |= PRECEDENCE_FILTER_SUPPRESSED;
    }

    /// The six words, in the order of a set's.
    pub(crate) const fn words(self) -> [u32; 6] {
        [
            self.state,
            self.alt.0,
            self.context.0,
            self.semantic_context.0,
            self.reaches_into_outer_context,
            self.semantic_provenance_and_flags,
        ]
    }

    /// The config of six words.
    pub(crate) const fn of([state, alt, context, semantic, reach, provenance]: [u32; 6]) -> Self {
        AtnConfig {
            state,
            alt: Alternative(alt),
            context: ContextId(context),
            semantic_context: SemanticContextId(semantic),
            reaches_into_outer_context: reach,
            semantic_provenance_and_flags: provenance,
        }
    }
}
