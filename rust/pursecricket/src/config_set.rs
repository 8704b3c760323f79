//! A config set that owns the words it lends.

use std::collections::BTreeSet;
use std::fmt;

use crate::raw::{self, CONFLICT_WORDS, SET_WORDS, SUBSET_WORDS};
use crate::{Added, Alternative, AtnConfig, ContextArena, Figures, Reason, Refusal};

/// Words of a set before its configs: count and flags.
const FIRST_CONFIG: usize = 2;
const CONFIG_WORDS: usize = 6;
/// Words of a subset before its alternatives: state, context and how many they are.
const GROUP_WORDS: usize = 3;
const FULL_CONTEXT: u32 = 1;
const HAS_SEMANTIC: u32 = 2;

/// At most 256 configs in order of insertion, one of each key.
///
/// The contexts are those of one arena, which every call is lent. With another arena a call is refused with
/// [`Refusal::UnsoundSet`] where that has not all of them.
///
/// ```
/// use pursecricket::{Alternative, AtnConfig, AtnConfigSet, ContextArena, EMPTY_CONTEXT, Refusal, ReturnState};
///
/// let mut arena = ContextArena::new();
/// let seven = arena.singleton(EMPTY_CONTEXT, ReturnState(7))?.context;
/// let nine = arena.singleton(EMPTY_CONTEXT, ReturnState(9))?.context;
///
/// // A new key goes last.
/// let mut set = AtnConfigSet::new_full_context(true);
/// assert!(set.add(AtnConfig::new(3, Alternative(1), seven), &mut arena)?.inserted);
///
/// // A known key is merged: the union of the contexts, which is made here, the larger reach.
/// let mut again = AtnConfig::new(3, Alternative(1), nine);
/// again.reaches_into_outer_context = 5;
/// let added = set.add(again, &mut arena)?;
/// assert_eq!((added.inserted, added.merges, added.made), (false, 1, 1));
/// let merged = set.configs().next().expect("one config");
/// assert_eq!(merged.context, arena.merge(seven, nine, false)?.context);
/// assert_eq!((set.len(), merged.reaches_into_outer_context), (1, 5));
///
/// // A closed set takes nothing more, and nothing changes.
/// set.close(&arena)?;
/// let before = set.words().to_vec();
/// assert_eq!(set.add(again, &mut arena), Err(Refusal::ReadOnlySet));
/// assert_eq!(set.words(), before);
/// # Ok::<(), Refusal>(())
/// ```
///
/// Subsets are the configs of one state and context each, as the set of their alternatives:
///
/// ```
/// use pursecricket::{Alternative, AtnConfig, AtnConfigSet, ContextArena, EMPTY_CONTEXT, Reason, Refusal};
///
/// let mut arena = ContextArena::new();
/// let mut set = AtnConfigSet::new();
/// for alt in [2, 1] {
///     set.add(AtnConfig::new(7, Alternative(alt), EMPTY_CONTEXT), &mut arena)?;
/// }
///
/// // Two alternatives in one place: more input settles nothing, and the least is taken.
/// assert!(set.has_sll_conflict_terminating_prediction(&arena, &[])?);
/// assert_eq!(set.single_viable_alt(&arena)?, Some(Alternative(1)));
/// assert_eq!(set.unique_alt(&arena)?, None);
/// assert_eq!(set.conflicting_alts(&arena)?, [1, 2].map(Alternative).into());
///
/// let alternatives = [1, 2].map(Alternative).to_vec();
/// assert_eq!(set.why(&arena, &[])?, Reason::Clash { state: 7, context: EMPTY_CONTEXT, alternatives });
///
/// // State 8 has one alternative only, so reading on may settle it; unless all is at a stop.
/// set.add(AtnConfig::new(8, Alternative(2), EMPTY_CONTEXT), &mut arena)?;
/// assert!(!set.has_sll_conflict_terminating_prediction(&arena, &[7])?);
/// assert!(set.has_sll_conflict_terminating_prediction(&arena, &[8, 7, 7])?);
/// assert_eq!(set.conflicting_alt_subsets(&arena)?, [[1, 2].map(Alternative).into(), [Alternative(2)].into()]);
///
/// // All at once, by one check.
/// let figures = set.figures(&arena, &[7])?;
/// assert_eq!((figures.subsets, figures.unique, figures.viable, figures.verdict), (2, None, None, false));
///
/// // And why: state 8 has alternative 2 only; with both states stops there is nothing to settle.
/// assert_eq!(set.why(&arena, &[7])?, Reason::One { state: 8, alternative: Alternative(2) });
/// assert_eq!(set.why(&arena, &[8, 7])?, Reason::Stop);
///
/// // More than 64 stop states are refused.
/// let verdict = set.has_sll_conflict_terminating_prediction(&arena, &[7; 65]);
/// assert_eq!(verdict, Err(Refusal::TooManyStops));
/// # Ok::<(), Refusal>(())
/// ```
#[derive(Clone, Eq, Hash, PartialEq)]
pub struct AtnConfigSet {
    words: Box<[u32]>,
}

impl AtnConfigSet {
    /// A set without configs that is not full-context.
    pub fn new() -> Self {
        Self::new_full_context(false)
    }

    /// A set without configs. In a full-context one merged contexts are unions; in any other, context 0
    /// swallows whatever it meets.
    pub fn new_full_context(full_context: bool) -> Self {
        let mut words = vec![0; SET_WORDS].into_boxed_slice();
        raw::fresh_set(&mut words, full_context).expect("the length is right");
        AtnConfigSet { words }
    }

    /// Adds a config. A new key goes last. For a known key the contexts are merged, the larger reach is kept,
    /// and the mark if either has it.
    pub fn add(&mut self, config: AtnConfig, arena: &mut ContextArena) -> Result<Added, Refusal> {
        let (store, scratch) = arena.lend();
        raw::add(store, &mut self.words, scratch, config)
    }

    /// Makes the set read-only, for good: the original's `set_readonly(true)`.
    pub fn close(&mut self, arena: &ContextArena) -> Result<(), Refusal> {
        raw::close(arena.words(), &mut self.words, &mut arena.scratch())
    }

    /// The alternative that every config has; `None` where they differ, and of a set without configs.
    pub fn unique_alt(&self, arena: &ContextArena) -> Result<Option<Alternative>, Refusal> {
        raw::unique_alt(arena.words(), &self.words, &mut arena.scratch())
    }

    /// The alternative that is the least of every subset; `None` where they differ, and of a set without
    /// configs.
    pub fn single_viable_alt(&self, arena: &ContextArena) -> Result<Option<Alternative>, Refusal> {
        raw::single_viable_alt(arena.words(), &self.words, &mut arena.scratch())
    }

    /// Has each subset two or more alternatives? Yes of a set without configs.
    pub fn all_subsets_conflict(&self, arena: &ContextArena) -> Result<bool, Refusal> {
        raw::all_subsets_conflict(arena.words(), &self.words, &mut arena.scratch())
    }

    /// Have all subsets the same alternatives? Yes of a set without configs.
    pub fn all_subsets_equal(&self, arena: &ContextArena) -> Result<bool, Refusal> {
        raw::all_subsets_equal(arena.words(), &self.words, &mut arena.scratch())
    }

    /// Is it settled which alternative is taken? Yes if every config is in one of these at most 64 rule stop
    /// states; otherwise yes exactly if some subset has two or more alternatives and no state has just one.
    pub fn has_sll_conflict_terminating_prediction(
        &self,
        arena: &ContextArena,
        rule_stop_states: &[u32],
    ) -> Result<bool, Refusal> {
        let scratch = &mut arena.scratch();
        raw::has_sll_conflict_terminating_prediction(arena.words(), &self.words, scratch, rule_stop_states)
    }

    /// The alternatives of each subset, in order of its first config.
    pub fn conflicting_alt_subsets(
        &self,
        arena: &ContextArena,
    ) -> Result<Vec<BTreeSet<Alternative>>, Refusal> {
        let mut output = [0; SUBSET_WORDS];
        raw::conflicting_alt_subsets(arena.words(), &self.words, &mut arena.scratch(), &mut output)?;
        let (count, mut rest) = (output[0], &output[1..]);
        let next = |_| {
            let (group, after) = rest.split_at(GROUP_WORDS + rest[GROUP_WORDS - 1] as usize);
            rest = after;
            group[GROUP_WORDS..].iter().copied().map(Alternative).collect()
        };
        Ok((0..count).map(next).collect())
    }

    /// The alternatives of the subsets that have two or more.
    pub fn conflicting_alts(&self, arena: &ContextArena) -> Result<BTreeSet<Alternative>, Refusal> {
        let mut output = [0; CONFLICT_WORDS];
        raw::conflicting_alts(arena.words(), &self.words, &mut arena.scratch(), &mut output)?;
        let end = 1 + output[0] as usize;
        Ok(output[1..end].iter().copied().map(Alternative).collect())
    }

    /// How many subsets there are, [`unique_alt`](Self::unique_alt),
    /// [`single_viable_alt`](Self::single_viable_alt) and
    /// [the verdict](Self::has_sll_conflict_terminating_prediction) at once, for the price of one check.
    pub fn figures(&self, arena: &ContextArena, rule_stop_states: &[u32]) -> Result<Figures, Refusal> {
        raw::figures(arena.words(), &self.words, &mut arena.scratch(), rule_stop_states)
    }

    /// Why [the verdict](Self::has_sll_conflict_terminating_prediction) is what it is.
    pub fn why(&self, arena: &ContextArena, rule_stop_states: &[u32]) -> Result<Reason, Refusal> {
        let mut output = [0; CONFLICT_WORDS];
        raw::why(arena.words(), &self.words, &mut arena.scratch(), rule_stop_states, &mut output)
    }

    /// How many configs there are.
    pub fn len(&self) -> usize {
        self.words[0] as usize
    }

    /// Are there none?
    pub fn is_empty(&self) -> bool {
        self.len() == 0
    }

    /// Are contexts merged to their unions?
    pub fn full_context(&self) -> bool {
        self.words[1] & FULL_CONTEXT != 0
    }

    /// Has some config a semantic context?
    pub fn has_semantic_context(&self) -> bool {
        self.words[1] & HAS_SEMANTIC != 0
    }

    /// The configs, in order of insertion.
    pub fn configs(&self) -> impl DoubleEndedIterator<Item = AtnConfig> + ExactSizeIterator + '_ {
        let (configs, _) = self.words[FIRST_CONFIG..].as_chunks::<CONFIG_WORDS>();
        configs[..self.len()].iter().copied().map(AtnConfig::of)
    }

    /// The set's words, as document 01 lays them out.
    pub fn words(&self) -> &[u32] {
        &self.words
    }
}

impl Default for AtnConfigSet {
    fn default() -> Self {
        Self::new()
    }
}

impl fmt::Debug for AtnConfigSet {
    fn fmt(&self, out: &mut fmt::Formatter<'_>) -> fmt::Result {
        let (configs, flags) = (self.words[0], self.words[1]);
        write!(out, "AtnConfigSet {{ configs: {configs}, flags: {flags} }}")
    }
}
