//! Drives the runtime's arena and config set, and judges around them the refusals that they lack.
//!
//! A child of the runtime's file: it makes configs field by field, and takes contexts out again.
#![warn(dead_code)]

use std::collections::BTreeSet;

use super::{
    AtnConfig, AtnConfigKey, AtnConfigSet, ContextArena, ContextId, EMPTY_RETURN_STATE, PredictionWorkspace,
    SemanticContextId, all_subsets_conflict, all_subsets_equal, conflicting_alt_subsets,
    has_sll_conflict_terminating_prediction, single_viable_alt,
};
use crate::counted::{Contexts, Counted, Entry, MOST_MERGES, Standing};
use crate::record::{Config, Mode, Record};
use crate::reply::{
    BAD_STATE, NO_ROOM, READ_ONLY, Reason, Refusal, Reply, SET_FULL, TOO_MANY_STOPS, TOO_MUCH_WORK,
    UNKNOWN_CONTEXT, Verdict,
};

pub const MOST_CONTEXTS: usize = 512;
pub const MOST_ENTRIES: usize = 2_048;
pub const MOST_CONFIGS: usize = 256;
pub const MOST_STOPS: usize = 64;
/// From this state on a return state is refused, but for the empty mark, 2^64 - 1.
pub const FIRST_BAD_STATE: u64 = 4_294_967_295;
pub const EMPTY_MARK: u64 = u64::MAX;

/// A fresh store, an empty full-context set and no stop states; then whatever the records make of them.
pub struct Machine {
    pub(super) arena: ContextArena,
    pub(super) set: AtnConfigSet,
    workspace: PredictionWorkspace,
    stops: Vec<u32>,
    /// The arena's first contexts, copied: a merge is counted there.
    copy: Contexts,
    counted: Counted,
}

/// Nothing merged.
const NO_WORK: Counted = Counted { context: 0, merges: 0, walked: 0 };

impl Default for Machine {
    fn default() -> Self {
        Self::new()
    }
}

impl Machine {
    pub fn new() -> Self {
        Machine {
            arena: ContextArena::new(),
            set: AtnConfigSet::new_full_context(true),
            workspace: PredictionWorkspace::default(),
            stops: Vec::new(),
            copy: Contexts::new(),
            counted: NO_WORK,
        }
    }

    /// Contexts in the store.
    pub fn contexts(&self) -> usize {
        self.arena.records.len()
    }

    /// Pool entries in use.
    pub fn entries(&self) -> usize {
        self.arena.array_parents.len()
    }

    /// Configs in the set.
    pub fn configs(&self) -> usize {
        self.set.len()
    }

    /// The hash under which a context is interned.
    pub fn hash(&self, context: u32) -> u64 {
        self.arena.cached_hash(ContextId(context))
    }

    /// Different pairs that the runtime merged in the last call, the outermost one included: its cache starts
    /// empty and keeps all.
    pub fn pairs_of_last_call(&self) -> usize {
        self.workspace.merge_cache_len()
    }

    /// Merges that the last call counted; 0 where it merged nothing or was refused.
    pub fn merges_of_last_call(&self) -> u32 {
        self.counted.merges
    }

    /// Entries that these walked.
    pub fn walked_by_last_call(&self) -> u64 {
        self.counted.walked
    }

    /// Would a merge of known contexts be answered, and count at most so much? Nothing is made.
    pub fn counts_at_most(&mut self, left: u32, right: u32, mode: Mode, most: u32) -> bool {
        self.copy_new_contexts();
        let spent = Standing { merges: MOST_MERGES - most, ..Standing::default() };
        let counted = self.copy.merge_from(spent, left, right, mode == Mode::Wildcard);
        self.copy.cut_back(self.contexts());
        counted.is_ok()
    }

    /// Runs one record; a refusal leaves store, set and stop list as they were.
    pub fn call(&mut self, record: &Record) -> Result<Reply, Refusal> {
        self.workspace.reset();
        self.counted = NO_WORK;
        match record {
            Record::Singleton { parent, state } => self.singleton(*parent, *state),
            Record::Merge { left, right, mode } => self.merge(*left, *right, *mode),
            Record::NewSet { mode } => Ok(self.new_set(*mode)),
            Record::Add(config) => self.add(config),
            Record::Stops(states) => self.set_stops(states),
            Record::Verdict => Ok(Reply::Verdict(self.verdict())),
            Record::Show { context } => self.show(*context),
            Record::Close => Ok(self.close()),
            Record::Why => Ok(Reply::Reason(self.reason())),
        }
    }

    fn singleton(&mut self, parent: u32, state: u64) -> Result<Reply, Refusal> {
        let parent = self.known(parent)?;
        if (FIRST_BAD_STATE..EMPTY_MARK).contains(&state) {
            return Err(BAD_STATE);
        }
        let state = usize::try_from(state).expect("the oracle's host has 64 bits");
        let before = self.contexts();
        let context = self.within_ceilings(|machine| machine.arena.singleton(parent, state))?;
        Ok(Reply::Context { number: context.0, made: self.made_since(before) })
    }

    fn merge(&mut self, left: u32, right: u32, mode: Mode) -> Result<Reply, Refusal> {
        let left = self.known(left)?;
        let right = self.known(right)?;
        let wildcard = mode == Mode::Wildcard;
        let before = self.contexts();
        let context = self.counting(left, right, wildcard, |machine| {
            let workspace = &mut machine.workspace;
            machine.arena.merge(left, right, wildcard, workspace)
        })?;
        Ok(Reply::Context { number: context.0, made: self.made_since(before) })
    }

    /// The runtime's own merge of known contexts, with nothing judged or counted around it: to be timed.
    pub fn merge_alone(&mut self, left: u32, right: u32, mode: Mode) -> u32 {
        self.workspace.reset();
        let (left, right) = (ContextId(left), ContextId(right));
        self.arena.merge(left, right, mode == Mode::Wildcard, &mut self.workspace).0
    }

    fn new_set(&mut self, mode: Mode) -> Reply {
        self.set = AtnConfigSet::new_full_context(mode == Mode::Full);
        Reply::NewSet
    }

    fn add(&mut self, config: &Config) -> Result<Reply, Refusal> {
        if self.set.readonly {
            return Err(READ_ONLY);
        }
        let context = self.known(config.context)?;
        let config = self.config(config, context);
        let place = self.set.config_index.get(&AtnConfigKey::from(&config)).copied();
        match place {
            Some(at) => self.join(at, config),
            None if self.set.len() == MOST_CONFIGS => Err(SET_FULL),
            None => Ok(self.insert(config)),
        }
    }

    /// Puts a config last, whose key is new and for which there is room.
    fn insert(&mut self, config: AtnConfig) -> Reply {
        let before = self.contexts();
        let inserted = self.set.add(config, &mut self.arena, &mut self.workspace);
        Reply::Added { inserted, made: self.made_since(before) }
    }

    /// Adds a config to the one of its key, which stands at `at`: their contexts are merged.
    fn join(&mut self, at: usize, config: AtnConfig) -> Result<Reply, Refusal> {
        let before = self.set.configs[at].clone();
        let flags = (self.set.has_semantic_context, self.set.dips_into_outer_context);
        let wildcard = !self.set.full_context;
        let contexts = self.contexts();
        let merged = self.counting(before.context, config.context, wildcard, |machine| {
            let Machine { arena, set, workspace, .. } = machine;
            assert!(!set.add(config, arena, workspace), "the key is known");
            set.configs[at].context
        });
        if merged.is_err() {
            self.set.configs[at] = before;
            (self.set.has_semantic_context, self.set.dips_into_outer_context) = flags;
        }
        merged.map(|_| Reply::Added { inserted: false, made: self.made_since(contexts) })
    }

    /// The runtime's own `add`, of a known context to an open set, with nothing judged around it: to be timed.
    pub fn add_alone(&mut self, config: &Config) -> bool {
        let config = self.config(config, ContextId(config.context));
        let Machine { arena, set, workspace, .. } = self;
        workspace.reset();
        set.add(config, arena, workspace)
    }

    fn set_stops(&mut self, states: &[u32]) -> Result<Reply, Refusal> {
        if states.len() > MOST_STOPS {
            return Err(TOO_MANY_STOPS);
        }
        self.stops = states.to_vec();
        Ok(Reply::Stops(self.stops.len()))
    }

    fn verdict(&mut self) -> Verdict {
        let subsets = self.set.conflicting_alt_subsets();
        Verdict {
            subsets: subsets.len(),
            viable: single_viable_alt(&subsets).map(narrow),
            terminates: self.verdict_alone(),
            unique: self.set.unique_alt().map(narrow),
        }
    }

    /// The runtime's own verdict on the set, with nothing beside it: to be timed.
    pub fn verdict_alone(&self) -> bool {
        let stops = &self.stops;
        let is_stop = |state: usize| stops.iter().any(|&stop| narrow(state) == stop);
        has_sll_conflict_terminating_prediction(&self.set, is_stop)
    }

    /// Why the verdict is what it is: the runtime has no such answer, but its groups and its verdict.
    fn reason(&self) -> Reason {
        let reason = self.first_reason();
        let settled = matches!(reason, Reason::Stop | Reason::Clash { .. });
        assert_eq!(settled, self.verdict_alone(), "the runtime's own verdict goes with the reason");
        reason
    }

    fn first_reason(&self) -> Reason {
        let configs = self.set.configs();
        if configs.iter().all(|config| self.stops.contains(&narrow(config.state))) {
            return Reason::Stop;
        }
        let Some((config, group)) =
            configs.iter().map(|config| (config, self.group_of(config))).find(|(_, group)| group.len() > 1)
        else {
            return Reason::NoClash;
        };
        if let Some(lone) = configs.iter().find(|config| self.is_alone(config)) {
            return Reason::One { state: narrow(lone.state), alternative: narrow(lone.alt) };
        }
        Reason::Clash {
            state: narrow(config.state),
            context: config.context.0,
            alternatives: group.into_iter().map(narrow).collect(),
        }
    }

    /// The runtime's group of a config. Its groups come without state, context or order, so it is asked for this one alone.
    fn group_of(&self, config: &AtnConfig) -> BTreeSet<usize> {
        let alike = |other: &&AtnConfig| (other.state, other.context) == (config.state, config.context);
        let members: Vec<AtnConfig> = self.set.configs().iter().filter(alike).cloned().collect();
        let group = conflicting_alt_subsets(&members).remove(0);
        assert!(self.set.conflicting_alt_subsets().contains(&group), "it is a group of the set");
        group
    }

    /// Is this alternative the only one of its state?
    fn is_alone(&self, config: &AtnConfig) -> bool {
        self.set.configs().iter().all(|other| other.state != config.state || other.alt == config.alt)
    }

    /// Do all subsets of the set conflict?
    pub fn all_subsets_conflict(&self) -> bool {
        all_subsets_conflict(&self.set.conflicting_alt_subsets())
    }

    /// Are all subsets of the set equal?
    pub fn all_subsets_equal(&self) -> bool {
        all_subsets_equal(&self.set.conflicting_alt_subsets())
    }

    fn show(&self, context: u32) -> Result<Reply, Refusal> {
        let context = self.known(context)?;
        let entry = |index| match self.arena.return_state(context, index) {
            Some(EMPTY_RETURN_STATE) => None,
            Some(state) => {
                let parent = self.arena.parent(context, index);
                parent.map(|parent| (narrow(state), parent.0))
            }
            None => unreachable!("an index below the length has an entry"),
        };
        Ok(Reply::Entries((0..self.arena.len(context)).map(entry).collect()))
    }

    fn close(&mut self) -> Reply {
        self.set.set_readonly(true);
        Reply::Closed
    }

    /// Contexts that the arena has more than before a call (request A3). The runs compare whole lines; demand 2 is
    /// about the other fields, and this one is the oracle's own count of records, after less before.
    fn made_since(&self, before: usize) -> u32 {
        narrow(self.contexts() - before)
    }

    fn known(&self, context: u32) -> Result<ContextId, Refusal> {
        match usize::try_from(context) {
            Ok(number) if number < self.contexts() => Ok(ContextId(context)),
            _ => Err(UNKNOWN_CONTEXT),
        }
    }

    fn config(&self, words: &Config, context: ContextId) -> AtnConfig {
        let mut config = AtnConfig::new(wide(words.state), wide(words.alternative), context, &self.arena);
        config.semantic_context = SemanticContextId(words.semantic);
        config.reaches_into_outer_context = wide(words.reach);
        config.semantic_provenance_and_flags = words.provenance;
        config
    }

    /// Counts a merge in the copy, and runs the call that makes it in the arena unless it is too much work: both
    /// give one number and the same contexts, or lack room.
    fn counting(
        &mut self,
        left: ContextId,
        right: ContextId,
        wildcard: bool,
        call: impl FnOnce(&mut Self) -> ContextId,
    ) -> Result<ContextId, Refusal> {
        self.copy_new_contexts();
        let before = self.contexts();
        let counted = self.copy.merge(left.0, right.0, wildcard);
        if counted == Err(TOO_MUCH_WORK) {
            return Err(TOO_MUCH_WORK);
        }
        let made = self.within_ceilings(call);
        assert_eq!(counted.map(|counted| counted.context), made.map(|made| made.0), "number of the merge");
        self.assert_copied(before);
        self.counted = counted.unwrap_or(NO_WORK);
        made
    }

    /// Contexts that other calls than merges made.
    fn copy_new_contexts(&mut self) {
        for context in self.copy.count()..self.contexts() {
            let entries = self.arena_entries(context);
            self.copy.push(&entries);
        }
    }

    /// What a merge made in the arena, after so many contexts, is what it made in the copy.
    fn assert_copied(&self, before: usize) {
        assert_eq!((self.copy.count(), self.copy.pool()), (self.contexts(), self.entries()), "room taken");
        for context in before..self.contexts() {
            assert_eq!(self.copy.entries(narrow(context)), self.arena_entries(context), "context {context}");
        }
    }

    fn arena_entries(&self, context: usize) -> Vec<Entry> {
        let context = ContextId(narrow(context));
        let entry = |index| match self.arena.entry(context, index) {
            Some((parent, state)) => (state, parent.0),
            None => unreachable!("an index below the length has an entry"),
        };
        (0..self.arena.len(context)).map(entry).collect()
    }

    /// Runs a call in the arena, which has no ceilings; where it ends above one, takes out what it made.
    fn within_ceilings<T>(&mut self, call: impl FnOnce(&mut Self) -> T) -> Result<T, Refusal> {
        let (contexts, entries) = (self.contexts(), self.entries());
        let answer = call(self);
        if self.contexts() <= MOST_CONTEXTS && self.entries() <= MOST_ENTRIES {
            return Ok(answer);
        }
        self.cut_back(contexts, entries);
        Err(NO_ROOM)
    }

    /// Undoes the arena's `push_record`, newest first.
    fn cut_back(&mut self, contexts: usize, entries: usize) {
        let arena = &mut self.arena;
        while arena.records.len() > contexts {
            let record = arena.records.pop().expect("more records than before");
            match arena.interner_next.pop().flatten() {
                Some(older) => arena.interner_heads.insert(record.cached_hash, older),
                None => arena.interner_heads.remove(&record.cached_hash),
            };
        }
        arena.array_parents.truncate(entries);
        arena.array_return_states.truncate(entries);
    }
}

fn wide(word: u32) -> usize {
    usize::try_from(word).expect("the oracle's host has 64 bits")
}

/// Every number in arena and set came from a word.
pub(super) fn narrow(number: usize) -> u32 {
    u32::try_from(number).expect("the number came from a word")
}
