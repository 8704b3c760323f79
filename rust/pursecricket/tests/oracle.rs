//! The runtime's own code beside the crate, over generated scripts: replies, and the words.

use std::collections::BTreeSet;

use oracle::generate::{self, Made};
use oracle::prediction::driver::Machine;
use oracle::record::{Config, Kinds, Mode, Record, split};
use oracle::reply::{Reason, Reply, Verdict};
use pursecricket::{
    Alternative, AtnConfig, AtnConfigSet, ContextArena, ContextId, Refusal, ReturnState, SemanticContextId,
};

/// The crate's side of a script: what the oracle's machine holds, as it stands at the start.
struct Port {
    arena: ContextArena,
    set: AtnConfigSet,
    stops: Vec<u32>,
    /// Merges that the last call counted.
    merges: u32,
}

impl Port {
    fn new() -> Self {
        let set = AtnConfigSet::new_full_context(true);
        Port { arena: ContextArena::new(), set, stops: Vec::new(), merges: 0 }
    }

    fn call(&mut self, record: &Record) -> Result<Reply, Refusal> {
        let Port { arena, set, stops, merges } = self;
        *merges = 0;
        match *record {
            Record::Singleton { parent, state } => {
                let interned = arena.singleton(ContextId(parent), ReturnState(state))?;
                Ok(Reply::Context { number: interned.context.0, made: interned.made })
            }
            Record::Merge { left, right, mode } => {
                let merged = arena.merge(ContextId(left), ContextId(right), mode == Mode::Wildcard)?;
                *merges = merged.merges;
                Ok(Reply::Context { number: merged.context.0, made: merged.made })
            }
            Record::Show { context } => shown(arena, ContextId(context)).map(Reply::Entries),
            Record::NewSet { mode } => {
                *set = AtnConfigSet::new_full_context(mode == Mode::Full);
                Ok(Reply::NewSet)
            }
            Record::Add(config) => {
                let added = set.add(given(config), arena)?;
                *merges = added.merges;
                Ok(Reply::Added { inserted: added.inserted, made: added.made })
            }
            Record::Close => set.close(arena).map(|()| Reply::Closed),
            // A list that no verdict takes is not held.
            Record::Stops(ref states) => {
                set.has_sll_conflict_terminating_prediction(arena, states)?;
                stops.clone_from(states);
                Ok(Reply::Stops(stops.len()))
            }
            Record::Verdict => self.verdict().map(Reply::Verdict),
            Record::Why => set.why(arena, stops).map(|why| Reply::Reason(said(why))),
        }
    }

    fn verdict(&self) -> Result<Verdict, Refusal> {
        let Port { arena, set, stops, .. } = self;
        // Subsets have no call yet: they are as many as pairs of state and context.
        let places: BTreeSet<(u32, ContextId)> =
            set.configs().map(|config| (config.state, config.context)).collect();
        Ok(Verdict {
            subsets: places.len(),
            unique: set.unique_alt(arena)?.map(|alt| alt.0),
            viable: set.single_viable_alt(arena)?.map(|alt| alt.0),
            terminates: set.has_sll_conflict_terminating_prediction(arena, stops)?,
        })
    }

    /// What the two questions say that no script asks: do all subsets conflict, are all equal?
    fn of_all_subsets(&self) -> Result<[bool; 2], Refusal> {
        Ok([self.set.all_subsets_conflict(&self.arena)?, self.set.all_subsets_equal(&self.arena)?])
    }
}

fn given(config: Config) -> AtnConfig {
    AtnConfig {
        state: config.state,
        alt: Alternative(config.alternative),
        context: ContextId(config.context),
        semantic_context: SemanticContextId(config.semantic),
        reaches_into_outer_context: config.reach,
        semantic_provenance_and_flags: config.provenance,
    }
}

fn said(why: pursecricket::Reason) -> Reason {
    match why {
        pursecricket::Reason::Stop => Reason::Stop,
        pursecricket::Reason::NoClash => Reason::NoClash,
        pursecricket::Reason::One { state, alternative } => Reason::One { state, alternative: alternative.0 },
        pursecricket::Reason::Clash { state, context, alternatives } => {
            let alternatives = alternatives.into_iter().map(|alternative| alternative.0).collect();
            Reason::Clash { state, context: context.0, alternatives }
        }
    }
}

/// Each entry's state and parent; `None` is the empty stack.
fn shown(arena: &ContextArena, context: ContextId) -> Result<Vec<Option<(u32, u32)>>, Refusal> {
    let entry = |index| {
        let (state, parent) = (arena.return_state(context, index)?, arena.parent(context, index)?);
        Ok(match (state, parent) {
            (Some(ReturnState(u64::MAX)), _) => None,
            (Some(state), Some(parent)) => Some((state.0 as u32, parent.0)),
            other => panic!("entry {index} of {context:?}: {other:?}"),
        })
    };
    (0..arena.len(context)?).map(entry).collect()
}

/// How many contexts a reply says that its call made.
fn made(reply: &Result<Reply, u32>) -> u32 {
    match *reply {
        Ok(Reply::Context { made, .. } | Reply::Added { made, .. }) => made,
        _ => 0,
    }
}

/// How many configs were added, and verdicts given.
#[derive(Default)]
struct Tally {
    added: usize,
    verdicts: usize,
}

/// Runs a script on both sides: every reply, the set's words after every record, the store's at the end. The
/// contexts made by its calls are all that the store has then but context 0.
fn compare(script: &Made, kinds: Kinds, index: u64, tally: &mut Tally) {
    let (records, _) = split(&script.script, kinds);
    let (mut machine, mut port) = (Machine::new(), Port::new());
    let mut contexts = 1;
    for (at, record) in records.iter().enumerate() {
        let what = || format!("script {index}, '{}', record {at}: {record:?}", script.family);
        let theirs = machine.call(record).map_err(|refusal| u32::from(refusal.0));
        let ours = port.call(record).map_err(Refusal::number);
        assert_eq!(ours, theirs, "{}", what());
        assert_eq!(port.merges, machine.merges_of_last_call(), "{}", what());
        contexts += made(&ours);
        if matches!(record, Record::NewSet { .. } | Record::Add(_) | Record::Close) {
            assert!(port.set.words() == machine.set_words(), "{}: the set", what());
        }
        if matches!(record, Record::Verdict) {
            let theirs = [machine.all_subsets_conflict(), machine.all_subsets_equal()];
            assert_eq!(port.of_all_subsets(), Ok(theirs), "{}", what());
        }
        tally.added += usize::from(matches!(ours, Ok(Reply::Added { .. })));
        tally.verdicts += usize::from(matches!(ours, Ok(Reply::Verdict(_))));
    }
    assert_eq!(port.arena.words()[0], contexts, "script {index}, '{}': contexts made", script.family);
    assert!(port.set.words() == machine.set_words(), "script {index}, '{}': the set", script.family);
    assert!(port.arena.words() == machine.store_words(), "script {index}, '{}': the store", script.family);
}

#[test]
fn generated_scripts() {
    for index in 0..2_000 {
        compare(&generate::script(29, index, Kinds::Store), Kinds::Store, index, &mut Tally::default());
    }
}

/// Merges at the ceiling on work and above it.
#[test]
fn generated_scripts_of_heavy_merges() {
    for index in 0..24 {
        compare(&generate::heavy_script(29, index, Kinds::All), Kinds::All, index, &mut Tally::default());
    }
}

#[test]
fn generated_scripts_of_sets() {
    let mut tally = Tally::default();
    for index in 0..20_000 {
        compare(&generate::script_about_sets(33, index), Kinds::All, index, &mut tally);
    }
    assert!(tally.added > 300_000, "only {} configs", tally.added);
    assert!(tally.verdicts > 50_000, "only {} verdicts", tally.verdicts);
}
