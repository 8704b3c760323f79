//! Runs a call through the crate and holds what it leaves against the judge: the reply and every word.
#![allow(dead_code)]

pub mod sets;
pub mod verdicts;

use std::fmt::Display;

use judge::layout::{SCRATCH_WORDS, narrow};
use judge::random::Random;
use judge::{Call, Lent, Outcome, Reply, Store};
use pursecricket::{ContextId, Interned, Merged, Refusal, ReturnState, raw};

/// What the port leaves of these words.
pub fn run(call: &Call, store: &[u32], scratch: &[u32]) -> Outcome {
    let (mut store, mut scratch) = (store.to_vec(), scratch.to_vec());
    let reply = match *call {
        Call::Fresh => raw::fresh(&mut store).map(|()| Reply::Done),
        Call::Singleton { parent, state } => {
            raw::singleton(&mut store, &mut scratch, ContextId(parent), ReturnState(state)).map(interned)
        }
        Call::Merge { left, right, wildcard } => merge(&mut store, &mut scratch, left, right, wildcard),
        Call::Len { context } => raw::len(&store, &mut scratch, ContextId(context)).map(Reply::Count),
        Call::IsEmpty { context } => {
            raw::is_empty(&store, &mut scratch, ContextId(context)).map(Reply::Truth)
        }
        Call::HasEmptyPath { context } => {
            raw::has_empty_path(&store, &mut scratch, ContextId(context)).map(Reply::Truth)
        }
        Call::ReturnState { context, index } => {
            let found = raw::return_state(&store, &mut scratch, ContextId(context), index);
            found.map(|state| Reply::Entry(state.map(|state| state.0)))
        }
        Call::Parent { context, index } => {
            let found = raw::parent(&store, &mut scratch, ContextId(context), index);
            found.map(|parent| Reply::Entry(parent.map(|parent| u64::from(parent.0))))
        }
    };
    let reply = reply.unwrap_or_else(|refusal| Reply::Refused(refusal.number()));
    Outcome { reply, store, scratch }
}

fn interned(Interned { context, made }: Interned) -> Reply {
    Reply::Interned { context: context.0, made }
}

fn merge(
    store: &mut [u32],
    scratch: &mut [u32],
    left: u32,
    right: u32,
    wildcard: bool,
) -> Result<Reply, Refusal> {
    let Merged { context, merges, made } =
        raw::merge(store, scratch, ContextId(left), ContextId(right), wildcard)?;
    Ok(Reply::Merged { context: context.0, merges, made })
}

/// Runs a call and compares all that it leaves with the judge; answers what both left.
pub fn agree(lent: &Lent, call: &Call, scratch: &[u32], what: &dyn Display) -> Outcome {
    let port = run(call, lent.words(), scratch);
    let judged = lent.outcome(call, scratch);
    assert_eq!(port.reply, judged.reply, "{what}: {call:?}");
    assert_words(&port.store, &judged.store, &format_args!("{what}: the store after {call:?}"));
    assert_words(&port.scratch, &judged.scratch, &format_args!("{what}: the scratch after {call:?}"));
    judged
}

/// Names the first word that differs, not all of them.
fn assert_words(port: &[u32], judged: &[u32], what: &dyn Display) {
    assert_eq!(port.len(), judged.len(), "{what}");
    if port == judged {
        return;
    }
    let differs = |at: &usize| port[*at] != judged[*at];
    let at = (0..port.len()).find(differs).expect("equal lengths and unequal words");
    panic!("{what}: word {at} is {} and should be {}", port[at], judged[at]);
}

/// A scratch that earlier use left in any state.
pub fn dirty_scratch(random: &mut Random) -> Vec<u32> {
    match random.below(4) {
        0 => vec![0; SCRATCH_WORDS],
        1 => vec![u32::MAX; SCRATCH_WORDS],
        // Small words look like numbers of contexts.
        2 => (0..SCRATCH_WORDS).map(|_| narrow(random.below(514))).collect(),
        _ => random.words(SCRATCH_WORDS),
    }
}

/// One call of every kind on contexts of a store of so many, some of them unknown.
pub fn every_kind(random: &mut Random, count: usize) -> Vec<Call> {
    let mut any = || {
        let beyond = [count, count + 1, 512, u32::MAX as usize];
        narrow(if random.chance(10) { random.pick(&beyond) } else { random.below(count.max(1)) })
    };
    let (parent, left, right, context) = (any(), any(), any(), any());
    let state = any_state(random);
    let index = if random.chance(10) { random.word() } else { narrow(random.below(4)) };
    let wildcard = random.chance(50);
    vec![
        Call::Singleton { parent, state },
        Call::Len { context },
        Call::IsEmpty { context },
        Call::HasEmptyPath { context },
        Call::ReturnState { context, index },
        Call::Parent { context, index },
        Call::Merge { left, right, wildcard },
        Call::Fresh,
    ]
}

/// Small states, and those at the borders of what is accepted.
pub fn any_state(random: &mut Random) -> u64 {
    if random.chance(20) {
        return random.pick(&BORDER_STATES);
    }
    random.between(1, 8) as u64
}

pub const BORDER_STATES: [u64; 7] =
    [0, 4_294_967_294, 4_294_967_295, 4_294_967_296, 1 << 63, u64::MAX - 1, u64::MAX];

/// A call that finds the newest singleton of a store, if there is one.
pub fn find_a_singleton(store: &Store) -> Option<Call> {
    (1..narrow(store.count())).rev().find_map(|context| match store.entries(context) {
        [entry] => Some(Call::Singleton { parent: entry.parent, state: u64::from(entry.state) }),
        _ => None,
    })
}
