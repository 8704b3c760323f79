//! Contexts: made, found again and merged.

use judge::layout::{SINGLETON, record, wide};
use pursecricket::{ContextArena, ContextId, EMPTY_CONTEXT, EMPTY_RETURN_STATE, Refusal, ReturnState};

#[test]
fn arena_interns_singletons_without_per_context_objects() -> Result<(), Refusal> {
    let mut arena = ContextArena::new();
    let first = arena.singleton(EMPTY_CONTEXT, ReturnState(7))?.context;
    let second = arena.singleton(EMPTY_CONTEXT, ReturnState(7))?.context;

    assert_eq!(first, second);
    assert_eq!(singleton_contexts(&arena), 1);
    Ok(())
}

/// No hash stands in the words, so that a wrong one cannot be planted: the array that collided there is made,
/// and has to be told apart. Contexts of one hash are in singletons.rs and in the oracle's scripts.
#[test]
fn array_interner_verifies_payload_after_hash_collision() -> Result<(), Refusal> {
    let mut arena = ContextArena::new();
    let first_parent = arena.singleton(EMPTY_CONTEXT, ReturnState(1))?.context;
    let second_parent = arena.singleton(EMPTY_CONTEXT, ReturnState(2))?.context;
    let expected = [(first_parent, 10), (second_parent, 20)];
    let colliding = [(second_parent, 10), (first_parent, 20)];
    let collision = array(&mut arena, &colliding)?;

    let interned = array(&mut arena, &expected)?;

    assert_ne!(interned, collision);
    assert_eq!(entry(&arena, interned, 0)?, Some(expected[0]));
    assert_eq!(entry(&arena, interned, 1)?, Some(expected[1]));
    Ok(())
}

#[test]
fn merge_with_empty_preserves_full_context_empty_path() -> Result<(), Refusal> {
    let mut arena = ContextArena::new();
    let singleton = arena.singleton(EMPTY_CONTEXT, ReturnState(42))?.context;

    let merged = arena.merge(singleton, EMPTY_CONTEXT, false)?.context;

    assert_eq!(arena.len(merged)?, 2);
    assert_eq!(arena.return_state(merged, 0)?, Some(ReturnState(42)));
    assert_eq!(arena.parent(merged, 0)?, Some(EMPTY_CONTEXT));
    assert_eq!(arena.return_state(merged, 1)?, Some(EMPTY_RETURN_STATE));
    assert!(arena.has_empty_path(merged)?);
    Ok(())
}

#[test]
fn wildcard_merge_collapses_to_empty() -> Result<(), Refusal> {
    let mut arena = ContextArena::new();
    let singleton = arena.singleton(EMPTY_CONTEXT, ReturnState(42))?.context;

    assert_eq!(arena.merge(singleton, EMPTY_CONTEXT, true)?.context, EMPTY_CONTEXT);
    Ok(())
}

#[test]
fn merge_is_order_independent() -> Result<(), Refusal> {
    let mut arena = ContextArena::new();
    let left_parent = arena.singleton(EMPTY_CONTEXT, ReturnState(100))?.context;
    let right_parent = arena.singleton(EMPTY_CONTEXT, ReturnState(200))?.context;
    let left = arena.singleton(left_parent, ReturnState(7))?.context;
    let right = arena.singleton(right_parent, ReturnState(7))?.context;

    let left_right = arena.merge(left, right, false)?.context;
    let right_left = arena.merge(right, left, false)?.context;

    assert_eq!(left_right, right_left);
    assert_eq!(arena.len(left_right)?, 1);
    let merged_parent = arena.parent(left_right, 0)?.expect("merged parent");
    assert_eq!(arena.len(merged_parent)?, 2);
    assert_eq!(arena.return_state(merged_parent, 0)?, Some(ReturnState(100)));
    assert_eq!(arena.return_state(merged_parent, 1)?, Some(ReturnState(200)));
    Ok(())
}

/// The original's `stats().singleton_contexts`, read from the words.
fn singleton_contexts(arena: &ContextArena) -> usize {
    let words = arena.words();
    (0..wide(words[0])).filter(|&context| record(words, context).0 == SINGLETON).count()
}

/// The array of these entries, parent and state each.
fn array(arena: &mut ContextArena, entries: &[(ContextId, u64)]) -> Result<ContextId, Refusal> {
    let (&(parent, state), others) = entries.split_first().expect("an entry");
    let first = arena.singleton(parent, ReturnState(state))?.context;
    others.iter().try_fold(first, |merged, &(parent, state)| {
        let single = arena.singleton(parent, ReturnState(state))?.context;
        arena.merge(merged, single, false).map(|merged| merged.context)
    })
}

/// An entry, parent and state.
fn entry(arena: &ContextArena, context: ContextId, index: u32) -> Result<Option<(ContextId, u64)>, Refusal> {
    let (parent, state) = (arena.parent(context, index)?, arena.return_state(context, index)?);
    Ok(parent.zip(state.map(|state| state.0)))
}
