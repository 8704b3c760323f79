//! Config sets: which configs are one, and how their contexts are merged.

use pursecricket::{Alternative, AtnConfig, AtnConfigSet, ContextArena, EMPTY_CONTEXT, Refusal, ReturnState};

#[test]
fn config_set_merges_context_ids() -> Result<(), Refusal> {
    let mut arena = ContextArena::new();
    let left = arena.singleton(EMPTY_CONTEXT, ReturnState(1))?.context;
    let right = arena.singleton(EMPTY_CONTEXT, ReturnState(2))?.context;
    let mut set = AtnConfigSet::new_full_context(true);

    assert!(set.add(AtnConfig::new(1, Alternative(1), left), &mut arena)?.inserted);
    assert!(!set.add(AtnConfig::new(1, Alternative(1), right), &mut arena)?.inserted);
    assert_eq!(set.len(), 1);
    let config = set.configs().next().expect("one config");
    assert_eq!(arena.len(config.context)?, 2);
    Ok(())
}

/// The provenances' numbers are those that the original's arena gives its first two, 1 and 2.
#[test]
fn config_set_keeps_distinct_prediction_provenance() -> Result<(), Refusal> {
    let mut arena = ContextArena::new();
    let mut first = AtnConfig::new(1, Alternative(1), EMPTY_CONTEXT);
    first.semantic_provenance_and_flags = 1;
    let mut second = AtnConfig::new(1, Alternative(1), EMPTY_CONTEXT);
    second.semantic_provenance_and_flags = 2;
    let mut set = AtnConfigSet::new();

    assert!(set.add(first, &mut arena)?.inserted);
    assert!(set.add(second, &mut arena)?.inserted);
    assert!(!set.add(first, &mut arena)?.inserted);
    assert_eq!(set.len(), 2);
    Ok(())
}
