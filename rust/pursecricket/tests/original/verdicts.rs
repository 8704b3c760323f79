//! Verdicts: what the tests of `exact_context_sll_conflict`, which is left out, say about ours.

use pursecricket::{
    Alternative, AtnConfig, AtnConfigSet, ContextArena, EMPTY_CONTEXT, Refusal, ReturnState,
    SemanticContextId,
};

#[test]
fn exact_context_conflict_proves_containment_without_shared_context_ids() -> Result<(), Refusal> {
    let mut arena = ContextArena::new();
    let first = arena.singleton(EMPTY_CONTEXT, ReturnState(10))?.context;
    let second = arena.singleton(EMPTY_CONTEXT, ReturnState(20))?.context;
    let containing = arena.merge(first, second, true)?.context;
    let mut configs = AtnConfigSet::new();
    configs.add(AtnConfig::new(7, Alternative(1), containing), &mut arena)?;
    configs.add(AtnConfig::new(7, Alternative(2), first), &mut arena)?;

    assert!(!configs.has_sll_conflict_terminating_prediction(&arena, &[])?);
    Ok(())
}

/// The predicates' numbers are those that the original's arena gives its first two, 1 and 2.
#[test]
fn exact_context_conflict_joins_semantically_distinct_configs() -> Result<(), Refusal> {
    let mut arena = ContextArena::new();
    let first = arena.singleton(EMPTY_CONTEXT, ReturnState(10))?.context;
    let second = arena.singleton(EMPTY_CONTEXT, ReturnState(20))?.context;
    let joined = arena.merge(first, second, true)?.context;
    let mut configs = AtnConfigSet::new();
    for (context, predicate) in [(first, SemanticContextId(1)), (second, SemanticContextId(2))] {
        let config = AtnConfig::new(7, Alternative(1), context);
        configs.add(AtnConfig { semantic_context: predicate, ..config }, &mut arena)?;
    }
    configs.add(AtnConfig::new(7, Alternative(2), joined), &mut arena)?;

    assert!(!configs.has_sll_conflict_terminating_prediction(&arena, &[])?);
    Ok(())
}
