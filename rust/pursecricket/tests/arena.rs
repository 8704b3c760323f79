//! The safe face, by document 01's examples.

use pursecricket::{
    ContextArena, ContextId, EMPTY_CONTEXT, EMPTY_RETURN_STATE, Interned, Merged, Refusal, ReturnState, raw,
};

/// A context that was not there.
fn made(number: u32) -> Result<Interned, Refusal> {
    Ok(Interned { context: ContextId(number), made: 1 })
}

/// One that was.
fn found(number: u32) -> Result<Interned, Refusal> {
    Ok(Interned { context: ContextId(number), made: 0 })
}

#[test]
fn a_fresh_arena() {
    let arena = ContextArena::new();
    assert_eq!(arena.words().len(), raw::STORE_WORDS);
    assert_eq!(arena.words()[0], 1);
    assert!(arena.words()[1..].iter().all(|&word| word == 0));
    assert_eq!(arena.len(EMPTY_CONTEXT), Ok(1));
    assert_eq!(arena.is_empty(EMPTY_CONTEXT), Ok(true));
    assert_eq!(arena.has_empty_path(EMPTY_CONTEXT), Ok(true));
    assert_eq!(arena.return_state(EMPTY_CONTEXT, 0), Ok(Some(EMPTY_RETURN_STATE)));
    assert_eq!(arena.parent(EMPTY_CONTEXT, 0), Ok(None));
    assert_eq!(format!("{arena:?}"), "ContextArena { contexts: 1, entries: 0 }");
}

/// P1 to P4.
#[test]
fn singletons() {
    let mut arena = ContextArena::new();
    assert_eq!(arena.singleton(EMPTY_CONTEXT, ReturnState(7)), made(1));
    assert_eq!(arena.singleton(EMPTY_CONTEXT, ReturnState(7)), found(1));
    assert_eq!(arena.singleton(EMPTY_CONTEXT, EMPTY_RETURN_STATE), found(0));
    assert_eq!(arena.singleton(EMPTY_CONTEXT, ReturnState(4_294_967_294)), made(2));
    let refused = arena.singleton(EMPTY_CONTEXT, ReturnState(4_294_967_295));
    assert_eq!(refused, Err(Refusal::StateOutOfRange));
    assert_eq!(arena.singleton(ContextId(3), EMPTY_RETURN_STATE), Err(Refusal::UnknownContext));
    assert_eq!(arena.return_state(ContextId(2), 0), Ok(Some(ReturnState(4_294_967_294))));
    assert_eq!(arena.parent(ContextId(2), 0), Ok(Some(EMPTY_CONTEXT)));
    assert_eq!(arena.parent(ContextId(2), 1), Ok(None));
}

#[test]
fn a_full_arena() {
    let mut arena = ContextArena::new();
    for number in 1..512 {
        assert_eq!(arena.singleton(EMPTY_CONTEXT, ReturnState(number.into())), made(number));
    }
    let words = arena.words().to_vec();
    assert_eq!(arena.singleton(EMPTY_CONTEXT, ReturnState(512)), Err(Refusal::FullStore));
    assert_eq!(arena.words(), words);
    assert_eq!(arena.singleton(EMPTY_CONTEXT, ReturnState(511)), found(511));
}

/// A copy goes its own way.
#[test]
fn clones() {
    let mut arena = ContextArena::new();
    let mut other = arena.clone();
    assert_eq!(other.singleton(EMPTY_CONTEXT, ReturnState(7)), made(1));
    assert_eq!(arena.len(ContextId(1)), Err(Refusal::UnknownContext));
    assert_eq!(arena.singleton(EMPTY_CONTEXT, ReturnState(8)), made(1));
    assert_eq!(other.return_state(ContextId(1), 0), Ok(Some(ReturnState(7))));
}

#[test]
fn refusals_are_errors() {
    let numbers = [
        (Refusal::WrongLength, 2),
        (Refusal::UnsoundStore, 1),
        (Refusal::UnsoundSet, 3),
        (Refusal::TooManyStops, 10),
        (Refusal::ReadOnlySet, 7),
        (Refusal::UnknownContext, 4),
        (Refusal::StateOutOfRange, 5),
        (Refusal::FullSet, 8),
        (Refusal::FullStore, 6),
        (Refusal::TooMuchWork, 12),
    ];
    for (refusal, number) in numbers {
        assert_eq!(refusal.number(), number);
        let error: Box<dyn std::error::Error> = refusal.into();
        assert!(error.to_string().starts_with(&format!("refusal {number}: ")));
    }
}

mod merges {
    use super::*;

    /// An arena, and states each placed on the one before.
    fn chain(arena: &mut ContextArena, states: &[u64]) -> ContextId {
        let over = |below, &state| arena.singleton(below, ReturnState(state)).expect("room").context;
        states.iter().fold(EMPTY_CONTEXT, over)
    }

    fn entries(arena: &ContextArena, context: ContextId) -> Vec<(u64, Option<ContextId>)> {
        let entry = |index| {
            let state = arena.return_state(context, index).expect("known").expect("in range");
            (state.0, arena.parent(context, index).expect("known"))
        };
        (0..arena.len(context).expect("known")).map(entry).collect()
    }

    /// P5 and P6.
    #[test]
    fn with_the_empty_stack() {
        let mut arena = ContextArena::new();
        let single = chain(&mut arena, &[42]);
        let merged = arena.merge(single, EMPTY_CONTEXT, false).expect("room").context;
        let both = [(42, Some(EMPTY_CONTEXT)), (u64::MAX, Some(EMPTY_CONTEXT))];
        assert_eq!(entries(&arena, merged), both);
        assert_eq!(arena.has_empty_path(merged), Ok(true));
        let swallowed = Merged { context: EMPTY_CONTEXT, merges: 1, made: 0 };
        assert_eq!(arena.merge(single, EMPTY_CONTEXT, true), Ok(swallowed));
    }

    /// P7.
    #[test]
    fn a_shared_top_state() {
        let mut arena = ContextArena::new();
        let (left, right) = (chain(&mut arena, &[100, 7]), chain(&mut arena, &[200, 7]));
        let merged = arena.merge(left, right, false).expect("room").context;
        assert_eq!(arena.len(merged), Ok(1));
        assert_eq!(arena.return_state(merged, 0), Ok(Some(ReturnState(7))));
        let beneath = arena.parent(merged, 0).expect("known").expect("a parent");
        assert_eq!(entries(&arena, beneath), [(100, Some(EMPTY_CONTEXT)), (200, Some(EMPTY_CONTEXT))]);
    }

    /// P8 and P9.
    #[test]
    fn the_empty_stack_beneath_a_top_state() {
        let mut arena = ContextArena::new();
        let (deep, shallow) = (chain(&mut arena, &[42, 7]), chain(&mut arena, &[7]));
        assert_eq!(arena.merge(deep, shallow, true), Ok(Merged { context: shallow, merges: 2, made: 0 }));
        let merged = arena.merge(deep, shallow, false).expect("room").context;
        assert_eq!(arena.len(merged), Ok(1));
        let beneath = arena.parent(merged, 0).expect("known").expect("a parent");
        let both = [(42, Some(EMPTY_CONTEXT)), (u64::MAX, Some(EMPTY_CONTEXT))];
        assert_eq!(entries(&arena, beneath), both);
    }
}
