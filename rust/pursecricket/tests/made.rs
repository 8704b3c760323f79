//! How many contexts a call made: by hand, and as what the store has more after any run of calls.

use judge::random::Random;
use pursecricket::{
    Added, Alternative, AtnConfig, AtnConfigSet, ContextArena, ContextId, EMPTY_CONTEXT, EMPTY_RETURN_STATE,
    Interned, Refusal, ReturnState,
};

/// Contexts of an arena.
fn count(arena: &ContextArena) -> u32 {
    arena.words()[0]
}

fn singleton(arena: &mut ContextArena, parent: ContextId, state: u64) -> Result<Interned, Refusal> {
    arena.singleton(parent, ReturnState(state))
}

/// What is beneath counts too; what is found again does not.
#[test]
fn found_or_made() -> Result<(), Refusal> {
    let mut arena = ContextArena::new();
    let five = singleton(&mut arena, EMPTY_CONTEXT, 5)?.context;
    let six = singleton(&mut arena, EMPTY_CONTEXT, 6)?.context;
    assert_eq!(singleton(&mut arena, EMPTY_CONTEXT, 5), Ok(Interned { context: five, made: 0 }));
    let empty = Interned { context: EMPTY_CONTEXT, made: 0 };
    assert_eq!(singleton(&mut arena, five, EMPTY_RETURN_STATE.0), Ok(empty));
    let left = singleton(&mut arena, five, 7)?.context;
    let right = singleton(&mut arena, six, 7)?.context;
    assert_eq!(arena.merge(left, right, false)?.made, 2);
    assert_eq!(arena.merge(right, left, false)?.made, 0);
    assert_eq!(arena.merge(five, six, false)?.made, 0);
    assert_eq!(arena.merge(left, left, false)?.made, 0);
    assert_eq!(arena.merge(left, EMPTY_CONTEXT, true)?.made, 0);
    assert_eq!(count(&arena), 7);
    Ok(())
}

/// A config that is put last makes nothing; one that is merged, what its merge makes.
#[test]
fn configs() -> Result<(), Refusal> {
    let mut arena = ContextArena::new();
    let mut set = AtnConfigSet::new_full_context(true);
    let tops = [5, 6].map(|state| {
        let below = singleton(&mut arena, EMPTY_CONTEXT, state).expect("room").context;
        singleton(&mut arena, below, 7).expect("room").context
    });
    let mut add = |context| set.add(AtnConfig::new(1, Alternative(1), context), &mut arena);
    assert_eq!(add(tops[0])?, Added { inserted: true, merges: 0, made: 0 });
    assert_eq!(add(tops[1])?, Added { inserted: false, merges: 2, made: 2 });
    assert_eq!(add(tops[0])?.made, 0);
    assert_eq!(count(&arena), 7);
    Ok(())
}

/// A refusal has its number alone, and what was made on the way is taken out: the next call makes it again.
#[test]
fn refusals() -> Result<(), Refusal> {
    let mut arena = ContextArena::new();
    for state in 1..=508 {
        assert_eq!(singleton(&mut arena, EMPTY_CONTEXT, state)?.made, 1);
    }
    let left = singleton(&mut arena, ContextId(1), 7)?.context;
    let right = singleton(&mut arena, ContextId(2), 7)?.context;
    assert_eq!(count(&arena), 511);
    assert_eq!(arena.merge(left, right, false), Err(Refusal::FullStore));
    assert_eq!(count(&arena), 511);
    assert_eq!(arena.merge(ContextId(1), ContextId(2), false)?.made, 1);
    assert_eq!(arena.merge(left, right, false), Err(Refusal::FullStore));
    assert_eq!(arena.merge(ContextId(2), ContextId(1), false)?.made, 0);
    Ok(())
}

/// Any call on contexts of the arena: how many contexts it made, or its refusal. A number that was not there
/// before was made, and one that was there means that nothing was.
fn any_call(random: &mut Random, arena: &mut ContextArena, set: &mut AtnConfigSet) -> Result<u32, Refusal> {
    let before = count(arena);
    let mut context = || ContextId(random.below(before as usize + 1) as u32);
    let (one, other) = (context(), context());
    match random.below(3) {
        0 => {
            let state = random.pick(&[1, 2, 3, 4, u64::MAX - 1, u64::MAX]);
            let interned = singleton(arena, one, state)?;
            assert_eq!(interned.context.0 >= before, interned.made > 0, "of {before}: {interned:?}");
            Ok(interned.made)
        }
        1 => {
            let merged = arena.merge(one, other, random.chance(50))?;
            assert_eq!(merged.context.0 >= before, merged.made > 0, "of {before}: {merged:?}");
            Ok(merged.made)
        }
        _ => {
            let config = AtnConfig::new(random.below(4) as u32, Alternative(random.below(2) as u32), one);
            Ok(set.add(config, arena)?.made)
        }
    }
}

/// After each call the figures add up to all contexts but context 0; a refusal made none.
#[test]
fn figures_add_up() {
    let (mut found, mut many, mut refused) = (0, 0, 0);
    for seed in 0..60 {
        let mut random = Random::new(seed);
        let mut arena = ContextArena::new();
        let mut set = AtnConfigSet::new_full_context(seed % 2 == 0);
        let mut sum = 0;
        for step in 0..300 {
            let answer = any_call(&mut random, &mut arena, &mut set);
            let made = answer.unwrap_or(0);
            sum += made;
            assert_eq!(count(&arena), 1 + sum, "seed {seed}, step {step}");
            found += usize::from(answer == Ok(0));
            many += usize::from(made > 1);
            refused += usize::from(answer.is_err());
        }
    }
    assert!(found > 1_000 && many > 300 && refused > 500, "{found} found, {many} many, {refused} refused");
}
