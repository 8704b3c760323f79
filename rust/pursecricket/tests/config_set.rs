//! The safe face of config sets, by document 01's sentences.

use std::collections::BTreeSet;

use pursecricket::{
    Added, Alternative, AtnConfig, AtnConfigSet, ContextArena, ContextId, EMPTY_CONTEXT, Figures, Interned,
    Refusal, ReturnState, SemanticContextId, raw, unique_alt,
};

const MARK: u32 = 1 << 31;
const INSERTED: Result<Added, Refusal> = Ok(Added { inserted: true, merges: 0, made: 0 });

/// One merge, and so many contexts made by it.
fn merged(made: u32) -> Result<Added, Refusal> {
    Ok(Added { inserted: false, merges: 1, made })
}

/// Contexts 1 to `count`: that many states over context 0.
fn arena_of(count: u32) -> ContextArena {
    let mut arena = ContextArena::new();
    for state in 1..=count {
        let made = Interned { context: ContextId(state), made: 1 };
        assert_eq!(arena.singleton(EMPTY_CONTEXT, ReturnState(state.into())), Ok(made));
    }
    arena
}

fn config(state: u32, alt: u32, context: u32) -> AtnConfig {
    AtnConfig::new(state, Alternative(alt), ContextId(context))
}

fn only(set: &AtnConfigSet) -> AtnConfig {
    assert_eq!(set.len(), 1);
    set.configs().next().expect("one config")
}

#[test]
fn fresh_sets() {
    let fresh = [(AtnConfigSet::new(), 0), (AtnConfigSet::default(), 0)];
    let chosen = [false, true].map(|full| (AtnConfigSet::new_full_context(full), u32::from(full)));
    for (set, flags) in fresh.into_iter().chain(chosen) {
        assert_eq!(set.words().len(), raw::SET_WORDS);
        assert_eq!(set.words()[..2], [0, flags]);
        assert!(set.words()[2..].iter().all(|&word| word == 0));
        assert_eq!((set.len(), set.is_empty(), set.has_semantic_context()), (0, true, false));
        assert_eq!(set.full_context(), flags == 1);
        assert_eq!(set.configs().len(), 0);
        assert_eq!(format!("{set:?}"), format!("AtnConfigSet {{ configs: 0, flags: {flags} }}"));
    }
}

/// State, alternative, semantic id and lower 31 provenance bits are the key; each new one goes last.
#[test]
fn new_keys() {
    let mut arena = arena_of(1);
    let base = config(7, 1, 1);
    let given = [
        base,
        AtnConfig { state: 8, ..base },
        AtnConfig { alt: Alternative(2), ..base },
        AtnConfig { semantic_context: SemanticContextId(4), ..base },
        AtnConfig { semantic_provenance_and_flags: MARK | 5, ..base },
        AtnConfig { semantic_provenance_and_flags: MARK - 1, ..base },
    ];
    let mut set = AtnConfigSet::new();
    for (place, &config) in given.iter().enumerate() {
        assert_eq!(set.add(config, &mut arena), INSERTED, "{place}");
        assert_eq!(set.has_semantic_context(), place >= 3);
        assert!(set.configs().eq(given[..=place].iter().copied()));
    }
    assert_eq!(set.configs().next_back(), Some(given[5]));
    assert!(given[4].precedence_filter_suppressed() && !given[5].precedence_filter_suppressed());
    assert_eq!(given[4].semantic_provenance_id(), 5);
    assert_eq!(given[5].semantic_provenance_id(), MARK - 1);
    assert!(given[3].has_semantic_context() && !base.has_semantic_context());
}

/// On a known key the contexts are merged, by wildcard unless the set is full-context.
#[test]
fn known_keys() {
    for full in [false, true] {
        let mut arena = arena_of(2);
        let mut set = AtnConfigSet::new_full_context(full);
        assert_eq!(set.add(config(7, 1, 1), &mut arena), INSERTED);
        let mut second = config(7, 1, 2);
        second.reaches_into_outer_context = 9;
        second.suppress_precedence_filter();
        assert_eq!(set.add(second, &mut arena), merged(1));
        let both = arena.merge(ContextId(1), ContextId(2), !full).expect("room").context;
        assert_eq!(only(&set), AtnConfig { context: both, ..second });
        // Neither a smaller reach nor a config without the mark takes anything back.
        let mut third = config(7, 1, 0);
        third.reaches_into_outer_context = 3;
        // Context 0 swallows the others by wildcard.
        assert_eq!(set.add(third, &mut arena), merged(u32::from(full)));
        let all = arena.merge(both, EMPTY_CONTEXT, !full).expect("room").context;
        assert_eq!(only(&set), AtnConfig { context: all, ..second });
        assert_eq!(all == EMPTY_CONTEXT, !full);
    }
}

#[test]
fn closed_sets() {
    let mut arena = arena_of(1);
    let mut set = AtnConfigSet::new();
    assert_eq!(set.add(config(7, 1, 1), &mut arena), INSERTED);
    for _ in 0..2 {
        assert_eq!(set.close(&arena), Ok(()));
        assert_eq!(set.words()[..2], [1, 8]);
    }
    let before = set.clone();
    for refused in [config(8, 1, 1), config(7, 1, 0), config(7, 1, 9)] {
        assert_eq!(set.add(refused, &mut arena), Err(Refusal::ReadOnlySet));
        assert_eq!(set, before);
    }
    assert_eq!(only(&set), config(7, 1, 1));
}

/// A set of 256 takes no new key, and still a known one.
#[test]
fn full_sets() {
    let mut arena = arena_of(1);
    let mut set = AtnConfigSet::new_full_context(true);
    for state in 0..256 {
        assert_eq!(set.add(config(state, 1, 0), &mut arena), INSERTED);
    }
    assert_eq!(set.len(), 256);
    let before = set.clone();
    assert_eq!(set.add(config(256, 1, 0), &mut arena), Err(Refusal::FullSet));
    assert_eq!(set.add(config(256, 1, 9), &mut arena), Err(Refusal::UnknownContext));
    assert_eq!(set, before);
    assert_eq!(set.add(config(255, 1, 1), &mut arena), merged(1));
    assert_eq!(set.configs().next_back(), Some(config(255, 1, 2)));
    assert_eq!(arena.len(ContextId(2)), Ok(2));
}

/// A merge that lacks room leaves set and store.
#[test]
fn a_full_store() {
    let mut arena = arena_of(511);
    let mut set = AtnConfigSet::new_full_context(true);
    assert_eq!(set.add(config(7, 1, 1), &mut arena), INSERTED);
    let (before, store) = (set.clone(), arena.words().to_vec());
    let mut second = config(7, 1, 2);
    second.reaches_into_outer_context = 9;
    second.suppress_precedence_filter();
    assert_eq!(set.add(second, &mut arena), Err(Refusal::FullStore));
    assert_eq!((&set, arena.words()), (&before, &store[..]));
    let again = AtnConfig { context: ContextId(1), ..second };
    assert_eq!(set.add(again, &mut arena), Ok(Added { inserted: false, merges: 0, made: 0 }));
    assert_eq!(only(&set), AtnConfig { context: ContextId(1), ..second });
}

/// Contexts are judged by the arena that is lent.
#[test]
fn another_arena() {
    let (mut large, mut small) = (arena_of(3), arena_of(2));
    let mut set = AtnConfigSet::new();
    assert_eq!(set.add(config(7, 1, 4), &mut large), Err(Refusal::UnknownContext));
    assert_eq!(set.add(config(7, 1, 3), &mut large), INSERTED);
    assert_eq!(set.add(config(8, 1, 1), &mut small), Err(Refusal::UnsoundSet));
    assert_eq!(set.close(&small), Err(Refusal::UnsoundSet));
    assert_eq!(set.add(config(8, 1, 1), &mut large), INSERTED);
    assert_eq!(set.len(), 2);
}

/// What the methods say: unique and viable alternative, all conflict, all equal, and the verdict.
type Said = (Option<Alternative>, Option<Alternative>, bool, bool, bool);

fn said(set: &AtnConfigSet, arena: &ContextArena, stops: &[u32]) -> Result<Said, Refusal> {
    Ok((
        set.unique_alt(arena)?,
        set.single_viable_alt(arena)?,
        set.all_subsets_conflict(arena)?,
        set.all_subsets_equal(arena)?,
        set.has_sll_conflict_terminating_prediction(arena, stops)?,
    ))
}

/// P10, P11 and P12, then stop states; neither set nor arena changes.
#[test]
fn verdicts() {
    let mut arena = arena_of(2);
    let mut set = AtnConfigSet::new();
    let one = Some(Alternative(1));
    assert_eq!(said(&set, &arena, &[]), Ok((None, None, true, true, true)));
    for alt in [2, 1] {
        assert_eq!(set.add(config(7, alt, 1), &mut arena), INSERTED);
    }
    assert_eq!(said(&set, &arena, &[]), Ok((None, one, true, true, true)));
    assert_eq!(set.add(config(8, 2, 1), &mut arena), INSERTED);
    let before = (set.clone(), arena.words().to_vec());
    assert_eq!(said(&set, &arena, &[8, 9]), Ok((None, None, false, false, false)));
    assert_eq!(said(&set, &arena, &[8, 7, 8]), Ok((None, None, false, false, true)));
    assert_eq!((&set, arena.words()), (&before.0, &before.1[..]));
    // A closed set answers as an open one.
    assert_eq!(set.close(&arena), Ok(()));
    assert_eq!(said(&set, &arena, &[7]), Ok((None, None, false, false, false)));
}

/// Subsets in order of their first config, the conflicting alternatives, and all figures at once.
#[test]
fn subsets_and_figures() {
    let mut arena = arena_of(2);
    let mut set = AtnConfigSet::new();
    let alts = |alts: &[u32]| alts.iter().copied().map(Alternative).collect::<BTreeSet<_>>();
    assert_eq!(
        (set.conflicting_alt_subsets(&arena), set.conflicting_alts(&arena)),
        (Ok(vec![]), Ok(alts(&[])))
    );
    for (state, alt, context) in [(8, 5, 1), (7, 2, 2), (7, u32::MAX, 1), (7, 0, 2), (8, 3, 2)] {
        assert_eq!(set.add(config(state, alt, context), &mut arena), INSERTED);
    }
    let subsets = vec![alts(&[5]), alts(&[0, 2]), alts(&[u32::MAX]), alts(&[3])];
    assert_eq!(set.conflicting_alt_subsets(&arena), Ok(subsets));
    assert_eq!(set.conflicting_alts(&arena), Ok(alts(&[0, 2])));
    let figures = |verdict| Figures { subsets: 4, unique: None, viable: None, verdict };
    assert_eq!(set.figures(&arena, &[]), Ok(figures(true)));
    assert_eq!(set.figures(&arena, &[7, 8]), Ok(figures(true)));
    assert_eq!(set.figures(&arena, &[7; raw::MOST_STOPS + 1]), Err(Refusal::TooManyStops));
    let small = ContextArena::new();
    assert_eq!(set.conflicting_alt_subsets(&small), Err(Refusal::UnsoundSet));
    assert_eq!(set.conflicting_alts(&small), Err(Refusal::UnsoundSet));
    assert_eq!(set.figures(&small, &[]), Err(Refusal::UnsoundSet));
}

/// Over a list of configs, of any length, with all else in them as it comes; one that differs anywhere counts.
#[test]
fn unique_alt_of_a_list() {
    assert_eq!(unique_alt(&[]), None);
    for alt in [0, 1, u32::MAX] {
        for length in [1, 2, 3, 255, 256, 257, 10_000] {
            let any = |n: u32| AtnConfig {
                state: n,
                alt: Alternative(alt),
                context: ContextId(n.wrapping_mul(7)),
                semantic_context: SemanticContextId(n ^ 5),
                reaches_into_outer_context: !n,
                semantic_provenance_and_flags: n << 31,
            };
            let mut configs: Vec<AtnConfig> = (0..length).map(any).collect();
            assert_eq!(unique_alt(&configs), Some(Alternative(alt)), "{length}");
            for at in [0, length / 2, length - 1] {
                configs[at as usize].alt = Alternative(alt ^ 1);
                let expected = if length == 1 { Some(Alternative(alt ^ 1)) } else { None };
                assert_eq!(unique_alt(&configs), expected, "{at} of {length}");
                configs[at as usize].alt = Alternative(alt);
            }
        }
    }
}

/// Alternative 0 is one, and 4294967295 another.
#[test]
fn border_alternatives() {
    let mut arena = arena_of(1);
    for alt in [0, u32::MAX] {
        let mut set = AtnConfigSet::new();
        for state in [0, u32::MAX] {
            assert_eq!(set.add(config(state, alt, 1), &mut arena), INSERTED);
        }
        let only = Some(Alternative(alt));
        assert_eq!(said(&set, &arena, &[0]), Ok((only, only, false, true, false)));
        assert_eq!(said(&set, &arena, &[u32::MAX, 0]), Ok((only, only, false, true, true)));
    }
}

/// 64 stop states are taken and 65 are not; an arena that lacks a context comes first.
#[test]
fn refused_verdicts() {
    let (mut large, small) = (arena_of(3), arena_of(2));
    let mut set = AtnConfigSet::new();
    assert_eq!(set.add(config(7, 1, 3), &mut large), INSERTED);
    let verdict = |arena, stops: &[u32]| set.has_sll_conflict_terminating_prediction(arena, stops);
    assert_eq!(verdict(&large, &[7; raw::MOST_STOPS]), Ok(true));
    assert_eq!(verdict(&large, &[7; raw::MOST_STOPS + 1]), Err(Refusal::TooManyStops));
    assert_eq!(verdict(&small, &[7; raw::MOST_STOPS + 1]), Err(Refusal::UnsoundSet));
    let unsound = Err(Refusal::UnsoundSet);
    assert_eq!((set.unique_alt(&small), set.single_viable_alt(&small)), (unsound, unsound));
    let unsound = Err(Refusal::UnsoundSet);
    assert_eq!((set.all_subsets_conflict(&small), set.all_subsets_equal(&small)), (unsound, unsound));
}
