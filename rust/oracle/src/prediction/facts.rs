//! Facts about the runtime that document 01 chose or left open, checked by running it.

use super::{
    AtnConfig, COMPACT_EMPTY_RETURN_STATE, ContextArena, EMPTY_CONTEXT, EMPTY_RETURN_STATE, FX_ROT, FX_SEED,
};

#[test]
fn the_constants_are_those_that_document_01_chose() {
    assert_eq!(FX_ROT, 5);
    assert_eq!(FX_SEED, 0x517c_c1b7_2722_0a95);
    assert_eq!(COMPACT_EMPTY_RETURN_STATE, 4_294_967_295);
    assert_eq!(EMPTY_RETURN_STATE as u64, 18_446_744_073_709_551_615);
}

#[test]
fn merging_the_precedence_mark_is_the_or() {
    let arena = ContextArena::new();
    for (mine, other) in [(0, 0), (0, 1 << 31), (1 << 31, 0), (1 << 31, 1 << 31)] {
        let mut config = AtnConfig::new(1, 1, EMPTY_CONTEXT, &arena);
        let mut added = config.clone();
        config.semantic_provenance_and_flags = 5 | mine;
        added.semantic_provenance_and_flags = 5 | other;
        config.merge_precedence_filter_suppression(&added);
        assert_eq!(config.semantic_provenance_and_flags, 5 | mine | other);
    }
}

/// Document 01 refuses this state: the runtime takes it, and reads it back as the empty mark.
#[test]
fn the_runtime_accepts_the_compact_empty_mark_as_a_state() {
    let mut arena = ContextArena::new();
    let context = arena.singleton(EMPTY_CONTEXT, 4_294_967_295);
    assert_ne!(context, EMPTY_CONTEXT);
    assert_eq!(arena.return_state(context, 0), Some(EMPTY_RETURN_STATE));
}

#[test]
#[should_panic(expected = "prediction return state must fit in u32")]
fn the_runtime_panics_on_a_wider_state() {
    ContextArena::new().singleton(EMPTY_CONTEXT, 4_294_967_296);
}
