//! Stands in for the snapshot library that the runtime's own tests name.
//!
//! The published source has no snapshot files, so the four expected values are written here, read off
//! the code and the names of the tests.

/// Compares a value's debug form with the snapshot of that name.
macro_rules! assert_debug_snapshot {
    ($name:expr, $value:expr) => {
        assert_eq!(format!("{:?}", $value), super::insta::expected($name), "{}", $name)
    };
}
pub(crate) use assert_debug_snapshot;

pub(crate) fn expected(name: &str) -> String {
    let (alternatives, exact) = match name {
        "exact_context_conflict_proves_containment_without_shared_context_ids" => ("{1, 2}", false),
        "exact_context_conflict_joins_semantically_distinct_configs" => ("{1, 2}", true),
        "exact_context_conflict_marks_different_state_alt_sets_inexact" => ("{1, 2, 3}", false),
        "exact_context_conflict_marks_outer_context_reach_inexact" => ("{1, 2}", false),
        _ => panic!("no snapshot named {name}"),
    };
    format!("Some(SllConflict {{ alts: {alternatives}, exact: {exact}, from_context_containment: true }})")
}
