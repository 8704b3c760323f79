//! Soundness by hand: a small good store, and each of document 01's clauses broken in it.

use judge::is_sound;
use judge::layout::{PARENTS_AT, RECORDS_AT, STATES_AT, STORE_WORDS};
use judge::makers::{full_store, random_store};

/// Contexts: 0; 42 over 0; {42 over 0, `$`}; 7 over 2; {5 over 1, 7 over 2, 9 over 3}.
fn good() -> Vec<u32> {
    let mut words = vec![0; STORE_WORDS];
    words[..2].copy_from_slice(&[5, 5]);
    let records = [0, 0, 0, 1, 0, 42, 2, 0, 2, 1, 2, 7, 2, 2, 3];
    words[RECORDS_AT..RECORDS_AT + 15].copy_from_slice(&records);
    words[PARENTS_AT..PARENTS_AT + 5].copy_from_slice(&[0, 0, 1, 2, 3]);
    words[STATES_AT..STATES_AT + 5].copy_from_slice(&[42, u32::MAX, 5, 7, 9]);
    words
}

fn with(changes: &[(usize, u32)]) -> Vec<u32> {
    let mut words = good();
    for &(at, word) in changes {
        words[at] = word;
    }
    words
}

const fn record_at(context: usize) -> usize {
    RECORDS_AT + 3 * context
}

#[test]
fn good_words_are_sound() {
    assert!(is_sound(&good()));
    assert!(is_sound(&with(&[(STATES_AT + 4, u32::MAX), (PARENTS_AT + 4, 0)])), "a second array with `$`");
    assert!(is_sound(&with(&[(record_at(1) + 2, 4_294_967_294)])), "the highest state");
    for seed in 0..40 {
        assert!(is_sound(&random_store(seed, 60).words()), "seed {seed}");
    }
}

#[test]
fn a_full_store_is_full_and_sound() {
    for seed in 0..20 {
        let words = full_store(seed).words();
        assert_eq!(words[..2], [512, 2_048], "seed {seed}");
        assert!(is_sound(&words), "seed {seed}");
    }
}

#[test]
fn each_clause_broken() {
    let broken: &[(&str, &[(usize, u32)])] = &[
        ("count 0", &[(0, 0)]),
        ("count one short", &[(0, 4)]),
        ("count one more", &[(0, 6)]),
        ("count 513", &[(0, 513)]),
        ("count 2^32 - 1", &[(0, u32::MAX)]),
        ("pool one short", &[(1, 4)]),
        ("pool one more", &[(1, 6)]),
        ("pool 2,049", &[(1, 2_049)]),
        ("record 0 of kind 1", &[(record_at(0), 1)]),
        ("record 0 with a", &[(record_at(0) + 1, 1)]),
        ("record 0 with b", &[(record_at(0) + 2, 1)]),
        ("kind 0 later on", &[(record_at(1), 0), (record_at(1) + 2, 0)]),
        ("kind 3", &[(record_at(1), 3)]),
        ("a singleton over itself", &[(record_at(3) + 1, 3)]),
        ("a singleton over a newer one", &[(record_at(3) + 1, 4)]),
        ("a singleton of the stored mark", &[(record_at(1) + 2, u32::MAX)]),
        ("a gap", &[(record_at(4) + 1, 3)]),
        ("an overlap", &[(record_at(4) + 1, 1)]),
        ("a first entry far out", &[(record_at(4) + 1, u32::MAX)]),
        ("a length far out", &[(record_at(4) + 2, u32::MAX)]),
        ("a parent that is the array itself", &[(PARENTS_AT + 4, 4)]),
        ("a newer parent", &[(PARENTS_AT, 3)]),
        ("equal states", &[(STATES_AT + 3, 5)]),
        ("falling states", &[(STATES_AT + 2, 8)]),
        ("a `$` with a parent", &[(PARENTS_AT + 1, 1)]),
        ("a `$` before the end", &[(STATES_AT, u32::MAX)]),
        ("a duplicate singleton", &[(record_at(3) + 1, 0), (record_at(3) + 2, 42)]),
        ("an unused record's word", &[(record_at(5) + 2, 1)]),
        ("the last record's word", &[(record_at(511) + 2, 1)]),
        ("an unused parent", &[(PARENTS_AT + 5, 1)]),
        ("an unused state", &[(STATES_AT + 5, 1)]),
        ("the last state", &[(STORE_WORDS - 1, 1)]),
    ];
    for (what, changes) in broken {
        assert!(!is_sound(&with(changes)), "{what}");
    }
}

#[test]
fn a_duplicate_array() {
    let mut words = vec![0; STORE_WORDS];
    words[..2].copy_from_slice(&[3, 4]);
    words[RECORDS_AT..RECORDS_AT + 9].copy_from_slice(&[0, 0, 0, 2, 0, 2, 2, 2, 2]);
    words[STATES_AT..STATES_AT + 4].copy_from_slice(&[5, 6, 5, 6]);
    assert!(!is_sound(&words));
    words[STATES_AT + 3] = 7;
    assert!(is_sound(&words));
}

/// Array lengths are at least 2, in a pool that is right otherwise.
#[test]
fn arrays_of_fewer_than_two() {
    let mut words = vec![0; STORE_WORDS];
    words[..2].copy_from_slice(&[3, 4]);
    words[RECORDS_AT..RECORDS_AT + 9].copy_from_slice(&[0, 0, 0, 2, 0, 2, 2, 2, 2]);
    words[STATES_AT..STATES_AT + 4].copy_from_slice(&[5, 6, 7, 8]);
    assert!(is_sound(&words));
    words[RECORDS_AT + 3..RECORDS_AT + 9].copy_from_slice(&[2, 0, 1, 2, 1, 3]);
    assert!(!is_sound(&words), "one");
    words[RECORDS_AT + 3..RECORDS_AT + 9].copy_from_slice(&[2, 0, 0, 2, 0, 4]);
    assert!(!is_sound(&words), "none");
}

#[test]
fn arrays_in_the_wrong_order() {
    let swapped = [(record_at(2) + 1, 3), (record_at(4) + 1, 0)];
    assert!(!is_sound(&with(&swapped)));
}

#[test]
fn wrong_lengths() {
    assert!(!is_sound(&[]));
    assert!(!is_sound(&good()[..STORE_WORDS - 1]));
    assert!(!is_sound(&[good(), vec![0]].concat()));
}
