//! Soundness by hand: a small good set, and each of document 01's clauses broken in it.

use judge::layout::{CONFIGS_AT, SET_WORDS};
use judge::random::Random;
use judge::set_makers::{MARK, full_set, random_set};
use judge::{ConfigSet, is_sound_set};

/// Contexts of the store beside the sets.
const CONTEXTS: usize = 6;

/// Three configs; the first has a semantic id, the last reaches out.
fn good() -> Vec<u32> {
    let configs = [[7, 1, 5, 9, 0, 3], [7, 2, 0, 0, 0, MARK], [7, 2, 1, 0, 4, 1]];
    let mut words = [vec![3, 1 | 2 | 4], configs.concat()].concat();
    words.resize(SET_WORDS, 0);
    words
}

/// The place of a config's word.
const fn word(place: usize, offset: usize) -> usize {
    CONFIGS_AT + 6 * place + offset
}

fn with(changes: &[(usize, u32)]) -> Vec<u32> {
    let mut words = good();
    for &(at, word) in changes {
        words[at] = word;
    }
    words
}

#[test]
fn good_words_are_sound() {
    for flags in [6, 7, 14, 15] {
        assert!(is_sound_set(&with(&[(1, flags)]), CONTEXTS), "flags {flags}");
    }
    assert!(is_sound_set(&with(&[(word(2, 5), MARK | 1)]), CONTEXTS), "a mark more");
    assert!(is_sound_set(&with(&[(word(0, 3), 0), (1, 4)]), CONTEXTS), "no semantic id");
    assert!(is_sound_set(&with(&[(word(2, 4), 0), (1, 2)]), CONTEXTS), "no reach");
    assert!(is_sound_set(&ConfigSet::fresh(true).words(), 1));
    let mut random = Random::new(1);
    for round in 0..100 {
        let configs = random.below(257);
        let set = random_set(&mut random, configs, CONTEXTS);
        let words = set.words();
        assert_eq!(ConfigSet::decode(&words, CONTEXTS), Some(set), "round {round}");
    }
    assert_eq!(full_set(&mut random, CONTEXTS).words()[0], 256);
}

#[test]
fn each_clause_broken() {
    let broken: &[(&str, &[(usize, u32)])] = &[
        ("count one short", &[(0, 2), (1, 2)]),
        ("count 257", &[(0, 257)]),
        ("count 2^32 - 1", &[(0, u32::MAX)]),
        ("a context that the store does not have", &[(word(1, 2), 6)]),
        ("a context far out", &[(word(0, 2), u32::MAX)]),
        ("an equal key", &[(word(0, 3), 0), (word(0, 1), 2), (word(0, 5), 1), (1, 4)]),
        ("an equal key but for bit 31", &[(word(2, 5), 0)]),
        ("no flag 2", &[(1, 4)]),
        ("flag 2 alone", &[(1, 2 | 4), (word(0, 3), 0)]),
        ("no flag 4", &[(1, 2)]),
        ("flag 4 alone", &[(1, 2 | 4), (word(2, 4), 0)]),
        ("flag 16", &[(1, 16 | 6)]),
        ("flag 2^31", &[(1, 1 << 31 | 6)]),
        ("the first unused word", &[(word(3, 0), 1)]),
        ("the last word", &[(SET_WORDS - 1, 1)]),
    ];
    for (what, changes) in broken {
        assert!(!is_sound_set(&with(changes), CONTEXTS), "{what}");
    }
}

/// Zeros past the end are a config too, and its key is new.
#[test]
fn a_count_that_takes_in_zeros() {
    assert!(is_sound_set(&with(&[(0, 4)]), CONTEXTS));
    assert!(!is_sound_set(&with(&[(0, 5)]), CONTEXTS), "twice");
}

#[test]
fn wrong_lengths() {
    assert!(!is_sound_set(&[], CONTEXTS));
    assert!(!is_sound_set(&good()[..SET_WORDS - 1], CONTEXTS));
    assert!(!is_sound_set(&[good(), vec![0]].concat(), CONTEXTS));
}
