//! The lent words, against words written by hand.

use std::collections::BTreeSet;

use oracle::generate;
use oracle::prediction::driver::Machine;
use oracle::record::Kinds;
use oracle::run::run;
use oracle::text;

const PARENTS_AT: usize = 2 + 3 * 512;
const STATES_AT: usize = PARENTS_AT + 2_048;

fn end_of(script: &str) -> Machine {
    run(&text::assemble(script).expect("good text"), Kinds::All).machine
}

/// Words that are 0 but for the given stretches.
fn words(length: usize, stretches: &[(usize, &[u32])]) -> Vec<u32> {
    let mut words = vec![0; length];
    for (at, stretch) in stretches {
        words[*at..at + stretch.len()].copy_from_slice(stretch);
    }
    words
}

#[test]
fn a_fresh_store_and_set() {
    let machine = Machine::new();
    assert_eq!(machine.store_words(), words(5_634, &[(0, &[1])]));
    assert_eq!(machine.set_words(), words(1_538, &[(1, &[1])]));
    assert_eq!(machine.subset_words(), words(1_025, &[]));
    assert_eq!(machine.conflict_words(), words(257, &[]));
}

#[test]
fn the_worked_example() {
    let machine = end_of(
        "singleton 0 42\nmerge 1 0 full\nshow 2\nset full\n\
         add 7 1 1 0 0 0\nadd 7 2 1 0 0 0\nverdict\n",
    );
    let store: [(usize, &[u32]); 4] = [
        (0, &[3, 2]),
        (2, &[0, 0, 0, 1, 0, 42, 2, 0, 2]),
        (PARENTS_AT, &[0, 0]),
        (STATES_AT, &[42, u32::MAX]),
    ];
    assert_eq!(machine.store_words(), words(5_634, &store));
    let set: [u32; 14] = [2, 1, 7, 1, 1, 0, 0, 0, 7, 2, 1, 0, 0, 0];
    assert_eq!(machine.set_words(), words(1_538, &[(0, &set)]));
    assert_eq!(machine.subset_words(), words(1_025, &[(0, &[1, 7, 1, 2, 1, 2])]));
    assert_eq!(machine.conflict_words(), words(257, &[(0, &[2, 1, 2])]));
}

/// What the lines do not show: reach, bit 31, flags 2, 4 and 8, group order.
#[test]
fn reach_mark_flags_and_order() {
    let machine = end_of(
        "set wildcard\nsingleton 0 5\n\
         add 9 3 0 0 0 6\nadd 7 2 1 4 2 0\nadd 9 1 0 0 0 6\n\
         add 7 2 1 4 1 0x80000000\nadd 9 3 0 0 5 6\nadd 7 1 0 0 0 0\nclose\n",
    );
    let set = [
        vec![4, 2 | 4 | 8], // not full context
        vec![9, 3, 0, 0, 5, 6],
        vec![7, 2, 1, 4, 2, 1 << 31],
        vec![9, 1, 0, 0, 0, 6],
        vec![7, 1, 0, 0, 0, 0],
    ]
    .concat();
    assert_eq!(machine.set_words(), words(1_538, &[(0, &set)]));
    let subsets: [u32; 14] = [3, 9, 0, 2, 1, 3, 7, 1, 1, 2, 7, 0, 1, 1];
    assert_eq!(machine.subset_words(), words(1_025, &[(0, &subsets)]));
    assert_eq!(machine.conflict_words(), words(257, &[(0, &[2, 1, 3])]));
}

/// An add that lacks room leaves flags, reach and mark.
#[test]
fn a_refused_add_leaves_the_set() {
    let mut script: String = (1..512).map(|state| format!("singleton 0 {state}\n")).collect();
    script.push_str("add 7 1 1 0 0 0\n");
    let before = end_of(&script);
    let after = end_of(&(script + "add 7 1 2 0 9 0x80000000\n"));
    assert_eq!(after.store_words(), before.store_words());
    assert_eq!(after.set_words(), before.set_words());
    assert_eq!(after.set_words()[..8], [1, 1, 7, 1, 1, 0, 0, 0]);
}

/// The largest subsets fill their words to the last.
#[test]
fn subsets_of_a_full_set() {
    let script: String = (0..256).map(|state| format!("add {state} 5 0 0 0 0\n")).collect();
    let subsets = end_of(&script).subset_words();
    assert_eq!(subsets[0], 256);
    assert_eq!(subsets[1_021..], [255, 0, 1, 5]);
}

/// Entries of a context as (state, parent), read from the words alone.
fn entries(store: &[u32], context: usize) -> Vec<(u32, u32)> {
    let (kind, a, b) = (store[2 + 3 * context], store[3 + 3 * context], store[4 + 3 * context]);
    match kind {
        1 => vec![(b, a)],
        2 => {
            (a as usize..(a + b) as usize).map(|at| (store[STATES_AT + at], store[PARENTS_AT + at])).collect()
        }
        _ => vec![(u32::MAX, 0)],
    }
}

/// Document 01's clauses on a sound store.
fn assert_sound(store: &[u32]) {
    let (count, pool) = (store[0] as usize, store[1] as usize);
    assert!((1..=512).contains(&count) && pool <= 2_048);
    assert_eq!(store[2..5], [0, 0, 0]);
    let mut filled = 0;
    let mut meanings = BTreeSet::from([entries(store, 0)]);
    for context in 1..count {
        let (kind, first) = (store[2 + 3 * context], store[3 + 3 * context] as usize);
        let entries = entries(store, context);
        assert!(kind == 1 || kind == 2);
        assert!(kind == 1 || (entries.len() >= 2 && first == filled), "arrays fill the pool in record order");
        assert!(kind == 2 || entries[0].0 < u32::MAX);
        assert!(entries.iter().all(|&(_, parent)| (parent as usize) < context));
        assert!(entries.iter().all(|&(state, parent)| state < u32::MAX || parent == 0));
        assert!(entries.windows(2).all(|pair| pair[0].0 < pair[1].0));
        filled += if kind == 2 { entries.len() } else { 0 };
        assert!(meanings.insert(entries), "no two records have the same meaning");
    }
    assert_eq!(filled, pool);
    for unused in [2 + 3 * count..PARENTS_AT, PARENTS_AT + pool..STATES_AT, STATES_AT + pool..5_634] {
        assert!(store[unused].iter().all(|&word| word == 0));
    }
}

#[test]
fn stores_of_generated_scripts_are_sound() {
    for index in 0..3_000 {
        let script = generate::script(13, index, Kinds::All).script;
        assert_sound(&run(&script, Kinds::All).machine.store_words());
    }
}
