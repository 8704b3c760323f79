//! Words that no call left: random ones, damaged ones, and each of document 01's clauses broken.

mod common;

use common::{agree, dirty_scratch, every_kind};
use judge::layout::{MOST_CONTEXTS, PARENTS_AT, RECORDS_AT, STATES_AT, STORE_WORDS, narrow};
use judge::makers::{Maker, random_store};
use judge::random::Random;
use judge::{Call, Entry, Lent, Reply, Store};

/// Every kind of call agrees with the judge on these words.
fn try_words(words: Vec<u32>, random: &mut Random, what: &str) {
    let count = (words[0] as usize).clamp(1, MOST_CONTEXTS);
    let lent = Lent::new(words);
    let scratch = dirty_scratch(random);
    for call in every_kind(random, count) {
        agree(&lent, &call, &scratch, &what);
    }
}

/// Besides, they are refused with 1.
fn try_unsound(words: Vec<u32>, random: &mut Random, what: &str) {
    let lent = Lent::new(words.clone());
    let outcome = agree(&lent, &Call::Len { context: 0 }, &dirty_scratch(random), &what);
    assert_eq!(outcome.reply, Reply::Refused(1), "{what}");
    try_words(words, random, what);
}

#[test]
fn random_words() {
    let mut random = Random::new(3);
    for round in 0..300 {
        let mut words = random.words(STORE_WORDS);
        if round % 3 > 0 {
            // Past the first tests: good counts, then small words.
            words[0] = narrow(random.between(1, 512));
            words[1] = narrow(random.below(2_049));
            words[RECORDS_AT..RECORDS_AT + 3].fill(0);
        }
        if round % 3 > 1 {
            words[5..].iter_mut().for_each(|word| *word %= 3);
        }
        try_words(words, &mut random, &format!("round {round}"));
    }
}

#[test]
fn one_bit_flipped() {
    let mut random = Random::new(4);
    for round in 0..3_000 {
        let calls = random.between(1, 60);
        let mut words = random_store(random.number(), calls).words();
        // Mostly in words that are in use.
        let at = match random.below(4) {
            0 => random.below(STORE_WORDS),
            1 => RECORDS_AT + random.below(3 * words[0] as usize),
            2 => PARENTS_AT + random.below(1 + words[1] as usize),
            _ => STATES_AT + random.below(1 + words[1] as usize),
        };
        let bit = random.below(32);
        words[at] ^= 1 << bit;
        try_words(words, &mut random, &format!("round {round}, bit {bit} of word {at}"));
    }
}

/// The word at this place of a record.
const fn record_at(context: usize) -> usize {
    RECORDS_AT + 3 * context
}

/// Contexts: 0; 42 over 0; {42 over 0, `$`}; 7 over 2; {5 over 1, 7 over 2, 9 over 3}.
fn small_store() -> Vec<u32> {
    let entry = |state, parent| Entry { state, parent };
    let mut store = Store::fresh();
    store.singleton(0, 42);
    store.intern(vec![entry(42, 0), entry(u32::MAX, 0)]);
    store.singleton(2, 7);
    store.intern(vec![entry(5, 1), entry(7, 2), entry(9, 3)]);
    store.words()
}

fn try_changed(changes: &[(usize, u32)], random: &mut Random, what: &str) {
    let mut words = small_store();
    for &(at, word) in changes {
        words[at] = word;
    }
    try_unsound(words, random, what);
}

#[test]
fn counts_and_kinds() {
    let mut random = Random::new(5);
    for count in [0, 4, 6, 512, 513, 1 << 31, u32::MAX] {
        try_changed(&[(0, count)], &mut random, &format!("count {count}"));
    }
    for pool in [0, 4, 6, 2_048, 2_049, 1 << 31, u32::MAX] {
        try_changed(&[(1, pool)], &mut random, &format!("pool {pool}"));
    }
    for kind in [0, 3, 4, 1 << 31, u32::MAX] {
        try_changed(&[(record_at(1), kind)], &mut random, &format!("kind {kind}"));
    }
    for (place, word) in [(0, 1), (0, 2), (1, 1), (2, 1), (2, u32::MAX)] {
        try_changed(&[(record_at(0) + place, word)], &mut random, "context 0 not empty");
    }
}

#[test]
fn gaps_and_overlaps_in_the_pool() {
    let mut random = Random::new(6);
    let first = record_at(4) + 1;
    for start in [0, 1, 3, 2_045, 2_046, 2_048, u32::MAX] {
        try_changed(&[(first, start)], &mut random, &format!("an array from {start}"));
    }
    for length in [0, 1, 2, 4, 2_046, 2_047, u32::MAX - 1, u32::MAX] {
        try_changed(&[(first + 1, length)], &mut random, &format!("an array of {length}"));
    }
    let swapped = [(record_at(2) + 1, 3), (record_at(4) + 1, 0)];
    try_changed(&swapped, &mut random, "arrays that are not in record order");
    try_changed(&[(record_at(4) + 2, 4)], &mut random, "an array past the end of the pool in use");
}

/// Records and pool entries (state and parent) laid out as they are given, with the counts that fit them.
fn laid_out(records: &[[u32; 3]], entries: &[(u32, u32)]) -> Vec<u32> {
    let mut words = vec![0; STORE_WORDS];
    words[0] = narrow(records.len());
    words[1] = narrow(entries.len());
    for (context, record) in records.iter().enumerate() {
        words[record_at(context)..record_at(context) + 3].copy_from_slice(record);
    }
    for (place, &(state, parent)) in entries.iter().enumerate() {
        words[STATES_AT + place] = state;
        words[PARENTS_AT + place] = parent;
    }
    words
}

/// What is wrong, the records, and the pool's entries.
type Fault<'a> = (&'a str, &'a [[u32; 3]], &'a [(u32, u32)]);

/// Pools with one thing wrong and all else right.
#[test]
fn pools_with_one_fault() {
    let mut random = Random::new(15);
    let dollar = (u32::MAX, 0);
    let root = [0, 0, 0];
    let good = laid_out(&[root, [2, 0, 2], [2, 2, 3]], &[(4, 0), (5, 0), (6, 0), (7, 1), dollar]);
    assert!(Lent::new(good.clone()).store().is_some());
    try_words(good, &mut random, "good");
    let faults: [Fault<'_>; 9] = [
        ("an array of none", &[root, [2, 0, 0], [2, 0, 2]], &[(4, 0), (5, 0)]),
        ("an array of one", &[root, [2, 0, 1], [2, 1, 2]], &[(3, 0), (4, 0), (5, 0)]),
        ("an array of `$` alone", &[root, [2, 0, 1], [2, 1, 2]], &[dollar, (4, 0), (5, 0)]),
        ("a gap at the start", &[root, [2, 1, 2]], &[(0, 0), (4, 0), (5, 0)]),
        ("a gap inside", &[root, [2, 0, 2], [2, 3, 2]], &[(4, 0), (5, 0), (0, 0), (6, 0), (7, 1)]),
        ("a gap at the end", &[root, [2, 0, 2]], &[(4, 0), (5, 0), (0, 0)]),
        ("an overlap", &[root, [2, 0, 2], [2, 1, 2]], &[(4, 0), (5, 0), (6, 0)]),
        ("an overlap and a gap", &[root, [2, 0, 2], [2, 1, 2]], &[(4, 0), (5, 0), (6, 0), (0, 0)]),
        ("the same entries", &[root, [2, 0, 3], [2, 0, 2]], &[(4, 0), (5, 0), (6, 0)]),
    ];
    for (what, records, entries) in faults {
        try_unsound(laid_out(records, entries), &mut random, what);
    }
}

#[test]
fn entries_and_parents() {
    let mut random = Random::new(7);
    for parent in [3, 4, 5, 511, 512, u32::MAX] {
        try_changed(&[(record_at(3) + 1, parent)], &mut random, &format!("a singleton over {parent}"));
        try_changed(&[(PARENTS_AT, parent)], &mut random, &format!("an entry over {parent}"));
    }
    try_changed(&[(PARENTS_AT + 4, 4)], &mut random, "an array over itself");
    try_changed(&[(PARENTS_AT + 1, 1)], &mut random, "a `$` with a parent");
    try_changed(&[(STATES_AT, u32::MAX)], &mut random, "two `$`");
    try_changed(&[(record_at(1) + 2, u32::MAX)], &mut random, "a singleton of the stored mark");
    for state in [0, 5, 9, 10, u32::MAX] {
        try_changed(&[(STATES_AT + 3, state)], &mut random, &format!("{state} between 5 and 9"));
    }
}

#[test]
fn duplicates() {
    let mut random = Random::new(8);
    let twice = [(record_at(3) + 1, 0), (record_at(3) + 2, 42)];
    try_changed(&twice, &mut random, "a singleton twice");
    for length in [2, 3, 40] {
        let mut maker = Maker::new(length as u64);
        maker.fill_contexts(20);
        let entries = maker.any_entries(length);
        maker.array(entries.clone());
        maker.fill_contexts(40);
        let mut other = entries.clone();
        other[0].state = 0;
        maker.array(other);
        maker.fill_contexts(45);
        let mut words = maker.store.words();
        try_words(words.clone(), &mut random, "two arrays that differ in one state");
        words[STATES_AT + length] = entries[0].state;
        try_unsound(words, &mut random, &format!("an array of {length} twice"));
    }
}

/// Duplicates wherever the two records stand.
#[test]
fn a_duplicate_of_any_record() {
    let mut random = Random::new(9);
    for round in 0..300 {
        let store = random_store(round, 50);
        let count = store.count();
        let copied = random.between(1, count - 1);
        let mut words = store.words();
        let [kind, mut a, b] = [0, 1, 2].map(|place| words[record_at(copied) + place]);
        if kind == 2 {
            let (from, to) = (a as usize, words[1] as usize);
            for at in [PARENTS_AT, STATES_AT] {
                words.copy_within(at + from..at + from + b as usize, at + to);
            }
            a = words[1];
            words[1] += b;
        }
        words[record_at(count)..record_at(count) + 3].copy_from_slice(&[kind, a, b]);
        words[0] += 1;
        try_unsound(words, &mut random, &format!("round {round}, record {copied} again"));
    }
}

#[test]
fn words_past_the_end() {
    let mut random = Random::new(10);
    let ends = [
        record_at(5),
        record_at(5) + 1,
        record_at(6) - 1,
        PARENTS_AT - 1,
        PARENTS_AT + 5,
        STATES_AT - 1,
        STATES_AT + 5,
        STORE_WORDS - 1,
    ];
    for at in ends {
        for word in [1, 2, 1 << 31, u32::MAX] {
            try_changed(&[(at, word)], &mut random, &format!("word {at} made {word}"));
        }
    }
}

#[test]
fn any_scratch() {
    let mut random = Random::new(11);
    for round in 0..300 {
        let calls = random.between(1, 120);
        try_words(random_store(round, calls).words(), &mut random, &format!("round {round}"));
    }
}
