//! Wrong lengths, for store, set and scratch: refused with 2 before all else, and no word is touched.

mod common;

use common::sets::{agree, every_kind};
use common::verdicts::agree_on_all;
use judge::layout::{SCRATCH_WORDS, SET_WORDS, STORE_WORDS};
use judge::makers::random_store;
use judge::random::Random;
use judge::set_makers::random_set;
use judge::{Lent, LentSet, Reply, SetCall};

/// The right length; no words, one, one short, one more, another slice's length, and far more.
fn lengths(right: usize, other: usize) -> [usize; 7] {
    [right, 0, 1, right - 1, right + 1, other, 3 * right]
}

/// These words cut or padded to a length, the padding not 0.
fn of_length(words: &[u32], length: usize) -> Vec<u32> {
    let mut words = words.to_vec();
    words.resize(length, 9);
    words
}

/// Each call is refused with 2 exactly if a slice that it is lent has a wrong length.
fn try_lengths(store: &[u32], set: &[u32], scratch: &[u32], random: &mut Random) {
    let what = format!("{}, {} and {} words", store.len(), set.len(), scratch.len());
    let lent = Lent::new(store.to_vec());
    let lent = LentSet::new(&lent, set.to_vec());
    let wrong_set = set.len() != SET_WORDS;
    let wrong_others = store.len() != STORE_WORDS || scratch.len() != SCRATCH_WORDS;
    for call in every_kind(random, lent.set(), 40) {
        let wrong = wrong_set || (wrong_others && !matches!(call, SetCall::Fresh { .. }));
        let outcome = agree(&lent, &call, scratch, &what);
        assert_eq!(outcome.reply == Reply::Refused(2), wrong, "{what}: {call:?}");
    }
    for reply in agree_on_all(&lent, random, scratch, &what) {
        assert_eq!(reply == Reply::Refused(2), wrong_set || wrong_others, "{what}");
    }
}

#[test]
fn wrong_lengths() {
    let mut random = Random::new(63);
    let made = random_store(63, 40);
    let set_words = random_set(&mut random, 30, made.count()).words();
    let (store_words, scratch_words) = (made.words(), random.words(SCRATCH_WORDS));
    for store in lengths(STORE_WORDS, SET_WORDS) {
        for set in lengths(SET_WORDS, STORE_WORDS) {
            for scratch in lengths(SCRATCH_WORDS, SET_WORDS) {
                let store = of_length(&store_words, store);
                let set = of_length(&set_words, set);
                try_lengths(&store, &set, &of_length(&scratch_words, scratch), &mut random);
            }
        }
    }
}

/// A wrong length comes before an unsound store and an unsound set.
#[test]
fn length_before_soundness() {
    let mut random = Random::new(64);
    for (set, scratch) in [(SET_WORDS, SCRATCH_WORDS - 1), (SET_WORDS + 1, SCRATCH_WORDS)] {
        let [store, set, scratch] = [STORE_WORDS, set, scratch].map(|length| random.words(length));
        try_lengths(&store, &set, &scratch, &mut random);
    }
}

/// A fresh set over any words of the right length.
#[test]
fn fresh_over_anything() {
    let mut random = Random::new(65);
    let lent = Lent::new(random.words(3));
    for words in [vec![0; SET_WORDS], vec![u32::MAX; SET_WORDS], random.words(SET_WORDS)] {
        for full_context in [false, true] {
            let set = LentSet::new(&lent, words.clone());
            let outcome = agree(&set, &SetCall::Fresh { full_context }, &[5, 6], &"fresh");
            assert_eq!(outcome.reply, Reply::Done);
            assert_eq!(outcome.set[..2], [0, u32::from(full_context)]);
            assert!(outcome.set[2..].iter().all(|&word| word == 0));
        }
    }
}
