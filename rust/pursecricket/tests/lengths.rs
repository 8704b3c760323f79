//! Wrong lengths, for store and scratch: refused with 2 before all else, and no word is touched.

mod common;

use common::{agree, every_kind};
use judge::layout::{SCRATCH_WORDS, STORE_WORDS};
use judge::makers::random_store;
use judge::random::Random;
use judge::{Call, Lent, Reply};

/// No words, one, one short, one more, the other slice's length, and far more.
fn wrong(right: usize, other: usize) -> [usize; 6] {
    [0, 1, right - 1, right + 1, other, 3 * right]
}

/// These words cut or padded to a length, the padding not 0.
fn of_length(words: &[u32], length: usize) -> Vec<u32> {
    let mut words = words.to_vec();
    words.resize(length, 9);
    words
}

fn try_lengths(store: usize, scratch: usize, random: &mut Random) {
    let words = of_length(&random_store(12, 40).words(), store);
    let scratch = of_length(&random.words(SCRATCH_WORDS), scratch);
    let what = format!("{} and {} words", words.len(), scratch.len());
    let lent = Lent::new(words);
    for call in every_kind(random, 40) {
        let outcome = agree(&lent, &call, &scratch, &what);
        let refused = call != Call::Fresh || store != STORE_WORDS;
        assert_eq!(outcome.reply == Reply::Refused(2), refused, "{what}: {call:?}");
    }
}

#[test]
fn wrong_lengths() {
    let mut random = Random::new(12);
    for store in wrong(STORE_WORDS, SCRATCH_WORDS) {
        try_lengths(store, SCRATCH_WORDS, &mut random);
        for scratch in wrong(SCRATCH_WORDS, STORE_WORDS) {
            try_lengths(store, scratch, &mut random);
        }
    }
    for scratch in wrong(SCRATCH_WORDS, STORE_WORDS) {
        try_lengths(STORE_WORDS, scratch, &mut random);
    }
}

/// A wrong length comes before an unsound store.
#[test]
fn length_before_soundness() {
    let mut random = Random::new(13);
    let scratch = random.words(SCRATCH_WORDS - 1);
    let lent = Lent::new(random.words(STORE_WORDS));
    for call in every_kind(&mut random, 5) {
        if call != Call::Fresh {
            assert_eq!(agree(&lent, &call, &scratch, &"unsound").reply, Reply::Refused(2));
        }
    }
}

/// A fresh store over any words of the right length.
#[test]
fn fresh_over_anything() {
    let mut random = Random::new(14);
    for words in [vec![0; STORE_WORDS], vec![u32::MAX; STORE_WORDS], random.words(STORE_WORDS)] {
        let outcome = agree(&Lent::new(words), &Call::Fresh, &[5, 6], &"fresh");
        assert_eq!(outcome.reply, Reply::Done);
        assert_eq!(outcome.store[0], 1);
        assert!(outcome.store[1..].iter().all(|&word| word == 0));
    }
}
