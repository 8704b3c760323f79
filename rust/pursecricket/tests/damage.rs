//! Every single-word damage of one full store: 512 contexts and 2,048 pool entries.

mod common;

use common::{agree, dirty_scratch, every_kind, find_a_singleton};
use judge::layout::STORE_WORDS;
use judge::makers::full_store;
use judge::random::Random;
use judge::{Call, Lent, Reply};

/// Five other words for a word, some of which may be the word itself.
fn damages(word: u32, random: &mut Random) -> [u32; 5] {
    [0, word.wrapping_add(1), word ^ (1 << random.below(32)), random.word(), u32::MAX]
}

/// How many damaged stores each side of the soundness check met.
#[derive(Default)]
struct Tally {
    sound: usize,
    unsound: usize,
}

fn judge_damage(lent: &Lent, calls: &[Call], scratch: &[u32], what: &str, tally: &mut Tally) {
    for call in calls {
        agree(lent, call, scratch, &what);
    }
    match lent.store() {
        Some(_) => tally.sound += 1,
        None => tally.unsound += 1,
    }
}

#[test]
fn every_word_of_a_full_store_damaged() {
    let mut random = Random::new(1);
    let whole = full_store(1);
    let old = find_a_singleton(&whole).expect("a full store has singletons");
    let words = whole.words();
    let scratch = dirty_scratch(&mut random);
    let mut tally = Tally::default();
    for at in 0..STORE_WORDS {
        for damage in damages(words[at], &mut random) {
            if damage == words[at] {
                continue;
            }
            let mut damaged = words.clone();
            damaged[at] = damage;
            let lent = Lent::new(damaged);
            let mut calls = every_kind(&mut random, 512);
            calls.push(old);
            let what = format!("word {at}, {} made {damage}", words[at]);
            judge_damage(&lent, &calls, &scratch, &what, &mut tally);
        }
    }
    assert!(tally.unsound > 10_000 && tally.sound > 1_000, "{} and {}", tally.unsound, tally.sound);
}

#[test]
fn the_full_store_itself() {
    let mut random = Random::new(2);
    let whole = full_store(1);
    let old = find_a_singleton(&whole).expect("a full store has singletons");
    let lent = Lent::new(whole.words());
    let found = agree(&lent, &old, &dirty_scratch(&mut random), &"an old singleton");
    assert!(matches!(found.reply, Reply::Interned { made: 0, .. }));
    for round in 0..200 {
        for call in every_kind(&mut random, 512) {
            agree(&lent, &call, &dirty_scratch(&mut random), &format_args!("round {round}"));
        }
    }
}
