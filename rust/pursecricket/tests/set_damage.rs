//! Every single-word damage of one full set, 256 configs, and of one that is not full.

mod common;

use common::dirty_scratch;
use common::sets::{agree, every_kind};
use common::verdicts::{agree_on_all, agree_on_one};
use judge::layout::{CONFIG_WORDS, CONFIGS_AT, SET_WORDS};
use judge::makers::random_store;
use judge::random::Random;
use judge::set_makers::{full_set, random_set};
use judge::{ConfigSet, Lent, LentSet, SetCall};

/// Six other words for a word, some of which may be the word itself.
fn damages(word: u32, random: &mut Random) -> [u32; 6] {
    let small = random.below(16) as u32;
    [0, word.wrapping_add(1), word ^ (1 << random.below(32)), word ^ (1 << 31), small, u32::MAX]
}

/// How many damaged sets each side of the soundness check met.
#[derive(Default)]
struct Tally {
    sound: usize,
    unsound: usize,
}

/// Damages every word of a set; each time also adds the config whose word it was, as it was.
fn damage_every_word(whole: &ConfigSet, store: &Lent, random: &mut Random) -> Tally {
    let contexts = store.store().expect("a sound store").count();
    let words = whole.words();
    let scratch = dirty_scratch(random);
    let mut tally = Tally::default();
    for at in 0..SET_WORDS {
        for damage in damages(words[at], random) {
            if damage == words[at] {
                continue;
            }
            let mut damaged = words.clone();
            damaged[at] = damage;
            let lent = LentSet::new(store, damaged);
            let mut calls = every_kind(random, Some(whole), contexts);
            let place = at.saturating_sub(CONFIGS_AT) / CONFIG_WORDS;
            calls.extend(whole.configs.get(place).copied().map(SetCall::Add));
            for call in calls {
                let what = format_args!("word {at}, {} made {damage}", words[at]).to_string();
                agree(&lent, &call, &scratch, &what);
            }
            agree_on_one(&lent, random, &scratch, &format_args!("word {at}, {} made {damage}", words[at]));
            match lent.set() {
                Some(_) => tally.sound += 1,
                None => tally.unsound += 1,
            }
        }
    }
    tally
}

#[test]
fn every_word_of_a_full_set_damaged() {
    let mut random = Random::new(60);
    let store = random_store(60, 60);
    let whole = ConfigSet { read_only: false, ..full_set(&mut random, store.count()) };
    let tally = damage_every_word(&whole, &Lent::new(store.words()), &mut random);
    assert!(tally.sound > 2_000 && tally.unsound > 1_000, "{} and {}", tally.sound, tally.unsound);
}

#[test]
fn every_word_of_a_smaller_set_damaged() {
    let mut random = Random::new(61);
    let store = random_store(61, 30);
    let whole = ConfigSet { read_only: false, ..random_set(&mut random, 40, store.count()) };
    let tally = damage_every_word(&whole, &Lent::new(store.words()), &mut random);
    assert!(tally.sound > 300 && tally.unsound > 5_000, "{} and {}", tally.sound, tally.unsound);
}

#[test]
fn the_full_set_itself() {
    let mut random = Random::new(62);
    let store = random_store(62, 60);
    let contexts = store.count();
    let lent = Lent::new(store.words());
    for round in 0..200 {
        let whole = full_set(&mut random, contexts);
        let set = LentSet::new(&lent, whole.words());
        for call in every_kind(&mut random, Some(&whole), contexts) {
            agree(&set, &call, &dirty_scratch(&mut random), &format_args!("round {round}"));
        }
        let scratch = dirty_scratch(&mut random);
        agree_on_all(&set, &mut random, &scratch, &format_args!("round {round}"));
    }
}
