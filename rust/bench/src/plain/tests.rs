//! The plain code is right too: it agrees with the judge in the reply and in every word.

use judge::layout::{SCRATCH_WORDS, SET_WORDS, STORE_WORDS, narrow};
use judge::makers::{full_store, random_store, singletons_over_0};
use judge::random::Random;
use judge::set_makers::{any_config, random_set};
use judge::{Call, Config, Lent, LentSet, Reply, SetCall};

use super::sets::Added;
use super::{Interned, Merged, add, merge, singleton};

fn agree(words: Vec<u32>, scratch: &[u32], parent: u32, state: u64, what: &str) {
    let (mut store, mut after) = (words.clone(), scratch.to_vec());
    let reply = match singleton(&mut store, &mut after, parent, state) {
        Ok(Interned { context, made }) => Reply::Interned { context, made },
        Err(refusal) => Reply::Refused(refusal),
    };
    let judged = Lent::new(words).outcome(&Call::Singleton { parent, state }, scratch);
    assert_eq!(reply, judged.reply, "{what}");
    assert!(store == judged.store && after == judged.scratch, "{what}: words");
}

#[test]
fn on_sound_stores() {
    let mut random = Random::new(1);
    for round in 0..400 {
        let store = match round % 8 {
            0 => full_store(round),
            1 => singletons_over_0(narrow(random.between(500, 511))),
            _ => random_store(round, 60),
        };
        let parent = narrow(random.below(store.count() + 1));
        let state = random.pick(&[0, 1, 2, 3, 4_294_967_294, 4_294_967_295, u64::MAX - 1, u64::MAX]);
        agree(store.words(), &random.words(SCRATCH_WORDS), parent, state, &format!("round {round}"));
    }
}

#[test]
fn on_damaged_stores() {
    let mut random = Random::new(2);
    let scratch = random.words(SCRATCH_WORDS);
    for words in [full_store(2).words(), random_store(2, 40).words()] {
        for at in 0..STORE_WORDS {
            let mut damaged = words.clone();
            let word = random.word();
            damaged[at] = random.pick(&[0, damaged[at].wrapping_add(1), word, u32::MAX]);
            agree(damaged, &scratch, 1, 2, &format!("word {at}"));
        }
    }
}

#[test]
fn wrong_lengths() {
    let words = random_store(3, 20).words();
    for (store, scratch) in [(0, SCRATCH_WORDS), (STORE_WORDS - 1, SCRATCH_WORDS), (STORE_WORDS, 3)] {
        agree(words[..store].to_vec(), &vec![5; scratch], 0, 1, "lengths");
    }
}

fn agree_on_set(lent: &LentSet<'_>, scratch: &[u32], config: Config, what: &str) -> Reply {
    let (mut store, mut set) = (lent.store().words().to_vec(), lent.words().to_vec());
    let mut after = scratch.to_vec();
    let reply = match add(&mut store, &mut set, &mut after, config.words()) {
        Ok(Added { inserted, merges, made }) => Reply::Added { inserted, merges, made },
        Err(refusal) => Reply::Refused(refusal),
    };
    let judged = lent.outcome(&SetCall::Add(config), scratch);
    assert_eq!(reply, judged.reply, "{what}");
    assert!(store == judged.store && set == judged.set && after == judged.scratch, "{what}: words");
    reply
}

#[test]
fn on_sound_sets() {
    let mut random = Random::new(4);
    let mut merged = 0;
    for round in 0..1_500 {
        let store = if round % 8 == 0 { full_store(round) } else { random_store(round, 60) };
        let configs = random.pick(&[0, 1, 8, 60, 255, 256]);
        let set = random_set(&mut random, configs, store.count());
        let mut config = any_config(&mut random, store.count() + 1);
        if configs > 0 && random.chance(70) {
            let held = random.pick(&set.configs);
            config = Config { context: config.context, reach: config.reach, ..held };
        }
        let lent = Lent::new(store.words());
        let lent = LentSet::new(&lent, set.words());
        let reply = agree_on_set(&lent, &random.words(SCRATCH_WORDS), config, &format!("round {round}"));
        merged += usize::from(matches!(reply, Reply::Added { inserted: false, .. }));
    }
    assert!(merged > 400, "only {merged} merged");
}

/// Of both kinds, over stores with room and without.
#[test]
fn on_merges() {
    let mut random = Random::new(7);
    let (mut merged, mut refused) = (0, 0);
    for round in 0..1_500 {
        let store = if round % 4 == 0 { full_store(round) } else { random_store(round, 60) };
        let [left, right] = [(); 2].map(|()| narrow(random.below(store.count() + 1)));
        let (wildcard, scratch) = (random.chance(50), random.words(SCRATCH_WORDS));
        let (mut words, mut after) = (store.words(), scratch.clone());
        let reply = match merge(&mut words, &mut after, left, right, wildcard) {
            Ok(Merged { context, merges, made }) => Reply::Merged { context, merges, made },
            Err(refusal) => Reply::Refused(refusal),
        };
        let judged = Lent::new(store.words()).outcome(&Call::Merge { left, right, wildcard }, &scratch);
        assert_eq!(reply, judged.reply, "round {round}");
        assert!(words == judged.store && after == judged.scratch, "round {round}: words");
        merged += usize::from(matches!(reply, Reply::Merged { merges: 2.., .. }));
        refused += usize::from(reply == Reply::Refused(6));
    }
    assert!(merged > 100 && refused > 100, "{merged} merged, {refused} without room");
}

#[test]
fn on_damaged_sets() {
    let mut random = Random::new(5);
    let scratch = random.words(SCRATCH_WORDS);
    let store = random_store(5, 40);
    let contexts = store.count();
    let lent = Lent::new(store.words());
    for configs in [30, 256] {
        let words = random_set(&mut random, configs, contexts).words();
        for at in 0..SET_WORDS {
            let mut damaged = words.clone();
            let word = random.word();
            damaged[at] = random.pick(&[0, damaged[at].wrapping_add(1), damaged[at] ^ 1 << 31, word]);
            let config = any_config(&mut random, contexts);
            agree_on_set(&LentSet::new(&lent, damaged), &scratch, config, &format!("word {at}"));
        }
    }
}

#[test]
fn wrong_lengths_of_sets() {
    let mut random = Random::new(6);
    let store = Lent::new(random_store(6, 20).words());
    let config = any_config(&mut random, 3);
    for (set, scratch) in [(0, SCRATCH_WORDS), (SET_WORDS - 1, SCRATCH_WORDS), (SET_WORDS, 3)] {
        agree_on_set(&LentSet::new(&store, vec![0; set]), &vec![5; scratch], config, "lengths");
    }
}
