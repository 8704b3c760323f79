//! `add` and `close` against the judge: keys, merges, ceilings, and refusals in their order.

mod common;

use common::dirty_scratch;
use common::sets::{agree, known_config};
use judge::layout::{MOST_CONFIGS, MOST_CONTEXTS, MOST_ENTRIES, SCRATCH_WORDS, SET_WORDS, narrow};
use judge::makers::{Maker, full_store, random_store, twin_chains};
use judge::random::Random;
use judge::set_makers::{MARK, any_config, full_set, random_set};
use judge::{Call, Config, ConfigSet, Entry, Lent, LentSet, Reply, SetCall, SetOutcome, Store};

fn config(state: u32, alternative: u32, context: u32) -> Config {
    Config::of([state, alternative, context, 0, 0, 0])
}

fn set_of(configs: Vec<Config>, full_context: bool) -> ConfigSet {
    ConfigSet { configs, full_context, read_only: false }
}

/// Adds a config to both sides' set.
fn add(store: &Lent, set: &ConfigSet, config: Config, random: &mut Random) -> SetOutcome {
    let lent = LentSet::new(store, set.words());
    agree(&lent, &SetCall::Add(config), &dirty_scratch(random), &"add")
}

#[test]
fn on_random_sets() {
    let mut random = Random::new(80);
    for round in 0..500 {
        let calls = random.between(1, 90);
        let store = random_store(round, calls);
        let contexts = store.count();
        let configs = random.pick(&[0, 1, 3, 8, 30, 100, 255, 256]);
        let set = random_set(&mut random, configs, contexts);
        let lent = Lent::new(store.words());
        for _ in 0..3 {
            let new = any_config(&mut random, contexts);
            add(&lent, &set, new, &mut random);
            if let Some(known) = known_config(&mut random, &set, contexts) {
                add(&lent, &set, known, &mut random);
            }
        }
    }
}

/// Long runs of singletons, adds and closings, each from what the port left of the one before.
#[test]
fn from_fresh_to_full() {
    for seed in 0..4 {
        let mut random = Random::new(81 + seed);
        let mut store = Store::fresh().words();
        let mut set = ConfigSet::fresh(seed % 2 == 0).words();
        for step in 0..700 {
            let contexts = store[0] as usize;
            let scratch = dirty_scratch(&mut random);
            let what = format!("seed {seed}, step {step}");
            if random.chance(20) {
                let (parent, state) = (narrow(random.below(contexts)), random.between(1, 5) as u64);
                let call = Call::Singleton { parent, state };
                store = common::agree(&Lent::new(store), &call, &scratch, &what).store;
                continue;
            }
            let call = match random.below(200) {
                0 => SetCall::Close,
                1 => SetCall::Fresh { full_context: random.chance(50) },
                // Read-only sets are soon left again.
                _ if set[1] >= 8 => SetCall::Fresh { full_context: random.chance(50) },
                _ => SetCall::Add(any_config(&mut random, contexts)),
            };
            let lent = Lent::new(store);
            let outcome = agree(&LentSet::new(&lent, set), &call, &scratch, &what);
            (store, set) = (outcome.store, outcome.set);
        }
    }
}

/// Keys that differ in one word only, and that word in one bit.
#[test]
fn keys_that_are_nearly_alike() {
    let mut random = Random::new(85);
    let store = random_store(85, 10);
    let contexts = store.count();
    let lent = Lent::new(store.words());
    for offset in [0, 1, 3, 5] {
        for bit in 0..32 {
            let base = any_config(&mut random, contexts);
            let mut words = base.words();
            words[offset] ^= 1 << bit;
            let other = Config::of(words);
            let outcome = add(&lent, &set_of(vec![base], true), other, &mut random);
            let inserted = (offset, bit) != (5, 31);
            let expected = Reply::Added { inserted, merges: 0, made: 0 };
            assert_eq!(outcome.reply, expected, "bit {bit} of word {offset}");
        }
    }
    // Words that are no part of the key: context and reach. The store has the union of 1 and 0, not of 1 and 2.
    let base = config(7, 1, 1);
    let reach = Config { reach: 1 << 31, ..base };
    for (other, merges, made) in [(config(7, 1, 0), 1, 0), (config(7, 1, 2), 1, 1), (reach, 0, 0)] {
        let outcome = add(&lent, &set_of(vec![base], true), other, &mut random);
        assert_eq!(outcome.reply, Reply::Added { inserted: false, merges, made });
    }
}

/// 256 keys that the port's mixing takes for one: they are found by their words.
#[test]
fn keys_of_one_hash() {
    let mut random = Random::new(86);
    let lent = Lent::new(random_store(86, 10).words());
    let state_for = |k: u32| config(31 * k, 300 - k, 0);
    let id_for = |k: u32| Config { semantic: 31 * k, provenance: 300 - k, ..config(1, 1, 0) };
    for key in [&state_for as &dyn Fn(u32) -> Config, &id_for] {
        for count in [0, 1, 2, 255, 256] {
            let set = set_of((0..count).map(key).collect(), true);
            for k in [0, 1, 127, 254, 255, 256] {
                let reply = add(&lent, &set, key(k), &mut random).reply;
                let expected = match k {
                    _ if k < count => Reply::Added { inserted: false, merges: 0, made: 0 },
                    _ if count < 256 => Reply::Added { inserted: true, merges: 0, made: 0 },
                    _ => Reply::Refused(8),
                };
                assert_eq!(reply, expected, "key {k} of {count}");
            }
        }
    }
}

/// Every reach against every other, and both marks.
#[test]
fn reach_and_mark() {
    let mut random = Random::new(87);
    let lent = Lent::new(Store::fresh().words());
    let reaches = [0, 1, 2, 1 << 31, u32::MAX];
    for (held, given) in reaches.iter().flat_map(|&one| reaches.map(|other| (one, other))) {
        for marks in [[0, 0], [0, MARK], [MARK, 0], [MARK, MARK]] {
            let [mine, theirs] = marks.map(|mark| mark | 5);
            let one = Config { reach: held, provenance: mine, ..config(7, 1, 0) };
            let other = Config { reach: given, provenance: theirs, ..one };
            let outcome = add(&lent, &set_of(vec![one], false), other, &mut random);
            let larger = held.max(given);
            assert_eq!(outcome.set[1], if larger > 0 { 4 } else { 0 });
            assert_eq!(outcome.set[2..8], [7, 1, 0, 0, larger, mine | theirs]);
        }
    }
}

/// Every fault, alone and with all that come after it in document 01's table.
#[test]
fn refusals_in_their_order() {
    let mut random = Random::new(88);
    let store = full_store(88);
    for faults in 0u32..1 << 7 {
        let has = |at: usize| faults >> at & 1 == 1;
        let (known, full) = (has(6), has(5));
        let mut set = if full { full_set(&mut random, 512) } else { random_set(&mut random, 9, 512) };
        set.full_context = true;
        // Two singletons without a merge in the store: 6 for a known key.
        let (left, right) = two_apart(&store);
        let held = &mut set.configs[3];
        held.context = left;
        let key = if known { *held } else { Config { state: 1 << 20, ..*held } };
        let given = Config { context: if has(4) { 512 } else { right }, ..key };
        set.read_only = has(3);
        let mut words = set.words();
        words[1] |= u32::from(has(2)) << 20;
        let mut store_words = store.words();
        store_words[0] += u32::from(has(1));
        let mut scratch = random.words(SCRATCH_WORDS);
        scratch.truncate(SCRATCH_WORDS - usize::from(has(0)));
        let lent = Lent::new(store_words);
        let lent = LentSet::new(&lent, words);
        let outcome = agree(&lent, &SetCall::Add(given), &scratch, &format_args!("faults {faults}"));
        let expected = match (0..5).find(|&at| has(at)) {
            Some(at) => Reply::Refused([2, 1, 3, 7, 4][at]),
            None if known => Reply::Refused(6),
            None if full => Reply::Refused(8),
            None => Reply::Added { inserted: true, merges: 0, made: 0 },
        };
        assert_eq!(outcome.reply, expected, "faults {faults}");
    }
}

/// Two contexts of a full store whose union it does not have.
fn two_apart(store: &Store) -> (u32, u32) {
    let pairs = (1..512).flat_map(|left| (1..left).map(move |right| (left, right)));
    let apart = |&(left, right): &(u32, u32)| {
        let mut grown = store.clone();
        grown.within_ceilings(|store| store.merge(left, right, false)).is_none()
    };
    pairs.into_iter().find(apart).expect("a full store lacks unions")
}

/// Twin chains with room for all but a few of the contexts that their merge makes, and just enough.
#[test]
fn near_the_most_contexts() {
    let mut random = Random::new(89);
    for room in 0..24 {
        let mut maker = Maker::new(room as u64);
        let bottoms = [100, 200].map(|state| maker.singleton(0, state).expect("room"));
        let states: Vec<u32> = (0..12).map(|_| narrow(random.between(1, 3))).collect();
        let [left, right] = twin_chains(&mut maker, bottoms, &states).expect("room");
        maker.fill_contexts(MOST_CONTEXTS - room);
        let lent = Lent::new(maker.store.words());
        for full_context in [false, true] {
            let set = set_of(vec![config(1, 1, 0), config(7, 1, left)], full_context);
            let given = Config { reach: 3, provenance: MARK, ..config(7, 1, right) };
            let outcome = add(&lent, &set, given, &mut random);
            // 13 contexts: one for the bottoms, and one a level.
            assert_eq!(outcome.reply == Reply::Refused(6), room < 13, "room {room}");
            let made = matches!(outcome.reply, Reply::Added { made: 13, .. });
            assert_eq!(made, room >= 13, "room {room}");
            // What merges to a context that is there has room always.
            let again = Config { reach: 3, provenance: MARK, ..config(7, 1, left) };
            let found = Reply::Added { inserted: false, merges: 0, made: 0 };
            assert_eq!(add(&lent, &set, again, &mut random).reply, found);
        }
    }
}

/// Arrays whose union lacks pool entries, and just not.
#[test]
fn near_the_most_entries() {
    let mut random = Random::new(90);
    for room in 0..20 {
        let mut maker = Maker::new(room as u64);
        let sides = [0, 1].map(|side| {
            let entries = (0..5).map(|i| Entry { state: 100 + 2 * i + side, parent: 0 });
            maker.array(entries.collect()).expect("room")
        });
        maker.fill_pool(MOST_ENTRIES - room, 20);
        let set = set_of(vec![config(7, 1, sides[0])], true);
        let outcome = add(&Lent::new(maker.store.words()), &set, config(7, 1, sides[1]), &mut random);
        assert_eq!(outcome.reply == Reply::Refused(6), room < 10, "room {room}");
    }
}

/// A set of 256 refuses every new key and still takes each known one.
#[test]
fn a_full_set() {
    let mut random = Random::new(91);
    let store = random_store(91, 60);
    let set = ConfigSet { read_only: false, ..full_set(&mut random, store.count()) };
    let lent = Lent::new(store.words());
    for place in 0..MOST_CONFIGS {
        let held = set.configs[place];
        let context = narrow(random.below(store.count()));
        let known = add(&lent, &set, Config { context, ..held }, &mut random);
        assert!(matches!(known.reply, Reply::Added { inserted: false, .. }));
        let new = add(&lent, &set, Config { state: held.state ^ 1 << 20, ..held }, &mut random);
        assert_eq!(new.reply, Reply::Refused(8));
        assert_eq!(new.set.len(), SET_WORDS);
    }
}
