//! Merges of both kinds: the number and every word, on random stores and at the ceilings.

mod common;

use common::{agree, dirty_scratch};
use judge::layout::{MOST_CONTEXTS, MOST_ENTRIES, narrow};
use judge::makers::{Maker, full_store, irregular_ladder, ladder, random_store, twin_chains};
use judge::random::Random;
use judge::{Call, Entry, Lent, Outcome, Reply, Store};

/// A merge by both kinds and in both orders, each on the same store; the sides can be exchanged.
fn merge_all_ways(store: &Store, left: u32, right: u32, random: &mut Random) -> [Outcome; 2] {
    let lent = Lent::new(store.words());
    [false, true].map(|wildcard| {
        let scratch = dirty_scratch(random);
        let merged = agree(&lent, &Call::Merge { left, right, wildcard }, &scratch, &"merge");
        let swapped = Call::Merge { left: right, right: left, wildcard };
        assert!(agree(&lent, &swapped, &scratch, &"swapped") == merged);
        merged
    })
}

#[test]
fn on_random_stores() {
    let mut random = Random::new(40);
    for round in 0..400 {
        let calls = random.between(1, 90);
        let mut maker = Maker::over(random_store(round, calls), round);
        for _ in 0..4 {
            let (left, right) = (maker.any_context(), maker.any_context());
            merge_all_ways(&maker.store, left, right, &mut random);
        }
    }
}

/// A long run of singletons and merges, each from what the port left of the one before.
#[test]
fn from_fresh_to_full() {
    for seed in 0..4 {
        let mut random = Random::new(41 + seed);
        let mut words = Store::fresh().words();
        for step in 0..500 {
            let count = words[0] as usize;
            let (left, right) = (narrow(random.below(count)), narrow(random.below(count)));
            let call = if random.chance(50) {
                Call::Singleton { parent: left, state: random.between(1, 5) as u64 }
            } else {
                Call::Merge { left, right, wildcard: random.chance(40) }
            };
            let what = format!("seed {seed}, step {step}");
            words = agree(&Lent::new(words), &call, &dirty_scratch(&mut random), &what).store;
        }
    }
}

#[test]
fn unknown_contexts() {
    let mut random = Random::new(45);
    let store = random_store(45, 30);
    let count = narrow(store.count());
    for unknown in [count, count + 1, 511, 512, u32::MAX] {
        for known in [0, 1, count - 1, unknown] {
            for outcome in merge_all_ways(&store, known, unknown, &mut random) {
                assert_eq!(outcome.reply, Reply::Refused(4));
            }
        }
    }
}

#[test]
fn chains() {
    let mut random = Random::new(46);
    for depth in [1, 2, 3, 10, 40, 100, 168, 169, 170, 171, 250] {
        let mut maker = Maker::new(depth as u64);
        let states: Vec<u32> = (0..depth).map(|_| narrow(random.between(1, 3))).collect();
        let other = maker.singleton(0, 100).expect("room");
        let both = maker.merge(other, 0, false).expect("room");
        for bottoms in [[0, other], [other, both], [0, both]] {
            let mut maker = Maker::over(maker.store.clone(), 1);
            let [left, right] = twin_chains(&mut maker, bottoms, &states).expect("room");
            merge_all_ways(&maker.store, left, right, &mut random);
        }
    }
}

#[test]
fn ladders() {
    let mut random = Random::new(47);
    for seed in 0..60 {
        let mut maker = Maker::new(seed);
        let height = maker.random.between(3, 60);
        let levels = ladder(&mut maker, height);
        for _ in 0..4 {
            let (left, right) = (random.pick(&levels), random.pick(&levels));
            merge_all_ways(&maker.store, left, right, &mut random);
        }
    }
}

#[test]
fn wide_arrays() {
    let mut random = Random::new(48);
    for seed in 0..60 {
        let mut maker = Maker::new(seed);
        let some = maker.random.between(3, 40);
        maker.fill_contexts(some);
        let widths = [2, 3, 16, 64, 200, 500].map(|width| maker.random.between(2, width));
        let arrays: Vec<u32> = widths
            .iter()
            .filter_map(|&width| {
                let entries = maker.any_entries(width);
                maker.array(entries)
            })
            .collect();
        for _ in 0..4 {
            let (left, right) = (random.pick(&arrays), random.pick(&arrays));
            merge_all_ways(&maker.store, left, right, &mut random);
            let other = maker.any_context();
            merge_all_ways(&maker.store, left, other, &mut random);
        }
    }
}

/// One call that meets pairs of contexts whose numbers differ in a few bits: no result stands for another.
#[test]
fn pairs_that_are_nearly_alike() {
    let mut random = Random::new(53);
    for round in 0..150 {
        let mut maker = Maker::new(round);
        maker.fill_contexts(400);
        let bits = [1 << random.below(8), 256];
        let numbers = |random: &mut Random| {
            let base = random.between(1, 143);
            [base, base ^ bits[0], base ^ bits[1]].map(|number| narrow(number.clamp(1, 399)))
        };
        let (ours, theirs) = (numbers(&mut random), numbers(&mut random));
        let sides = [ours, theirs].map(|numbers| {
            let entry = |state| Entry { state, parent: random.pick(&numbers) };
            maker.array((1..=24).map(entry).collect()).expect("room")
        });
        let outcomes = merge_all_ways(&maker.store, sides[0], sides[1], &mut random);
        assert!(outcomes.iter().all(|outcome| matches!(outcome.reply, Reply::Merged { .. })));
    }
}

/// A merge of 16,364 different inner pairs, in a store that public calls make: with the first 1,024 results
/// kept and the others met again and again, it is too much work.
#[test]
fn a_merge_of_very_many_pairs() {
    let mut random = Random::new(54);
    let mut maker = Maker::new(22);
    let levels = irregular_ladder(&mut maker);
    let (left, right) = (levels[levels.len() - 1], levels[levels.len() - 11]);
    let scratch = dirty_scratch(&mut random);
    let lent = Lent::new(maker.store.words());
    let merged = agree(&lent, &Call::Merge { left, right, wildcard: true }, &scratch, &"many pairs");
    assert_eq!(merged.reply, Reply::Refused(12));
    // Of lower levels it is not; by full merge there is no room.
    let [full, wildcard] = merge_all_ways(&maker.store, levels[40], levels[30], &mut random);
    assert_eq!(full.reply, Reply::Refused(6));
    assert!(matches!(wildcard.reply, Reply::Merged { context, .. } if context == levels[30]));
}

/// The two widest arrays that fit: 1,024 entries each, and the pool full.
#[test]
fn the_widest_arrays() {
    let mut random = Random::new(49);
    let array = |first: u32, step: u32, length: u32| -> Vec<Entry> {
        (0..length).map(|i| Entry { state: first + step * i, parent: 0 }).collect()
    };
    let sides = [(array(1, 2, 1_024), array(2, 2, 1_024)), (array(1, 1, 2_046), array(2_046, 1, 2))];
    for (left, right) in sides {
        let mut store = Store::fresh();
        let (left, right) = (store.intern(left), store.intern(right));
        for outcome in merge_all_ways(&store, left, right, &mut random) {
            assert_eq!(outcome.reply, Reply::Refused(6));
        }
    }
    let mut store = Store::fresh();
    let (left, right) = (store.intern(array(1, 2, 512)), store.intern(array(2, 2, 512)));
    for outcome in merge_all_ways(&store, left, right, &mut random) {
        assert_eq!(outcome.reply, Reply::Merged { context: 3, merges: 1, made: 1 });
        assert_eq!(outcome.store[..2], [4, 2_048]);
    }
}

/// Twin chains with room for all but a few of the contexts that their merge makes, and just enough.
#[test]
fn near_the_most_contexts() {
    let mut random = Random::new(50);
    for room in 0..24 {
        let mut maker = Maker::new(room as u64);
        let bottoms = [100, 200].map(|state| maker.singleton(0, state).expect("room"));
        let states: Vec<u32> = (0..12).map(|_| narrow(random.between(1, 3))).collect();
        let [left, right] = twin_chains(&mut maker, bottoms, &states).expect("room");
        maker.fill_contexts(MOST_CONTEXTS - room);
        let [full, wildcard] = merge_all_ways(&maker.store, left, right, &mut random);
        // 13 contexts: one for the bottoms, and one a level.
        let refused = room < 13;
        for reply in [full.reply, wildcard.reply] {
            assert_eq!(reply == Reply::Refused(6), refused, "room {room}");
            assert_eq!(matches!(reply, Reply::Merged { made: 13, .. }), !refused, "room {room}");
        }
    }
}

/// Arrays whose inner arrays lack pool entries half way, and just not.
#[test]
fn near_the_most_entries() {
    let mut random = Random::new(51);
    for room in 0..60 {
        let mut maker = Maker::new(room as u64);
        let sides = [0, 1].map(|side| {
            let inner: Vec<Entry> = (0..5).map(|i| Entry { state: 100 + 2 * i + side, parent: 0 }).collect();
            let inner = maker.array(inner).expect("room");
            let above = (1..=4).map(|state| Entry { state, parent: inner });
            let last = Entry { state: 50 + side, parent: 0 };
            maker.array(above.chain([last]).collect()).expect("room")
        });
        maker.fill_pool(MOST_ENTRIES - room, 20);
        let outcomes = merge_all_ways(&maker.store, sides[0], sides[1], &mut random);
        // 10 entries of the inner union, and 6 above it.
        for outcome in outcomes {
            assert_eq!(outcome.reply == Reply::Refused(6), room < 16, "room {room}");
        }
    }
}

#[test]
fn in_full_stores() {
    let mut random = Random::new(52);
    let mut refused = 0;
    for seed in 0..10 {
        let store = full_store(seed);
        for _ in 0..30 {
            let (left, right) = (narrow(random.below(512)), narrow(random.below(512)));
            let outcomes = merge_all_ways(&store, left, right, &mut random);
            refused += outcomes.iter().filter(|outcome| outcome.reply == Reply::Refused(6)).count();
            for outcome in merge_all_ways(&store, left, left, &mut random) {
                assert_eq!(outcome.reply, Reply::Merged { context: left, merges: 0, made: 0 });
            }
        }
    }
    assert!(refused > 100, "only {refused} refused");
}
