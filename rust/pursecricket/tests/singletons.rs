//! Singletons on random stores, at the ceilings, at the borders of states, and where hashes collide.

mod common;

use common::{BORDER_STATES, agree, any_state, dirty_scratch};
use judge::layout::{DOLLAR, narrow};
use judge::makers::{Maker, full_store, random_store, singletons_over_0};
use judge::random::Random;
use judge::{Call, Entry, Lent, Reply, Store};

/// The reply to a singleton on a store, once it agrees with the judge in every word.
fn singleton(store: &Store, parent: u32, state: u64, random: &mut Random) -> Reply {
    let lent = Lent::new(store.words());
    agree(&lent, &Call::Singleton { parent, state }, &dirty_scratch(random), &"singleton").reply
}

/// A context that was found.
fn found(context: u32) -> Reply {
    Reply::Interned { context, made: 0 }
}

#[test]
fn on_random_stores() {
    let mut random = Random::new(20);
    for round in 0..1_500 {
        let calls = random.below(90);
        let store = random_store(round, calls);
        let parent = narrow(random.below(store.count() + 2));
        let state = any_state(&mut random);
        singleton(&store, parent, state, &mut random);
    }
}

/// One store after another, each from what the port left of the one before.
#[test]
fn from_fresh_to_full() {
    let mut random = Random::new(21);
    let mut words = Store::fresh().words();
    for step in 0..900 {
        let parent = narrow(random.below(words[0] as usize));
        let state = if random.chance(30) { any_state(&mut random) } else { random.below(50) as u64 };
        let call = Call::Singleton { parent, state };
        words = agree(&Lent::new(words), &call, &dirty_scratch(&mut random), &format!("step {step}")).store;
    }
    assert_eq!(words[0], 512);
}

/// "Context 511 is accepted, the next new one refused 6; an old one is still found in the full store."
#[test]
fn the_last_context() {
    let mut random = Random::new(22);
    let almost = singletons_over_0(510);
    assert_eq!(singleton(&almost, 0, 511, &mut random), Reply::Interned { context: 511, made: 1 });
    let full = singletons_over_0(511);
    assert_eq!(singleton(&full, 0, 512, &mut random), Reply::Refused(6));
    assert_eq!(singleton(&full, 511, 1, &mut random), Reply::Refused(6));
    for state in [1, 2, 255, 256, 510, 511] {
        assert_eq!(singleton(&full, 0, state, &mut random), found(state as u32));
    }
    assert_eq!(singleton(&full, 511, u64::MAX, &mut random), found(0));
}

#[test]
fn in_full_stores() {
    let mut random = Random::new(23);
    for seed in 0..10 {
        let store = full_store(seed);
        for context in 0..narrow(store.count()) {
            let entry = store.entries(context)[0];
            let state = if entry.state == DOLLAR { u64::MAX } else { u64::from(entry.state) };
            let reply = singleton(&store, entry.parent, state, &mut random);
            let one_entry = store.entries(context).len() == 1;
            assert!(!one_entry || reply == found(context), "seed {seed}, context {context}");
        }
    }
}

/// 4 before 5, before the empty mark's answer, and before 6; 5 before 6.
#[test]
fn states_at_the_borders() {
    let mut random = Random::new(24);
    let stores = [Store::fresh(), random_store(24, 50), singletons_over_0(511), full_store(24)];
    for store in &stores {
        let count = narrow(store.count());
        for state in BORDER_STATES {
            let reply = singleton(store, count - 1, state, &mut random);
            match state {
                u64::MAX => assert_eq!(reply, found(0)),
                4_294_967_295.. => assert_eq!(reply, Reply::Refused(5)),
                _ if count == 512 => assert_eq!(reply, Reply::Refused(6)),
                // Nothing stands over the newest context.
                _ => assert_eq!(reply, Reply::Interned { context: count, made: 1 }),
            }
            for unknown in [count, count + 1, u32::MAX] {
                assert_eq!(singleton(store, unknown, state, &mut random), Reply::Refused(4));
            }
        }
    }
}

/// The interner hash of document 01 after so many words more.
fn mixed(seed: u64, words: &[u64]) -> u64 {
    words.iter().fold(seed, |hash, word| (hash.rotate_left(5) ^ word).wrapping_mul(0x517c_c1b7_2722_0a95))
}

fn hash(store: &Store, context: u32) -> u64 {
    let entries = store.entries(context);
    let beneath = |entry: &Entry| hash(store, entry.parent);
    match entries {
        _ if context == 0 => mixed(0, &[0]),
        [entry] => mixed(0, &[1, beneath(entry), u64::from(entry.state)]),
        _ => {
            let length = entries.len() as u64;
            let parents: Vec<u64> = entries.iter().map(beneath).collect();
            let states: Vec<u64> = entries.iter().map(|entry| u64::from(entry.state)).collect();
            mixed(mixed(mixed(0, &[2, length]), &parents), &[&[length], &states[..]].concat())
        }
    }
}

/// Arrays or singletons over context 0.
fn over_0(maker: &mut Maker, states: &[u32]) -> u32 {
    let entries = states.iter().map(|&state| Entry { state, parent: 0 }).collect();
    maker.array(entries).expect("room")
}

/// Different contexts of one hash, in one store: made, found again, and not taken for each other.
#[test]
fn colliding_hashes() {
    let mut maker = Maker::new(25);
    let pairs = [
        [maker.chain(0, &[52, 1]), maker.chain(0, &[11_975, 515_144_035])],
        [Some(0), maker.chain(0, &[523_633_496, 999_192_160])],
        [Some(over_0(&mut maker, &[41_776, 946_387_694])), maker.chain(0, &[160_315, 7])],
        [
            Some(over_0(&mut maker, &[7, 1_549_421_363])),
            Some(over_0(&mut maker, &[7, 1_549_421_363, 1_829_705_404])),
        ],
        [
            Some(over_0(&mut maker, &[66_550, 1_311_049_642, 2_147_483_653])),
            Some(over_0(&mut maker, &[963_443, 306_341_760, 2_160_661_468])),
        ],
    ];
    let mut random = Random::new(25);
    for [left, right] in pairs.map(|pair| pair.map(|context| context.expect("room"))) {
        assert_ne!(left, right);
        assert_eq!(hash(&maker.store, left), hash(&maker.store, right), "{left} and {right}");
        // What stands over them then differs in a parent alone, and collides too.
        for state in [3, 4] {
            let next = narrow(maker.store.count());
            for (context, parent) in (next..).zip([left, right]) {
                let made = singleton(&maker.store, parent, state, &mut random);
                assert_eq!(made, Reply::Interned { context, made: 1 });
                maker.singleton(parent, state as u32);
            }
            for (context, parent) in (next..).zip([left, right]) {
                assert_eq!(singleton(&maker.store, parent, state, &mut random), found(context));
            }
        }
    }
    for state in [1, 7, 515_144_035, 999_192_160] {
        for parent in 0..narrow(maker.store.count()) {
            singleton(&maker.store, parent, state, &mut random);
        }
    }
}

/// Colliding singletons made one after another by the port, from a fresh store, in both orders.
#[test]
fn colliding_singletons_from_fresh() {
    let mut random = Random::new(26);
    let chains: [[u64; 2]; 3] = [[52, 1], [11_975, 515_144_035], [523_633_496, 999_192_160]];
    for first in 0..chains.len() {
        let mut words = Store::fresh().words();
        let mut tops = Vec::new();
        for step in 0..2 * chains.len() {
            let mut parent = 0;
            for state in chains[(first + step) % chains.len()] {
                let call = Call::Singleton { parent, state };
                let left = agree(&Lent::new(words), &call, &dirty_scratch(&mut random), &"collision");
                let Reply::Interned { context, made } = left.reply else { panic!("{:?}", left.reply) };
                // The second time round all is there.
                assert_eq!(made, u32::from(step < chains.len()));
                (parent, words) = (context, left.store);
            }
            tops.push(parent);
        }
        assert_eq!(tops, [2, 4, 6, 2, 4, 6]);
    }
}
