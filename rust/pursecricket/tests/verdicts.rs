//! The questions about a set's subsets against the judge: document 01's examples, stop lists, every small set,
//! states and alternatives at the borders, and groups of one bucket.

mod common;

use common::dirty_scratch;
use common::verdicts::{agree, agree_on_all, any_stops, dirty_output, every_kind};
use judge::layout::{CONFLICT_WORDS, MOST_STOPS, SCRATCH_WORDS, SUBSET_WORDS, narrow};
use judge::makers::{full_store, random_store, singletons_over_0};
use judge::random::Random;
use judge::set_makers::{full_set, random_set};
use judge::{Config, ConfigSet, Lent, LentSet, Reply, VerdictCall};

const NONE: Reply = Reply::Alternative(None);
const YES: Reply = Reply::Truth(true);
const NO: Reply = Reply::Truth(false);

const fn only(alternative: u32) -> Reply {
    Reply::Alternative(Some(alternative))
}

/// Configs by state, alternative and context; their places make keys of their own.
fn set_of(configs: &[[u32; 3]]) -> ConfigSet {
    let config = |(place, &[state, alternative, context]): (usize, &[u32; 3])| {
        Config::of([state, alternative, context, 0, 0, narrow(place)])
    };
    ConfigSet { configs: configs.iter().enumerate().map(config).collect(), ..ConfigSet::fresh(true) }
}

/// Unique and viable alternative, all conflict, all equal, and the verdict with these stop states.
fn answers(store: &Lent, set: &ConfigSet, stops: &[u32], random: &mut Random) -> [Reply; 5] {
    let (lent, scratch) = (LentSet::new(store, set.words()), dirty_scratch(random));
    every_kind(stops.to_vec()).map(|call| agree(&lent, &call, &scratch, &format_args!("{set:?}")))
}

fn store_of(contexts: u32) -> Lent {
    Lent::new(singletons_over_0(contexts - 1).words())
}

/// P10 to P12, and sets whose subsets share some but not all.
#[test]
fn examples() {
    let (store, mut random) = (store_of(3), Random::new(100));
    let cases: [(&[[u32; 3]], [Reply; 5]); 9] = [
        (&[], [NONE, NONE, YES, YES, YES]),
        (&[[7, 2, 1], [7, 1, 1]], [NONE, only(1), YES, YES, YES]),
        (&[[7, 2, 1], [7, 1, 1], [8, 2, 1]], [NONE, NONE, NO, NO, NO]),
        // One config, one alternative; of 0, which is not none.
        (&[[7, 0, 1]], [only(0), only(0), NO, YES, NO]),
        (&[[7, 0, 1], [8, 0, 2]], [only(0), only(0), NO, YES, NO]),
        // By state alone there would be a conflict.
        (&[[7, 1, 1], [7, 2, 2]], [NONE, NONE, NO, NO, NO]),
        // The same first alternatives, not the same ones.
        (&[[7, 1, 1], [7, 2, 1], [8, 1, 1], [8, 3, 1]], [NONE, only(1), YES, NO, YES]),
        // Viable by the least, not by the first.
        (&[[7, 3, 1], [7, 1, 1], [8, 1, 1], [8, 4, 1]], [NONE, only(1), YES, NO, YES]),
        // A subset of one, whose state has another.
        (&[[7, 1, 1], [7, 2, 1], [7, 1, 2]], [NONE, only(1), NO, NO, YES]),
    ];
    for (configs, expected) in cases {
        assert_eq!(answers(&store, &set_of(configs), &[], &mut random), expected, "{configs:?}");
    }
}

/// Stop states count only where every config is in one; how often and in what order is the same.
#[test]
fn stop_states() {
    let (store, mut random) = (store_of(3), Random::new(101));
    let set = set_of(&[[7, 1, 1], [8, 2, 1], [9, 1, 2]]);
    let lent = LentSet::new(&store, set.words());
    let cases: [(&[u32], Reply); 10] = [
        (&[], NO),
        (&[7], NO),
        (&[7, 8], NO),
        (&[9, 9, 9], NO),
        (&[0, u32::MAX], NO),
        (&[7, 8, 9], YES),
        (&[9, 8, 7], YES),
        (&[9, 7, 9, 8, 7, 7], YES),
        (&[0, 9, 1, 8, u32::MAX, 7], YES),
        (&[7, 8, 10], NO),
    ];
    for (stops, expected) in cases {
        let call = VerdictCall::Verdict(stops.to_vec());
        assert_eq!(agree(&lent, &call, &dirty_scratch(&mut random), &"stops"), expected, "{stops:?}");
    }
}

/// 64 are taken, the last of them too, and 65 refused, of whatever set.
#[test]
fn lengths_of_stop_lists() {
    let (store, mut random) = (store_of(3), Random::new(102));
    let sets = [set_of(&[]), set_of(&[[7, 1, 1]]), full_set(&mut random, 3)];
    for set in sets {
        let lent = LentSet::new(&store, set.words());
        for length in [0, 1, 2, 63, 64, 65, 66, 128, 1_000, 100_000] {
            for filler in [0, 7, u32::MAX] {
                let mut stops = vec![filler; length];
                stops.last_mut().into_iter().for_each(|last| *last = 7);
                let reply = agree(&lent, &VerdictCall::Verdict(stops), &dirty_scratch(&mut random), &length);
                assert_eq!(reply == Reply::Refused(10), length > MOST_STOPS, "{length}");
                if set.configs.len() == 1 {
                    let expected = [NO, YES][usize::from(length > 0)];
                    assert!(length > MOST_STOPS || reply == expected, "{length} of {filler}");
                }
            }
        }
    }
}

/// Refusals in their order: a length, the store, the set, the stop states.
#[test]
fn order_of_refusals() {
    let mut random = Random::new(103);
    let good = [store_of(3).words().to_vec(), set_of(&[[7, 1, 2]]).words(), random.words(16_384)];
    for faults in 0..16_u32 {
        let has = |fault: u32| faults & (1 << fault) != 0;
        let [mut store, mut set, mut scratch] = good.clone();
        if has(0) {
            match faults % 3 {
                0 => store.push(0),
                1 => drop(set.pop()),
                _ => scratch.push(1),
            }
        }
        if has(1) {
            store[0] = 0;
        }
        if has(2) {
            set[4] = 3;
        }
        let stops = vec![7; if has(3) { 65 } else { 64 }];
        let lent = Lent::new(store);
        let lent = LentSet::new(&lent, set);
        let first = [2, 1, 3, 10].into_iter().zip(0..).find(|&(_, fault)| has(fault));
        let expected = first.map_or(YES, |(number, _)| Reply::Refused(number));
        let reply = agree(&lent, &VerdictCall::Verdict(stops), &scratch, &faults);
        assert_eq!(reply, expected, "faults {faults:b}");
    }
}

/// Output words of any other length are refused before store and set are looked at, and stay.
#[test]
fn lengths_of_outputs() {
    let mut random = Random::new(109);
    let sound = store_of(3);
    let unsound = Lent::new(vec![0; 5_634]);
    let lengths = [0, 1, 256, 257, 258, 1_024, 1_025, 1_026, 5_634, SCRATCH_WORDS];
    for store in [&sound, &unsound] {
        for set in [set_of(&[[7, 2, 1], [7, 1, 1]]), full_set(&mut random, 3)] {
            let lent = LentSet::new(store, set.words());
            for length in lengths {
                let calls: [(fn(Vec<u32>) -> VerdictCall, usize); 2] = [
                    (VerdictCall::ConflictingAltSubsets, SUBSET_WORDS),
                    (VerdictCall::ConflictingAlts, CONFLICT_WORDS),
                ];
                for (call, right) in calls {
                    let call = call(dirty_output(&mut random, length));
                    let reply = agree(&lent, &call, &dirty_scratch(&mut random), &length);
                    assert_eq!(reply == Reply::Refused(2), length != right, "{length}");
                }
            }
        }
    }
}

/// 256 subsets of one alternative fill 1,025 words; 256 alternatives of one subset fill 257.
#[test]
fn full_outputs() {
    let (store, mut random) = (store_of(512), Random::new(112));
    let apart: Vec<[u32; 3]> = (0..256).map(|n| [u32::MAX, u32::MAX - n, n]).collect();
    let together: Vec<[u32; 3]> = (0..256).rev().map(|n| [0, u32::MAX - n, 511]).collect();
    for configs in [apart, together] {
        let set = set_of(&configs);
        let lent = LentSet::new(&store, set.words());
        let scratch = dirty_scratch(&mut random);
        agree_on_all(&lent, &mut random, &scratch, &"full");
    }
}

/// Every set of triples of two states, two contexts and three alternatives, rising or in any order.
#[test]
fn every_small_set() {
    let (store, mut random) = (store_of(2), Random::new(104));
    let triples: Vec<[u32; 3]> = (0..12).map(|n| [7 + n % 2, n / 4, n / 2 % 2]).collect();
    let scratch = dirty_scratch(&mut random);
    let mut settled = [0; 2];
    for chosen in 0..1 << triples.len() {
        let mut configs = triples.clone();
        let mut numbers = 0..triples.len();
        configs.retain(|_| chosen >> numbers.next().expect("one a triple") & 1 == 1);
        if random.chance(50) {
            (1..configs.len()).for_each(|at| configs.swap(at, random.below(at + 1)));
        }
        let set = set_of(&configs);
        let lent = LentSet::new(&store, set.words());
        for stops in [vec![], vec![8], vec![8, 7, 8]] {
            let call = VerdictCall::Verdict(stops);
            settled[usize::from(agree(&lent, &call, &scratch, &format_args!("{configs:?}")) == YES)] += 1;
        }
        agree_on_all(&lent, &mut random, &scratch, &format_args!("{configs:?}"));
    }
    assert!(settled.iter().all(|&sets| sets > 1_000), "{settled:?}");
}

/// States, alternatives and stop states 0, 1 and 2^32 - 1, and those beside them.
#[test]
fn border_words() {
    let (store, mut random) = (store_of(4), Random::new(105));
    let border = [0, 1, 1 << 31, u32::MAX - 1, u32::MAX];
    for round in 0..3_000 {
        let any = |random: &mut Random| random.pick(&border);
        let configs: Vec<[u32; 3]> = (0..random.between(1, 12))
            .map(|_| [any(&mut random), any(&mut random), narrow(random.below(4))])
            .collect();
        let set = set_of(&configs);
        let stops: Vec<u32> = (0..random.pick(&[0, 1, 3, 20])).map(|_| any(&mut random)).collect();
        let replies = answers(&store, &set, &stops, &mut random);
        assert!(!replies.contains(&Reply::Refused(10)), "round {round}");
    }
    for alternative in border {
        let set = set_of(&[[0, alternative, 0], [u32::MAX, alternative, 3]]);
        let found = only(alternative);
        assert_eq!(answers(&store, &set, &[], &mut random), [found, found, NO, YES, NO]);
        assert_eq!(answers(&store, &set, &[u32::MAX, 0], &mut random)[4], YES);
    }
}

/// 256 configs whose places, states and triples the port's mixing takes for one.
#[test]
fn groups_of_one_bucket() {
    let (store, mut random) = (store_of(512), Random::new(106));
    let keys: [fn(u32, u32) -> [u32; 3]; 4] = [
        |k, alternative| [31 * k, alternative, 300 - k],
        |k, alternative| [961 * k, 300 - k + alternative, 0],
        |k, alternative| [(1 << 31) + 31 * k, alternative, 300 - k],
        |k, alternative| [7, 300 - k, 31 * (k % 16) + alternative],
    ];
    for key in keys {
        for count in [2, 3, 127, 255, 256] {
            for each in [1, 2, 3] {
                let configs: Vec<[u32; 3]> = (0..count).map(|n| key(n / each, n % each)).collect();
                let stops = any_stops(&mut random, &set_of(&configs).configs);
                answers(&store, &set_of(&configs), &stops, &mut random);
            }
        }
    }
    // No two of a place, then two of each.
    let apart: Vec<[u32; 3]> = (0..256).map(|n| keys[0](n, 1)).collect();
    assert_eq!(answers(&store, &set_of(&apart), &[], &mut random), [only(1), only(1), NO, YES, NO]);
    let pairs: Vec<[u32; 3]> = (0..256).map(|n| keys[0](n % 128, n / 128)).collect();
    assert_eq!(answers(&store, &set_of(&pairs), &[], &mut random), [NONE, only(0), YES, YES, YES]);
}

/// Full sets: one group, 256 groups, 256 states, and one config that breaks what the others share.
#[test]
fn full_sets() {
    let (store, mut random) = (store_of(512), Random::new(107));
    let one_group: Vec<[u32; 3]> = (0..256).rev().map(|n| [7, n, 511]).collect();
    assert_eq!(answers(&store, &set_of(&one_group), &[], &mut random), [NONE, only(0), YES, YES, YES]);
    let states: Vec<[u32; 3]> = (0..256).map(|n| [n, 5, n]).collect();
    assert_eq!(answers(&store, &set_of(&states), &[], &mut random), [only(5), only(5), NO, YES, NO]);
    for at in [0, 1, 127, 128, 254, 255] {
        let mut pairs: Vec<[u32; 3]> = (0..256).map(|n| [n / 2, n % 2, n / 4]).collect();
        assert_eq!(answers(&store, &set_of(&pairs), &[], &mut random), [NONE, only(0), YES, YES, YES]);
        pairs[at][1] = 2;
        let viable = if at % 2 == 0 { NONE } else { only(0) };
        assert_eq!(answers(&store, &set_of(&pairs), &[], &mut random), [NONE, viable, YES, NO, YES], "{at}");
        // The other one's alternative: a state and a subset of one.
        pairs[at][1] = pairs[at ^ 1][1];
        assert_eq!(answers(&store, &set_of(&pairs), &[], &mut random), [NONE, viable, NO, NO, NO], "{at}");
        // Over another context: the state has still two.
        pairs[at] = [narrow(at / 2), 9, 400];
        assert_eq!(answers(&store, &set_of(&pairs), &[], &mut random), [NONE, NONE, NO, NO, YES], "{at}");
    }
}

/// Any sound sets beside any stores, full ones too, with any scratch.
#[test]
fn on_random_sets() {
    let mut random = Random::new(108);
    let full = full_store(108);
    for round in 0..3_000 {
        let calls = random.between(1, 90);
        let store = if round % 10 == 0 { full.clone() } else { random_store(round, calls) };
        let contexts = if random.chance(50) { 2.min(store.count()) } else { store.count() };
        let configs = random.pick(&[0, 1, 2, 3, 4, 6, 9, 20, 100, 255, 256]);
        let set = random_set(&mut random, configs, contexts);
        let lent = Lent::new(store.words());
        let lent = LentSet::new(&lent, set.words());
        let scratch = dirty_scratch(&mut random);
        agree_on_all(&lent, &mut random, &scratch, &format_args!("round {round}"));
    }
}
