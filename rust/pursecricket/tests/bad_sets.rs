//! Set words that no call left: random ones, damaged ones, and each of document 01's clauses broken; beside
//! sound and unsound stores.

mod common;

use common::dirty_scratch;
use common::sets::{agree, every_kind};
use common::verdicts::agree_on_all;
use judge::layout::{CONFIG_WORDS, CONFIGS_AT, SET_WORDS, STORE_WORDS, narrow};
use judge::makers::{full_store, random_store};
use judge::random::Random;
use judge::set_makers::{MARK, random_set};
use judge::{Config, ConfigSet, Lent, LentSet, Reply, SetCall};

/// Contexts of the stores beside which the small set stands.
const CONTEXTS: usize = 6;

fn store_of(contexts: usize) -> Lent {
    Lent::new(judge::makers::singletons_over_0(narrow(contexts - 1)).words())
}

/// Every kind of call agrees with the judge on these words.
fn try_words(store: &Lent, words: Vec<u32>, random: &mut Random, what: &str) {
    let lent = LentSet::new(store, words);
    let contexts = store.store().map_or(CONTEXTS, |store| store.count());
    let scratch = dirty_scratch(random);
    for call in every_kind(random, lent.set(), contexts) {
        agree(&lent, &call, &scratch, &what);
    }
    agree_on_all(&lent, random, &scratch, &what);
}

/// Besides, they are refused with this number.
fn try_refused(store: &Lent, words: Vec<u32>, number: u32, random: &mut Random, what: &str) {
    let lent = LentSet::new(store, words.clone());
    let outcome = agree(&lent, &SetCall::Close, &dirty_scratch(random), &what);
    assert_eq!(outcome.reply, Reply::Refused(number), "{what}");
    let scratch = dirty_scratch(random);
    let replies = agree_on_all(&lent, random, &scratch, &what);
    assert_eq!(replies, [Reply::Refused(number); 9], "{what}");
    try_words(store, words, random, what);
}

fn random_configs(random: &mut Random) -> usize {
    random.pick(&[0, 1, 2, 10, 60, 255, 256])
}

#[test]
fn random_words() {
    let mut random = Random::new(70);
    for round in 0..400 {
        let mut words = random.words(SET_WORDS);
        if round % 4 > 0 {
            // Past the first tests: a good count and good flags, then small words.
            words[0] = narrow(random.below(257));
            words[1] = narrow(random.below(16));
        }
        if round % 4 > 1 {
            words[CONFIGS_AT..].iter_mut().for_each(|word| *word %= 5);
        }
        if round % 4 > 2 {
            let end = CONFIGS_AT + CONFIG_WORDS * words[0] as usize;
            words[end..].fill(0);
        }
        let calls = random.between(1, 40);
        let store = Lent::new(random_store(round, calls).words());
        try_words(&store, words, &mut random, &format!("round {round}"));
    }
}

#[test]
fn one_bit_flipped() {
    let mut random = Random::new(71);
    for round in 0..3_000 {
        let store = random_store(round % 50, 30);
        let configs = random_configs(&mut random);
        let mut words = random_set(&mut random, configs, store.count()).words();
        // Mostly in words that are in use.
        let at = match random.below(4) {
            0 => random.below(SET_WORDS),
            1 => random.below(CONFIGS_AT),
            _ => random.below(CONFIGS_AT + CONFIG_WORDS * configs.max(1)),
        };
        let bit = random.below(32);
        words[at] ^= 1 << bit;
        let what = format!("round {round}, {configs} configs, bit {bit} of word {at}");
        try_words(&Lent::new(store.words()), words, &mut random, &what);
    }
}

/// Three configs; the first has a semantic id, the last reaches out.
fn small_set() -> Vec<u32> {
    let configs = [[7, 1, 5, 9, 0, 3], [7, 2, 0, 0, 0, MARK], [7, 2, 1, 0, 4, 1]];
    let configs = configs.map(Config::of).to_vec();
    ConfigSet { configs, full_context: true, read_only: false }.words()
}

/// The place of a config's word.
const fn word(place: usize, offset: usize) -> usize {
    CONFIGS_AT + CONFIG_WORDS * place + offset
}

fn try_changed(changes: &[(usize, u32)], random: &mut Random, what: &str) {
    let mut words = small_set();
    for &(at, word) in changes {
        words[at] = word;
    }
    try_refused(&store_of(CONTEXTS), words, 3, random, what);
}

#[test]
fn counts() {
    let mut random = Random::new(72);
    for count in [0, 1, 2, 5, 255, 256, 257, 258, 1 << 31, u32::MAX - 1, u32::MAX] {
        try_changed(&[(0, count)], &mut random, &format!("count {count}"));
    }
    // With the words of a full set beneath.
    let store = random_store(72, 20);
    let full = random_set(&mut random, 256, store.count()).words();
    let store = Lent::new(store.words());
    for count in [0, 255, 257, 512, 1 << 31, u32::MAX] {
        let mut words = full.clone();
        words[0] = count;
        try_refused(&store, words, 3, &mut random, &format!("count {count} of a full set"));
    }
    try_words(&store, full, &mut random, "256");
}

#[test]
fn flags() {
    let mut random = Random::new(73);
    try_words(&store_of(CONTEXTS), small_set(), &mut random, "good");
    for (without, what) in [(word(0, 3), "semantic id"), (word(2, 4), "reach")] {
        for flags in 0..16 {
            let mut words = small_set();
            words[1] = flags;
            try_words(&store_of(CONTEXTS), words.clone(), &mut random, &format!("flags {flags}"));
            words[without] = 0;
            let what = format!("flags {flags} and no {what}");
            try_words(&store_of(CONTEXTS), words, &mut random, &what);
        }
    }
    let (semantic, dips) = (2, 4);
    try_changed(&[(1, 1 | dips)], &mut random, "flag 2 is missing");
    try_changed(&[(1, 1 | semantic)], &mut random, "flag 4 is missing");
    try_changed(&[(word(0, 3), 0)], &mut random, "flag 2 for nothing");
    try_changed(&[(word(2, 4), 0)], &mut random, "flag 4 for nothing");
    for bit in 4..32 {
        try_changed(&[(1, 1 << bit | 7)], &mut random, &format!("flag bit {bit}"));
    }
    try_changed(&[(1, u32::MAX)], &mut random, "all flags");
}

#[test]
fn empty_sets_with_flags() {
    let mut random = Random::new(74);
    for flags in 0..64 {
        let mut words = vec![0; SET_WORDS];
        words[1] = flags;
        let sound = [0, 1, 8, 9].contains(&flags);
        let lent = store_of(CONTEXTS);
        let outcome =
            agree(&LentSet::new(&lent, words.clone()), &SetCall::Close, &dirty_scratch(&mut random), &flags);
        assert_eq!(outcome.reply == Reply::Done, sound, "flags {flags}");
        try_words(&lent, words, &mut random, &format!("flags {flags}"));
    }
}

#[test]
fn equal_keys() {
    let mut random = Random::new(75);
    try_changed(&[(word(2, 5), 0)], &mut random, "an equal key that differs in bit 31");
    try_changed(&[(word(2, 5), MARK)], &mut random, "an equal key with the same bit 31");
    for round in 0..200 {
        let configs = random.between(2, 256);
        let mut set = random_set(&mut random, configs, CONTEXTS);
        let (one, other) = (random.below(configs), random.below(configs));
        if one == other {
            continue;
        }
        let Config { context, .. } = set.configs[other];
        set.configs[other] = Config { context, ..set.configs[one] };
        if random.chance(50) {
            set.configs[other].provenance ^= MARK;
        }
        let what = format!("round {round}: configs {one} and {other} of {configs}");
        try_refused(&store_of(CONTEXTS), set.words(), 3, &mut random, &what);
    }
}

#[test]
fn unknown_contexts() {
    let mut random = Random::new(76);
    for context in [6, 7, 511, 512, 1 << 31, u32::MAX] {
        for place in 0..3 {
            let what = format!("config {place} over {context}");
            try_changed(&[(word(place, 2), context)], &mut random, &what);
        }
    }
    // A set is as sound as its store has contexts.
    let mut set = small_set();
    for contexts in 1..=8 {
        let what = format!("{contexts} contexts");
        match contexts {
            ..6 => try_refused(&store_of(contexts), set.clone(), 3, &mut random, &what),
            _ => try_words(&store_of(contexts), set.clone(), &mut random, &what),
        }
    }
    set[word(0, 2)] = 511;
    try_words(&store_of(512), set.clone(), &mut random, "context 511 of 512");
    try_refused(&store_of(511), set, 3, &mut random, "context 511 of 511");
}

#[test]
fn words_past_the_end() {
    let mut random = Random::new(77);
    for at in [word(3, 0), word(3, 1), word(3, 5), word(4, 0), word(255, 0), SET_WORDS - 1] {
        for changed in [1, 2, MARK, u32::MAX] {
            try_changed(&[(at, changed)], &mut random, &format!("word {at} made {changed}"));
        }
    }
    // The last words of a set of 255 are past its end, those of a set of 256 are not.
    for configs in [255, 256] {
        let store = random_store(77, 20);
        let mut words = random_set(&mut random, configs, store.count()).words();
        words[SET_WORDS - 1] ^= MARK;
        let store = Lent::new(store.words());
        let sound = LentSet::new(&store, words.clone()).set().is_some();
        assert_eq!(sound, configs == 256);
        try_words(&store, words, &mut random, &format!("{configs} configs"));
    }
}

/// An unsound store comes before an unsound set.
#[test]
fn beside_unsound_stores() {
    let mut random = Random::new(78);
    let whole = full_store(78).words();
    for round in 0..400 {
        let mut store = whole.clone();
        match random.below(3) {
            0 => store = random.words(STORE_WORDS),
            1 => store[random.below(2_000)] = random.word(),
            _ => store[0] = random.pick(&[0, 511, 513, u32::MAX]),
        }
        let store = Lent::new(store);
        let configs = random_configs(&mut random);
        let mut set = random_set(&mut random, configs, 512).words();
        if random.chance(50) {
            set[random.below(SET_WORDS)] ^= 1 << random.below(32);
        }
        let what = format!("round {round}");
        match store.store() {
            Some(_) => try_words(&store, set, &mut random, &what),
            None => try_refused(&store, set, 1, &mut random, &what),
        }
    }
}

#[test]
fn any_scratch() {
    let mut random = Random::new(79);
    for round in 0..400 {
        let calls = random.between(1, 120);
        let store = random_store(round, calls);
        let configs = random_configs(&mut random);
        let set = random_set(&mut random, configs, store.count());
        try_words(&Lent::new(store.words()), set.words(), &mut random, &format!("round {round}"));
    }
}
