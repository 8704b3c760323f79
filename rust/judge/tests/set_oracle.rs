//! The judge beside the runtime's own code on config sets: replies, and every word of store and set, after
//! every record.

use judge::layout::SCRATCH_WORDS;
use judge::{Call, Config, ConfigSet, Lent, LentSet, Reply, SetCall};
use oracle::generate;
use oracle::prediction::driver::Machine;
use oracle::record::{Kinds, Mode, Record, split};
use oracle::reply;

/// Store and set between calls.
struct Words {
    store: Vec<u32>,
    set: Vec<u32>,
}

fn on_the_store(words: &mut Words, call: &Call) -> Reply {
    let outcome = Lent::new(words.store.clone()).outcome(call, &vec![7; SCRATCH_WORDS]);
    words.store = outcome.store;
    outcome.reply
}

fn on_the_set(words: &mut Words, call: &SetCall) -> Reply {
    let scratch = vec![7; SCRATCH_WORDS];
    let outcome = LentSet::new(&Lent::new(words.store.clone()), words.set.clone()).outcome(call, &scratch);
    // Only a fresh set is lent no scratch.
    let left = if matches!(call, SetCall::Fresh { .. }) { 7 } else { 0 };
    assert!(outcome.scratch.iter().all(|&word| word == left), "the scratch after {call:?}");
    (words.store, words.set) = (outcome.store, outcome.set);
    outcome.reply
}

/// The judge's reply to a record; `None` where it only asks.
fn judged(words: &mut Words, record: &Record) -> Option<Reply> {
    let reply = match *record {
        Record::Singleton { parent, state } => on_the_store(words, &Call::Singleton { parent, state }),
        Record::Merge { left, right, mode } => {
            on_the_store(words, &Call::Merge { left, right, wildcard: mode == Mode::Wildcard })
        }
        Record::NewSet { mode } => on_the_set(words, &SetCall::Fresh { full_context: mode == Mode::Full }),
        Record::Add(config) => on_the_set(words, &SetCall::Add(Config::of(config.words()))),
        Record::Close => on_the_set(words, &SetCall::Close),
        Record::Stops(_) | Record::Verdict | Record::Why | Record::Show { .. } => return None,
    };
    Some(reply)
}

fn theirs(machine: &mut Machine, record: &Record) -> Reply {
    match machine.call(record) {
        Ok(reply::Reply::Context { number: context, made }) if matches!(record, Record::Merge { .. }) => {
            Reply::Merged { context, merges: machine.merges_of_last_call(), made }
        }
        Ok(reply::Reply::Context { number: context, made }) => Reply::Interned { context, made },
        Ok(reply::Reply::Added { inserted, made }) => {
            Reply::Added { inserted, merges: machine.merges_of_last_call(), made }
        }
        Ok(reply::Reply::NewSet | reply::Reply::Closed) => Reply::Done,
        Ok(other) => panic!("{record:?} answers {other:?}"),
        Err(refusal) => Reply::Refused(refusal.0.into()),
    }
}

#[test]
fn generated_scripts() {
    let mut compared = 0;
    let heavy = (0..3).map(|index| generate::heavy_script(31, index, Kinds::All));
    let others = (0..1_000).map(|index| generate::script(31, index, Kinds::All));
    for (index, made) in heavy.chain(others).enumerate() {
        let (records, _) = split(&made.script, Kinds::All);
        if !records.iter().any(|record| matches!(record, Record::Add(_))) {
            continue;
        }
        let mut machine = Machine::new();
        let mut words = Words { store: machine.store_words(), set: ConfigSet::fresh(true).words() };
        for (at, record) in records.iter().enumerate().take(600) {
            let Some(reply) = judged(&mut words, record) else {
                continue;
            };
            let what = format!("script {index}, '{}', record {at}: {record:?}", made.family);
            assert_eq!(reply, theirs(&mut machine, record), "{what}");
            assert!(words.store == machine.store_words(), "{what}: the store");
            assert!(words.set == machine.set_words(), "{what}: the set");
            compared += usize::from(matches!(record, Record::Add(_)));
        }
    }
    assert!(compared > 4_000, "only {compared} configs");
}
