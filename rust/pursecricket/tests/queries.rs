//! Entry queries: every context of random and full stores, at every index and past the end.

mod common;

use common::{agree, dirty_scratch};
use judge::layout::{EMPTY_MARK, narrow};
use judge::makers::{full_store, random_store};
use judge::random::Random;
use judge::{Call, Entry, Lent, Reply, Store};

/// All queries about a context, which may be unknown.
fn queries(store: &Store, context: u32) -> Vec<Call> {
    let length = if store.knows(context) { store.entries(context).len() } else { 1 };
    let mut calls = vec![Call::Len { context }, Call::IsEmpty { context }, Call::HasEmptyPath { context }];
    for index in (0..narrow(length) + 2).chain([2_047, 2_048, u32::MAX]) {
        calls.extend([Call::ReturnState { context, index }, Call::Parent { context, index }]);
    }
    calls
}

fn ask_all(store: &Store, contexts: impl Iterator<Item = u32>, random: &mut Random) {
    let lent = Lent::new(store.words());
    let scratch = dirty_scratch(random);
    for context in contexts {
        for call in queries(store, context) {
            agree(&lent, &call, &scratch, &"query");
        }
    }
}

#[test]
fn on_random_stores() {
    let mut random = Random::new(30);
    for round in 0..60 {
        let calls = random.below(40);
        let store = random_store(round, calls);
        let count = narrow(store.count());
        ask_all(&store, (0..count).chain([count, count + 1, 511, 512, u32::MAX]), &mut random);
    }
}

#[test]
fn on_a_full_store() {
    let mut random = Random::new(31);
    let store = full_store(31);
    ask_all(&store, (0..narrow(store.count())).step_by(7).chain([509, 510, 511, 512]), &mut random);
}

/// Document 01's rules for context 0, `$` and an index past the end, by hand.
#[test]
fn context_0_and_the_empty_stack() {
    let mut store = Store::fresh();
    store.singleton(0, 42);
    store.intern(vec![Entry { state: 42, parent: 1 }, Entry { state: u32::MAX, parent: 0 }]);
    let lent = Lent::new(store.words());
    let scratch = dirty_scratch(&mut Random::new(32));
    let none = Reply::Entry(None);
    let expected = [
        (Call::Len { context: 0 }, Reply::Count(1)),
        (Call::Len { context: 1 }, Reply::Count(1)),
        (Call::Len { context: 2 }, Reply::Count(2)),
        (Call::Len { context: 3 }, Reply::Refused(4)),
        (Call::IsEmpty { context: 0 }, Reply::Truth(true)),
        (Call::IsEmpty { context: 2 }, Reply::Truth(false)),
        (Call::HasEmptyPath { context: 0 }, Reply::Truth(true)),
        (Call::HasEmptyPath { context: 1 }, Reply::Truth(false)),
        (Call::HasEmptyPath { context: 2 }, Reply::Truth(true)),
        (Call::ReturnState { context: 0, index: 0 }, Reply::Entry(Some(EMPTY_MARK))),
        (Call::ReturnState { context: 0, index: 1 }, none),
        (Call::Parent { context: 0, index: 0 }, none),
        (Call::Parent { context: 0, index: 1 }, none),
        (Call::ReturnState { context: 1, index: 0 }, Reply::Entry(Some(42))),
        (Call::Parent { context: 1, index: 0 }, Reply::Entry(Some(0))),
        (Call::ReturnState { context: 1, index: 1 }, none),
        (Call::Parent { context: 1, index: 1 }, none),
        (Call::ReturnState { context: 2, index: 0 }, Reply::Entry(Some(42))),
        (Call::Parent { context: 2, index: 0 }, Reply::Entry(Some(1))),
        (Call::ReturnState { context: 2, index: 1 }, Reply::Entry(Some(EMPTY_MARK))),
        (Call::Parent { context: 2, index: 1 }, Reply::Entry(Some(0))),
        (Call::ReturnState { context: 2, index: 2 }, none),
        (Call::Parent { context: 2, index: u32::MAX }, none),
        (Call::ReturnState { context: 3, index: 0 }, Reply::Refused(4)),
        (Call::Parent { context: u32::MAX, index: 0 }, Reply::Refused(4)),
    ];
    for (call, reply) in expected {
        assert_eq!(agree(&lent, &call, &scratch, &"by hand").reply, reply, "{call:?}");
    }
}
