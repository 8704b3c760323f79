//! Singletons beside plain Rust with the same duties, and beside the floor: one pass over the store's words
//! and one clearing of the scratch's.

use std::hint::black_box;

use judge::layout::{RECORDS_AT, SCRATCH_WORDS, narrow};
use judge::makers::{full_store, singletons_over_0};
use judge::{Entry, Store};
use pursecricket::{ContextId, ReturnState, raw};

use crate::plain::{self, Interned};
use crate::rounds::best_of;

/// A singleton on a store, and what both sides must say.
struct Case {
    what: &'static str,
    store: Store,
    parent: u32,
    state: u32,
    /// The singleton, or a refusal's number.
    answer: Result<Interned, u32>,
}

/// The words that both sides are lent, in the same place.
struct Lent {
    store: Vec<u32>,
    scratch: Vec<u32>,
}

impl Lent {
    fn new(store: &Store) -> Self {
        Lent { store: store.words(), scratch: vec![0; SCRATCH_WORDS] }
    }

    /// Takes a context out again that a call has made.
    fn undo(&mut self, count: u32) {
        if self.store[0] != count {
            let at = RECORDS_AT + 3 * count as usize;
            self.store[at..at + 3].fill(0);
            self.store[0] = count;
        }
    }
}

pub fn time_all() {
    for case in cases() {
        time(&case);
    }
}

fn cases() -> [Case; 5] {
    let (singletons, full) = (singletons_over_0(511), full_store(1));
    let (old, entry) = newest_singleton(&full);
    let fresh = Store::fresh();
    let found = |context| Ok(Interned { context, made: 0 });
    [
        case("a fresh store, made", &fresh, 0, 7, Ok(Interned { context: 1, made: 1 })),
        case("511 singletons, found", &singletons, 0, 300, found(300)),
        case("511 singletons, refused 6", &singletons, 0, 512, Err(6)),
        case("512 contexts and a full pool, found", &full, entry.parent, entry.state, found(old)),
        case("512 contexts and a full pool, refused 6", &full, 511, 1, Err(6)),
    ]
}

fn case(what: &'static str, store: &Store, parent: u32, state: u32, answer: Result<Interned, u32>) -> Case {
    Case { what, store: store.clone(), parent, state, answer }
}

fn newest_singleton(store: &Store) -> (u32, Entry) {
    let newest = (1..narrow(store.count())).rev().find(|&context| store.entries(context).len() == 1);
    let newest = newest.expect("a full store has singletons");
    (newest, store.entries(newest)[0])
}

fn time(case: &Case) {
    let count = narrow(case.store.count());
    let [mut port, mut plain, mut floor] = [(); 3].map(|()| Lent::new(&case.store));
    let best = best_of(
        100,
        [
            &mut || {
                assert_eq!(port_singleton(&mut port, case), case.answer);
                port.undo(count);
            },
            &mut || {
                assert_eq!(plain_singleton(&mut plain, case), case.answer);
                plain.undo(count);
            },
            &mut || {
                black_box(pass_over(&floor.store));
                clear(&mut floor.scratch);
            },
        ],
    );
    report(case.what, best);
}

fn port_singleton(lent: &mut Lent, case: &Case) -> Result<Interned, u32> {
    let (parent, state) = (ContextId(black_box(case.parent)), ReturnState(black_box(case.state.into())));
    match raw::singleton(&mut lent.store, &mut lent.scratch, parent, state) {
        Ok(interned) => Ok(Interned { context: interned.context.0, made: interned.made }),
        Err(refusal) => Err(refusal.number()),
    }
}

fn plain_singleton(lent: &mut Lent, case: &Case) -> Result<Interned, u32> {
    let (parent, state) = (black_box(case.parent), black_box(case.state.into()));
    plain::singleton(&mut lent.store, &mut lent.scratch, parent, state)
}

#[inline(never)]
fn pass_over(words: &[u32]) -> u32 {
    words.iter().fold(0, |seen, word| seen | word)
}

#[inline(never)]
fn clear(words: &mut [u32]) {
    words.fill(0);
}

fn report(what: &str, [port, plain, floor]: [f64; 3]) {
    let (ratio, to_floor) = (port / plain, port / floor);
    println!(
        "singleton on {what}: port {port:.0} ns, plain Rust {plain:.0} ns, ratio {ratio:.2}; \
         floor {floor:.0} ns, port to floor {to_floor:.2}"
    );
}
