//! Merges beside the original: what a call costs above its fixed part (check, index, clear), which is that of
//! a merge of a context with itself in the same store.

use std::hint::black_box;
use std::time::Instant;

use judge::layout::SCRATCH_WORDS;
use oracle::generate;
use oracle::prediction::driver::Machine;
use oracle::record::{Kinds, Mode, Record, split};
use oracle::reply::Reply;
use pursecricket::{ContextId, raw};

use crate::rounds::best_of;

/// A merge in the store that these records leave.
struct Case {
    what: String,
    records: Vec<Record>,
    left: u32,
    right: u32,
    mode: Mode,
}

/// Records under way, run as they are put.
#[derive(Default)]
struct Builder {
    machine: Machine,
    records: Vec<Record>,
}

impl Builder {
    fn put(&mut self, record: Record) -> u32 {
        let context = context(&mut self.machine, &record);
        self.records.push(record);
        context
    }

    fn singleton(&mut self, parent: u32, state: u64) -> u32 {
        self.put(Record::Singleton { parent, state })
    }

    fn merge(&mut self, left: u32, right: u32) -> u32 {
        self.put(Record::Merge { left, right, mode: Mode::Full })
    }

    fn chain(&mut self, base: u32, depth: u64) -> u32 {
        (1..=depth).fold(base, |below, state| self.singleton(below, state))
    }

    /// An array of singletons, by halves: one after another would fill the pool.
    fn array(&mut self, singletons: &[u32]) -> u32 {
        if let [single] = singletons {
            return *single;
        }
        let (low, high) = singletons.split_at(singletons.len() / 2);
        let (low, high) = (self.array(low), self.array(high));
        self.merge(low, high)
    }

    fn case(self, what: String, left: u32, right: u32, mode: Mode) -> Case {
        Case { what, records: self.records, left, right, mode }
    }
}

/// The number that a record of the store answers.
fn context(machine: &mut Machine, record: &Record) -> u32 {
    match machine.call(record) {
        Ok(Reply::Context { number, .. }) => number,
        other => panic!("{record:?} answers {other:?}"),
    }
}

pub fn time_all() {
    for depth in [10, 100, 250] {
        time_again(&chains_to_the_root(depth));
        time_again(&chains_contained(depth));
    }
    for depth in [10, 100] {
        time_made(&chains_apart(depth));
    }
    for width in [2, 16, 64] {
        time_again(&arrays_apart(width));
        time_made(&arrays_apart(width));
        time_again(&arrays_that_meet(width));
        time_made(&arrays_that_meet(width));
    }
    time_again(&many_pairs());
}

/// By wildcard the chain over context 0 is the answer: every level is met and nothing made.
fn chains_to_the_root(depth: u64) -> Case {
    let mut builder = Builder::default();
    let other = builder.singleton(0, 1_000);
    let (left, right) = (builder.chain(0, depth), builder.chain(other, depth));
    builder.case(format!("wildcard merge of chains {depth} deep"), left, right, Mode::Wildcard)
}

/// The right chain's set holds the left one's: every level is met and nothing made.
fn chains_contained(depth: u64) -> Case {
    let mut builder = Builder::default();
    let other = builder.singleton(0, 1_000);
    let both = builder.merge(0, other);
    let (left, right) = (builder.chain(0, depth), builder.chain(both, depth));
    builder.case(format!("full merge of chains {depth} deep, one in the other"), left, right, Mode::Full)
}

/// Every level is met and made.
fn chains_apart(depth: u64) -> Case {
    let mut builder = Builder::default();
    let bottoms = [1_000, 2_000].map(|state| builder.singleton(0, state));
    let [left, right] = bottoms.map(|bottom| builder.chain(bottom, depth));
    builder.case(format!("full merge of chains {depth} deep"), left, right, Mode::Full)
}

/// No state is on both sides.
fn arrays_apart(width: u64) -> Case {
    let mut builder = Builder::default();
    let [left, right] = [0, 1].map(|side| {
        let states = (0..width).map(|i| 2 * i + side);
        let singletons: Vec<u32> = states.map(|state| builder.singleton(0, state)).collect();
        builder.array(&singletons)
    });
    builder.case(format!("full merge of arrays of {width}, no state shared"), left, right, Mode::Full)
}

/// Every state is on both sides, over different parents.
fn arrays_that_meet(width: u64) -> Case {
    let mut builder = Builder::default();
    let [left, right] = [1_000, 2_000].map(|first| {
        let over_own = |builder: &mut Builder, state| {
            let parent = builder.singleton(0, first + state);
            builder.singleton(parent, state)
        };
        let singletons: Vec<u32> = (0..width).map(|state| over_own(&mut builder, state)).collect();
        builder.array(&singletons)
    });
    builder.case(format!("full merge of arrays of {width}, every state shared"), left, right, Mode::Full)
}

/// Results that the port keeps in a call, where the original keeps all; a merge of more pairs than that is no
/// fair case.
const RESULTS_KEPT: usize = 1_024;

/// Of the generator's family of that name, the merge with the most different inner pairs up to that.
fn many_pairs() -> Case {
    let mut most = (0, None);
    for index in 0..4_000 {
        let made = generate::script(1, index, Kinds::Store);
        if made.family != "many pairs" {
            continue;
        }
        let (records, _) = split(&made.script, Kinds::Store);
        let mut machine = Machine::new();
        for (at, record) in records.iter().enumerate() {
            let answer = machine.call(record);
            let pairs = machine.pairs_of_last_call();
            if answer.is_ok() && most.0 < pairs && pairs <= RESULTS_KEPT {
                most = (pairs, Some((records[..at].to_vec(), record.clone())));
            }
        }
    }
    let (pairs, found) = most;
    let Some((records, Record::Merge { left, right, mode })) = found else {
        panic!("the generator has a family with many pairs");
    };
    assert!(pairs > 900, "only {pairs} pairs");
    Case { what: format!("merge of {pairs} different pairs"), records, left, right, mode }
}

/// One side's store, built by the case's records.
fn built(case: &Case) -> Machine {
    let mut machine = Machine::new();
    for record in &case.records {
        machine.call(record).expect("was accepted when the case was made");
    }
    machine
}

impl Case {
    fn record(&self) -> Record {
        Record::Merge { left: self.left, right: self.right, mode: self.mode }
    }

    fn port(&self, store: &mut [u32], scratch: &mut [u32], right: u32) -> u32 {
        let (left, right) = (ContextId(black_box(self.left)), ContextId(black_box(right)));
        let merged = raw::merge(store, scratch, left, right, self.mode == Mode::Wildcard);
        merged.expect("the oracle accepts it").context.0
    }

    /// The original's own merge, with nothing around it.
    fn original(&self, machine: &mut Machine) -> u32 {
        machine.merge_alone(black_box(self.left), black_box(self.right), self.mode)
    }

    /// Calls a round: about a fifth of a millisecond of the original's time.
    fn calls(&self) -> u32 {
        let mut machine = built(self);
        self.original(&mut machine);
        let began = Instant::now();
        self.original(&mut machine);
        (200_000 / began.elapsed().as_nanos().max(1)).clamp(1, 100) as u32
    }
}

/// A merge whose answer is there already.
fn time_again(case: &Case) {
    let mut machine = built(case);
    let answer = context(&mut machine, &case.record());
    let mut store = machine.store_words();
    let mut scratch = vec![0; SCRATCH_WORDS];
    let (mut other_store, mut other_scratch) = (store.clone(), scratch.clone());
    let best = best_of(
        case.calls(),
        [
            &mut || assert_eq!(case.port(&mut store, &mut scratch, case.right), answer),
            &mut || assert_eq!(case.port(&mut other_store, &mut other_scratch, case.left), case.left),
            &mut || assert_eq!(case.original(&mut machine), answer),
        ],
    );
    assert!(store == machine.store_words(), "{}: words", case.what);
    report(&format!("{}, made before", case.what), best);
}

/// A merge that makes its answer: the port's words are laid out anew before each call, in its fixed part too,
/// and the original has a new arena for each.
fn time_made(case: &Case) {
    const CALLS: u32 = 20;
    let before = built(case).store_words();
    let mut lent = [(); 2].map(|()| (before.clone(), vec![0; SCRATCH_WORDS]));
    let [(store, scratch), (other_store, other_scratch)] = &mut lent;
    let mut arenas: Vec<Machine> = Vec::new();
    let best = best_of(
        CALLS,
        [
            &mut || {
                store.copy_from_slice(&before);
                black_box(case.port(store, scratch, case.right));
            },
            &mut || {
                other_store.copy_from_slice(&before);
                black_box(case.port(other_store, other_scratch, case.left));
            },
        ],
    );
    let mut original = f64::MAX;
    for _ in 0..25 {
        arenas.clear();
        arenas.extend((0..CALLS).map(|_| built(case)));
        let began = Instant::now();
        for arena in &mut arenas {
            black_box(case.original(arena));
        }
        original = original.min(began.elapsed().as_nanos() as f64 / f64::from(CALLS));
    }
    assert!(*store == arenas[0].store_words(), "{}: words", case.what);
    report(&format!("{}, made", case.what), [best[0], best[1], original]);
}

fn report(what: &str, [port, fixed, original]: [f64; 3]) {
    let above = port - fixed;
    let ratio = above / original;
    println!(
        "{what}: port {port:.0} ns, of it fixed {fixed:.0} and above {above:.0} ns; \
         original {original:.0} ns, ratio {ratio:.2}"
    );
}
