//! Configs added to sets, beside plain Rust with the same duties and beside the original's own `add`, which
//! checks nothing and keeps its index. A call's fixed part (check, chains, clear) is that of `close`.

use std::hint::black_box;
use std::time::Instant;

use judge::layout::{CONFIG_WORDS, CONFIGS_AT, PARENTS_AT, RECORDS_AT, SCRATCH_WORDS, STATES_AT};
use oracle::prediction::driver::Machine;
use oracle::record::{Config, Mode, Record};
use pursecricket::{Alternative, AtnConfig, ContextId, SemanticContextId, raw};

use crate::plain;
use crate::rounds::best_of;

/// A config added to the set that these records leave.
struct Case {
    what: String,
    records: Vec<Record>,
    config: Config,
    /// Where the config goes, or stands.
    place: usize,
    /// Whether the call leaves other words than it was lent.
    changes: bool,
}

/// So many contexts: 1 to 16 are singletons, 17 the union of the last two; then singletons and, as many or one
/// fewer, their unions with context 2.
pub fn store(contexts: u32) -> Vec<Record> {
    let single = |number: u32| Record::Singleton { parent: 0, state: number.into() };
    let union = |left, right| Record::Merge { left, right, mode: Mode::Full };
    let more = contexts - 18;
    let singles = 18..18 + more.div_ceil(2);
    let mut records: Vec<Record> = (1..=16).map(single).collect();
    records.push(union(15, 16));
    records.extend(singles.clone().map(single));
    records.extend(singles.take(more as usize / 2).map(|right| union(2, right)));
    records
}

/// Configs over context 16: four alternatives a state, some with semantic ids and provenance.
pub fn config(number: u32) -> Config {
    let (semantic, provenance) = (u32::from(number.is_multiple_of(5)), number % 3);
    Config { state: number / 4, alternative: number % 4, context: 16, semantic, reach: 0, provenance }
}

fn set_of(mut records: Vec<Record>, configs: u32) -> Vec<Record> {
    records.push(Record::NewSet { mode: Mode::Full });
    records.extend((0..configs).map(|number| Record::Add(config(number))));
    records
}

/// The last config of a set of so many.
fn inserted(configs: u32, contexts: u32) -> Case {
    let records = set_of(store(contexts), configs - 1);
    let what = format!("inserted as the last of {configs}, {contexts} contexts");
    Case { what, records, config: config(configs - 1), place: configs as usize - 1, changes: true }
}

/// A config of a known key, over a context that the one held holds.
fn merged_before(configs: u32, contexts: u32) -> Case {
    let (place, known) = (configs as usize / 2, Config { context: 15, ..config(configs / 2) });
    let mut records = set_of(store(contexts), configs);
    records.push(Record::Add(known));
    let what = format!("merged in a set of {configs}, {contexts} contexts, the union made before");
    Case { what, records, config: known, place, changes: false }
}

/// A config of a known key, over a context whose union with the one held is the store's last.
fn merged(configs: u32, contexts: u32) -> Case {
    let (place, known) = (configs as usize / 2, Config { context: 1, ..config(configs / 2) });
    let records = set_of(store(contexts - 1), configs);
    let what = format!("merged in a set of {configs}, {contexts} contexts, the union made");
    Case { what, records, config: known, place, changes: true }
}

pub fn time_all() {
    for contexts in [20, 512] {
        for configs in [8, 32, 256] {
            time(&inserted(configs, contexts));
            time(&merged_before(configs, contexts));
            time(&merged(configs, contexts));
        }
    }
}

fn built(case: &Case) -> Machine {
    let mut machine = Machine::new();
    for record in &case.records {
        machine.call(record).expect("a case has room");
    }
    machine
}

/// The words that a side is lent, in its own place.
struct Lent {
    store: Vec<u32>,
    set: Vec<u32>,
    scratch: Vec<u32>,
    held: [u32; CONFIG_WORDS],
}

impl Lent {
    fn new(machine: &Machine, case: &Case) -> Self {
        let (store, set) = (machine.store_words(), machine.set_words());
        let held = std::array::from_fn(|offset| set[place(case) + offset]);
        Lent { store, set, scratch: vec![0; SCRATCH_WORDS], held }
    }

    /// Takes out again what the call has made: a config or its change, and an array of two.
    fn undo(&mut self, case: &Case, [contexts, pool, configs, flags]: [u32; 4]) {
        if !case.changes {
            return;
        }
        if self.store[0] != contexts {
            let (record, entry) = (RECORDS_AT + 3 * contexts as usize, pool as usize);
            self.store[record..record + 3].fill(0);
            self.store[PARENTS_AT + entry..PARENTS_AT + entry + 2].fill(0);
            self.store[STATES_AT + entry..STATES_AT + entry + 2].fill(0);
            (self.store[0], self.store[1]) = (contexts, pool);
        }
        let at = place(case);
        self.set[at..at + CONFIG_WORDS].copy_from_slice(&self.held);
        (self.set[0], self.set[1]) = (configs, flags);
    }

    fn counts(&self) -> [u32; 4] {
        [self.store[0], self.store[1], self.set[0], self.set[1]]
    }

    fn port(&mut self, config: &Config) -> bool {
        let config = black_box(AtnConfig {
            state: config.state,
            alt: Alternative(config.alternative),
            context: ContextId(config.context),
            semantic_context: SemanticContextId(config.semantic),
            reaches_into_outer_context: config.reach,
            semantic_provenance_and_flags: config.provenance,
        });
        let added = raw::add(&mut self.store, &mut self.set, &mut self.scratch, config);
        added.expect("a case has room").inserted
    }

    fn plain(&mut self, config: &Config) -> bool {
        let config = black_box(config.words());
        let added = plain::add(&mut self.store, &mut self.set, &mut self.scratch, config);
        added.expect("a case has room").inserted
    }

    fn close(&mut self) {
        raw::close(&self.store, &mut self.set, &mut self.scratch).expect("a sound set");
    }
}

/// The place of the case's config in the words of its set.
fn place(case: &Case) -> usize {
    CONFIGS_AT + CONFIG_WORDS * case.place
}

fn time(case: &Case) {
    let machine = built(case);
    let [mut port, mut plain, mut fixed] = [(); 3].map(|()| Lent::new(&machine, case));
    let (before, answer) = (port.counts(), case.place + 1 > machine.configs());
    let [of_port, of_plain, of_fixed] = best_of(
        100,
        [
            &mut || {
                port.undo(case, before);
                assert_eq!(port.port(&case.config), answer);
            },
            &mut || {
                plain.undo(case, before);
                assert_eq!(plain.plain(&case.config), answer);
            },
            &mut || fixed.close(),
        ],
    );
    let (original, after) = time_original(case, answer);
    for side in [&port, &plain] {
        assert!(side.store == after.store_words(), "{}: the store", case.what);
        assert!(side.set == after.set_words(), "{}: the set", case.what);
    }
    report(&case.what, [of_port, of_plain, of_fixed, original]);
}

/// The best round of the original's `add`, on a machine of its own for each call that changes it; and what it
/// leaves.
fn time_original(case: &Case, answer: bool) -> (f64, Machine) {
    const CALLS: usize = 20;
    let mut best = f64::MAX;
    let mut machines = vec![built(case)];
    for _ in 0..60 {
        if case.changes {
            machines = (0..CALLS).map(|_| built(case)).collect();
        }
        let began = Instant::now();
        for call in 0..CALLS {
            let machine = &mut machines[if case.changes { call } else { 0 }];
            assert_eq!(machine.add_alone(black_box(&case.config)), answer);
        }
        best = best.min(began.elapsed().as_nanos() as f64 / CALLS as f64);
    }
    (best, machines.swap_remove(0))
}

fn report(what: &str, [port, plain, fixed, original]: [f64; 4]) {
    let (ratio, to_original) = (port / plain, port / original);
    println!(
        "config {what}: port {port:.0} ns, of it fixed {fixed:.0}, plain Rust {plain:.0} ns, ratio {ratio:.2}; \
         original {original:.0} ns, port to original {to_original:.1}"
    );
}
