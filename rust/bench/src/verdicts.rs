//! Verdicts beside the original's own, which checks nothing and is lent no words. A call's fixed part (check,
//! chains, clear) is that of `close`; what is above it is the verdict's own.

use std::cell::RefCell;
use std::hint::black_box;

use judge::layout::SCRATCH_WORDS;
use oracle::prediction::driver::Machine;
use oracle::record::{Config, Mode, Record};
use pursecricket::raw;

use crate::rounds::best_of;
use crate::sets::{config, store};

/// A set, its stop states, and the verdict that both sides give.
struct Case {
    what: &'static str,
    configs: Vec<Config>,
    stops: Vec<u32>,
    verdict: bool,
}

/// Each state has four alternatives, in one subset: seen at the end only.
fn conflict(configs: u32) -> Case {
    let configs = (0..configs).map(config).collect();
    Case { what: "yes, by conflict", configs, stops: vec![], verdict: true }
}

/// The same, but for the last state, which has one alternative.
fn one_alternative(configs: u32) -> Case {
    let mut case = conflict(configs);
    let last = case.configs.last_mut().expect("a case has configs");
    (last.state, case.what, case.verdict) = (1_000, "no, a state has one alternative", false);
    case
}

/// Each state has two alternatives, over a context each.
fn apart(configs: u32) -> Case {
    let context = |number: u32| 15 + number % 2;
    let config = |number: u32| Config {
        state: number / 2,
        alternative: number % 2,
        context: context(number),
        ..config(number)
    };
    let configs = (0..configs).map(config).collect();
    Case { what: "no, no subset conflicts", configs, stops: vec![], verdict: false }
}

/// Each state is a stop state, of up to 64.
fn stopped(configs: u32) -> Case {
    let stops = (0..configs.div_ceil(4)).collect();
    Case { what: "yes, all configs stopped", stops, ..conflict(configs) }
}

pub fn time_all() {
    for configs in [8, 32, 256] {
        for case in [conflict(configs), one_alternative(configs), apart(configs), stopped(configs)] {
            time(&case);
        }
    }
}

fn built(case: &Case) -> Machine {
    let mut machine = Machine::new();
    let mut records = store(20);
    records.push(Record::NewSet { mode: Mode::Full });
    records.extend(case.configs.iter().copied().map(Record::Add));
    records.push(Record::Stops(case.stops.clone()));
    for record in &records {
        machine.call(record).expect("a case has room");
    }
    assert_eq!(machine.configs(), case.configs.len(), "{}: no two keys are equal", case.what);
    machine
}

fn time(case: &Case) {
    let machine = built(case);
    let (store, set) = (machine.store_words(), machine.set_words());
    // Both calls are lent the same words: whether a set is closed is nothing to a verdict.
    let lent = RefCell::new((set, vec![0; SCRATCH_WORDS]));
    let best = best_of(
        100,
        [
            &mut || {
                let ((set, scratch), stops) = (&mut *lent.borrow_mut(), black_box(&case.stops));
                let verdict = raw::has_sll_conflict_terminating_prediction(&store, set, scratch, stops);
                assert_eq!(verdict, Ok(case.verdict));
            },
            &mut || {
                let (set, scratch) = &mut *lent.borrow_mut();
                raw::close(&store, set, scratch).expect("a sound set");
            },
            &mut || assert_eq!(black_box(&machine).verdict_alone(), case.verdict),
        ],
    );
    report(case, best);
}

fn report(case: &Case, [port, fixed, original]: [f64; 3]) {
    let (configs, above) = (case.configs.len(), port - fixed);
    println!(
        "verdict on {configs} configs, {}: port {port:.0} ns, of it fixed {fixed:.0}, above {above:.0}; original \
         {original:.0} ns, above to original {:.2} (goal: at most 1.00)",
        case.what,
        above / original
    );
}
