//! Families about config sets, subsets and verdicts.

use crate::generate::builder::Builder;
use crate::generate::{limits, stores};
use crate::prediction::driver::{MOST_CONFIGS, MOST_CONTEXTS, MOST_STOPS};
use crate::record::{Mode, Record};

/// Bit 31 of the provenance word: the precedence-filter mark.
const MARK: u32 = 1 << 31;

pub fn any_set_record(b: &mut Builder) {
    match b.rng.below(100) {
        0..60 => any_add(b),
        60..72 => drop(b.put(Record::Verdict)),
        72..80 => drop(b.put(Record::Why)),
        80..88 => any_stops(b, 4),
        88..97 => {
            let mode = b.any_mode();
            b.put(Record::NewSet { mode });
        }
        _ => drop(b.put(Record::Close)),
    }
}

/// The verdict, and why it is what it is.
fn ask(b: &mut Builder) {
    b.put(Record::Verdict);
    b.put(Record::Why);
}

/// A config over few states, alternatives and ids, so that keys and groups meet.
fn any_add(b: &mut Builder) {
    let context = if b.rng.chance(2) { b.count() as u32 } else { b.any_context() };
    let state = b.rng.between(1, 3) as u32;
    let alternative = b.rng.between(0, 3) as u32;
    let semantic = b.rng.pick(&[0, 0, 0, 1, u32::MAX]);
    let reach = b.rng.pick(&[0, 0, 0, 1, 5, u32::MAX]);
    let provenance = b.rng.pick(&[0, 0, 0, 1, MARK, MARK | 1, u32::MAX]);
    b.add([state, alternative, context, semantic, reach, provenance]);
}

fn any_stops(b: &mut Builder, most: usize) {
    let length = b.rng.between(0, most);
    let states = (0..length).map(|_| b.rng.between(1, 4) as u32).collect();
    b.put(Record::Stops(states));
}

fn some_contexts(b: &mut Builder, singletons: usize) {
    for _ in 0..singletons {
        let (parent, state) = (b.any_context(), b.small_state());
        b.singleton(parent, state);
    }
}

pub fn small_sets(b: &mut Builder) {
    let contexts = b.rng.below(6);
    some_contexts(b, contexts);
    if b.rng.chance(60) {
        let mode = b.any_mode();
        b.put(Record::NewSet { mode });
    }
    for _ in 0..b.rng.between(1, 25) {
        any_set_record(b);
    }
    ask(b);
}

/// One base config and copies that differ from it in one word, bit 31 or a context.
pub fn key_clashes(b: &mut Builder) {
    some_contexts(b, 4);
    let mode = b.any_mode();
    b.put(Record::NewSet { mode });
    let base = [7, 1, 1, b.rng.pick(&[0, 3]), 0, b.rng.pick(&[0, 5])];
    b.add(base);
    for _ in 0..b.rng.between(2, 14) {
        let mut config = base;
        config[2] = b.any_context();
        match b.rng.below(8) {
            0 => config[0] += 1,
            1 => config[1] += 1,
            2 => config[3] += 1,
            3 => config[4] = b.rng.word(),
            4 => config[5] += 1,
            5 => config[5] |= MARK,
            6 => config[5] ^= MARK | 1,
            _ => {}
        }
        b.add(config);
        if b.rng.chance(30) {
            ask(b);
        }
    }
    for context in 0..b.count() as u32 {
        b.show(context);
    }
    ask(b);
}

/// States with one and with more alternatives, over equal and different contexts, some of them stops.
pub fn verdicts(b: &mut Builder) {
    some_contexts(b, 2);
    for _ in 0..b.rng.between(1, 4) {
        let mode = b.any_mode();
        b.put(Record::NewSet { mode });
        let states = b.rng.between(1, 3);
        for state in 1..=states as u32 {
            for alternative in 0..=b.rng.below(4) as u32 {
                let context = if b.rng.chance(75) { 1 } else { b.any_context() };
                let semantic = b.rng.pick(&[0, 0, 0, 1]);
                b.add([state, alternative, context, semantic, 0, 0]);
            }
        }
        ask(b);
        any_stops(b, 4);
        ask(b);
    }
}

/// 256 configs, then one more; a known key is still merged.
pub fn full_set(b: &mut Builder) {
    some_contexts(b, 4);
    let mode = b.any_mode();
    b.put(Record::NewSet { mode });
    let alternatives = b.rng.between(1, 32) as u32;
    let short_of_full = b.rng.pick(&[0, 0, 1]);
    let mut number = 0;
    while b.machine.configs() < MOST_CONFIGS - short_of_full {
        let context = b.any_context();
        b.add([number / alternatives, number % alternatives, context, 0, 0, 0]);
        number += 1;
    }
    ask(b);
    for extra in 0..3 {
        b.add([90_000 + extra, 1, 0, 0, 0, 0]);
        b.add([90_000, 1, 512, 0, 0, 0]);
        let (known, context) = (b.rng.below(250) as u32, b.any_context());
        b.add([known / alternatives, known % alternatives, context, 0, extra, MARK]);
        ask(b);
    }
}

/// Lists of 64 states and of 65, duplicates among them; a refused list leaves the old one.
pub fn stop_lists(b: &mut Builder) {
    for _ in 0..b.rng.between(2, 6) {
        let length = b.rng.pick(&[0, 1, MOST_STOPS - 1, MOST_STOPS, MOST_STOPS + 1, 200]);
        let most = b.rng.pick(&[2, 70]);
        let states = (0..length).map(|_| b.rng.between(1, most) as u32).collect();
        b.put(Record::Stops(states));
        any_add(b);
        ask(b);
        if b.rng.chance(30) {
            let mode = b.any_mode();
            b.put(Record::NewSet { mode });
        }
    }
}

/// Closed sets: every add is refused first for that; verdicts go on; a new set is open again.
pub fn read_only(b: &mut Builder) {
    some_contexts(b, 3);
    for _ in 0..b.rng.between(1, 3) {
        for _ in 0..b.rng.below(4) {
            any_add(b);
        }
        b.put(Record::Close);
        any_add(b);
        b.add([1, 1, 600, 0, 0, 0]);
        ask(b);
        if b.rng.chance(50) {
            b.put(Record::Close);
        }
        let mode = b.any_mode();
        b.put(Record::NewSet { mode });
    }
    any_add(b);
    ask(b);
}

/// Adds that merge and lack room: context, reach, mark and flags of the set must stay.
pub fn refused_adds(b: &mut Builder) {
    let (left, right) = limits::twin_chains(b, 25);
    let mode = if b.rng.chance(70) { Mode::Full } else { Mode::Wildcard };
    b.put(Record::NewSet { mode });
    let room = b.rng.between(0, 20);
    limits::fill_contexts(b, MOST_CONTEXTS - room);
    for round in 0..8 {
        let depth = b.rng.below(left.len());
        let alternative = b.rng.between(1, 2) as u32;
        b.add([7, alternative, left[depth], 0, 0, 0]);
        b.add([7, alternative, right[depth], 0, round, MARK]);
        ask(b);
        let next = b.count() as u32;
        b.show(next);
        if b.rng.chance(30) {
            stores::any_store_record(b);
        }
    }
}
