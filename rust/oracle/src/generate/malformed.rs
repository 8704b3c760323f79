//! Families of scripts that are malformed, overlong, empty, or copies of others with faults put in.

use crate::generate::builder::Builder;
use crate::generate::{FAMILIES, stores};
use crate::record::{Config, HEADER_BYTES, Kinds, MOST_BYTES, Mode, Record};

/// A record of each kind that is well formed.
fn one_of_each() -> [Record; 9] {
    let config = Config { state: 7, alternative: 1, context: 0, semantic: 0, reach: 0, provenance: 0 };
    [
        Record::Singleton { parent: 0, state: 7 },
        Record::Merge { left: 0, right: 0, mode: Mode::Wildcard },
        Record::NewSet { mode: Mode::Wildcard },
        Record::Add(config),
        Record::Stops(vec![3, 9]),
        Record::Verdict,
        Record::Show { context: 0 },
        Record::Close,
        Record::Why,
    ]
}

/// Some good records, one bad one, and good ones that must not be run.
pub fn malformed(b: &mut Builder) {
    let before = b.rng.below(5);
    stores::mixed(b, before);
    let bad = bad_record(b);
    b.script.extend(bad);
    if b.rng.chance(70) {
        stores::mixed(b, 3);
    }
}

fn bad_record(b: &mut Builder) -> Vec<u8> {
    let record = b.rng.pick(&[0, 1, 2, 3, 4, 5, 6, 7, 8]);
    let mut bytes = encoded(&one_of_each()[record]);
    match b.rng.below(6) {
        // Cut short, in the header or in the payload; then only the end of the script makes it so.
        0 => bytes.truncate(b.rng.between(1, bytes.len() - 1)),
        1 => wrong_length(b, &mut bytes),
        // The length says more than is there.
        2 => bytes[0] = bytes[0].wrapping_add(b.rng.between(1, 255) as u8),
        3 => {
            let kind: u16 = b.rng.pick(&[0, 3, 4, 5, 6, 8, 9, 10, 256, 257, 0x700, u16::MAX]);
            bytes[2..HEADER_BYTES].copy_from_slice(&kind.to_le_bytes());
        }
        4 => {
            let mode = b.rng.pick(&[2, 3, 128, 255]);
            bytes = vec![9, 0, 2, 0, 0, 0, 0, 0, 0, 0, 0, 0, mode];
        }
        // A mode above 1 of a new set; where sets are unknown, any of their records.
        _ => match b.kinds {
            Kinds::All => bytes = vec![1, 0, 3, 0, b.rng.between(2, 255) as u8],
            Kinds::Store => {
                let of_sets = b.rng.pick(&[2, 3, 4, 5, 7, 8]);
                bytes.clear();
                one_of_each()[of_sets].encode(&mut bytes);
            }
        },
    }
    bytes
}

/// A payload of another length than the kind's, told truly.
fn wrong_length(b: &mut Builder, bytes: &mut Vec<u8>) {
    let length = b.rng.pick(&[0, 1, 2, 3, 4, 5, 8, 9, 10, 11, 12, 13, 16, 23, 24, 25, 300]);
    bytes.resize(HEADER_BYTES + length, 0);
    bytes[..2].copy_from_slice(&(length as u16).to_le_bytes());
}

/// Kinds with payload lengths at the borders: no such kind, a wrong length, and 0, 64 and 65 stop states.
const BORDERS: [(u16, usize); 20] = [
    (0, 0),
    (10, 0),
    (1, 11),
    (1, 13),
    (2, 8),
    (2, 10),
    (3, 0),
    (3, 2),
    (4, 23),
    (4, 25),
    (4, 28),
    (5, 3),
    (5, 0),
    (5, 4 * 64),
    (5, 4 * 65),
    (6, 1),
    (7, 3),
    (7, 5),
    (8, 1),
    (9, 1),
];

/// Each fault by itself, behind a good record: every record cut at every byte; and, with a good record
/// behind it too, the borders and a new set of mode 2.
pub fn each_fault() -> Vec<Vec<u8>> {
    let [good, .., last] = one_of_each().map(|record| encoded(&record));
    let mut scripts = Vec::new();
    for record in one_of_each() {
        let bytes = encoded(&record);
        scripts.extend((1..bytes.len()).map(|end| [&good, &bytes[..end]].concat()));
    }
    let mut records: Vec<Vec<u8>> = BORDERS.iter().map(|&(kind, length)| zeros(kind, length)).collect();
    records.push(vec![1, 0, 3, 0, 2]);
    scripts.extend(records.iter().map(|bad| [good.as_slice(), bad, &last].concat()));
    scripts
}

fn encoded(record: &Record) -> Vec<u8> {
    let mut bytes = Vec::new();
    record.encode(&mut bytes);
    bytes
}

/// A record of a kind with so many bytes of payload, all 0.
fn zeros(kind: u16, length: usize) -> Vec<u8> {
    let mut bytes = [(length as u16).to_le_bytes(), kind.to_le_bytes()].concat();
    bytes.resize(HEADER_BYTES + length, 0);
    bytes
}

/// Inputs of no bytes, of 32,768 and around it, and of far more.
pub fn input_lengths(b: &mut Builder) {
    let length = b.rng.pick(&[
        0,
        MOST_BYTES - 1,
        MOST_BYTES,
        MOST_BYTES,
        MOST_BYTES + 1,
        MOST_BYTES + 1,
        MOST_BYTES + 13,
        70_000,
    ]);
    // Merges of 13 bytes until the rest is a multiple of 8, then singletons of 16 and shows of 8.
    let mut left = length;
    while !left.is_multiple_of(8) && left >= 13 {
        let (one, other, mode) = (b.any_context(), b.any_context(), b.any_mode());
        b.merge(one, other, mode);
        left = length - b.script.len();
    }
    while left >= 8 {
        if left >= 16 && b.rng.chance(60) {
            let (parent, state) = (b.any_context(), b.small_state());
            b.singleton(parent, state);
        } else {
            b.show(0);
        }
        left = length - b.script.len();
    }
    b.script.resize(length, 0);
}

/// A script of another family with a few bytes changed, dropped, doubled or moved.
pub fn mutated(b: &mut Builder) {
    let is_good_source = |name: &str| !matches!(name, "mutated" | "input lengths" | "many pairs");
    loop {
        let family = &FAMILIES[b.rng.below(FAMILIES.len())];
        if family.share > 0 && family.fits(b.kinds) && is_good_source(family.name) {
            (family.build)(b);
            break;
        }
    }
    for _ in 0..b.rng.between(1, 4) {
        mutate(b);
    }
}

fn mutate(b: &mut Builder) {
    let length = b.script.len();
    if length == 0 {
        return;
    }
    let at = b.rng.below(length);
    match b.rng.below(6) {
        0 => b.script[at] ^= 1 << b.rng.below(8),
        1 => b.script[at] = b.rng.word() as u8,
        2 => drop(b.script.remove(at)),
        3 => b.script.insert(at, b.rng.word() as u8),
        4 => b.script.truncate(at),
        // A stretch once more, elsewhere.
        _ => {
            let end = (at + b.rng.between(1, 32)).min(length);
            let stretch = b.script[at..end].to_vec();
            let place = b.rng.below(length);
            b.script.splice(place..place, stretch);
        }
    }
}
