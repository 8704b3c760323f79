//! Each leaf beside its twin, on words of the sizes that a call meets.
use crate::doors::{
    measure_all_zero, measure_clear, measure_copy, measure_hash, rust_all_zero, rust_clear, rust_copy,
    rust_hash,
};
use crate::rounds::{report, take_turns};
use std::hint::black_box;

const SCRATCH: usize = 16384;
const STORE: usize = 5634;

pub fn time_all() {
    clear();
    copy();
    all_zero();
    hash();
}

fn clear() {
    let mut words = vec![7u32; SCRATCH];
    let at = words.as_mut_ptr();
    let best = take_turns(1_000, &mut || unsafe { measure_clear(black_box(at), SCRATCH) }, &mut || unsafe {
        rust_clear(black_box(at), SCRATCH)
    });
    assert!(words.iter().all(|word| *word == 0));
    report("clear 16384 words (goal: at most 1.20)", &best);
}

fn copy() {
    let source: Vec<u32> = (0..STORE as u32).collect();
    let mut target = vec![0u32; STORE];
    let (to, from) = (target.as_mut_ptr(), source.as_ptr());
    let best = take_turns(
        1_000,
        &mut || unsafe { measure_copy(black_box(to), STORE, black_box(from), STORE) },
        &mut || unsafe { rust_copy(black_box(to), STORE, black_box(from), STORE) },
    );
    assert_eq!(target, source);
    report("copy 5634 words", &best);
}

fn all_zero() {
    let words = vec![0u32; SCRATCH];
    let at = words.as_ptr();
    let best =
        take_turns(1_000, &mut || assert!(unsafe { measure_all_zero(black_box(at), SCRATCH) }), &mut || {
            assert!(unsafe { rust_all_zero(black_box(at), SCRATCH) })
        });
    report("all zero, 16384 words", &best);
}

fn hash() {
    let words: Vec<u64> = (0..64).map(|i| i * 0x9e37_79b9_7f4a_7c15 % 97).collect();
    let at = words.as_ptr();
    let port = unsafe { measure_hash(at, words.len()) };
    assert_eq!(port, unsafe { rust_hash(at, words.len()) });
    let best = take_turns(
        10_000,
        &mut || {
            black_box(unsafe { measure_hash(black_box(at), words.len()) });
        },
        &mut || {
            black_box(unsafe { rust_hash(black_box(at), words.len()) });
        },
    );
    report("hash 64 words", &best);
}
