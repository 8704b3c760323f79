//! The archive's doors. A slice is a pointer and a length.

use crate::AtnConfig;

/// A refusal number, and the value where that is 0.
#[derive(Clone, Copy, Debug, Eq, PartialEq)]
#[repr(C)]
pub struct Answer {
    pub refusal: u32,
    pub value: u32,
}

/// A refusal number; where that is 0, the value, how many merges the call counted and how many contexts it
/// made.
#[derive(Clone, Copy, Debug, Eq, PartialEq)]
#[repr(C)]
pub struct CountedAnswer {
    pub refusal: u32,
    pub value: u32,
    pub merges: u32,
    pub made: u32,
}

/// A refusal number; where that is 0, whether there is an entry, and its value.
#[derive(Clone, Copy, Debug, Eq, PartialEq)]
#[repr(C)]
pub struct EntryAnswer {
    pub refusal: u32,
    pub found: u32,
    pub value: u64,
}

/// A refusal number; where that is 0, the number of subsets, whether there is a unique alternative and which,
/// the same of the viable one, and the verdict.
#[derive(Clone, Copy, Debug, Eq, PartialEq)]
#[repr(C)]
pub struct FiguresAnswer {
    pub refusal: u32,
    pub subsets: u32,
    pub has_unique: u32,
    pub unique: u32,
    pub has_viable: u32,
    pub viable: u32,
    pub verdict: u32,
}

/// A refusal number; where that is 0, which reason, 1 to 4, and the state, alternative and context that it
/// names, 0 where it names none.
#[derive(Clone, Copy, Debug, Eq, PartialEq)]
#[repr(C)]
pub struct ReasonAnswer {
    pub refusal: u32,
    pub reason: u32,
    pub state: u32,
    pub alternative: u32,
    pub context: u32,
}

/// A query on a context: the store is only read.
pub type Query = unsafe extern "C" fn(*const u32, usize, *mut u32, usize, u32) -> Answer;

/// A query on an entry of a context.
pub type EntryQuery = unsafe extern "C" fn(*const u32, usize, *mut u32, usize, u32, u32) -> EntryAnswer;

/// A question about a set's subsets: store and set are only read.
pub type SetQuery = unsafe extern "C" fn(*const u32, usize, *const u32, usize, *mut u32, usize) -> Answer;

/// A question for an alternative of a set.
pub type AltQuery =
    unsafe extern "C" fn(*const u32, usize, *const u32, usize, *mut u32, usize) -> EntryAnswer;

/// A call that writes what a set's subsets are: a refusal number comes back.
pub type Writer =
    unsafe extern "C" fn(*const u32, usize, *const u32, usize, *mut u32, usize, *mut u32, usize) -> u32;

#[allow(unsafe_code)]
unsafe extern "C" {
    pub fn purse_fresh(store: *mut u32, store_len: usize) -> u32;

    pub fn purse_singleton(
        store: *mut u32,
        store_len: usize,
        scratch: *mut u32,
        scratch_len: usize,
        parent: u32,
        state: u64,
    ) -> CountedAnswer;

    pub fn purse_merge(
        store: *mut u32,
        store_len: usize,
        scratch: *mut u32,
        scratch_len: usize,
        left: u32,
        right: u32,
        mode: u32,
    ) -> CountedAnswer;

    pub fn purse_len(
        store: *const u32,
        store_len: usize,
        scratch: *mut u32,
        scratch_len: usize,
        context: u32,
    ) -> Answer;

    pub fn purse_is_empty(
        store: *const u32,
        store_len: usize,
        scratch: *mut u32,
        scratch_len: usize,
        context: u32,
    ) -> Answer;

    pub fn purse_has_empty_path(
        store: *const u32,
        store_len: usize,
        scratch: *mut u32,
        scratch_len: usize,
        context: u32,
    ) -> Answer;

    pub fn purse_return_state(
        store: *const u32,
        store_len: usize,
        scratch: *mut u32,
        scratch_len: usize,
        context: u32,
        index: u32,
    ) -> EntryAnswer;

    pub fn purse_parent(
        store: *const u32,
        store_len: usize,
        scratch: *mut u32,
        scratch_len: usize,
        context: u32,
        index: u32,
    ) -> EntryAnswer;

    pub fn purse_fresh_set(set: *mut u32, set_len: usize, mode: u32) -> u32;

    pub fn purse_add(
        store: *mut u32,
        store_len: usize,
        set: *mut u32,
        set_len: usize,
        scratch: *mut u32,
        scratch_len: usize,
        state: u32,
        alternative: u32,
        context: u32,
        semantic: u32,
        reach: u32,
        provenance: u32,
    ) -> CountedAnswer;

    pub fn purse_close(
        store: *const u32,
        store_len: usize,
        set: *mut u32,
        set_len: usize,
        scratch: *mut u32,
        scratch_len: usize,
    ) -> u32;

    pub fn purse_unique_alt(
        store: *const u32,
        store_len: usize,
        set: *const u32,
        set_len: usize,
        scratch: *mut u32,
        scratch_len: usize,
    ) -> EntryAnswer;

    pub fn purse_single_viable_alt(
        store: *const u32,
        store_len: usize,
        set: *const u32,
        set_len: usize,
        scratch: *mut u32,
        scratch_len: usize,
    ) -> EntryAnswer;

    pub fn purse_all_subsets_conflict(
        store: *const u32,
        store_len: usize,
        set: *const u32,
        set_len: usize,
        scratch: *mut u32,
        scratch_len: usize,
    ) -> Answer;

    pub fn purse_all_subsets_equal(
        store: *const u32,
        store_len: usize,
        set: *const u32,
        set_len: usize,
        scratch: *mut u32,
        scratch_len: usize,
    ) -> Answer;

    pub fn purse_has_sll_conflict_terminating_prediction(
        store: *const u32,
        store_len: usize,
        set: *const u32,
        set_len: usize,
        scratch: *mut u32,
        scratch_len: usize,
        stops: *const u32,
        stops_len: usize,
    ) -> Answer;

    pub fn purse_conflicting_alt_subsets(
        store: *const u32,
        store_len: usize,
        set: *const u32,
        set_len: usize,
        scratch: *mut u32,
        scratch_len: usize,
        output: *mut u32,
        output_len: usize,
    ) -> u32;

    pub fn purse_conflicting_alts(
        store: *const u32,
        store_len: usize,
        set: *const u32,
        set_len: usize,
        scratch: *mut u32,
        scratch_len: usize,
        output: *mut u32,
        output_len: usize,
    ) -> u32;

    pub fn purse_unique_alt_of(configs: *const AtnConfig, configs_len: usize) -> EntryAnswer;

    pub fn purse_figures(
        store: *const u32,
        store_len: usize,
        set: *const u32,
        set_len: usize,
        scratch: *mut u32,
        scratch_len: usize,
        stops: *const u32,
        stops_len: usize,
    ) -> FiguresAnswer;

    pub fn purse_why(
        store: *const u32,
        store_len: usize,
        set: *const u32,
        set_len: usize,
        scratch: *mut u32,
        scratch_len: usize,
        stops: *const u32,
        stops_len: usize,
        output: *mut u32,
        output_len: usize,
    ) -> ReasonAnswer;
}
