//! The border over plain slices, of any length and with any words: what the library is lent and nothing else.
//!
//! A store is 5,634 words, a config set 1,538 and a scratch 16,384. Any other length is refused with
//! [`Refusal::WrongLength`] and leaves every slice; a store that is not sound is refused with
//! [`Refusal::UnsoundStore`], and a set that is not with [`Refusal::UnsoundSet`]. The scratch may hold
//! anything; every call but one that is refused for a length leaves it all 0.
#![allow(unsafe_code)]

use crate::doors::{
    AltQuery, Answer, CountedAnswer, EntryAnswer, EntryQuery, FiguresAnswer, Query, ReasonAnswer, SetQuery,
    Writer, purse_add, purse_all_subsets_conflict, purse_all_subsets_equal, purse_close,
    purse_conflicting_alt_subsets, purse_conflicting_alts, purse_figures, purse_fresh, purse_fresh_set,
    purse_has_empty_path, purse_has_sll_conflict_terminating_prediction, purse_is_empty, purse_len,
    purse_merge, purse_parent, purse_return_state, purse_single_viable_alt, purse_singleton,
    purse_unique_alt, purse_unique_alt_of, purse_why,
};
use crate::{
    Added, Alternative, AtnConfig, ContextId, Figures, Interned, Merged, Reason, Refusal, ReturnState,
};

/// Words of a store.
pub const STORE_WORDS: usize = 5_634;
/// Words of a config set.
pub const SET_WORDS: usize = 1_538;
/// Words of a scratch.
pub const SCRATCH_WORDS: usize = 16_384;
/// Words that subsets are written to.
pub const SUBSET_WORDS: usize = 1_025;
/// Words that conflicting alternatives are written to.
pub const CONFLICT_WORDS: usize = 257;
/// The most stop states of a verdict.
pub const MOST_STOPS: usize = 64;

/// Writes a fresh store over any words.
pub fn fresh(store: &mut [u32]) -> Result<(), Refusal> {
    // SAFETY: the pointer and the length are those of one exclusive slice, which outlives the call.
    let refusal = unsafe { purse_fresh(store.as_mut_ptr(), store.len()) };
    done(refusal)
}

/// The context of a return state on top of each stack of the parent, found or made; that of the empty mark
/// is 0.
pub fn singleton(
    store: &mut [u32],
    scratch: &mut [u32],
    parent: ContextId,
    state: ReturnState,
) -> Result<Interned, Refusal> {
    // SAFETY: each pointer and its length are those of one exclusive slice, which outlives the call.
    let answer = unsafe {
        purse_singleton(
            store.as_mut_ptr(),
            store.len(),
            scratch.as_mut_ptr(),
            scratch.len(),
            parent.0,
            state.0,
        )
    };
    let CountedAnswer { value, made, .. } = counted(answer)?;
    Ok(Interned { context: ContextId(value), made })
}

/// The context of the merged sets: their union; or, where `root_is_wildcard`, the merge in which context 0
/// swallows whatever it meets, at every depth. Where that would be too much work it is refused with
/// [`Refusal::TooMuchWork`].
pub fn merge(
    store: &mut [u32],
    scratch: &mut [u32],
    left: ContextId,
    right: ContextId,
    root_is_wildcard: bool,
) -> Result<Merged, Refusal> {
    // SAFETY: each pointer and its length are those of one exclusive slice, which outlives the call.
    let answer = unsafe {
        purse_merge(
            store.as_mut_ptr(),
            store.len(),
            scratch.as_mut_ptr(),
            scratch.len(),
            left.0,
            right.0,
            u32::from(root_is_wildcard),
        )
    };
    let CountedAnswer { value, merges, made, .. } = counted(answer)?;
    Ok(Merged { context: ContextId(value), merges, made })
}

/// Entries of a context; context 0 has one.
pub fn len(store: &[u32], scratch: &mut [u32], context: ContextId) -> Result<u32, Refusal> {
    ask(purse_len, store, scratch, context)
}

/// Is this the context of the empty stack alone?
pub fn is_empty(store: &[u32], scratch: &mut [u32], context: ContextId) -> Result<bool, Refusal> {
    ask(purse_is_empty, store, scratch, context).map(truth)
}

/// Is the empty stack one of the context's?
pub fn has_empty_path(store: &[u32], scratch: &mut [u32], context: ContextId) -> Result<bool, Refusal> {
    ask(purse_has_empty_path, store, scratch, context).map(truth)
}

/// The return state of an entry, the empty mark for `$`; `None` past the end.
pub fn return_state(
    store: &[u32],
    scratch: &mut [u32],
    context: ContextId,
    index: u32,
) -> Result<Option<ReturnState>, Refusal> {
    let found = ask_entry(purse_return_state, store, scratch, context, index)?;
    Ok(found.map(ReturnState))
}

/// The parent of an entry; `None` past the end, and for context 0 at every index.
pub fn parent(
    store: &[u32],
    scratch: &mut [u32],
    context: ContextId,
    index: u32,
) -> Result<Option<ContextId>, Refusal> {
    let found = ask_entry(purse_parent, store, scratch, context, index)?;
    Ok(found.map(|parent| ContextId(u32::try_from(parent).expect("a parent is a context number"))))
}

/// Writes a set without configs over any words.
pub fn fresh_set(set: &mut [u32], full_context: bool) -> Result<(), Refusal> {
    // SAFETY: the pointer and the length are those of one exclusive slice, which outlives the call.
    let refusal = unsafe { purse_fresh_set(set.as_mut_ptr(), set.len(), u32::from(!full_context)) };
    done(refusal)
}

/// Adds a config: merged into the one of the same key, where the set has one, and otherwise put last.
pub fn add(
    store: &mut [u32],
    set: &mut [u32],
    scratch: &mut [u32],
    config: AtnConfig,
) -> Result<Added, Refusal> {
    let [state, alternative, context, semantic, reach, provenance] = config.words();
    // SAFETY: each pointer and its length are those of one exclusive slice, which outlives the call.
    let answer = unsafe {
        purse_add(
            store.as_mut_ptr(),
            store.len(),
            set.as_mut_ptr(),
            set.len(),
            scratch.as_mut_ptr(),
            scratch.len(),
            state,
            alternative,
            context,
            semantic,
            reach,
            provenance,
        )
    };
    let CountedAnswer { value, merges, made, .. } = counted(answer)?;
    Ok(Added { inserted: truth(value), merges, made })
}

/// Makes a set read-only; one that is read-only stays so.
pub fn close(store: &[u32], set: &mut [u32], scratch: &mut [u32]) -> Result<(), Refusal> {
    // SAFETY: each pointer and its length are those of one slice, which outlives the call; the store's is
    // only read, and the others are exclusive.
    let refusal = unsafe {
        purse_close(
            store.as_ptr(),
            store.len(),
            set.as_mut_ptr(),
            set.len(),
            scratch.as_mut_ptr(),
            scratch.len(),
        )
    };
    done(refusal)
}

/// The alternative that every config has; `None` where they differ, and of a set without configs.
pub fn unique_alt(store: &[u32], set: &[u32], scratch: &mut [u32]) -> Result<Option<Alternative>, Refusal> {
    ask_alt(purse_unique_alt, store, set, scratch)
}

/// The alternative that every config of a list has, which may have any length; `None` where they differ, and of
/// an empty list. Nothing is refused.
pub fn unique_alt_of(configs: &[AtnConfig]) -> Option<Alternative> {
    // SAFETY: the pointer and the length are those of one slice, which outlives the call and is only read;
    // a config has the layout of C.
    let answer = unsafe { purse_unique_alt_of(configs.as_ptr(), configs.len()) };
    entry(answer).expect("nothing is refused").map(alternative)
}

/// The alternative that is the least of every subset; `None` where they differ, and of a set without subsets.
pub fn single_viable_alt(
    store: &[u32],
    set: &[u32],
    scratch: &mut [u32],
) -> Result<Option<Alternative>, Refusal> {
    ask_alt(purse_single_viable_alt, store, set, scratch)
}

/// Has each subset two or more alternatives? Yes of a set without subsets.
pub fn all_subsets_conflict(store: &[u32], set: &[u32], scratch: &mut [u32]) -> Result<bool, Refusal> {
    ask_set(purse_all_subsets_conflict, store, set, scratch)
}

/// Have all subsets the same alternatives? Yes of a set without subsets.
pub fn all_subsets_equal(store: &[u32], set: &[u32], scratch: &mut [u32]) -> Result<bool, Refusal> {
    ask_set(purse_all_subsets_equal, store, set, scratch)
}

/// The verdict with these stop states, in any order and as often as may be: yes if every config is in one of
/// them; otherwise yes exactly if some subset has two or more alternatives and no state has just one. More
/// than 64 are refused with [`Refusal::TooManyStops`], after store and set.
pub fn has_sll_conflict_terminating_prediction(
    store: &[u32],
    set: &[u32],
    scratch: &mut [u32],
    stops: &[u32],
) -> Result<bool, Refusal> {
    // SAFETY: each pointer and its length are those of one slice, which outlives the call; the scratch's is
    // exclusive, and the others are only read.
    let answer = unsafe {
        purse_has_sll_conflict_terminating_prediction(
            store.as_ptr(),
            store.len(),
            set.as_ptr(),
            set.len(),
            scratch.as_mut_ptr(),
            scratch.len(),
            stops.as_ptr(),
            stops.len(),
        )
    };
    value(answer).map(truth)
}

/// The subsets in order of their first config, written over all 1,025 words: how many, then of each its state,
/// its context, how many alternatives and these, rising; the rest 0. Words of another length are refused with
/// [`Refusal::WrongLength`], and a refusal leaves them.
pub fn conflicting_alt_subsets(
    store: &[u32],
    set: &[u32],
    scratch: &mut [u32],
    output: &mut [u32],
) -> Result<(), Refusal> {
    write(purse_conflicting_alt_subsets, store, set, scratch, output)
}

/// The alternatives of the subsets that have two or more, written over all 257 words: how many, then these,
/// rising; the rest 0. Refused as [`conflicting_alt_subsets`] is.
pub fn conflicting_alts(
    store: &[u32],
    set: &[u32],
    scratch: &mut [u32],
    output: &mut [u32],
) -> Result<(), Refusal> {
    write(purse_conflicting_alts, store, set, scratch, output)
}

/// How many subsets, [`unique_alt`], [`single_viable_alt`] and the verdict with these stop states, by one
/// check of store and set. Refused as the verdict is.
pub fn figures(store: &[u32], set: &[u32], scratch: &mut [u32], stops: &[u32]) -> Result<Figures, Refusal> {
    // SAFETY: each pointer and its length are those of one slice, which outlives the call; the scratch's is
    // exclusive, and the others are only read.
    let FiguresAnswer { refusal, subsets, has_unique, unique, has_viable, viable, verdict } = unsafe {
        purse_figures(
            store.as_ptr(),
            store.len(),
            set.as_ptr(),
            set.len(),
            scratch.as_mut_ptr(),
            scratch.len(),
            stops.as_ptr(),
            stops.len(),
        )
    };
    done(refusal)?;
    Ok(Figures {
        subsets,
        unique: truth(has_unique).then_some(Alternative(unique)),
        viable: truth(has_viable).then_some(Alternative(viable)),
        verdict: truth(verdict),
    })
}

/// Why the verdict with these stop states is what it is. The alternatives of a clash are written over all 257
/// words: how many, then these, rising; the rest 0, and all 0 where it is no clash. Refused as the verdict is;
/// words of another length are refused with [`Refusal::WrongLength`], and a refusal leaves them.
pub fn why(
    store: &[u32],
    set: &[u32],
    scratch: &mut [u32],
    stops: &[u32],
    output: &mut [u32],
) -> Result<Reason, Refusal> {
    // SAFETY: each pointer and its length are those of one slice, which outlives the call; the scratch's and
    // the output's are exclusive, and the others are only read.
    let ReasonAnswer { refusal, reason, state, alternative, context } = unsafe {
        purse_why(
            store.as_ptr(),
            store.len(),
            set.as_ptr(),
            set.len(),
            scratch.as_mut_ptr(),
            scratch.len(),
            stops.as_ptr(),
            stops.len(),
            output.as_mut_ptr(),
            output.len(),
        )
    };
    done(refusal)?;
    Ok(match reason {
        1 => Reason::Stop,
        2 => Reason::NoClash,
        3 => Reason::One { state, alternative: Alternative(alternative) },
        _ => {
            let written = &output[1..=output[0] as usize];
            let alternatives = written.iter().copied().map(Alternative).collect();
            Reason::Clash { state, context: ContextId(context), alternatives }
        }
    })
}

fn ask(door: Query, store: &[u32], scratch: &mut [u32], context: ContextId) -> Result<u32, Refusal> {
    // SAFETY: each pointer and its length are those of one slice, which outlives the call; the store's is
    // only read, and the scratch's is exclusive. Every `Query` is a door of the archive.
    let answer = unsafe { door(store.as_ptr(), store.len(), scratch.as_mut_ptr(), scratch.len(), context.0) };
    value(answer)
}

fn ask_entry(
    door: EntryQuery,
    store: &[u32],
    scratch: &mut [u32],
    context: ContextId,
    index: u32,
) -> Result<Option<u64>, Refusal> {
    // SAFETY: as for `ask`.
    let answer =
        unsafe { door(store.as_ptr(), store.len(), scratch.as_mut_ptr(), scratch.len(), context.0, index) };
    entry(answer)
}

fn ask_set(door: SetQuery, store: &[u32], set: &[u32], scratch: &mut [u32]) -> Result<bool, Refusal> {
    // SAFETY: each pointer and its length are those of one slice, which outlives the call; the scratch's is
    // exclusive, and the others are only read. Every `SetQuery` is a door of the archive.
    let answer = unsafe {
        door(store.as_ptr(), store.len(), set.as_ptr(), set.len(), scratch.as_mut_ptr(), scratch.len())
    };
    value(answer).map(truth)
}

fn ask_alt(
    door: AltQuery,
    store: &[u32],
    set: &[u32],
    scratch: &mut [u32],
) -> Result<Option<Alternative>, Refusal> {
    // SAFETY: as for `ask_set`.
    let answer = unsafe {
        door(store.as_ptr(), store.len(), set.as_ptr(), set.len(), scratch.as_mut_ptr(), scratch.len())
    };
    Ok(entry(answer)?.map(alternative))
}

fn alternative(value: u64) -> Alternative {
    Alternative(u32::try_from(value).expect("an alternative is a word"))
}

fn write(
    door: Writer,
    store: &[u32],
    set: &[u32],
    scratch: &mut [u32],
    output: &mut [u32],
) -> Result<(), Refusal> {
    // SAFETY: each pointer and its length are those of one slice, which outlives the call; those of scratch
    // and output are exclusive, and the others are only read. Every `Writer` is a door of the archive.
    let refusal = unsafe {
        door(
            store.as_ptr(),
            store.len(),
            set.as_ptr(),
            set.len(),
            scratch.as_mut_ptr(),
            scratch.len(),
            output.as_mut_ptr(),
            output.len(),
        )
    };
    done(refusal)
}

fn done(refusal: u32) -> Result<(), Refusal> {
    Refusal::from_number(refusal).map_or(Ok(()), Err)
}

fn value(answer: Answer) -> Result<u32, Refusal> {
    Refusal::from_number(answer.refusal).map_or(Ok(answer.value), Err)
}

/// An answer that is no refusal.
fn counted(answer: CountedAnswer) -> Result<CountedAnswer, Refusal> {
    Refusal::from_number(answer.refusal).map_or(Ok(answer), Err)
}

fn entry(answer: EntryAnswer) -> Result<Option<u64>, Refusal> {
    match Refusal::from_number(answer.refusal) {
        Some(refusal) => Err(refusal),
        None => Ok(truth(answer.found).then_some(answer.value)),
    }
}

fn truth(word: u32) -> bool {
    match word {
        0 => false,
        1 => true,
        other => unreachable!("the library's contracts give 0 or 1 here, not {other}"),
    }
}

#[cfg(test)]
mod tests {
    use super::*;

    const REFUSED: [(usize, u32, u32); 3] =
        [(STORE_WORDS - 1, 1, 2), (STORE_WORDS, 0, 1), (STORE_WORDS, 1, 4)];

    /// "A refusal carries its number and nothing else": the fields beside it are 0.
    #[test]
    fn a_refusal_carries_nothing_else() {
        for (length, count, refusal) in REFUSED {
            let mut store = vec![0; length];
            store[0] = count;
            let mut scratch = vec![7; SCRATCH_WORDS];
            let (words, cleared) = (store.as_mut_ptr(), scratch.as_mut_ptr());
            for door in [purse_len as Query, purse_is_empty, purse_has_empty_path] {
                // SAFETY: both pointers and lengths are those of vectors that outlive the call.
                let answer = unsafe { door(words, length, cleared, SCRATCH_WORDS, 1) };
                assert_eq!(answer, Answer { refusal, value: 0 });
            }
            for door in [purse_return_state as EntryQuery, purse_parent] {
                // SAFETY: as above.
                let answer = unsafe { door(words, length, cleared, SCRATCH_WORDS, 1, 0) };
                assert_eq!(answer, EntryAnswer { refusal, found: 0, value: 0 });
            }
            // SAFETY: as above.
            let answer = unsafe { purse_singleton(words, length, cleared, SCRATCH_WORDS, 1, 7) };
            assert_eq!(answer, CountedAnswer { refusal, value: 0, merges: 0, made: 0 });
            let mut set = vec![0; SET_WORDS];
            let at = set.as_mut_ptr();
            // SAFETY: as above.
            let answer =
                unsafe { purse_add(words, length, at, SET_WORDS, cleared, SCRATCH_WORDS, 1, 1, 1, 1, 1, 1) };
            assert_eq!(answer, CountedAnswer { refusal, value: 0, merges: 0, made: 0 });
            // SAFETY: as above.
            let answer = unsafe { purse_merge(words, length, cleared, SCRATCH_WORDS, 0, 1, 0) };
            assert_eq!(answer, CountedAnswer { refusal, value: 0, merges: 0, made: 0 });
        }
    }

    /// A set of one config over a context, in the words of a store of context 0 alone.
    fn store_and_set(context: u32) -> (Vec<u32>, Vec<u32>) {
        let (mut store, mut set) = (vec![0; STORE_WORDS], vec![0; SET_WORDS]);
        store[0] = 1;
        set[0] = 1;
        set[4] = context;
        (store, set)
    }

    /// Nor does one of a question about a set, by a store's length, a store, a set or the stop states.
    #[test]
    fn a_refused_question_carries_nothing_else() {
        let (store, set) = store_and_set(0);
        let (empty, unsound) = (vec![0; STORE_WORDS], store_and_set(1).1);
        let refused = [(&store[1..], &set[..], 2), (&empty[..], &set[..], 1), (&store[..], &unsound[..], 3)];
        let mut scratch = vec![7; SCRATCH_WORDS];
        let at = scratch.as_mut_ptr();
        for (store, set, refusal) in refused {
            let (words, length, configs) = (store.as_ptr(), store.len(), set.as_ptr());
            for door in [purse_all_subsets_conflict as SetQuery, purse_all_subsets_equal] {
                // SAFETY: the pointers and lengths are those of slices that outlive the call.
                let answer = unsafe { door(words, length, configs, SET_WORDS, at, SCRATCH_WORDS) };
                assert_eq!(answer, Answer { refusal, value: 0 });
            }
            for door in [purse_unique_alt as AltQuery, purse_single_viable_alt] {
                // SAFETY: as above.
                let answer = unsafe { door(words, length, configs, SET_WORDS, at, SCRATCH_WORDS) };
                assert_eq!(answer, EntryAnswer { refusal, found: 0, value: 0 });
            }
        }
        for (store, set, refusal) in refused.into_iter().chain([(&store[..], &set[..], 10)]) {
            let (words, configs, stops) = (store.as_ptr(), set.as_ptr(), [0; MOST_STOPS + 1]);
            // SAFETY: as above.
            let answer = unsafe {
                purse_has_sll_conflict_terminating_prediction(
                    words,
                    store.len(),
                    configs,
                    SET_WORDS,
                    at,
                    SCRATCH_WORDS,
                    stops.as_ptr(),
                    stops.len(),
                )
            };
            assert_eq!(answer, Answer { refusal, value: 0 });
            // SAFETY: as above.
            let answer = unsafe {
                purse_figures(
                    words,
                    store.len(),
                    configs,
                    SET_WORDS,
                    at,
                    SCRATCH_WORDS,
                    stops.as_ptr(),
                    stops.len(),
                )
            };
            assert_eq!(answer, FiguresAnswer { refusal, ..NO_FIGURES });
            let mut output = [3; CONFLICT_WORDS];
            // SAFETY: as above.
            let answer = unsafe {
                purse_why(
                    words,
                    store.len(),
                    configs,
                    SET_WORDS,
                    at,
                    SCRATCH_WORDS,
                    stops.as_ptr(),
                    stops.len(),
                    output.as_mut_ptr(),
                    output.len(),
                )
            };
            let nothing = ReasonAnswer { refusal, reason: 0, state: 0, alternative: 0, context: 0 };
            assert_eq!((answer, output), (nothing, [3; CONFLICT_WORDS]));
        }
    }

    const NO_FIGURES: FiguresAnswer = FiguresAnswer {
        refusal: 0,
        subsets: 0,
        has_unique: 0,
        unique: 0,
        has_viable: 0,
        viable: 0,
        verdict: 0,
    };

    /// Alternative 0 is found; none carries nothing else.
    #[test]
    fn alternative_0_and_none() {
        let (store, one) = store_and_set(0);
        let none = vec![0; SET_WORDS];
        let mut scratch = vec![7; SCRATCH_WORDS];
        for (set, found) in [(one, 1), (none, 0)] {
            for door in [purse_unique_alt as AltQuery, purse_single_viable_alt] {
                // SAFETY: the pointers and lengths are those of vectors that outlive the call.
                let answer = unsafe {
                    let scratch = scratch.as_mut_ptr();
                    door(store.as_ptr(), STORE_WORDS, set.as_ptr(), SET_WORDS, scratch, SCRATCH_WORDS)
                };
                assert_eq!(answer, EntryAnswer { refusal: 0, found, value: 0 });
            }
        }
    }

    /// Mode 0 is full-context, any other number is not.
    #[test]
    fn modes_of_a_fresh_set() {
        for (mode, flags) in [(0, 1), (1, 0), (2, 0), (1 << 31, 0), (u32::MAX, 0)] {
            let mut set = vec![7; SET_WORDS];
            // SAFETY: the pointer and the length are those of a vector that outlives the call.
            assert_eq!(unsafe { purse_fresh_set(set.as_mut_ptr(), SET_WORDS, mode) }, 0);
            assert_eq!(set[..2], [0, flags], "mode {mode}");
        }
    }

    /// Nor does the answer that there is no such entry.
    #[test]
    fn none_carries_nothing_else() {
        let mut store = vec![0; STORE_WORDS];
        store[0] = 1;
        let mut scratch = vec![7; SCRATCH_WORDS];
        for (door, index) in [(purse_return_state as EntryQuery, 1), (purse_parent, 0)] {
            // SAFETY: both pointers and lengths are those of vectors that outlive the call.
            let answer =
                unsafe { door(store.as_ptr(), STORE_WORDS, scratch.as_mut_ptr(), SCRATCH_WORDS, 0, index) };
            assert_eq!(answer, EntryAnswer { refusal: 0, found: 0, value: 0 });
        }
    }
}
