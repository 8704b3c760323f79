//! Every call on a store, and what it leaves for any words and arguments: the reply and each word afterwards.

use crate::layout::{DOLLAR, EMPTY_MARK, SCRATCH_WORDS, STORE_WORDS, narrow, wide};
use crate::store::Store;
use crate::verdicts::Reason;

/// Refusals, by document 01's numbers.
pub const UNSOUND_STORE: u32 = 1;
pub const WRONG_LENGTH: u32 = 2;
pub const UNSOUND_SET: u32 = 3;
pub const UNKNOWN_CONTEXT: u32 = 4;
pub const STATE_OUT_OF_RANGE: u32 = 5;
pub const FULL_STORE: u32 = 6;
pub const READ_ONLY_SET: u32 = 7;
pub const FULL_SET: u32 = 8;
pub const TOO_MANY_STOPS: u32 = 10;
pub const TOO_MUCH_WORK: u32 = 12;

#[derive(Clone, Copy, Debug, Eq, PartialEq)]
pub enum Call {
    /// Lent the store alone.
    Fresh,
    Singleton {
        parent: u32,
        state: u64,
    },
    Merge {
        left: u32,
        right: u32,
        wildcard: bool,
    },
    Len {
        context: u32,
    },
    IsEmpty {
        context: u32,
    },
    HasEmptyPath {
        context: u32,
    },
    ReturnState {
        context: u32,
        index: u32,
    },
    Parent {
        context: u32,
        index: u32,
    },
}

#[derive(Clone, Copy, Debug, Eq, PartialEq)]
pub enum Reply {
    Refused(u32),
    Done,
    /// The context of a singleton, and how many contexts the call made.
    Interned {
        context: u32,
        made: u32,
    },
    /// The context of a merge, how many merges were counted, and how many contexts the call made.
    Merged {
        context: u32,
        merges: u32,
        made: u32,
    },
    Count(u32),
    Truth(bool),
    /// A return state or a parent; `None` where there is none.
    Entry(Option<u64>),
    /// A config went last; or it was merged, and so many merges were counted and contexts made.
    Added {
        inserted: bool,
        merges: u32,
        made: u32,
    },
    /// An alternative; `None` where there is none.
    Alternative(Option<u32>),
    /// The number of subsets, the unique and the viable alternative, and the verdict.
    Figures {
        subsets: u32,
        unique: Option<u32>,
        viable: Option<u32>,
        verdict: bool,
    },
    /// The alternatives of a clash stand in the output.
    Reason(Reason),
}

/// All that a call leaves.
#[derive(Clone, Debug, Eq, PartialEq)]
pub struct Outcome {
    pub reply: Reply,
    pub store: Vec<u32>,
    pub scratch: Vec<u32>,
}

/// A store's words as they are lent to a call, judged once.
pub struct Lent {
    words: Vec<u32>,
    store: Option<Store>,
}

impl Lent {
    pub fn new(words: Vec<u32>) -> Self {
        let store = Store::decode(&words);
        Lent { words, store }
    }

    pub fn words(&self) -> &[u32] {
        &self.words
    }

    /// The store in the words, if they are sound.
    pub fn store(&self) -> Option<&Store> {
        self.store.as_ref()
    }

    /// What a call leaves, with this scratch lent beside the store.
    pub fn outcome(&self, call: &Call, scratch: &[u32]) -> Outcome {
        if *call == Call::Fresh {
            return self.fresh(scratch);
        }
        if self.words.len() != STORE_WORDS || scratch.len() != SCRATCH_WORDS {
            return self.unchanged(Reply::Refused(WRONG_LENGTH), scratch);
        }
        let cleared = vec![0; SCRATCH_WORDS];
        let Some(store) = &self.store else {
            return self.unchanged(Reply::Refused(UNSOUND_STORE), &cleared);
        };
        match answer(store, call) {
            Ok(Answer::Read(reply)) => self.unchanged(reply, &cleared),
            Ok(Answer::Made(reply, after)) => Outcome { reply, store: after.words(), scratch: cleared },
            Err(refusal) => self.unchanged(Reply::Refused(refusal), &cleared),
        }
    }

    fn fresh(&self, scratch: &[u32]) -> Outcome {
        if self.words.len() != STORE_WORDS {
            return self.unchanged(Reply::Refused(WRONG_LENGTH), scratch);
        }
        Outcome { reply: Reply::Done, store: Store::fresh().words(), scratch: scratch.to_vec() }
    }

    fn unchanged(&self, reply: Reply, scratch: &[u32]) -> Outcome {
        Outcome { reply, store: self.words.clone(), scratch: scratch.to_vec() }
    }
}

/// What a call on a sound store gives that is not refused.
enum Answer {
    /// The store stays.
    Read(Reply),
    Made(Reply, Store),
}

fn answer(store: &Store, call: &Call) -> Result<Answer, u32> {
    match *call {
        Call::Fresh => unreachable!("judged before the words are"),
        Call::Singleton { parent, state } => singleton(store, parent, state),
        Call::Merge { left, right, wildcard } => {
            known(store, left)?;
            known(store, right)?;
            let mut grown = store.clone();
            let (context, merges) = grown.merge_in_call(left, right, wildcard)?;
            let made = grown.made_since(store);
            Ok(Answer::Made(Reply::Merged { context, merges, made }, grown))
        }
        Call::Len { context } => {
            known(store, context)?;
            Ok(Answer::Read(Reply::Count(narrow(store.entries(context).len()))))
        }
        Call::IsEmpty { context } => {
            known(store, context)?;
            Ok(Answer::Read(Reply::Truth(context == 0)))
        }
        Call::HasEmptyPath { context } => {
            known(store, context)?;
            let holds = store.entries(context).iter().any(|entry| entry.state == DOLLAR);
            Ok(Answer::Read(Reply::Truth(holds)))
        }
        Call::ReturnState { context, index } => {
            known(store, context)?;
            Ok(Answer::Read(Reply::Entry(return_state(store, context, index))))
        }
        Call::Parent { context, index } => {
            known(store, context)?;
            Ok(Answer::Read(Reply::Entry(parent(store, context, index))))
        }
    }
}

fn known(store: &Store, context: u32) -> Result<(), u32> {
    if store.knows(context) { Ok(()) } else { Err(UNKNOWN_CONTEXT) }
}

fn singleton(store: &Store, parent: u32, state: u64) -> Result<Answer, u32> {
    known(store, parent)?;
    if state == EMPTY_MARK {
        return Ok(Answer::Read(Reply::Interned { context: 0, made: 0 }));
    }
    if state >= u64::from(DOLLAR) {
        return Err(STATE_OUT_OF_RANGE);
    }
    let state = u32::try_from(state).expect("below the stored empty mark");
    made(store, |grown| grown.singleton(parent, state))
}

/// Runs a call in a copy that has no ceilings, and refuses it where that ends above one.
fn made(store: &Store, call: impl FnOnce(&mut Store) -> u32) -> Result<Answer, u32> {
    let mut grown = store.clone();
    let context = grown.within_ceilings(call).ok_or(FULL_STORE)?;
    let made = grown.made_since(store);
    Ok(Answer::Made(Reply::Interned { context, made }, grown))
}

/// "`return_state` of a `$`, context 0's at 0 included, is the empty mark."
fn return_state(store: &Store, context: u32, index: u32) -> Option<u64> {
    let entry = store.entries(context).get(wide(index))?;
    Some(if entry.state == DOLLAR { EMPTY_MARK } else { u64::from(entry.state) })
}

/// "`parent` of context 0 is none at every index, yet the parent of an array's `$` is 0."
fn parent(store: &Store, context: u32, index: u32) -> Option<u64> {
    if context == 0 {
        return None;
    }
    store.entries(context).get(wide(index)).map(|entry| u64::from(entry.parent))
}
