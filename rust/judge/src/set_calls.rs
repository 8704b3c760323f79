//! Every call on a config set, and what it leaves for any words and arguments: the reply and each word
//! afterwards.

use crate::calls::{
    FULL_SET, Lent, READ_ONLY_SET, Reply, UNKNOWN_CONTEXT, UNSOUND_SET, UNSOUND_STORE, WRONG_LENGTH,
};
use crate::layout::{MOST_CONFIGS, SCRATCH_WORDS, SET_WORDS, STORE_WORDS};
use crate::set::{Config, ConfigSet};
use crate::store::Store;

#[derive(Clone, Copy, Debug, Eq, PartialEq)]
pub enum SetCall {
    /// Lent the set alone.
    Fresh {
        full_context: bool,
    },
    Add(Config),
    Close,
}

/// All that a call leaves.
#[derive(Clone, Debug, Eq, PartialEq)]
pub struct SetOutcome {
    pub reply: Reply,
    pub store: Vec<u32>,
    pub set: Vec<u32>,
    pub scratch: Vec<u32>,
}

/// A set's words as they are lent to a call beside a store's, judged once.
pub struct LentSet<'a> {
    store: &'a Lent,
    words: Vec<u32>,
    set: Option<ConfigSet>,
}

impl<'a> LentSet<'a> {
    pub fn new(store: &'a Lent, words: Vec<u32>) -> Self {
        let set = store.store().and_then(|store| ConfigSet::decode(&words, store.count()));
        LentSet { store, words, set }
    }

    pub fn store(&self) -> &Lent {
        self.store
    }

    pub fn words(&self) -> &[u32] {
        &self.words
    }

    /// The set in the words, if they and the store's are sound.
    pub fn set(&self) -> Option<&ConfigSet> {
        self.set.as_ref()
    }

    /// What a call leaves, with this scratch lent beside store and set.
    pub fn outcome(&self, call: &SetCall, scratch: &[u32]) -> SetOutcome {
        if let SetCall::Fresh { full_context } = *call {
            return self.fresh(full_context, scratch);
        }
        let lengths = [self.store.words().len(), self.words.len(), scratch.len()];
        if lengths != [STORE_WORDS, SET_WORDS, SCRATCH_WORDS] {
            return self.unchanged(Reply::Refused(WRONG_LENGTH), scratch);
        }
        let cleared = vec![0; SCRATCH_WORDS];
        match self.answer(call) {
            Ok(Answer { reply, store, set }) => SetOutcome {
                reply,
                store: store.map_or_else(|| self.store.words().to_vec(), |store| store.words()),
                set: set.words(),
                scratch: cleared,
            },
            Err(refusal) => self.unchanged(Reply::Refused(refusal), &cleared),
        }
    }

    /// "A fresh set is flag 1 or 0 and else zeros, over any contents."
    fn fresh(&self, full_context: bool, scratch: &[u32]) -> SetOutcome {
        if self.words.len() != SET_WORDS {
            return self.unchanged(Reply::Refused(WRONG_LENGTH), scratch);
        }
        let set = ConfigSet::fresh(full_context).words();
        SetOutcome { set, ..self.unchanged(Reply::Done, scratch) }
    }

    fn unchanged(&self, reply: Reply, scratch: &[u32]) -> SetOutcome {
        let (store, set) = (self.store.words().to_vec(), self.words.clone());
        SetOutcome { reply, store, set, scratch: scratch.to_vec() }
    }

    fn answer(&self, call: &SetCall) -> Result<Answer, u32> {
        let store = self.store.store().ok_or(UNSOUND_STORE)?;
        let set = self.set.as_ref().ok_or(UNSOUND_SET)?;
        match *call {
            SetCall::Fresh { .. } => unreachable!("judged before the words are"),
            SetCall::Add(config) => add(store, set.clone(), config),
            // "Closing a set sets flag 8."
            SetCall::Close => {
                let set = ConfigSet { read_only: true, ..set.clone() };
                Ok(Answer { reply: Reply::Done, store: None, set })
            }
        }
    }
}

/// What a call on a sound set gives that is not refused; the store stays where there is no other.
struct Answer {
    reply: Reply,
    store: Option<Store>,
    set: ConfigSet,
}

fn add(store: &Store, mut set: ConfigSet, config: Config) -> Result<Answer, u32> {
    if set.read_only {
        return Err(READ_ONLY_SET);
    }
    if !store.knows(config.context) {
        return Err(UNKNOWN_CONTEXT);
    }
    let Some(place) = set.place(config.key()) else {
        if set.configs.len() == MOST_CONFIGS {
            return Err(FULL_SET);
        }
        set.configs.push(config);
        let reply = Reply::Added { inserted: true, merges: 0, made: 0 };
        return Ok(Answer { reply, store: None, set });
    };
    // "The contexts are merged (wildcard unless flag 1)."
    let held = set.configs[place];
    let mut grown = store.clone();
    let (context, merges) = grown.merge_in_call(held.context, config.context, !set.full_context)?;
    set.configs[place] = held.joined(&config, context);
    let reply = Reply::Added { inserted: false, merges, made: grown.made_since(store) };
    Ok(Answer { reply, store: Some(grown), set })
}
