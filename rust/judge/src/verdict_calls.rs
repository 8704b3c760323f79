//! Every call on a set's subsets, and what it leaves for any words and stop states: the reply and each word
//! afterwards.

use crate::calls::{Reply, TOO_MANY_STOPS, UNSOUND_SET, UNSOUND_STORE, WRONG_LENGTH};
use crate::layout::{
    CONFLICT_WORDS, MOST_STOPS, SCRATCH_WORDS, SET_WORDS, STORE_WORDS, SUBSET_WORDS, narrow,
};
use crate::set::Config;
use crate::set_calls::LentSet;
use crate::verdicts::{
    all_subsets_conflict, all_subsets_equal, conflict_words, conflicting_alts, reason, single_viable_alt,
    subset_words, subsets, unique_alt, verdict,
};

/// Store and set are only read.
#[derive(Clone, Debug, Eq, PartialEq)]
pub enum VerdictCall {
    UniqueAlt,
    SingleViableAlt,
    AllSubsetsConflict,
    AllSubsetsEqual,
    /// With these stop states, of any number.
    Verdict(Vec<u32>),
    /// Over these words, of any length.
    ConflictingAltSubsets(Vec<u32>),
    /// The same.
    ConflictingAlts(Vec<u32>),
    /// All at once, with these stop states.
    Figures(Vec<u32>),
    /// Why, with these stop states, over these words.
    Why {
        stops: Vec<u32>,
        output: Vec<u32>,
    },
}

/// What a call leaves of all words that it is lent.
#[derive(Clone, Debug, Eq, PartialEq)]
pub struct VerdictOutcome {
    pub reply: Reply,
    pub store: Vec<u32>,
    pub set: Vec<u32>,
    pub scratch: Vec<u32>,
    pub output: Vec<u32>,
}

impl VerdictCall {
    /// The words to write to, and how many they must be.
    fn output(&self) -> (&[u32], usize) {
        match self {
            VerdictCall::ConflictingAltSubsets(output) => (output, SUBSET_WORDS),
            VerdictCall::ConflictingAlts(output) | VerdictCall::Why { output, .. } => {
                (output, CONFLICT_WORDS)
            }
            _ => (&[], 0),
        }
    }

    /// The reply on the configs of a sound set and the words written, or the refusal that remains.
    fn answer(&self, configs: &[Config]) -> Result<(Reply, Vec<u32>), u32> {
        let reply = match self {
            VerdictCall::UniqueAlt => Reply::Alternative(unique_alt(configs)),
            VerdictCall::SingleViableAlt => Reply::Alternative(single_viable_alt(configs)),
            VerdictCall::AllSubsetsConflict => Reply::Truth(all_subsets_conflict(configs)),
            VerdictCall::AllSubsetsEqual => Reply::Truth(all_subsets_equal(configs)),
            VerdictCall::Verdict(stops) | VerdictCall::Figures(stops) | VerdictCall::Why { stops, .. }
                if stops.len() > MOST_STOPS =>
            {
                return Err(TOO_MANY_STOPS);
            }
            VerdictCall::Verdict(stops) => Reply::Truth(verdict(configs, stops)),
            VerdictCall::ConflictingAltSubsets(_) => {
                return Ok((Reply::Done, subset_words(&subsets(configs))));
            }
            VerdictCall::ConflictingAlts(_) => {
                return Ok((Reply::Done, conflict_words(&conflicting_alts(configs))));
            }
            VerdictCall::Why { stops, .. } => {
                let (reason, alternatives) = reason(configs, stops);
                return Ok((Reply::Reason(reason), conflict_words(&alternatives)));
            }
            VerdictCall::Figures(stops) => Reply::Figures {
                subsets: narrow(subsets(configs).len()),
                unique: unique_alt(configs),
                viable: single_viable_alt(configs),
                verdict: verdict(configs, stops),
            },
        };
        Ok((reply, Vec::new()))
    }
}

impl LentSet<'_> {
    /// What a call on the subsets leaves, with this scratch lent beside store and set: these two as they
    /// were, the scratch 0 unless a length was wrong, and the output as it was where the call was refused.
    pub fn verdict_outcome(&self, call: &VerdictCall, scratch: &[u32]) -> VerdictOutcome {
        let (given, length) = call.output();
        let lengths = [self.store().words().len(), self.words().len(), scratch.len(), given.len()];
        let right = lengths == [STORE_WORDS, SET_WORDS, SCRATCH_WORDS, length];
        let scratch = if right { vec![0; SCRATCH_WORDS] } else { scratch.to_vec() };
        let answer = if right { self.verdict_answer(call) } else { Err(WRONG_LENGTH) };
        let (reply, output) = answer.unwrap_or_else(|refusal| (Reply::Refused(refusal), given.to_vec()));
        let (store, set) = (self.store().words().to_vec(), self.words().to_vec());
        VerdictOutcome { reply, store, set, scratch, output }
    }

    /// The checks after the lengths, in document 01's order: store, set, stop states.
    fn verdict_answer(&self, call: &VerdictCall) -> Result<(Reply, Vec<u32>), u32> {
        self.store().store().ok_or(UNSOUND_STORE)?;
        call.answer(&self.set().ok_or(UNSOUND_SET)?.configs)
    }
}
