//! The same for calls on a config set.

use std::fmt::Display;

use judge::layout::narrow;
use judge::random::Random;
use judge::set_makers::{MARK, any_config};
use judge::{Config, ConfigSet, LentSet, Reply, SetCall, SetOutcome};
use pursecricket::{Added, Alternative, AtnConfig, ContextId, SemanticContextId, raw};

use super::assert_words;

fn given(config: &Config) -> AtnConfig {
    AtnConfig {
        state: config.state,
        alt: Alternative(config.alternative),
        context: ContextId(config.context),
        semantic_context: SemanticContextId(config.semantic),
        reaches_into_outer_context: config.reach,
        semantic_provenance_and_flags: config.provenance,
    }
}

/// What the port leaves of these words.
pub fn run(call: &SetCall, store: &[u32], set: &[u32], scratch: &[u32]) -> SetOutcome {
    let [mut store, mut set, mut scratch] = [store, set, scratch].map(<[u32]>::to_vec);
    let reply = match call {
        SetCall::Fresh { full_context } => raw::fresh_set(&mut set, *full_context).map(|()| Reply::Done),
        SetCall::Add(config) => raw::add(&mut store, &mut set, &mut scratch, given(config))
            .map(|Added { inserted, merges, made }| Reply::Added { inserted, merges, made }),
        SetCall::Close => raw::close(&store, &mut set, &mut scratch).map(|()| Reply::Done),
    };
    let reply = reply.unwrap_or_else(|refusal| Reply::Refused(refusal.number()));
    SetOutcome { reply, store, set, scratch }
}

/// Runs a call and compares all that it leaves with the judge; answers what both left.
pub fn agree(lent: &LentSet<'_>, call: &SetCall, scratch: &[u32], what: &dyn Display) -> SetOutcome {
    let port = run(call, lent.store().words(), lent.words(), scratch);
    let judged = lent.outcome(call, scratch);
    assert_eq!(port.reply, judged.reply, "{what}: {call:?}");
    let pairs = [
        ("store", &port.store, &judged.store),
        ("set", &port.set, &judged.set),
        ("scratch", &port.scratch, &judged.scratch),
    ];
    for (name, port, judged) in pairs {
        assert_words(port, judged, &format_args!("{what}: the {name} after {call:?}"));
    }
    judged
}

/// A config with the key of one of the set's, and all else as it comes.
pub fn known_config(random: &mut Random, set: &ConfigSet, contexts: usize) -> Option<Config> {
    if set.configs.is_empty() {
        return None;
    }
    let held = random.pick(&set.configs);
    let Config { context, reach, .. } = any_config(random, contexts);
    let mark = random.pick(&[0, MARK]);
    Some(Config { context, reach, provenance: held.id() | mark, ..held })
}

/// Calls of every kind beside a store of so many contexts, on a set that may be there.
pub fn every_kind(random: &mut Random, set: Option<&ConfigSet>, contexts: usize) -> Vec<SetCall> {
    let unknown = [contexts, contexts + 1, 512, u32::MAX as usize].map(narrow);
    let config = any_config(random, contexts);
    let beyond = Config { context: random.pick(&unknown), ..any_config(random, contexts) };
    let known = set.and_then(|set| known_config(random, set, contexts));
    let mut calls = vec![
        SetCall::Add(config),
        SetCall::Add(beyond),
        SetCall::Close,
        SetCall::Fresh { full_context: random.chance(50) },
    ];
    calls.extend(known.map(SetCall::Add));
    calls
}
