//! The same for calls on a set's subsets.

use std::fmt::Display;

use judge::layout::{CONFLICT_WORDS, MOST_STOPS, SUBSET_WORDS, narrow};
use judge::random::Random;
use judge::{Config, LentSet, Reply, VerdictCall, VerdictOutcome};
use pursecricket::{Alternative, Figures, Reason, Refusal, raw};

use super::assert_words;

/// What the port leaves of these words.
fn run(call: &VerdictCall, store: &[u32], set: &[u32], scratch: &[u32]) -> VerdictOutcome {
    let [store, set, mut scratch] = [store, set, scratch].map(<[u32]>::to_vec);
    let mut output = Vec::new();
    let reply = match call {
        VerdictCall::UniqueAlt => found(raw::unique_alt(&store, &set, &mut scratch)),
        VerdictCall::SingleViableAlt => found(raw::single_viable_alt(&store, &set, &mut scratch)),
        VerdictCall::AllSubsetsConflict => {
            raw::all_subsets_conflict(&store, &set, &mut scratch).map(Reply::Truth)
        }
        VerdictCall::AllSubsetsEqual => raw::all_subsets_equal(&store, &set, &mut scratch).map(Reply::Truth),
        VerdictCall::Verdict(stops) => {
            raw::has_sll_conflict_terminating_prediction(&store, &set, &mut scratch, stops).map(Reply::Truth)
        }
        VerdictCall::ConflictingAltSubsets(words) => {
            output.clone_from(words);
            raw::conflicting_alt_subsets(&store, &set, &mut scratch, &mut output).map(|()| Reply::Done)
        }
        VerdictCall::ConflictingAlts(words) => {
            output.clone_from(words);
            raw::conflicting_alts(&store, &set, &mut scratch, &mut output).map(|()| Reply::Done)
        }
        VerdictCall::Figures(stops) => raw::figures(&store, &set, &mut scratch, stops).map(figures),
        VerdictCall::Why { stops, output: words } => {
            output.clone_from(words);
            raw::why(&store, &set, &mut scratch, stops, &mut output).map(|why| reason(why, &output))
        }
    };
    let reply = reply.unwrap_or_else(|refusal| Reply::Refused(refusal.number()));
    VerdictOutcome { reply, store, set, scratch, output }
}

fn found(answer: Result<Option<Alternative>, Refusal>) -> Result<Reply, Refusal> {
    answer.map(|found| Reply::Alternative(found.map(|alternative| alternative.0)))
}

fn figures(Figures { subsets, unique, viable, verdict }: Figures) -> Reply {
    let [unique, viable] = [unique, viable].map(|found| found.map(|alternative| alternative.0));
    Reply::Figures { subsets, unique, viable, verdict }
}

/// The alternatives of a clash are those in the output.
fn reason(why: Reason, output: &[u32]) -> Reply {
    Reply::Reason(match why {
        Reason::Stop => judge::Reason::Stop,
        Reason::NoClash => judge::Reason::NoClash,
        Reason::One { state, alternative } => judge::Reason::One { state, alternative: alternative.0 },
        Reason::Clash { state, context, alternatives } => {
            let written = output[1..=alternatives.len()].iter().copied().map(Alternative);
            assert!(written.eq(alternatives), "the alternatives are those written");
            judge::Reason::Clash { state, context: context.0 }
        }
    })
}

/// Runs a call and compares all that it leaves with the judge; answers what both replied.
pub fn agree(lent: &LentSet<'_>, call: &VerdictCall, scratch: &[u32], what: &dyn Display) -> Reply {
    let port = run(call, lent.store().words(), lent.words(), scratch);
    let judged = lent.verdict_outcome(call, scratch);
    assert_eq!(port.reply, judged.reply, "{what}: {call:?}");
    let pairs = [
        ("store", &port.store, &judged.store),
        ("set", &port.set, &judged.set),
        ("scratch", &port.scratch, &judged.scratch),
        ("output", &port.output, &judged.output),
    ];
    for (name, port, judged) in pairs {
        assert_words(port, judged, &format_args!("{what}: the {name} after {call:?}"));
    }
    judged.reply
}

/// All calls, the verdict with some stop states; answers what both replied to each.
pub fn agree_on_all(
    lent: &LentSet<'_>,
    random: &mut Random,
    scratch: &[u32],
    what: &dyn Display,
) -> Vec<Reply> {
    let configs = lent.set().map_or(&[][..], |set| &set.configs);
    let stops = any_stops(random, configs);
    all_kinds(random, stops).iter().map(|call| agree(lent, call, scratch, what)).collect()
}

/// The same for one of the calls.
pub fn agree_on_one(lent: &LentSet<'_>, random: &mut Random, scratch: &[u32], what: &dyn Display) -> Reply {
    let configs = lent.set().map_or(&[][..], |set| &set.configs);
    let stops = any_stops(random, configs);
    let calls = all_kinds(random, stops);
    agree(lent, &calls[random.below(calls.len())], scratch, what)
}

/// The calls that answer a question each, then those that write, over any words, all figures at once, and why.
fn all_kinds(random: &mut Random, stops: Vec<u32>) -> Vec<VerdictCall> {
    let mut calls = every_kind(stops.clone()).to_vec();
    calls.push(VerdictCall::ConflictingAltSubsets(dirty_output(random, SUBSET_WORDS)));
    calls.push(VerdictCall::ConflictingAlts(dirty_output(random, CONFLICT_WORDS)));
    calls.push(VerdictCall::Figures(stops.clone()));
    calls.push(VerdictCall::Why { stops, output: dirty_output(random, CONFLICT_WORDS) });
    calls
}

/// Words to write to that hold anything.
pub fn dirty_output(random: &mut Random, length: usize) -> Vec<u32> {
    match random.below(3) {
        0 => vec![0; length],
        1 => vec![u32::MAX; length],
        _ => random.words(length),
    }
}

pub fn every_kind(stops: Vec<u32>) -> [VerdictCall; 5] {
    [
        VerdictCall::UniqueAlt,
        VerdictCall::SingleViableAlt,
        VerdictCall::AllSubsetsConflict,
        VerdictCall::AllSubsetsEqual,
        VerdictCall::Verdict(stops),
    ]
}

/// Of these configs' states none, some or all, as far as there is room, in any order and some twice; now and
/// then states that they do not have, and one list in twenty too long.
pub fn any_stops(random: &mut Random, configs: &[Config]) -> Vec<u32> {
    let share = random.pick(&[0, 50, 90, 100, 100]);
    let mut stops: Vec<u32> = configs.iter().map(|config| config.state).collect();
    stops.sort_unstable();
    stops.dedup();
    stops.retain(|_| random.chance(share));
    stops.truncate(MOST_STOPS);
    let more = random.pick(&[0, 0, 1, 5, MOST_STOPS]).min(MOST_STOPS - stops.len());
    for _ in 0..more {
        let again =
            if stops.is_empty() || random.chance(20) { any_state(random) } else { random.pick(&stops) };
        stops.push(again);
    }
    for at in (1..stops.len()).rev() {
        stops.swap(at, random.below(at + 1));
    }
    if random.chance(5) {
        stops.resize(random.pick(&[MOST_STOPS + 1, MOST_STOPS + 1, 300]), any_state(random));
    }
    stops
}

fn any_state(random: &mut Random) -> u32 {
    let small = narrow(random.below(300));
    random.pick(&[0, 1, 7, small, u32::MAX - 1, u32::MAX])
}
