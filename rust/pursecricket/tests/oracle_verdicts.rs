//! The runtime's own answers about subsets beside the crate's, over sets with contexts shared and not, semantic
//! ids, marks and stop lists with duplicates.

mod common;

use std::collections::BTreeSet;

use common::verdicts::{any_stops, dirty_output};
use judge::ConfigSet;
use judge::layout::{CONFLICT_WORDS, SCRATCH_WORDS, SUBSET_WORDS, narrow};
use judge::random::Random;
use judge::set_makers::MARK;
use oracle::prediction::driver::Machine;
use oracle::record::{Config, Mode, Record};
use oracle::reply::{Reply, Verdict};
use pursecricket::{Alternative, AtnConfig, ContextId, Refusal, SemanticContextId, raw};

/// How many states, alternatives and contexts the configs of a set are picked from.
struct Shape {
    configs: usize,
    states: usize,
    alternatives: usize,
    contexts: usize,
    /// Contexts go by state, so that most alternatives of a state share one.
    shared: bool,
}

fn any_shape(random: &mut Random) -> Shape {
    Shape {
        configs: random.pick(&[0, 1, 2, 2, 3, 3, 4, 5, 6, 8, 12, 20, 40]),
        states: random.pick(&[1, 1, 2, 2, 3, 5, 20]),
        alternatives: random.pick(&[1, 2, 2, 3, 4, 8]),
        contexts: random.pick(&[1, 2, 3, 8, 20]),
        shared: random.chance(60),
    }
}

fn any_config(random: &mut Random, shape: &Shape) -> Config {
    let border = random.chance(3);
    let state = if border { u32::MAX } else { narrow(random.below(shape.states)) };
    let context = if shape.shared && !random.chance(5) { wide(state) } else { random.below(shape.contexts) };
    Config {
        state,
        alternative: if border { u32::MAX } else { narrow(random.below(shape.alternatives)) },
        context: narrow(context % shape.contexts),
        semantic: random.pick(&[0, 0, 0, 0, 1, 2, u32::MAX]),
        reach: random.pick(&[0, 0, 0, 1, u32::MAX]),
        provenance: random.pick(&[0, 0, 0, 1, MARK, MARK | 1, MARK - 1, u32::MAX]),
    }
}

fn wide(word: u32) -> usize {
    usize::try_from(word).expect("the host has 64 bits")
}

/// The runtime's set of a shape: known keys are merged, so contexts become more.
fn any_machine(random: &mut Random, shape: &Shape) -> Machine {
    let mut machine = Machine::new();
    for state in 1..shape.contexts {
        let parent = narrow(random.below(state));
        machine.call(&Record::Singleton { parent, state: state as u64 }).expect("room");
    }
    let mode = random.pick(&[Mode::Full, Mode::Wildcard]);
    machine.call(&Record::NewSet { mode }).expect("room");
    for _ in 0..shape.configs {
        machine.call(&Record::Add(any_config(random, shape))).expect("room");
    }
    if random.chance(10) {
        machine.call(&Record::Close).expect("a set closes");
    }
    machine
}

/// All that a side says of a set with a stop list.
#[derive(Clone, Debug, Eq, PartialEq)]
struct Said {
    subsets: usize,
    unique: Option<u32>,
    viable: Option<u32>,
    all_conflict: bool,
    all_equal: bool,
    terminates: bool,
}

fn of_the_runtime(machine: &mut Machine) -> Said {
    let Ok(Reply::Verdict(Verdict { subsets, unique, viable, terminates })) = machine.call(&Record::Verdict)
    else {
        panic!("a verdict has no refusal");
    };
    let (all_conflict, all_equal) = (machine.all_subsets_conflict(), machine.all_subsets_equal());
    Said { subsets, unique, viable, all_conflict, all_equal, terminates }
}

/// Each by its own call; then all figures at once, which must be the same.
fn of_the_port(store: &[u32], set: &[u32], scratch: &mut [u32], stops: &[u32]) -> Result<Said, Refusal> {
    let figures = raw::figures(store, set, scratch, stops)?;
    let said = Said {
        subsets: figures.subsets as usize,
        unique: raw::unique_alt(store, set, scratch)?.map(|alternative| alternative.0),
        viable: raw::single_viable_alt(store, set, scratch)?.map(|alternative| alternative.0),
        all_conflict: raw::all_subsets_conflict(store, set, scratch)?,
        all_equal: raw::all_subsets_equal(store, set, scratch)?,
        terminates: raw::has_sll_conflict_terminating_prediction(store, set, scratch, stops)?,
    };
    let alone = [figures.unique, figures.viable].map(|found| found.map(|alternative| alternative.0));
    assert_eq!((alone, figures.verdict), ([said.unique, said.viable], said.terminates));
    Ok(said)
}

/// A config as a record of the crate's.
fn record(config: &judge::Config) -> AtnConfig {
    AtnConfig {
        state: config.state,
        alt: Alternative(config.alternative),
        context: ContextId(config.context),
        semantic_context: SemanticContextId(config.semantic),
        reaches_into_outer_context: config.reach,
        semantic_provenance_and_flags: config.provenance,
    }
}

/// A subset: state, context and alternatives.
type Group = (u32, u32, Vec<u32>);

/// The subsets that stand in words, and whether the words after them are 0.
fn groups_in(words: &[u32]) -> (BTreeSet<Group>, bool) {
    let mut at = 1;
    let next = |_| {
        let (state, context, count) = (words[at], words[at + 1], wide(words[at + 2]));
        at += 3 + count;
        (state, context, words[at - count..at].to_vec())
    };
    let groups = (0..words[0]).map(next).collect();
    (groups, words[at..].iter().all(|&word| word == 0))
}

/// The subsets as sets, since the runtime's order is its hash map's, and the conflicting alternatives.
fn compare_written(machine: &Machine, store: &[u32], set: &[u32], random: &mut Random, round: usize) {
    let mut scratch = vec![random.word(); SCRATCH_WORDS];
    let mut subsets = dirty_output(random, SUBSET_WORDS);
    assert_eq!(raw::conflicting_alt_subsets(store, set, &mut scratch, &mut subsets), Ok(()));
    let (theirs, ours) = (machine.subset_words(), subsets);
    assert_eq!(ours[0], theirs[0], "round {round}");
    assert_eq!(groups_in(&ours), groups_in(&theirs), "round {round}");
    let mut alternatives = dirty_output(random, CONFLICT_WORDS);
    assert_eq!(raw::conflicting_alts(store, set, &mut scratch, &mut alternatives), Ok(()));
    assert_eq!(alternatives, machine.conflict_words(), "round {round}");
}

/// How often each answer was given; a set counts once for each stop list.
#[derive(Debug, Default)]
struct Tally {
    sets: usize,
    refused: usize,
    unique: usize,
    viable: usize,
    all_conflict: usize,
    all_equal: usize,
    settled: usize,
    stopped: usize,
}

impl Tally {
    fn count(&mut self, said: &Said, stops: &[u32]) {
        self.sets += 1;
        self.unique += usize::from(said.unique.is_some());
        self.viable += usize::from(said.viable.is_some());
        self.all_conflict += usize::from(said.all_conflict);
        self.all_equal += usize::from(said.all_equal);
        self.settled += usize::from(said.terminates && stops.is_empty());
        self.stopped += usize::from(said.terminates && !stops.is_empty());
    }

    /// Each answer, and its opposite, often enough to tell something.
    fn is_varied(&self) -> bool {
        let answers = [self.unique, self.viable, self.all_conflict, self.all_equal, self.settled];
        let varied = |&yes: &usize| yes * 20 > self.sets && (self.sets - yes) * 20 > self.sets;
        answers.iter().chain([&self.stopped]).all(varied) && self.refused * 50 > self.sets
    }
}

/// Both sides on a set, without stop states and with some.
fn compare(machine: &mut Machine, random: &mut Random, tally: &mut Tally, round: usize) {
    let (store, set) = (machine.store_words(), machine.set_words());
    let configs = ConfigSet::decode(&set, machine.contexts()).expect("the runtime's sets are sound").configs;
    compare_written(machine, &store, &set, random, round);
    let records: Vec<AtnConfig> = configs.iter().map(record).collect();
    let mut scratch = vec![random.word(); SCRATCH_WORDS];
    for stops in [vec![], any_stops(random, &configs)] {
        let taken = machine.call(&Record::Stops(stops.clone()));
        let port = of_the_port(&store, &set, &mut scratch, &stops);
        if taken.is_err() {
            assert_eq!(port, Err(Refusal::TooManyStops), "round {round}");
            tally.refused += 1;
            continue;
        }
        let theirs = of_the_runtime(machine);
        let unique = pursecricket::unique_alt(&records).map(|alternative| alternative.0);
        assert_eq!(unique, theirs.unique, "round {round}: {configs:?}");
        assert_eq!(port.as_ref(), Ok(&theirs), "round {round}: {configs:?} with {stops:?}");
        tally.count(&theirs, &stops);
    }
}

#[test]
fn random_sets() {
    let (mut random, mut tally) = (Random::new(110), Tally::default());
    for round in 0..25_000 {
        let shape = any_shape(&mut random);
        compare(&mut any_machine(&mut random, &shape), &mut random, &mut tally, round);
    }
    assert!(tally.is_varied(), "{tally:?}");
}

/// Up to 256 configs, of many states and alternatives.
#[test]
fn large_sets() {
    let (mut random, mut tally) = (Random::new(111), Tally::default());
    for round in 0..600 {
        let shape = Shape {
            configs: random.between(100, 256),
            states: random.pick(&[1, 4, 30, 300]),
            alternatives: random.pick(&[1, 2, 10, 300]),
            contexts: random.pick(&[1, 5, 30]),
            shared: random.chance(80),
        };
        compare(&mut any_machine(&mut random, &shape), &mut random, &mut tally, round);
    }
    assert!(tally.sets > 1_100, "{tally:?}");
}
