//! Readers that share a store see what they see alone: seeded interleavings through the static library, with
//! contexts compared by their stacks.

use std::collections::BTreeSet;

use judge::random::Random;
use pursecricket::{
    Alternative, AtnConfig, AtnConfigSet, ContextArena, ContextId, EMPTY_CONTEXT, Reason, Refusal,
    ReturnState, SemanticContextId,
};

type Stacks = BTreeSet<Vec<u64>>;

/// A reader names a context as 0 or as one of its own answers; `None` stands for 0.
type Name = Option<usize>;

#[derive(Clone, Debug)]
enum Call {
    Singleton(Name, u64),
    Merge(Name, Name, bool),
    Parent(Name, u32),
    FreshSet(bool),
    Add { context: Name, state: u32, alt: u32, semantic: u32, reach: u32, provenance: u32 },
    Close,
    Ask,
    Verdict(Vec<u32>),
    Why(Vec<u32>),
}

/// What a reader sees of an answer.
#[derive(Debug, PartialEq)]
enum Seen {
    Unnamed,
    Refused(Refusal),
    Context(Stacks),
    NoContext,
    Done,
    Inserted(bool),
    /// The subsets in order, then unique, viable, conflict, equal.
    Subsets(Vec<(u32, Stacks, BTreeSet<u32>)>, Option<Alternative>, Option<Alternative>, bool, bool),
    Verdict(bool),
    /// A reason that names no context.
    Because(Reason),
    /// The subset that clashes.
    Clash(u32, Stacks, Vec<Alternative>),
}

struct Reader {
    set: AtnConfigSet,
    answers: Vec<ContextId>,
}

impl Reader {
    fn new() -> Self {
        Reader { set: AtnConfigSet::new_full_context(true), answers: Vec::new() }
    }

    fn named(&self, name: Name) -> Option<ContextId> {
        name.map_or(Some(EMPTY_CONTEXT), |answer| self.answers.get(answer).copied())
    }

    fn context(&mut self, arena: &ContextArena, answer: Result<ContextId, Refusal>) -> Seen {
        match answer {
            Ok(context) => {
                self.answers.push(context);
                Seen::Context(stacks(arena, context))
            }
            Err(refusal) => Seen::Refused(refusal),
        }
    }

    fn call(&mut self, arena: &mut ContextArena, call: &Call) -> Seen {
        self.try_call(arena, call).unwrap_or(Seen::Unnamed)
    }

    fn try_call(&mut self, arena: &mut ContextArena, call: &Call) -> Option<Seen> {
        Some(match call {
            Call::Singleton(parent, state) => {
                let answer = arena.singleton(self.named(*parent)?, ReturnState(*state));
                self.context(arena, answer.map(|interned| interned.context))
            }
            Call::Merge(left, right, wildcard) => {
                let answer = arena.merge(self.named(*left)?, self.named(*right)?, *wildcard);
                self.context(arena, answer.map(|merged| merged.context))
            }
            Call::Parent(context, index) => match arena.parent(self.named(*context)?, *index) {
                Ok(Some(parent)) => self.context(arena, Ok(parent)),
                Ok(None) => Seen::NoContext,
                Err(refusal) => Seen::Refused(refusal),
            },
            Call::FreshSet(full) => {
                self.set = AtnConfigSet::new_full_context(*full);
                Seen::Done
            }
            Call::Add { context, state, alt, semantic, reach, provenance } => {
                let mut config = AtnConfig::new(*state, Alternative(*alt), self.named(*context)?);
                config.semantic_context = SemanticContextId(*semantic);
                config.reaches_into_outer_context = *reach;
                config.semantic_provenance_and_flags = *provenance;
                let added = self.set.add(config, arena);
                added.map_or_else(Seen::Refused, |added| Seen::Inserted(added.inserted))
            }
            Call::Close => self.set.close(arena).map_or_else(Seen::Refused, |()| Seen::Done),
            Call::Ask => self.ask(arena),
            Call::Verdict(stops) => self
                .set
                .has_sll_conflict_terminating_prediction(arena, stops)
                .map_or_else(Seen::Refused, Seen::Verdict),
            Call::Why(stops) => match self.set.why(arena, stops) {
                Ok(Reason::Clash { state, context, alternatives }) => {
                    self.answers.push(context);
                    Seen::Clash(state, stacks(arena, context), alternatives)
                }
                Ok(reason) => Seen::Because(reason),
                Err(refusal) => Seen::Refused(refusal),
            },
        })
    }

    fn ask(&self, arena: &ContextArena) -> Seen {
        let mut groups: Vec<(u32, ContextId, BTreeSet<u32>)> = Vec::new();
        for config in self.set.configs() {
            let known = groups.iter_mut().find(|group| (group.0, group.1) == (config.state, config.context));
            match known {
                Some(group) => drop(group.2.insert(config.alt.0)),
                None => groups.push((config.state, config.context, BTreeSet::from([config.alt.0]))),
            }
        }
        let groups = groups.into_iter().map(|(state, context, alts)| (state, stacks(arena, context), alts));
        Seen::Subsets(
            groups.collect(),
            self.set.unique_alt(arena).expect("sound"),
            self.set.single_viable_alt(arena).expect("sound"),
            self.set.all_subsets_conflict(arena).expect("sound"),
            self.set.all_subsets_equal(arena).expect("sound"),
        )
    }
}

/// The stacks of a context, the top first.
fn stacks(arena: &ContextArena, context: ContextId) -> Stacks {
    if context == EMPTY_CONTEXT {
        return Stacks::from([Vec::new()]);
    }
    let mut all = Stacks::new();
    for index in 0..arena.len(context).expect("known") {
        let state = arena.return_state(context, index).expect("known").expect("in range").0;
        if state == u64::MAX {
            all.insert(Vec::new());
            continue;
        }
        let parent = arena.parent(context, index).expect("known").expect("in range");
        all.extend(stacks(arena, parent).into_iter().map(|below| [vec![state], below].concat()));
    }
    all
}

fn name(random: &mut Random) -> Name {
    if random.chance(20) { None } else { Some(random.below(9)) }
}

fn stops(random: &mut Random) -> Vec<u32> {
    let length = if random.chance(5) { 65 } else { random.below(4) };
    (0..length).map(|_| random.below(3) as u32).collect()
}

fn any_call(random: &mut Random) -> Call {
    let small = |random: &mut Random, bound| random.below(bound) as u32;
    match random.below(14) {
        0..=3 => {
            let state = random.pick(&[1, 2, 3, 3, 4, 4_294_967_295, u64::MAX]);
            Call::Singleton(name(random), state)
        }
        4..=5 => Call::Merge(name(random), name(random), random.chance(50)),
        6 => Call::Parent(name(random), small(random, 3)),
        7 => {
            if random.chance(30) {
                Call::FreshSet(random.chance(50))
            } else {
                Call::Ask
            }
        }
        8..=11 => Call::Add {
            context: name(random),
            state: small(random, 3),
            alt: small(random, 3),
            semantic: u32::from(random.chance(20)),
            reach: small(random, 2),
            provenance: if random.chance(20) { 1 << 31 } else { 0 },
        },
        12 => {
            if random.chance(10) {
                Call::Close
            } else {
                Call::Ask
            }
        }
        13 if random.chance(50) => Call::Verdict(stops(random)),
        _ => Call::Why(stops(random)),
    }
}

#[test]
fn as_if_alone() {
    let mut contexts_that_differ = 0;
    for seed in 0..6_000 {
        let mut random = Random::new(seed);
        let count = random.between(2, 5);
        let mut shared = ContextArena::new();
        let mut readers: Vec<Reader> = (0..count).map(|_| Reader::new()).collect();
        let mut alone: Vec<(ContextArena, Reader)> =
            (0..count).map(|_| (ContextArena::new(), Reader::new())).collect();
        for step in 0..random.between(10, 60) {
            let (who, call) = (random.below(count), any_call(&mut random));
            let seen = readers[who].call(&mut shared, &call);
            let (arena, reader) = &mut alone[who];
            let seen_alone = reader.call(arena, &call);
            assert_ne!(seen, Seen::Refused(Refusal::FullStore), "seed {seed}: no call lacks room");
            assert_ne!(seen, Seen::Refused(Refusal::TooMuchWork), "seed {seed}: no call is too much work");
            assert_eq!(seen, seen_alone, "seed {seed}, step {step}, reader {who}: {call:?}");
            contexts_that_differ += usize::from(readers[who].answers.last() != reader.answers.last());
        }
    }
    assert!(contexts_that_differ > 10_000, "the readers' numbers hardly ever differ: nothing is shown");
}

/// Beside the first reader the second's clash is in context 2, and alone in 1.
#[test]
fn a_clash_is_seen_by_its_stacks() {
    let add = |alt| Call::Add { context: Some(0), state: 5, alt, semantic: 0, reach: 0, provenance: 0 };
    let (mut shared, mut store) = (ContextArena::new(), ContextArena::new());
    let (mut first, mut second, mut alone) = (Reader::new(), Reader::new(), Reader::new());
    first.call(&mut shared, &Call::Singleton(None, 7));
    for call in [Call::Singleton(None, 8), add(1), add(2), Call::Why(vec![])] {
        assert_eq!(second.call(&mut shared, &call), alone.call(&mut store, &call), "{call:?}");
    }
    assert_eq!(second.answers, [ContextId(2); 2], "its 8 over 0, and the clash's context");
    assert_eq!(alone.answers, [ContextId(1); 2]);
}
