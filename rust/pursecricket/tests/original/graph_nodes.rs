//! Merges of 38 pairs of contexts, each compared with a drawing of what has to come out.
//!
//! The original took cases and drawings from `TestGraphNodes` of the Java runtime.

use std::collections::{BTreeSet, HashMap, VecDeque};
use std::fmt::Write;

use pursecricket::{ContextArena, ContextId, EMPTY_CONTEXT, EMPTY_RETURN_STATE, Refusal, ReturnState};

include!("graph_cases.rs");

fn build_chain(arena: &mut ContextArena, return_states: &[usize]) -> Result<ContextId, Refusal> {
    let mut context = EMPTY_CONTEXT;
    for &return_state in return_states {
        context = arena.singleton(context, ReturnState(return_state as u64))?.context;
    }
    Ok(context)
}

fn build_context(arena: &mut ContextArena, spec: ContextSpec) -> Result<ContextId, Refusal> {
    match spec {
        ContextSpec::Empty => Ok(EMPTY_CONTEXT),
        ContextSpec::Chain(return_states) => build_chain(arena, return_states),
        ContextSpec::Array(chains) => {
            let (first, others) = chains.split_first().expect("a chain");
            let mut array = build_chain(arena, first)?;
            for return_states in others {
                let context = build_chain(arena, return_states)?;
                array = arena.merge(array, context, false)?.context;
            }
            Ok(array)
        }
    }
}

fn run_case(case: &GraphCase) -> Result<String, Refusal> {
    let mut arena = ContextArena::new();
    let merged = match case.scenario {
        Scenario::Merge { left, right } => {
            let left = build_context(&mut arena, left)?;
            let right = build_context(&mut arena, right)?;
            arena.merge(left, right, case.root_is_wildcard)?.context
        }
        Scenario::NestedFullContext => {
            let child = arena.singleton(EMPTY_CONTEXT, ReturnState(8))?.context;
            let right = arena.merge(EMPTY_CONTEXT, child, false)?.context;
            let left = arena.singleton(right, ReturnState(8))?.context;
            arena.merge(left, right, false)?.context
        }
    };
    render_dot(&arena, merged, case.root_is_wildcard)
}

/// The original's drawing: contexts in the order of a walk to the parents, then what leads to each.
fn render_dot(arena: &ContextArena, context: ContextId, root_is_wildcard: bool) -> Result<String, Refusal> {
    let mut nodes = String::new();
    let mut edges = String::new();
    let mut context_ids = HashMap::from([(context, 0)]);
    let mut work_list = VecDeque::from([context]);

    while let Some(current) = work_list.pop_front() {
        let current_id = context_ids[&current];
        let len = arena.len(current)?;
        let shape = if len > 1 { "shape=record, " } else { "" };
        let label = label(arena, current, current_id, root_is_wildcard)?;
        writeln!(nodes, "  s{current_id}[{shape}label=\"{label}\"];").expect("write to string");

        if arena.is_empty(current)? {
            continue;
        }
        for index in 0..len {
            let return_state = arena.return_state(current, index)?.expect("context entry in range");
            if return_state == EMPTY_RETURN_STATE {
                continue;
            }
            let parent = arena.parent(current, index)?.expect("non-empty parent");
            let next_id = context_ids.len();
            let parent_id = *context_ids.entry(parent).or_insert_with(|| {
                work_list.push_front(parent);
                next_id
            });
            let port = if len > 1 { format!(":p{index}") } else { String::new() };
            writeln!(edges, "  s{current_id}{port}->s{parent_id}[label=\"{}\"];", return_state.0)
                .expect("write to string");
        }
    }
    Ok(format!("digraph G {{\nrankdir=LR;\n{nodes}{edges}}}\n"))
}

/// What a context is drawn with: the empty stack's sign, a field for each entry, or its number in the walk.
fn label(
    arena: &ContextArena,
    context: ContextId,
    id: usize,
    root_is_wildcard: bool,
) -> Result<String, Refusal> {
    let empty = if root_is_wildcard { "*" } else { "$" };
    if arena.is_empty(context)? {
        return Ok(empty.to_owned());
    }
    if arena.len(context)? == 1 {
        return Ok(id.to_string());
    }
    let mut fields = Vec::new();
    for index in 0..arena.len(context)? {
        let sign = if arena.return_state(context, index)? == Some(EMPTY_RETURN_STATE) { empty } else { "" };
        fields.push(format!("<p{index}>{sign}"));
    }
    Ok(fields.join("|"))
}

#[test]
fn pinned_upstream_test_graph_nodes_matches_dot() -> Result<(), Refusal> {
    assert_eq!(CASES.len(), 38, "pinned Java source case inventory drifted");
    let source_tests = CASES.iter().map(|case| case.source_test).collect::<BTreeSet<_>>();
    assert_eq!(source_tests.len(), 38, "pinned Java source test names must be unique");
    let logical_ids = CASES.iter().map(|case| case.logical_id).collect::<BTreeSet<_>>();
    assert_eq!(logical_ids.len(), 36, "pinned upstream logical row inventory drifted");

    let mut mismatches = Vec::new();
    for case in CASES {
        let actual = run_case(case)?;
        if actual != case.expected {
            mismatches.push(format!(
                "logical_id={}\nsource_test={}\n--- expected\n{}--- actual\n{}",
                case.logical_id, case.source_test, case.expected, actual
            ));
        }
    }
    assert!(
        mismatches.is_empty(),
        "TestGraphNodes DOT mismatches ({}/{} source cases):\n\n{}",
        mismatches.len(),
        CASES.len(),
        mismatches.join("\n")
    );
    Ok(())
}

/// Cases and drawings stand in the original in one piece, without a change but to the indent.
#[test]
fn the_cases_are_the_originals() {
    let code = |text: &str| {
        let lines = text.lines().map(str::trim).filter(|line| !line.is_empty() && !line.starts_with("//"));
        lines.collect::<Vec<_>>().join("\n")
    };
    let original = code(include_str!("../../../oracle/src/prediction.rs"));
    assert!(original.contains(&code(include_str!("graph_cases.rs"))));
}
