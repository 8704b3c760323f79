//! The generator reaches what its families aim at.

use std::collections::BTreeMap;

use oracle::generate::{self, FAMILIES, alphabet, malformed};
use oracle::prediction::driver::Machine;
use oracle::record::{Kinds, Record, split};
use oracle::reply::{NO_ROOM, Refusal, Reply, TOO_MUCH_WORK};
use oracle::run::run;
use oracle::text;

/// Runs lines that are all accepted, and answers the last one's context.
fn context(machine: &mut Machine, lines: &str) -> u32 {
    let script = text::assemble(lines).expect("good text");
    let (records, _) = split(&script, Kinds::All);
    let replies = records.iter().map(|record| machine.call(record));
    match replies.last().expect("a record").expect("an accepted one") {
        Reply::Context { number, .. } => number,
        other => panic!("{other} is no context"),
    }
}

/// The lines end in two different contexts that have one hash.
fn assert_collide(first: &str, second: &str) {
    let mut machine = Machine::new();
    let one = context(&mut machine, first);
    let other = context(&mut machine, second);
    assert_eq!(machine.hash(one), machine.hash(other), "{first} and {second}");
    assert_ne!(one, other);
}

#[test]
fn the_hash_collisions_are_real() {
    assert_collide("singleton 0 52\nsingleton 1 1", "singleton 0 11975\nsingleton 3 515144035");
    assert_collide("merge 0 0 full", "singleton 0 523633496\nsingleton 1 999192160");
    assert_collide(
        "singleton 0 41776\nsingleton 0 946387694\nmerge 1 2 full",
        "singleton 0 160315\nsingleton 4 7",
    );
    assert_collide(
        "singleton 0 7\nsingleton 0 1549421363\nmerge 1 2 full",
        "singleton 0 1829705404\nmerge 3 4 full",
    );
    assert_collide(
        "singleton 0 66550\nsingleton 0 1311049642\nmerge 1 2 full\nsingleton 0 2147483653\nmerge 3 4 full",
        "singleton 0 963443\nsingleton 0 306341760\nmerge 6 7 full\nsingleton 0 2160661468\nmerge 8 9 full",
    );
    let mut machine = Machine::new();
    assert_eq!(context(&mut machine, "singleton 0 523633496\nsingleton 1 999192160"), 2);
    assert_eq!((machine.hash(2), machine.hash(0)), (0, 0));
}

/// Every merge of the first scripts of a family, by its answer and what it counted.
fn merges_of(name: &str) -> Vec<(Result<Reply, Refusal>, u32)> {
    let family = FAMILIES.iter().find(|family| family.name == name).expect("the family is there");
    let mut merges = Vec::new();
    for index in 0..12 {
        let made = generate::script_of(family, 1, index, Kinds::Store);
        let mut machine = Machine::new();
        for record in &split(&made.script, Kinds::Store).0 {
            let answer = machine.call(record);
            if matches!(record, Record::Merge { .. }) {
                merges.push((answer, machine.merges_of_last_call()));
            }
        }
    }
    merges
}

#[test]
fn merges_have_much_work() {
    let many = merges_of("many pairs");
    assert!(many.iter().all(|(answer, _)| answer.is_ok()));
    let more_than_kept = many.iter().filter(|(_, merges)| (1_025..=6_000).contains(merges)).count();
    assert!(more_than_kept >= 24, "{more_than_kept} merges count more than 1,024 and at most 6,000");
    for (name, times) in [("too many pairs", 24), ("most pairs", 24), ("work ceiling", 24)] {
        let refused = merges_of(name).iter().filter(|(answer, _)| *answer == Err(TOO_MUCH_WORK)).count();
        assert!(refused >= times, "{name}: {refused} merges are too much work");
    }
    let ceiling = merges_of("work ceiling");
    assert_eq!(ceiling.iter().filter(|(_, merges)| *merges == 65_536).count(), 3 * 12);
    assert_eq!(ceiling.iter().filter(|(answer, _)| *answer == Err(NO_ROOM)).count(), 12);
}

/// The runtime itself, which keeps every result: pairs that are met in the last two merges of the family.
#[test]
fn the_most_pairs_are_3655_and_16364() {
    let family = FAMILIES.iter().find(|family| family.name == "most pairs").expect("the family is there");
    let made = generate::script_of(family, 1, 0, Kinds::Store);
    let (records, _) = split(&made.script, Kinds::Store);
    let mut machine = Machine::new();
    let mut pairs = Vec::new();
    for record in &records {
        if let (Err(TOO_MUCH_WORK), Record::Merge { left, right, mode }) = (machine.call(record), record) {
            assert_eq!(machine.merge_alone(*left, *right, *mode), *right, "the lower level");
            pairs.push(machine.pairs_of_last_call());
        }
    }
    assert_eq!(pairs, [3_655, 16_364]);
}

#[test]
fn the_ceilings_are_met_exactly() {
    let (mut full_contexts, mut full_pools) = (0, 0);
    for index in 0..2_000 {
        let made = generate::script(2, index, Kinds::Store);
        let machine = run(&made.script, Kinds::Store).machine;
        full_contexts += usize::from(machine.contexts() == 512);
        full_pools += usize::from(machine.entries() == 2_048);
    }
    assert!(full_contexts >= 20, "{full_contexts} full stores");
    assert!(full_pools >= 10, "{full_pools} full pools");
}

#[test]
fn every_reply_and_refusal_occurs() {
    let mut seen = BTreeMap::<String, usize>::new();
    for index in 0..4_000 {
        let lines = run(&generate::script(3, index, Kinds::All).script, Kinds::All).lines;
        for line in String::from_utf8(lines).expect("lines are text").lines() {
            let refused = line.starts_with('R');
            let reason = line.starts_with('W').then(|| line.split_inclusive(' ').take(2).collect::<String>());
            let sort = if refused { line } else { reason.as_deref().map_or(&line[..1], str::trim_end) };
            *seen.entry(sort.to_owned()).or_default() += 1;
        }
    }
    for sort in [
        "A", "C", "E", "K", "N", "R 10", "R 4", "R 5", "R 6", "R 7", "R 8", "R 9", "S", "T", "V", "W clash",
        "W none", "W one", "W stop",
    ] {
        assert!(seen.get(sort).is_some_and(|&times| times >= 20), "{sort}: {seen:?}");
    }
}

#[test]
fn families_take_turns_and_seeds_repeat() {
    let mut seen = BTreeMap::<&str, usize>::new();
    for index in 0..400 {
        let made = generate::script(4, index, Kinds::All);
        assert!(made.script == generate::script(4, index, Kinds::All).script);
        *seen.entry(made.family).or_default() += 1;
    }
    // The heavy ones have a count of their own.
    assert_eq!(seen.len(), FAMILIES.len() - 3);
    let heavy = |index| generate::heavy_script(4, index, Kinds::All).family;
    assert_eq!([0, 1, 2, 3].map(heavy), ["too many pairs", "most pairs", "work ceiling", "too many pairs"]);
}

#[test]
fn without_sets_no_other_kind_is_run() {
    for index in 0..1_000 {
        let made = generate::script(5, index, Kinds::Store);
        let lines = run(&made.script, Kinds::Store).lines;
        let known = |line: &str| matches!(&line[..1], "C" | "E" | "R" | "T");
        assert!(String::from_utf8(lines).expect("lines are text").lines().all(known));
    }
}

#[test]
fn words_are_counted() {
    assert_eq!(alphabet::words(3, Kinds::Store).len(), 1 + 18 + 18 * 18 + 18 * 18 * 18);
    let faults = malformed::each_fault().len();
    assert_eq!(alphabet::words(2, Kinds::All).len(), 1 + (18 + 18 * 18) + (19 + 19 * 19) + faults);
}

/// All but the three lists of stop states are malformed, and 65 of these are too many.
#[test]
fn each_fault_is_one() {
    let faults = malformed::each_fault();
    let lines: Vec<Vec<u8>> = faults.iter().map(|script| run(script, Kinds::All).lines).collect();
    assert_eq!(lines.iter().filter(|&lines| lines == b"C 1 1\nR 9\nT 2 0\n").count(), faults.len() - 3);
    for reply in ["S 0", "S 64", "R 10"] {
        assert!(lines.contains(&format!("C 1 1\n{reply}\nW stop\nT 2 0\n").into_bytes()), "{reply}");
    }
}
