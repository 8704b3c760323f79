//! Subsets and verdicts: document 01's examples, and the runtime's own code beside the judge's.

use std::collections::BTreeSet;

use judge::layout::wide;
use judge::random::Random;
use judge::set_makers::random_set;
use judge::verdicts::{
    all_subsets_conflict, all_subsets_equal, conflict_words, conflicting_alts, single_viable_alt,
    subset_words, subsets, unique_alt, verdict,
};
use judge::{Config, ConfigSet};
use oracle::generate;
use oracle::prediction::driver::Machine;
use oracle::record::{self, Kinds, Mode, Record, split};
use oracle::reply::{Reply, Verdict};

fn config(state: u32, alternative: u32, context: u32) -> Config {
    Config::of([state, alternative, context, 0, 0, 0])
}

/// P10.
#[test]
fn an_empty_set() {
    assert!(verdict(&[], &[]) && verdict(&[], &[7]));
    assert_eq!((unique_alt(&[]), single_viable_alt(&[])), (None, None));
    assert!(all_subsets_conflict(&[]) && all_subsets_equal(&[]));
    assert!(subsets(&[]).is_empty() && conflicting_alts(&[]).is_empty());
    assert!(subset_words(&[]).iter().chain(&conflict_words(&BTreeSet::new())).all(|&word| word == 0));
}

/// P11 and P12.
#[test]
fn two_alternatives() {
    let mut configs = vec![config(7, 2, 1), config(7, 1, 1)];
    assert!(verdict(&configs, &[]) && all_subsets_conflict(&configs));
    assert_eq!((unique_alt(&configs), single_viable_alt(&configs)), (None, Some(1)));
    configs.push(config(8, 2, 1));
    assert!(!verdict(&configs, &[]) && !all_subsets_conflict(&configs) && !all_subsets_equal(&configs));
    assert_eq!(single_viable_alt(&configs), None);
    assert_eq!(conflicting_alts(&configs), BTreeSet::from([1, 2]));
    // Stop states count only where every config is in one.
    assert!(!verdict(&configs, &[7]) && !verdict(&configs, &[8]) && verdict(&configs, &[9, 8, 7]));
}

/// Grouped by state and context, in order of each group's first config.
#[test]
fn groups_and_their_words() {
    let configs = [config(9, 3, 0), config(7, 2, 1), config(9, 1, 0), config(7, 1, 0)];
    let words = subset_words(&subsets(&configs));
    assert_eq!(words[..15], [3, 9, 0, 2, 1, 3, 7, 1, 1, 2, 7, 0, 1, 1, 0]);
    assert_eq!(words.len(), 1_025);
    let words = conflict_words(&conflicting_alts(&configs));
    assert_eq!((words.len(), &words[..4]), (257, &[2, 1, 3, 0][..]));
    // No state has one alternative, though two groups have.
    assert!(verdict(&configs, &[]));
}

/// The largest subsets and the most alternatives fill their words to the last.
#[test]
fn words_of_full_sets() {
    let apart: Vec<Config> = (0..256).map(|state| config(state, 5, 0)).collect();
    assert_eq!(subset_words(&subsets(&apart))[1_021..], [255, 0, 1, 5]);
    let together: Vec<Config> = (0..256).rev().map(|alternative| config(1, alternative, 0)).collect();
    assert_eq!(conflict_words(&conflicting_alts(&together))[254..], [253, 254, 255]);
}

/// All that both sides say of a set.
fn compare(machine: &mut Machine, configs: &[Config], stops: &[u32], what: &str) {
    let groups = subsets(configs);
    assert!(subset_words(&groups) == machine.subset_words(), "{what}: subsets");
    assert!(conflict_words(&conflicting_alts(configs)) == machine.conflict_words(), "{what}: conflicts");
    assert_eq!(all_subsets_conflict(configs), machine.all_subsets_conflict(), "{what}: all conflict");
    assert_eq!(all_subsets_equal(configs), machine.all_subsets_equal(), "{what}: all equal");
    let judged = Verdict {
        subsets: groups.len(),
        unique: unique_alt(configs),
        viable: single_viable_alt(configs),
        terminates: verdict(configs, stops),
    };
    assert_eq!(machine.call(&Record::Verdict), Ok(Reply::Verdict(judged)), "{what}");
}

/// The configs of the machine's set, by its words.
fn configs_of(machine: &Machine) -> Vec<Config> {
    let words = machine.set_words();
    let set = ConfigSet::decode(&words, machine.contexts()).expect("the runtime leaves sound sets");
    assert_eq!(set.configs.len(), wide(words[0]));
    set.configs
}

#[test]
fn generated_scripts() {
    let mut compared = 0;
    for index in 0..3_000 {
        let made = generate::script_about_sets(37, index);
        let (mut machine, mut stops) = (Machine::new(), Vec::new());
        for (at, record) in split(&made.script, Kinds::All).0.iter().enumerate() {
            let refused = machine.call(record).is_err();
            match record {
                Record::Stops(states) if !refused => stops.clone_from(states),
                Record::Verdict => {
                    let what = format!("script {index}, '{}', record {at}", made.family);
                    let configs = configs_of(&machine);
                    compare(&mut machine, &configs, &stops, &what);
                    compared += 1;
                }
                _ => {}
            }
        }
    }
    assert!(compared > 8_000, "only {compared} verdicts");
}

/// Sets of any configs, the runtime's made config by config, with stop lists that hold some of the states.
#[test]
fn random_sets() {
    let mut random = Random::new(38);
    for round in 0..1_000 {
        let contexts = 4;
        let configs = random.pick(&[1, 2, 3, 5, 9, 20, 256]);
        let set = random_set(&mut random, configs, contexts);
        let mut machine = Machine::new();
        for state in 1..contexts as u64 {
            machine.call(&Record::Singleton { parent: 0, state }).expect("room");
        }
        machine.call(&Record::NewSet { mode: Mode::Full }).expect("room");
        for config in &set.configs {
            let [state, alternative, context, semantic, reach, provenance] = config.words();
            let config = record::Config { state, alternative, context, semantic, reach, provenance };
            machine.call(&Record::Add(config)).expect("room");
        }
        let share = random.pick(&[0, 50, 95, 100]);
        let mut stops: Vec<u32> =
            set.configs.iter().map(|config| config.state).filter(|_| random.chance(share)).collect();
        stops.sort_unstable();
        stops.dedup();
        stops.truncate(64);
        machine.call(&Record::Stops(stops.clone())).expect("at most 64");
        compare(&mut machine, &set.configs, &stops, &format!("round {round}"));
    }
}
