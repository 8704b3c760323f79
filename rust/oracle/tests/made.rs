//! How many contexts a call made (request A3), by hand and over generated scripts.

use oracle::generate;
use oracle::prediction::driver::Machine;
use oracle::record::{Kinds, split};
use oracle::reply::Reply;
use oracle::run::run;
use oracle::text;

/// The reply lines of a script, without the end line.
fn lines(script: &str) -> Vec<String> {
    let script = text::assemble(script).expect("good text");
    let lines = String::from_utf8(run(&script, Kinds::All).lines).expect("lines are text");
    let mut lines: Vec<String> = lines.lines().map(str::to_owned).collect();
    lines.pop();
    lines
}

#[test]
fn found_or_made() {
    assert_eq!(lines("singleton 0 7\nsingleton 0 7"), ["C 1 1", "C 1 0"]);
    assert_eq!(lines("singleton 0 18446744073709551615"), ["C 0 0"]);
    assert_eq!(lines("merge 0 0 full"), ["C 0 0"]);
    // 5 and 6 under 7: the context beneath is made too; then all is found, by either order of the sides.
    let chains = "singleton 0 5\nsingleton 0 6\nsingleton 1 7\nsingleton 2 7\n";
    let merged = lines(&format!("{chains}merge 3 4 full\nmerge 4 3 full\nmerge 1 2 full"));
    assert_eq!(merged[4..], ["C 6 2", "C 6 0", "C 5 0"]);
    // What is beneath was made before.
    assert_eq!(lines(&format!("{chains}merge 1 2 full\nmerge 3 4 full"))[4..], ["C 5 1", "C 6 1"]);
    // By wildcard nothing new comes of a side that swallows the other.
    assert_eq!(lines(&format!("{chains}merge 3 0 wildcard"))[4..], ["C 0 0"]);
}

/// What is inserted makes nothing; what is merged makes what its merge does.
#[test]
fn configs() {
    let script = "singleton 0 5\nsingleton 0 6\nsingleton 1 7\nsingleton 2 7\n\
                  add 1 1 3 0 0 0\nadd 1 1 4 0 0 0\nadd 1 1 3 0 0 0\nadd 1 2 4 0 0 0\nadd 1 2 1 0 0 0";
    assert_eq!(lines(script)[4..], ["A 1 0", "A 0 2", "A 0 0", "A 1 0", "A 0 1"]);
}

/// A refusal is its number alone. What it made on the way is taken out: the next call makes that again.
#[test]
fn refusals() {
    let mut script: String = (1..=508).map(|state| format!("singleton 0 {state}\n")).collect();
    script += "singleton 1 7\nsingleton 2 7\nmerge 509 510 full\nmerge 1 2 full\nmerge 1 2 full\n";
    assert_eq!(lines(&script)[508..], ["C 509 1", "C 510 1", "R 6", "C 511 1", "C 511 0"]);
    assert_eq!(lines("singleton 1 7\nclose\nadd 1 1 0 0 0 0\n"), ["R 4", "K", "R 7"]);
}

/// A number that was not there before was made, and one that was there means that nothing was; the figures of
/// a run add up to all contexts but context 0.
#[test]
fn figures_add_up() {
    let (mut found, mut many) = (0, 0);
    let heavy = (0..6).map(|index| generate::heavy_script(29, index, Kinds::All));
    let others = (0..1_000).map(|index| generate::script(29, index, Kinds::All));
    for script in heavy.chain(others).map(|made| made.script) {
        let (mut machine, mut sum) = (Machine::new(), 0);
        for record in &split(&script, Kinds::All).0 {
            let before = machine.contexts();
            let reply = machine.call(record);
            if let Ok(Reply::Context { number, made }) = reply {
                assert_eq!(number as usize >= before, made > 0, "{record:?}");
            }
            if let Ok(Reply::Context { made, .. } | Reply::Added { made, .. }) = reply {
                sum += made as usize;
                found += usize::from(made == 0);
                many += usize::from(made > 1);
            }
            assert_eq!(machine.contexts(), 1 + sum, "{record:?}");
        }
    }
    assert!(found > 5_000 && many > 300, "{found} calls made nothing, {many} made more than one");
}
