//! The comparison finds what it should, whatever the program does.

use std::path::PathBuf;

use oracle::compare::{Plan, compare};
use oracle::generate::malformed::each_fault;
use oracle::record::Kinds;

fn plan(program: &str, args: &[&str]) -> Plan {
    Plan {
        program: PathBuf::from(program),
        args: args.iter().map(|&arg| arg.to_owned()).collect(),
        kinds: Kinds::All,
        seed: 1,
        scripts: 150,
        words: 1,
        heavy: 6,
    }
}

fn report_on(program: &str, args: &[&str]) -> String {
    compare(&plan(program, args)).difference.expect("a difference")
}

#[test]
fn the_oracle_agrees_with_itself() {
    let outcome = compare(&plan(env!("CARGO_BIN_EXE_oracle"), &["run"]));
    assert_eq!(outcome.difference, None);
    assert_eq!(outcome.scripts, 150 + 6 + 1 + 37 + each_fault().len());
}

#[test]
fn a_program_that_knows_fewer_kinds_differs_in_one_record() {
    let report = report_on(env!("CARGO_BIN_EXE_oracle"), &["run", "--kinds", "store"]);
    let script = report.split("--- script\n").nth(1).and_then(|rest| rest.split("--- oracle").next());
    assert_eq!(script.expect("a script").lines().count(), 1, "{report}");
}

#[test]
fn crashes_silence_garbage_and_absence_are_differences() {
    assert!(report_on("sh", &["-c", "kill -9 $$"]).contains("ended with signal: 9"));
    assert!(report_on("sh", &["-c", "cat >/dev/null; exit 3"]).contains("ended with exit status: 3"));
    assert!(report_on("true", &[]).contains("ended with status 0"));
    assert!(report_on("cat", &[]).contains("--- program"));
    assert!(report_on("yes", &[]).contains("y\n"));
    assert!(report_on("./no-such-program", &[]).contains("could not be started"));
}
