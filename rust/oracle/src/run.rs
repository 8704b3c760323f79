//! Runs a whole script: a line a record, then the end line.

use std::io::Write;

use crate::prediction::driver::Machine;
use crate::record::{self, Kinds, MOST_BYTES, Step};
use crate::reply::MALFORMED;

/// What a script leaves: its lines, and store and set as they stand at the end.
pub struct Outcome {
    pub lines: Vec<u8>,
    pub machine: Machine,
}

/// An overlong script is malformed before any record; a malformed record ends the script.
pub fn run(script: &[u8], kinds: Kinds) -> Outcome {
    let mut outcome = Outcome { lines: Vec::new(), machine: Machine::new() };
    let well_formed = script.len() <= MOST_BYTES && run_records(script, kinds, &mut outcome);
    let Outcome { lines, machine } = &mut outcome;
    if !well_formed {
        put_line(lines, &MALFORMED);
    }
    put_line(lines, &format_args!("T {} {}", machine.contexts(), machine.entries()));
    outcome
}

/// Runs records up to the end or the first malformed one; whether it came to the end.
fn run_records(script: &[u8], kinds: Kinds, outcome: &mut Outcome) -> bool {
    let mut at = 0;
    loop {
        let record = match record::next(script, at, kinds) {
            Step::Record(record, after) => {
                at = after;
                record
            }
            Step::End => return true,
            Step::Malformed => return false,
        };
        match outcome.machine.call(&record) {
            Ok(reply) => put_line(&mut outcome.lines, &reply),
            Err(refusal) => put_line(&mut outcome.lines, &refusal),
        }
    }
}

fn put_line(lines: &mut Vec<u8>, line: &impl std::fmt::Display) {
    writeln!(lines, "{line}").expect("writing to memory");
}
