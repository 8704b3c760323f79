//! Makes a script that shows a difference smaller.

use std::time::{Duration, Instant};

use crate::prediction::driver::Machine;
use crate::record::{self, Kinds, Record};

/// Shrinking stops here: a small enough script found soon beats the smallest one found late.
const TIME_LIMIT: Duration = Duration::from_secs(60);

/// A record, or a byte of what is malformed.
#[derive(Clone)]
enum Part {
    Record(Record),
    Byte(u8),
}

/// Drops stretches of records, then single ones, while `differs` holds of what is left.
pub fn shrink(script: &[u8], mut differs: impl FnMut(&[u8]) -> bool) -> Vec<u8> {
    let deadline = Instant::now() + TIME_LIMIT;
    let mut parts = parts_of(script);
    let mut stretch = parts.len();
    while stretch > 0 {
        let before = parts.len();
        drop_stretches(&mut parts, stretch, deadline, &mut differs);
        // At length 1 rounds go on until nothing more can go.
        if stretch > 1 || parts.len() == before || Instant::now() > deadline {
            stretch /= 2;
        }
    }
    bytes_of(&parts)
}

fn drop_stretches(
    parts: &mut Vec<Part>,
    stretch: usize,
    deadline: Instant,
    differs: &mut impl FnMut(&[u8]) -> bool,
) {
    // From the end: what is late seldom carries what is early.
    let mut end = parts.len();
    while end > 0 && Instant::now() < deadline {
        let start = end.saturating_sub(stretch);
        let candidates = [renumbered(parts, start, end), without(parts, start, end)];
        if let Some(smaller) = candidates.into_iter().find(|parts| differs(&bytes_of(parts))) {
            *parts = smaller;
        }
        end = start;
    }
}

fn parts_of(script: &[u8]) -> Vec<Part> {
    let (records, rest) = record::split(script, Kinds::All);
    let bytes = rest.iter().map(|&byte| Part::Byte(byte));
    records.into_iter().map(Part::Record).chain(bytes).collect()
}

fn bytes_of(parts: &[Part]) -> Vec<u8> {
    let mut script = Vec::new();
    for part in parts {
        match part {
            Part::Record(record) => record.encode(&mut script),
            Part::Byte(byte) => script.push(*byte),
        }
    }
    script
}

fn without(parts: &[Part], start: usize, end: usize) -> Vec<Part> {
    [&parts[..start], &parts[end..]].concat()
}

/// The same, and later records name contexts by their new numbers; what named a dropped one names what
/// the first dropped record stood over.
fn renumbered(parts: &[Part], start: usize, end: usize) -> Vec<Part> {
    let count_before = contexts_after(&parts[..start]);
    let count_after = contexts_after(&parts[..end]);
    let instead = match &parts[start] {
        Part::Record(Record::Singleton { parent, .. }) => *parent,
        Part::Record(Record::Merge { left, .. }) => *left,
        _ => 0,
    };
    let renumber = |context: u32| {
        if context >= count_after {
            context - (count_after - count_before)
        } else if context >= count_before {
            instead
        } else {
            context
        }
    };
    let later = parts[end..].iter().map(|part| match part {
        Part::Record(record) => Part::Record(with_contexts(record, renumber)),
        Part::Byte(byte) => Part::Byte(*byte),
    });
    parts[..start].iter().cloned().chain(later).collect()
}

fn contexts_after(parts: &[Part]) -> u32 {
    let mut machine = Machine::new();
    for part in parts {
        if let Part::Record(record) = part {
            let _ = machine.call(record);
        }
    }
    machine.contexts() as u32
}

fn with_contexts(record: &Record, number: impl Fn(u32) -> u32) -> Record {
    let mut record = record.clone();
    match &mut record {
        Record::Singleton { parent, .. } => *parent = number(*parent),
        Record::Merge { left, right, .. } => (*left, *right) = (number(*left), number(*right)),
        Record::Add(config) => config.context = number(config.context),
        Record::Show { context } => *context = number(*context),
        Record::NewSet { .. } | Record::Stops(_) | Record::Verdict | Record::Close | Record::Why => {}
    }
    record
}
