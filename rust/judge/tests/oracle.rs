//! The judge beside the runtime's own code: replies, and every word of the store, after every record.

use judge::calls::{Call, Lent, Reply};
use judge::layout::SCRATCH_WORDS;
use oracle::generate;
use oracle::prediction::driver::Machine;
use oracle::record::{Kinds, Mode, Record, split};
use oracle::reply;

/// The judge's reply to a call, with the words that it leaves.
fn judged(lent: &Lent, call: Call) -> (Reply, Vec<u32>) {
    let outcome = lent.outcome(&call, &vec![7; SCRATCH_WORDS]);
    assert!(outcome.scratch.iter().all(|&word| word == 0), "the scratch after {call:?}");
    (outcome.reply, outcome.store)
}

fn call_of(record: &Record) -> Option<Call> {
    match *record {
        Record::Singleton { parent, state } => Some(Call::Singleton { parent, state }),
        Record::Merge { left, right, mode } => {
            Some(Call::Merge { left, right, wildcard: mode == Mode::Wildcard })
        }
        _ => None,
    }
}

/// The entries of a context as the trace program shows them, by the judge's queries.
fn shown(lent: &Lent, context: u32) -> Result<Vec<Option<(u32, u32)>>, u32> {
    let count = match judged(lent, Call::Len { context }).0 {
        Reply::Count(count) => count,
        Reply::Refused(number) => return Err(number),
        other => panic!("a length of {other:?}"),
    };
    let entry = |index| {
        let state = judged(lent, Call::ReturnState { context, index }).0;
        let parent = judged(lent, Call::Parent { context, index }).0;
        match (state, parent) {
            (Reply::Entry(Some(u64::MAX)), Reply::Entry(None | Some(0))) => None,
            (Reply::Entry(Some(state)), Reply::Entry(Some(parent))) => Some((state as u32, parent as u32)),
            other => panic!("an entry of {other:?}"),
        }
    };
    Ok((0..count).map(entry).collect())
}

/// Runs one record on both sides; answers the words after it.
fn compare(machine: &mut Machine, lent: &Lent, record: &Record, what: &str) -> Vec<u32> {
    let theirs = machine.call(record).map_err(|refusal| u32::from(refusal.0));
    if let Record::Show { context } = *record {
        assert_eq!(shown(lent, context).map(reply::Reply::Entries), theirs, "{what}");
        return lent.words().to_vec();
    }
    let (reply, words) = judged(lent, call_of(record).expect("a record of the store"));
    match theirs {
        Ok(reply::Reply::Context { number: context, made }) => {
            let merges = machine.merges_of_last_call();
            let theirs = match record {
                Record::Merge { .. } => Reply::Merged { context, merges, made },
                _ => Reply::Interned { context, made },
            };
            assert_eq!(reply, theirs, "{what}");
        }
        Err(number) => assert_eq!(reply, Reply::Refused(number), "{what}"),
        Ok(other) => panic!("{what}: the oracle says {other:?}"),
    }
    assert!(words == machine.store_words(), "{what}: words");
    words
}

#[test]
fn generated_scripts() {
    let mut compared = 0;
    let heavy = (0..6).map(|index| generate::heavy_script(23, index, Kinds::Store));
    let others = (0..600).map(|index| generate::script(23, index, Kinds::Store));
    for (index, made) in heavy.chain(others).enumerate() {
        let (records, _) = split(&made.script, Kinds::Store);
        let mut machine = Machine::new();
        let mut words = machine.store_words();
        for (at, record) in records.iter().enumerate().take(700) {
            let what = format!("script {index}, '{}', record {at}: {record:?}", made.family);
            words = compare(&mut machine, &Lent::new(words), record, &what);
            compared += 1;
        }
    }
    assert!(compared > 20_000, "only {compared} records");
}
