//! The count of a merge's work, by hand and at the ceilings.

use oracle::counted::{Contexts, Counted, EMPTY_STACK, Entry, Standing};
use oracle::generate;
use oracle::prediction::driver::Machine;
use oracle::record::{Kinds, Record, split};
use oracle::reply::{NO_ROOM, Refusal, TOO_MUCH_WORK};

/// The answer, how many contexts there are after it, and the count; or the refusal.
type Told = Result<(u32, usize, u32), Refusal>;

fn contexts(lists: &[&[Entry]]) -> Contexts {
    let mut contexts = Contexts::new();
    for list in lists {
        contexts.push(list);
    }
    contexts
}

/// 1 is 5 over 0, 2 is 6 over 0, 3 is 7 over 1, 4 is 7 over 2.
fn chain() -> Contexts {
    contexts(&[&[(5, 0)], &[(6, 0)], &[(7, 1)], &[(7, 2)]])
}

/// 3 is 7 and 8 over 1, 4 is 7 and 8 over 2.
fn diamond() -> Contexts {
    contexts(&[&[(5, 0)], &[(6, 0)], &[(7, 1), (8, 1)], &[(7, 2), (8, 2)]])
}

/// The diamond, and an array of so many entries and the empty stack as context 5.
fn beside(entries: u32) -> Contexts {
    let mut contexts = diamond();
    let list: Vec<Entry> = (5_000..5_000 + entries).map(|state| (state, 0)).chain([EMPTY_STACK]).collect();
    contexts.push(&list);
    contexts
}

/// So many results that no merge asks for, and a count.
fn behind(results: u32, merges: u32) -> Standing {
    Standing { kept: (1..=results).map(|side| ((true, side, side), 0)).collect(), merges }
}

fn told(mut contexts: Contexts, standing: Standing, left: u32, right: u32, wildcard: bool) -> Told {
    let before = contexts.count();
    let told = contexts.merge_from(standing, left, right, wildcard);
    assert!(told.is_ok() || contexts.count() == before, "a refusal leaves nothing");
    told.map(|Counted { context, merges, .. }| (context, contexts.count(), merges))
}

fn full(contexts: Contexts, standing: Standing, left: u32, right: u32) -> Told {
    told(contexts, standing, left, right, false)
}

#[test]
fn small_merges() {
    // 3 and 4, and beneath them 1 and 2.
    assert_eq!(full(chain(), behind(0, 0), 3, 4), Ok((6, 7, 2)));
    // Equal numbers do not count, on top or beneath.
    assert_eq!(full(chain(), behind(0, 0), 3, 3), Ok((3, 5, 0)));
    assert_eq!(full(contexts(&[&[(7, 0)], &[(7, 0), (8, 0)]]), behind(0, 0), 1, 2), Ok((2, 3, 1)));
    // Context 0 by wildcard counts; by full merge its entry is walked.
    assert_eq!(told(chain(), behind(0, 0), 3, 0, true), Ok((0, 5, 1)));
    assert_eq!(full(chain(), behind(0, 0), 3, 0), Ok((5, 6, 1)));
    // No state on both sides: one merge.
    assert_eq!(full(chain(), behind(0, 0), 1, 3), Ok((5, 6, 1)));
    // 1 and 2 under 7; under 8 that result is kept.
    assert_eq!(full(diamond(), behind(0, 0), 3, 4), Ok((6, 7, 2)));
}

#[test]
fn results_are_kept_by_kind_and_sides() {
    let kept = |wildcard| Standing { kept: [((wildcard, 1, 2), 0)].into(), merges: 0 };
    assert_eq!(full(chain(), kept(false), 2, 1), Ok((0, 5, 0)));
    assert_eq!(full(chain(), kept(false), 1, 2), Ok((0, 5, 0)));
    assert_eq!(full(chain(), kept(true), 1, 2), Ok((5, 6, 1)));
}

#[test]
fn the_first_1024_results_are_kept() {
    // The 1,024th result answers 1 and 2 under 8.
    assert_eq!(full(diamond(), behind(1_023, 0), 3, 4), Ok((6, 7, 2)));
    // There is no 1,025th: 1 and 2 count twice.
    assert_eq!(full(diamond(), behind(1_024, 0), 3, 4), Ok((6, 7, 3)));
}

#[test]
fn a_count_of_65536_is_answered() {
    assert_eq!(full(diamond(), behind(0, 65_534), 3, 4), Ok((6, 7, 65_536)));
    assert_eq!(full(diamond(), behind(0, 65_535), 3, 4), Err(TOO_MUCH_WORK));
    // Neither equal numbers nor a hit are too much.
    assert_eq!(full(diamond(), behind(0, 65_536), 3, 3), Ok((3, 5, 65_536)));
    let hit = Standing { kept: [((false, 3, 4), 2)].into(), merges: 65_536 };
    assert_eq!(full(diamond(), hit, 4, 3), Ok((2, 5, 65_536)));
    assert_eq!(told(diamond(), behind(0, 65_536), 0, 3, true), Err(TOO_MUCH_WORK));
}

#[test]
fn the_ceiling_that_is_reached_first() {
    // The merge takes 4 entries more than the diamond's 4.
    assert_eq!(full(beside(2_039), behind(0, 0), 3, 4), Ok((7, 8, 2)));
    assert_eq!(full(beside(2_040), behind(0, 0), 3, 4), Err(NO_ROOM));
    // Room for the context under 7 and none for the one above; a third merge comes before that.
    assert_eq!(full(beside(2_041), behind(1_024, 65_534), 3, 4), Err(TOO_MUCH_WORK));
    // No room under 7, and that comes before the third merge.
    assert_eq!(full(beside(2_042), behind(1_024, 65_534), 3, 4), Err(NO_ROOM));
}

/// Every merge of the generated scripts, on the store that it met: the same answer by sides exchanged.
#[test]
fn sides_exchanged_count_the_same() {
    let (mut merges, mut refused, mut most) = (0, 0, 0);
    let heavy = (0..9).map(|index| generate::heavy_script(17, index, Kinds::Store));
    for made in (0..400).map(|index| generate::script(17, index, Kinds::Store)).chain(heavy) {
        let (mut machine, mut exchanged) = (Machine::new(), Machine::new());
        for record in &split(&made.script, Kinds::Store).0 {
            let other = match *record {
                Record::Merge { left, right, mode } => Record::Merge { left: right, right: left, mode },
                _ => record.clone(),
            };
            let reply = machine.call(record);
            assert_eq!(reply, exchanged.call(&other), "{record:?}");
            assert_eq!(machine.merges_of_last_call(), exchanged.merges_of_last_call(), "{record:?}");
            assert_eq!(machine.walked_by_last_call(), exchanged.walked_by_last_call(), "{record:?}");
            merges += usize::from(matches!(record, Record::Merge { .. }));
            refused += usize::from(reply == Err(TOO_MUCH_WORK));
            most = most.max(machine.merges_of_last_call());
        }
        assert!(machine.store_words() == exchanged.store_words());
    }
    assert!(merges > 5_000 && refused > 15, "{merges} merges, {refused} of them too much work");
    assert_eq!(most, 65_536);
}

/// An insertion and a singleton count nothing; a config that is merged counts as its merge does.
#[test]
fn adds_count_their_merge() {
    let script = oracle::text::assemble(
        "singleton 0 5\nsingleton 0 6\nsingleton 1 7\nsingleton 2 7\n\
         add 1 1 3 0 0 0\nadd 1 1 3 0 0 0\nadd 1 1 4 0 0 0\nmerge 3 4 full\nshow 6\n",
    )
    .expect("good text");
    let mut machine = Machine::new();
    let counts: Vec<u32> = split(&script, Kinds::All)
        .0
        .iter()
        .map(|record| {
            machine.call(record).expect("accepted");
            machine.merges_of_last_call()
        })
        .collect();
    assert_eq!(counts, [0, 0, 0, 0, 0, 0, 2, 2, 0]);
}
