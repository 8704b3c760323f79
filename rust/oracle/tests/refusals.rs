//! Refusals, in document 01's order, and that they leave nothing behind.

use oracle::generate;
use oracle::prediction::driver::Machine;
use oracle::record::{Kinds, split};
use oracle::run::run;
use oracle::text;

fn lines(script: &str) -> String {
    let script = text::assemble(script).expect("good text");
    String::from_utf8(run(&script, Kinds::All).lines).expect("lines are text")
}

/// Runs what prepares and then one record more, and answers the line of that record.
fn last_reply(prepare: &str, record: &str) -> String {
    let lines = lines(&format!("{prepare}{record}\n"));
    let mut newest_first = lines.lines().rev();
    newest_first.next();
    newest_first.next().expect("a reply").to_owned()
}

/// 512 contexts: 1 to 511 are the states 1 to 511 over 0.
fn full_store() -> String {
    (1..512).map(|state| format!("singleton 0 {state}\n")).collect()
}

fn full_set() -> String {
    (0..256).map(|state| format!("add {state} 1 0 0 0 0\n")).collect()
}

#[test]
fn each_refusal_has_its_number() {
    assert_eq!(last_reply("", "show 1"), "R 4");
    assert_eq!(last_reply("", "merge 0 1 full"), "R 4");
    assert_eq!(last_reply("", "merge 1 0 wildcard"), "R 4");
    assert_eq!(last_reply("", "add 1 1 1 0 0 0"), "R 4");
    assert_eq!(last_reply("", "singleton 0 18446744073709551614"), "R 5");
    assert_eq!(last_reply(&full_store(), "singleton 0 512"), "R 6");
    assert_eq!(last_reply("close\n", "add 1 1 0 0 0 0"), "R 7");
    assert_eq!(last_reply(&full_set(), "add 256 1 0 0 0 0"), "R 8");
    assert_eq!(last_reply("", "hex 00"), "R 9");
    assert_eq!(last_reply("", &format!("stops{}", " 1".repeat(65))), "R 10");
}

#[test]
fn an_earlier_row_of_the_table_comes_first() {
    // 7 before 4 and 8.
    assert_eq!(last_reply("close\n", "add 1 1 9 0 0 0"), "R 7");
    assert_eq!(last_reply(&(full_set() + "close\n"), "add 256 1 0 0 0 0"), "R 7");
    // 4 before 5, before the empty mark's answer, and before 8.
    assert_eq!(last_reply("", "singleton 9 4294967295"), "R 4");
    assert_eq!(last_reply("", "singleton 9 18446744073709551615"), "R 4");
    assert_eq!(last_reply(&full_set(), "add 256 1 9 0 0 0"), "R 4");
    // 5 before 6.
    assert_eq!(last_reply(&full_store(), "singleton 0 4294967295"), "R 5");
    // 8 and 6 cannot meet: only a known key merges. In a full set and store it is refused with 6.
    let both = full_store() + "set full\n" + &full_set() + "add 0 1 1 0 0 0\n";
    assert_eq!(last_reply(&both, "add 256 1 1 0 0 0"), "R 8");
    assert_eq!(last_reply(&(full_store() + "add 0 1 1 0 0 0\n"), "add 0 1 2 0 0 0"), "R 6");
}

#[test]
fn a_full_store_still_finds_what_is_old() {
    assert_eq!(last_reply(&full_store(), "singleton 0 511"), "C 511 0");
    assert_eq!(last_reply(&full_store(), "singleton 0 18446744073709551615"), "C 0 0");
    assert_eq!(last_reply(&full_store(), "merge 3 0 wildcard"), "C 0 0");
    assert_eq!(last_reply(&full_store(), "merge 3 4 full"), "R 6");
    assert_eq!(last_reply(&full_store(), "show 512"), "R 4");
}

#[test]
fn settled_points_of_sets_and_stops() {
    assert_eq!(last_reply("", "stops 3 3 3"), "S 3");
    assert_eq!(last_reply("close\n", "close"), "K");
    assert_eq!(last_reply("stops 7\nset wildcard\nadd 7 1 0 0 0 0\n", "verdict"), "V 1 1 1 1");
    let refused = format!("stops 7\nstops{}\nadd 7 1 0 0 0 0\n", " 8".repeat(65));
    assert_eq!(last_reply(&refused, "verdict"), "V 1 1 1 1");
    assert_eq!(last_reply("close\nset full\n", "add 7 1 0 0 0 0"), "A 1 0");
    assert_eq!(
        last_reply("set wildcard\nsingleton 0 5\nadd 7 1 0 0 0 0\nadd 7 1 1 0 0 2147483648\n", "show 1"),
        "E 1 5>0"
    );
}

#[test]
fn malformed_input_ends_the_script() {
    let overlong = vec![0; 32_769];
    assert_eq!(run(&overlong, Kinds::All).lines, b"R 9\nT 1 0\n");
    assert_eq!(run(&[], Kinds::All).lines, b"T 1 0\n");
    let longest = "show 0\n".repeat(4_096);
    assert_eq!(lines(&longest), "E 1 $\n".repeat(4_096) + "T 1 0\n");
    assert_eq!(lines(&(longest + "hex 00")), "R 9\nT 1 0\n");
    for bad in [
        "hex 00 00 00 00",                            // kind 0
        "hex 00 00 0A 00",                            // kind 10
        "hex 00 00 06 01",                            // kind 262
        "hex 01 00 06 00 00",                         // a verdict with a payload
        "hex 03 00 05 00 00 00 00",                   // stop states, not a multiple of 4
        "hex 01 00 03 00 02",                         // mode 2 of a set
        "hex 09 00 02 00 00 00 00 00 00 00 00 00 FF", // mode 255 of a merge
    ] {
        assert_eq!(lines(&format!("singleton 0 7\n{bad}\nsingleton 0 8")), "C 1 1\nR 9\nT 2 0\n", "{bad}");
    }
    for cut_short in ["hex 00", "hex 00 00 06", "hex 04 00 07 00", "hex 04 00 07 00 00 00 00"] {
        assert_eq!(lines(&format!("singleton 0 7\n{cut_short}")), "C 1 1\nR 9\nT 2 0\n", "{cut_short}");
    }
}

/// A script without its refused records gives the same replies and the same words.
#[test]
fn refused_records_leave_nothing_behind() {
    let mut refused = 0;
    let heavy = (0..6).map(|index| generate::heavy_script(11, index, Kinds::All).script);
    let others = (0..3_000).map(|index| generate::script(11, index, Kinds::All).script);
    for (index, script) in heavy.chain(others).enumerate() {
        let (records, _) = split(&script, Kinds::All);
        let (mut whole, mut without) = (Machine::new(), Machine::new());
        for record in &records {
            match whole.call(record) {
                Ok(reply) => assert_eq!(without.call(record), Ok(reply), "script {index}"),
                Err(_) => refused += 1,
            }
        }
        assert!(whole.store_words() == without.store_words(), "store of script {index}");
        assert!(whole.set_words() == without.set_words(), "set of script {index}");
        assert!(whole.subset_words() == without.subset_words(), "subsets of script {index}");
        assert!(whole.conflict_words() == without.conflict_words(), "conflicts of script {index}");
    }
    assert!(refused > 1_000, "only {refused} refused records");
}
