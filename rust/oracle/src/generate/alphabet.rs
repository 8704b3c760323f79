//! Every word of up to a few records over a small alphabet.

use crate::generate::malformed::each_fault;
use crate::record::Kinds;
use crate::text;

/// Records of the store, with a malformed one.
const STORE: &[&str] = &[
    "singleton 0 7",
    "singleton 0 42",
    "singleton 1 7",
    "singleton 1 42",
    "singleton 2 7",
    "singleton 0 4294967294",
    "singleton 0 4294967295",
    "singleton 0 18446744073709551615",
    "singleton 3 18446744073709551615",
    "merge 0 1 full",
    "merge 1 0 wildcard",
    "merge 1 2 full",
    "merge 2 1 wildcard",
    "merge 1 3 full",
    "show 0",
    "show 1",
    "show 2",
    "hex 09 00 02 00 00 00 00 00 00 00 00 00 02",
];

/// Records of sets, with those of the store that they need.
const SETS: &[&str] = &[
    "singleton 0 7",
    "merge 0 1 full",
    "set full",
    "set wildcard",
    "add 7 1 0 0 0 0",
    "add 7 1 1 0 0 0",
    "add 7 2 0 0 0 0",
    "add 7 1 0 1 0 0",
    "add 7 1 1 0 5 0x80000000",
    "add 7 2 0 0 1 9",
    "add 8 2 0 0 0 0",
    "add 7 1 2 0 0 0",
    "stops 7",
    "stops 8 8",
    "verdict",
    "why",
    "show 1",
    "close",
    "hex 01 00 03 00 02",
];

/// Scripts of all words of up to `records` records, and with sets those of one fault each, shortest first.
pub fn words(records: usize, kinds: Kinds) -> Vec<Vec<u8>> {
    let mut scripts = words_over(STORE, records);
    if kinds == Kinds::All {
        // The empty word is there already.
        scripts.extend(words_over(SETS, records).into_iter().skip(1));
        scripts.extend(each_fault());
        scripts.sort_by_key(Vec::len);
    }
    scripts
}

fn words_over(alphabet: &[&str], records: usize) -> Vec<Vec<u8>> {
    let assembled = |line: &&str| text::assemble(line).expect("the alphabet is good text");
    let letters: Vec<Vec<u8>> = alphabet.iter().map(assembled).collect();
    let mut words = vec![Vec::new()];
    let mut first_of_length = 0;
    for _ in 0..records {
        let shorter = words[first_of_length..].to_vec();
        first_of_length = words.len();
        for word in &shorter {
            words.extend(letters.iter().map(|letter| [word.as_slice(), letter].concat()));
        }
    }
    words
}
