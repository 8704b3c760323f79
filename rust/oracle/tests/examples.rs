//! Every script in examples/ gives the output that stands beside it.

use std::fs;
use std::path::{Path, PathBuf};

use oracle::record::Kinds;
use oracle::run::run;
use oracle::text;

fn examples() -> PathBuf {
    Path::new(env!("CARGO_MANIFEST_DIR")).join("../../examples")
}

fn script(name: &str) -> Vec<u8> {
    let text = fs::read_to_string(examples().join(name)).expect("the example is there");
    text::assemble(&text).expect("the example is good text")
}

#[test]
fn examples_give_their_outputs() {
    let mut found = 0;
    for file in fs::read_dir(examples()).expect("examples/ is there") {
        let path = file.expect("a directory entry").path();
        if path.extension().is_some_and(|extension| extension == "txt") {
            let name = path.file_name().expect("a file name").to_string_lossy();
            let lines = run(&script(&name), Kinds::All).lines;
            let expected = fs::read_to_string(path.with_extension("out")).expect("an output beside it");
            assert_eq!(String::from_utf8_lossy(&lines), expected, "{name}");
            found += 1;
        }
    }
    assert!(found >= 17, "the worked example, P1 to P12 and the four reasons are there");
}

#[test]
fn the_worked_example_has_the_documents_bytes() {
    let document = "
        0C000100 00000000 2A00000000000000
        09000200 01000000 00000000 00
        04000700 02000000
        01000300 00
        18000400 07000000 01000000 01000000 00000000 00000000 00000000
        18000400 07000000 02000000 01000000 00000000 00000000 00000000
        00000600";
    let hex: String = document.lines().map(|line| format!("hex {line}\n")).collect();
    let bytes = text::assemble(&hex).expect("good hexadecimal");
    assert_eq!(script("worked-example.txt"), bytes);
    let lines = run(&bytes, Kinds::All).lines;
    assert_eq!(lines, b"C 1 1\nC 2 1\nE 2 42>0 $\nN\nA 1 0\nA 1 0\nV 1 - 1 1\nT 3 2\n");
}

#[test]
fn without_sets_the_worked_example_stops_at_its_first_unknown_kind() {
    let lines = run(&script("worked-example.txt"), Kinds::Store).lines;
    assert_eq!(lines, b"C 1 1\nC 2 1\nE 2 42>0 $\nR 9\nT 3 2\n");
}
