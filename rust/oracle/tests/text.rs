//! Scripts as text: nothing is lost either way, and errors name line and word.

use oracle::generate;
use oracle::record::{Kinds, encode_all, split};
use oracle::text::{assemble, disassemble, is_text, script_of};

#[test]
fn ten_thousand_scripts_survive_text_and_back() {
    for index in 0..10_000 {
        let kinds = if index % 2 == 0 { Kinds::All } else { Kinds::Store };
        let made = generate::script(7, index, kinds);
        let text = disassemble(&made.script);
        let again = assemble(&text).expect("disassembled text is good text");
        assert!(again == made.script, "script {index}, family '{}'", made.family);
        assert!(disassemble(&again) == text, "text of script {index}");
        let (records, rest) = split(&made.script, Kinds::All);
        assert!([encode_all(&records), rest.to_vec()].concat() == made.script);
        assert!(rest.is_empty() || text.contains("hex "));
        assert!(is_text(text.as_bytes()));
        assert_eq!(is_text(&made.script), records.is_empty() && is_text(rest));
    }
}

#[test]
fn every_record_has_one_line() {
    let text = "\
singleton 0 18446744073709551615
merge 1 0 wildcard
set full
add 7 1 1 0 4294967295 2147483648
stops
stops 3 9 3
verdict
show 2
close
why
hex 09 00 02 00
";
    assert_eq!(disassemble(&assemble(text).expect("good text")), text);
}

#[test]
fn comments_spaces_and_hexadecimal_are_read() {
    let spelled = "# a comment\r\n\n  singleton\t0x0 0xFFFFFFFFFFFFFFFE # and one more\r\nhex 0000 06 00";
    let plain = "singleton 0 18446744073709551614\nverdict\n";
    assert_eq!(disassemble(&assemble(spelled).expect("good text")), plain);
}

#[test]
fn bytes_pass_unchanged_and_text_is_assembled() {
    let bytes = assemble("verdict\nclose").expect("good text");
    assert_eq!(script_of(bytes.clone()), Ok(bytes.clone()));
    assert_eq!(script_of(b"verdict\nclose".to_vec()), Ok(bytes));
    assert_eq!(script_of(Vec::new()), Ok(Vec::new()));
}

#[test]
fn errors_name_line_and_word() {
    let cases = [
        ("verdict\nfly 7", "line 2: unknown record 'fly'"),
        ("singleton 0", "line 1: 'singleton' lacks its STATE"),
        ("\n\nshow", "line 3: 'show' lacks its CONTEXT"),
        ("singleton 0 7 8", "line 1: '8' is too much for 'singleton'"),
        ("verdict now", "line 1: 'now' is too much for 'verdict'"),
        ("singleton 4294967296 7", "line 1: '4294967296' is above 4294967295"),
        ("singleton 0 18446744073709551616", "line 1: '18446744073709551616' is above 18446744073709551615"),
        ("show seven", "line 1: 'seven' is not a number"),
        ("show -1", "line 1: '-1' is not a number"),
        ("show +1", "line 1: '+1' is not a number"),
        ("show 0x", "line 1: '0x' is not a number"),
        ("merge 0 1 half", "line 1: 'half' is no mode: full or wildcard"),
        ("merge 0 1", "line 1: 'merge' lacks its mode, full or wildcard"),
        ("set", "line 1: 'set' lacks its mode, full or wildcard"),
        ("add 1 2 3 4 5", "line 1: 'add' lacks its PROVENANCE"),
        ("stops 1 x", "line 1: 'x' is not a number"),
        ("hex 0", "line 1: '0' is not whole bytes in hexadecimal"),
        ("hex 00 0g", "line 1: '0g' is not whole bytes in hexadecimal"),
    ];
    for (text, message) in cases {
        let fault = assemble(text).expect_err(text);
        assert_eq!(fault.to_string(), message);
    }
}

#[test]
fn a_stop_list_has_its_longest_length() {
    let longest = format!("stops{}", " 1".repeat(16_383));
    assert!(assemble(&longest).is_ok());
    let fault = assemble(&(longest + " 2")).expect_err("too long");
    assert_eq!(fault.to_string(), "line 1: '2' is more than a record of 'stops' can hold");
}
