//! Scripts: their lines read and written, wrong lines named, and the digest of the tables.

mod common;

use second::caller::{Lent, Totals};
use second::digest::{self, Digest};
use second::make::{make, ScriptKind};
use second::runner::{run, Trouble};
use second::script::parse;

fn fnv(bytes: &[u8]) -> u64 {
    let mut digest = Digest::default();
    digest.bytes(bytes);
    digest.value()
}

#[test]
fn the_hash_is_fnv_1a() {
    assert_eq!(fnv(b""), 0xcbf2_9ce4_8422_2325);
    assert_eq!(fnv(b"a"), 0xaf63_dc4c_8601_ec8c);
    assert_eq!(fnv(b"foobar"), 0x8594_4171_f739_67e8);
}

#[test]
fn the_digest_is_over_lengths_words_and_totals() {
    let lent = Lent {
        store: vec![1, 0x0203_0405],
        spare: vec![],
        waiting: vec![6],
        answers: vec![7],
        bytes: vec![8],
        totals: Totals { links: 9, reversals: 1 << 62 },
    };
    let mut bytes = vec![2, 0, 0, 0, 0, 0, 0, 0, 1, 0, 0, 0, 5, 4, 3, 2];
    bytes.extend([0, 0, 0, 0, 0, 0, 0, 0]);
    bytes.extend([1, 0, 0, 0, 0, 0, 0, 0, 6, 0, 0, 0]);
    bytes.extend([1, 0, 0, 0, 0, 0, 0, 0, 7, 0, 0, 0]);
    bytes.extend([9, 0, 0, 0, 0, 0, 0, 0, 0, 0, 0, 0, 0, 0, 0, 0x40]);
    assert_eq!(digest::of(&lent), fnv(&bytes));
}

/// What a script prints.
fn printed(script: &str) -> String {
    let mut out = Vec::new();
    run(script.as_bytes(), &mut out).expect("a good script");
    String::from_utf8(out).expect("outcomes are text")
}

#[test]
fn a_script_from_first_to_last() {
    let script = "# two runs and their link\n\nsizes 2 1 2\nstore 7*13\nspare 1*13\nwaiting 4 4\n\
                  answers\nempty\nopen 1 100\nopen 2 100\nlink 1 100 2 100\nask 2 100 1 100\n\
                  reading 0 1\nreading\nbytes\ntotals 3 4\nstream\nshow\n";
    let text = printed(script);
    let outcomes: Vec<String> = text
        .lines()
        .take(8)
        .map(|line| line.rsplit_once(' ').expect("a digest at the end").0.to_string())
        .collect();
    let due = ["empty 0 0", "open 0 0", "open 0 1", "link 0 0", "ask 0 1", "reading 0 1"];
    assert_eq!(outcomes[..6], due);
    assert_eq!(outcomes[6..], ["reading 14 0", "stream 0 0"]);
    let shown: Vec<&str> = text.lines().skip(8).collect();
    let none = u32::MAX;
    let store = format!("store: 1 2 100 100 0 {} {} 1 0 0 0 1 {}", none, none, none);
    assert_eq!(shown[0], store);
    assert_eq!(shown[1], "spare: 1 1 1 1 1 1 1 1 1 1 1 1 1");
    assert_eq!(shown[2..], ["waiting: 4 4", "answers:", "totals: 3 4"]);
}

#[test]
fn the_outcome_line_ends_with_the_digest() {
    // With bare tables the digest is over four lengths of 0 and two totals of 0.
    assert_eq!(printed("empty\n"), format!("empty 1 0 {:016x}\n", fnv(&[0; 48])));
    assert_eq!(printed("totals 1 0\nask 1 1 1 1\n").split(' ').nth(1), Some("1"));
    assert_ne!(printed("totals 1 0\nempty\n"), printed("empty\n"));
}

#[test]
fn pokes_past_the_end_are_passed_over() {
    let script = "answers 5 6\npoke answers 1 9\npoke answers 2 9\n\
                  poke answers 18446744073709551615 9\npoke spare 0 1\nshow\n";
    let text = printed(script);
    assert_eq!(text, "store:\nspare:\nwaiting:\nanswers: 5 9\ntotals: 0 0\n");
}

#[test]
fn wrong_lines_are_named() {
    let wrong = [
        ("opne 1 2", "no command"),
        ("open 1", "takes 2 numbers, not 1"),
        ("open 1 2 3", "takes 2 numbers, not 3"),
        ("open 1  2", "one space"),
        ("empty ", "one space"),
        ("empty 1", "takes 0 numbers, not 1"),
        ("open +1 2", "not a decimal number"),
        ("open -1 2", "not a decimal number"),
        ("open 4294967296 2", "too large"),
        ("sizes 18446744073709551616 1 1", "too large"),
        ("store 1*", "not a decimal number"),
        ("store 1*2*3", "not a decimal number"),
        ("store 0*99999999999", "longer than"),
        ("poke stoer 1 2", "no table"),
        ("poke store 1", "2 numbers"),
        ("bytes 123", "whole bytes"),
        ("bytes 1g", "hex digit"),
        ("bytes 12 34", "one word"),
        ("reading 1 x", "not a decimal number"),
    ];
    for (line, says) in wrong {
        let script = format!("# a remark\nempty\n{}\nempty\n", line);
        let mut out = Vec::new();
        match run(script.as_bytes(), &mut out) {
            Err(Trouble::Line(3, what)) => assert!(what.contains(says), "{}: {}", line, what),
            other => panic!("{}: {:?}", line, other),
        }
        // The call before the wrong line was done, the one after it was not.
        assert_eq!(String::from_utf8(out).unwrap().lines().count(), 1);
    }
}

#[test]
fn made_lines_read_back_as_they_were_written() {
    let mut script = Vec::new();
    make(ScriptKind::All, 3, 3_000, &mut script).expect("memory can be written");
    let script = String::from_utf8(script).expect("a script is text");
    for line in script.lines() {
        let command = parse(line).expect("a good line").expect("a command");
        assert_eq!(command.to_string(), line);
    }
}
