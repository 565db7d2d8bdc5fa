//! What `dayrun` prints: the ends of its range, and every refusal a day can show.

mod common;

use std::collections::BTreeSet;

use common::*;
use second::day;
use second::make::{days, Random};
use second::record::Kind;

/// The fields of a printed line.
fn fields(line: &str) -> Vec<&str> {
    line.split(' ').collect()
}

#[test]
fn the_empty_day() {
    assert_eq!(day::lines(&[]), "end 0 0 0 0\n");
}

#[test]
fn the_longest_day_and_one_byte_more() {
    let mut bytes = record(Kind::Open, run(0), run(0)).repeat(800);
    assert_eq!(bytes.len(), 12_000);
    let text = day::lines(&bytes);
    assert_eq!(text.lines().count(), 801);
    assert!(text.starts_with("1 1 0 0\n2 1 6 0\n"));
    assert!(text.ends_with("800 1 6 0\nend 0 800 0 0\n"));
    bytes.push(0x52);
    assert_eq!(day::lines(&bytes), "end 1 0 0 0\n");
}

#[test]
fn a_day_that_stops() {
    let mut bytes = record(Kind::Open, run(0), run(0));
    bytes.push(0x52);
    assert_eq!(day::lines(&bytes), "1 1 0 0\nend 13 1 0 0\n");
    bytes.extend([0; 14]);
    assert_eq!(day::lines(&bytes), "1 1 0 0\nend 11 1 0 0\n");
    bytes[16] = 0x4e;
    assert_eq!(day::lines(&bytes), "1 1 0 0\nend 12 1 0 0\n");
}

#[test]
fn there_is_room_for_256_runs() {
    let bytes: Vec<u8> = (0..257).flat_map(|i| record(Kind::Open, run(i), run(0))).collect();
    let text = day::lines(&bytes);
    assert!(text.ends_with("256 1 0 255\n257 1 8 0\nend 0 257 0 0\n"));
}

#[test]
fn made_days_show_every_refusal() {
    let mut random = Random::new(5);
    let (mut ends, mut refusals) = (BTreeSet::new(), BTreeSet::new());
    let mut empty = 0;
    for index in 0..40 {
        let bytes = days::day(&mut random, index);
        empty += u32::from(bytes.is_empty());
        for line in day::lines(&bytes).lines() {
            match fields(line)[..] {
                ["end", refusal, ..] => ends.insert(refusal.to_string()),
                [_, kind, refusal, _] => refusals.insert(format!("{} {}", kind, refusal)),
                _ => panic!("a line of another form: {}", line),
            };
        }
    }
    assert!(empty > 0);
    assert_eq!(ends, ["0", "1", "11", "12", "13"].map(String::from).into());
    let due = "1 0,1 3,1 6,1 8,2 0,2 3,2 5,2 10,3 0,3 3,3 4,3 5,3 6,3 9,4 0,4 3,4 4,4 5,4 7,\
               5 0,5 3,5 4,5 5";
    assert_eq!(refusals, due.split(',').map(String::from).collect());
}
