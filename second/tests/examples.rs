//! The examples of document 01.

mod common;

use common::*;
use second::call::Call;
use second::day;
use second::make::Random;
use second::record::Kind;
use second::run::Run;

// Places 0 to 5 in the order of opening.
const A: u32 = 0;
const B: u32 = 1;
const C: u32 = 2;
const D: u32 = 3;
const X: u32 = 4;
const Y: u32 = 5;

#[test]
fn p1_the_newest_link_is_in_front() {
    let mut caller = opened(4, 5, 2);
    assert_eq!(link(&mut caller, A, B), done(0));
    assert_eq!(link(&mut caller, A, C), done(0));
    assert_eq!(targets(&caller, 0), [2, 1]);
    // Nothing was turned, so the working tables are untouched.
    assert!(caller.lent.spare.iter().chain(&caller.lent.waiting).all(|&word| word == GARBAGE));
}

/// The store of p2: a's list has been turned over to b, c and d.
fn after_p2() -> second::caller::Caller {
    let mut caller = opened(4, 5, 2);
    for (a, b) in [(A, B), (A, C)] {
        assert_eq!(link(&mut caller, a, b), done(0));
    }
    let entry = caller.lent.store.clone();
    assert_eq!(link(&mut caller, A, D), done(3));
    assert_eq!(caller.lent.spare, entry);
    assert_eq!(caller.lent.waiting, [0; 4]);
    caller
}

#[test]
fn p2_a_full_list_is_turned_over() {
    let caller = after_p2();
    assert_eq!(all_targets(&caller), [vec![], vec![0], vec![0], vec![0]]);
}

#[test]
fn p3_turning_goes_on_to_the_next_list() {
    let mut caller = opened(6, 6, 2);
    for (a, b) in [(B, X), (B, Y), (A, B), (A, C)] {
        assert_eq!(link(&mut caller, a, b), done(0));
    }
    assert_eq!(link(&mut caller, A, D), done(6));
    assert_eq!(caller.tally.turnings().most_lists_turned_by_accepted, 2);
    let lists = [vec![1], vec![], vec![0], vec![0], vec![1], vec![1]];
    assert_eq!(all_targets(&caller), lists);
}

#[test]
fn p4_a_freed_cell_is_taken_next() {
    let mut caller = opened(4, 6, 3);
    for other in [B, C, D] {
        assert_eq!(link(&mut caller, A, other), done(0));
    }
    assert_eq!(targets(&caller, 0), [3, 2, 1]);
    let cell = table(&caller).lists()[0][1].cell;
    assert_eq!(unlink(&mut caller, C, A), done(0));
    assert_eq!(targets(&caller, 0), [3, 1]);
    assert_eq!(table(&caller).free()[0], cell);
    assert_eq!(link(&mut caller, B, D), done(0));
    assert_eq!(table(&caller).lists()[1][0].cell, cell);
}

#[test]
fn p5_a_run_is_not_linked_to_itself() {
    let mut caller = opened(2, 2, 2);
    assert_refused(&mut caller, &Call::Link(run(A), run(A)), 4);
    assert_refused(&mut caller, &Call::Link(Run::new(0, 7), Run::new(0, 7)), 3);
}

#[test]
fn p6_one_cell() {
    let mut caller = opened(3, 1, 2);
    assert_eq!(link(&mut caller, A, B), done(0));
    assert_refused(&mut caller, &Call::Link(run(A), run(C)), 8);
    assert_refused(&mut caller, &Call::Link(run(B), run(A)), 6);
    assert_eq!(unlink(&mut caller, A, B), done(0));
    assert_eq!(link(&mut caller, C, A), done(0));
    assert_eq!(table(&caller).lists()[2][0].cell, 0);
}

#[test]
fn p7_one_place() {
    let mut caller = opened(1, 1, 2);
    assert_refused(&mut caller, &Call::Open(run(A)), 6);
    assert_refused(&mut caller, &Call::Open(run(B)), 8);
}

#[test]
fn p8_a_run_is_line_and_trip_together() {
    let mut caller = emptied(3, 3, 2);
    let (one, two, other) = (Run::new(1, 100), Run::new(2, 100), Run::new(3, 5));
    for (run, place) in [(one, 0), (two, 1), (other, 2)] {
        assert_eq!(caller.call(&Call::Open(run)), done(place));
    }
    assert_eq!(caller.call(&Call::Link(one, other)), done(0));
    assert_eq!(caller.call(&Call::Ask(other, one)), done(1));
    assert_eq!(caller.call(&Call::Ask(two, other)), done(0));
    assert_eq!(caller.call(&Call::Ask(one, two)), done(0));
}

#[test]
fn p9_a_triangle_reads_one() {
    let mut caller = opened(4, 6, 3);
    for (a, b) in [(A, B), (B, C), (C, A)] {
        assert_eq!(link(&mut caller, a, b), done(0));
    }
    let mut reading = |set: &[u32]| caller.call(&Call::Reading(set.to_vec())).number;
    assert_eq!(reading(&[0, 1, 2]), 1);
    assert_eq!(reading(&[0, 1]), 1);
    // Only the whole part counts, and only links with both ends in the set.
    assert_eq!(reading(&[0, 1, 3]), 0);
    assert_eq!(reading(&[2, 3]), 0);
    assert_eq!(reading(&[0, 1, 2, 3]), 1);
    for other in [A, B, C] {
        assert_eq!(link(&mut caller, D, other), done(0));
    }
    assert_eq!(caller.call(&Call::Reading(vec![0, 1, 2, 3])), done(2));
}

#[test]
fn p10_a_linked_run_is_not_closed() {
    let mut caller = after_p2();
    // a's own list is empty: its links are in the lists of the others.
    assert!(targets(&caller, 0).is_empty());
    assert_refused(&mut caller, &Call::Close(run(A)), 10);
}

#[test]
fn six_runs_take_at_most_twelve_links() {
    let mut random = Random::new(12);
    let mut most = 0;
    let mut pairs: Vec<(u32, u32)> = Vec::new();
    for a in 0..6 {
        pairs.extend((0..a).map(|b| (a, b)));
    }
    assert_eq!(pairs.len(), 15);
    for _ in 0..4_000 {
        random.shuffle(&mut pairs);
        let mut caller = opened(6, 15, 2);
        for &(a, b) in &pairs {
            let (a, b) = if random.chance(50) { (a, b) } else { (b, a) };
            let outcome = link(&mut caller, a, b);
            assert!(outcome.refusal == 0 || outcome.refusal == 9, "{:?}", outcome);
        }
        assert!(table(&caller).lists().iter().all(|list| list.len() <= 2));
        most = most.max(table(&caller).links());
        assert!(table(&caller).links() <= 12);
    }
    assert!(most == 12, "the orders tried never came near the bound: {}", most);
}

/// The records of the sample day.
fn sample() -> Vec<u8> {
    let run = |letter: u32| if letter == 0 { Run::new(1, 100) } else { Run::new(2, 99 + letter) };
    let mut records: Vec<(Kind, u32, u32)> = (0..6).map(|i| (Kind::Open, i, 0)).collect();
    records.extend((1..6).map(|i| (Kind::Link, 0, i)));
    records.push((Kind::Ask, 1, 0));
    records.push((Kind::Link, 5, 0));
    records.push((Kind::Unlink, 0, 1));
    records.push((Kind::Ask, 0, 1));
    records.push((Kind::Close, 0, 0));
    records.into_iter().flat_map(|(kind, a, b)| record(kind, run(a), run(b))).collect()
}

#[test]
fn the_sample_day_prints_as_written() {
    let bytes = sample();
    assert_eq!(bytes.len(), 16 * 15);
    assert_eq!(bytes, include_bytes!("sample.day"));
    assert_eq!(day::lines(&bytes), include_str!("sample.out"));
}
