//! The examples p1 to p10 of document 01, through the library.

use wormstrand::{calls, Outcome, Refusal, Run, Sizes, Store};

// Runs a to d, x and y, at places 0 to 5 in the order of opening.
const A: Run = Run { line: 1, trip: 100 };
const B: Run = Run { line: 2, trip: 100 };
const C: Run = Run { line: 2, trip: 101 };
const D: Run = Run { line: 2, trip: 102 };
const X: Run = Run { line: 2, trip: 103 };
const Y: Run = Run { line: 2, trip: 104 };
const ALL: [Run; 6] = [A, B, C, D, X, Y];

const NONE: u32 = u32::MAX;

/// A store on which the first n of the runs are open.
fn opened(n: usize, c: usize, d: usize) -> Store {
    let mut store = Store::new(Sizes { n, c, d }).unwrap();
    for (place, &run) in ALL[..n].iter().enumerate() {
        assert_eq!(store.open(run), Ok(place as u32));
    }
    store
}

fn link_all(store: &mut Store, pairs: &[(Run, Run)]) {
    for &(a, b) in pairs {
        assert_eq!(store.link(a, b), Ok(0));
    }
}

/// The cells of a list with their targets, front first. Its sections are line, number, head, length, owner, target and next.
fn cells(store: &Store, place: usize) -> Vec<(u32, u32)> {
    let (n, c, words) = (store.sizes().n, store.sizes().c, store.words());
    let (head, target, next) = (2 * n, 4 * n + 2 + c, 4 * n + 2 + 2 * c);
    let mut found = Vec::new();
    let mut cell = words[head + place];
    while cell != NONE {
        found.push((cell, words[target + cell as usize]));
        cell = words[next + cell as usize];
    }
    found
}

fn targets(store: &Store, place: usize) -> Vec<u32> {
    cells(store, place).into_iter().map(|(_, target)| target).collect()
}

fn all_targets(store: &Store) -> Vec<Vec<u32>> {
    (0..store.sizes().n).map(|place| targets(store, place)).collect()
}

/// The store of p2.
fn turned() -> Store {
    let mut store = opened(4, 5, 2);
    link_all(&mut store, &[(A, B), (A, C)]);
    assert_eq!(store.link(A, D), Ok(3));
    store
}

#[test]
fn p1_the_newest_link_is_in_front() {
    let mut store = opened(4, 5, 2);
    link_all(&mut store, &[(A, B), (A, C)]);
    assert_eq!(targets(&store, 0), [2, 1]);
}

#[test]
fn p2_a_full_list_is_turned() {
    assert_eq!(all_targets(&turned()), [vec![], vec![0], vec![0], vec![0]]);
}

#[test]
fn p2_leaves_spare_and_waiting_as_said() {
    let mut store = opened(4, 5, 2);
    link_all(&mut store, &[(A, B), (A, C)]);
    let (sizes, entry) = (store.sizes(), store.words().to_vec());
    let (mut words, mut spare, mut waiting) = (entry.clone(), vec![7; entry.len()], vec![7; 4]);
    // Nothing is turned.
    assert_eq!(calls::link(sizes, &mut words, &mut spare, &mut waiting, B, C), Outcome::Done(0));
    assert_eq!((spare.clone(), waiting.clone()), (vec![7; entry.len()], vec![7; 4]));
    // a's list is turned.
    words = entry.clone();
    assert_eq!(calls::link(sizes, &mut words, &mut spare, &mut waiting, A, D), Outcome::Done(3));
    assert_eq!((spare, waiting), (entry, vec![0; 4]));
    assert_eq!(words, turned().words());
}

#[test]
fn p3_turning_goes_on_to_the_next_list() {
    let mut store = opened(6, 6, 2);
    link_all(&mut store, &[(B, X), (B, Y), (A, B), (A, C)]);
    assert_eq!(store.link(A, D), Ok(6));
    assert_eq!(all_targets(&store), [vec![1], vec![], vec![0], vec![0], vec![1], vec![1]]);
}

#[test]
fn p4_the_freed_cell_is_taken_next() {
    let mut store = opened(4, 6, 3);
    link_all(&mut store, &[(A, B), (A, C), (A, D)]);
    assert_eq!(targets(&store, 0), [3, 2, 1]);
    let (freed, _) = cells(&store, 0)[1];
    assert_eq!(store.unlink(C, A), Ok(()));
    assert_eq!(targets(&store, 0), [3, 1]);
    assert_eq!(store.link(B, D), Ok(0));
    assert_eq!(cells(&store, 1), [(freed, 3)]);
}

#[test]
fn p5_a_run_is_not_linked_to_itself() {
    let mut store = opened(2, 2, 2);
    assert_eq!(store.link(A, A), Err(Refusal::SameRun));
    let nowhere = Run { line: 0, trip: 7 };
    assert_eq!(store.link(nowhere, nowhere), Err(Refusal::BadName));
}

#[test]
fn p6_one_cell() {
    let mut store = opened(3, 1, 2);
    assert_eq!(store.link(A, B), Ok(0));
    assert_eq!(store.link(A, C), Err(Refusal::NoRoom));
    assert_eq!(store.link(B, A), Err(Refusal::Already));
    assert_eq!(store.unlink(A, B), Ok(()));
    assert_eq!(store.link(C, A), Ok(0));
    assert_eq!(cells(&store, 2), [(0, 0)]);
}

#[test]
fn p7_one_place() {
    let mut store = opened(1, 1, 2);
    assert_eq!(store.open(A), Err(Refusal::Already));
    assert_eq!(store.open(B), Err(Refusal::NoRoom));
}

#[test]
fn p8_a_run_is_line_and_trip_together() {
    let mut store = opened(3, 3, 2);
    assert_eq!(A.trip, B.trip);
    assert_eq!(store.link(A, C), Ok(0));
    assert_eq!(store.ask(C, A), Ok(true));
    assert_eq!(store.ask(B, C), Ok(false));
    assert_eq!(store.ask(A, B), Ok(false));
}

#[test]
fn p9_a_triangle_reads_one() {
    let mut store = opened(4, 6, 3);
    link_all(&mut store, &[(A, B), (B, C), (C, A)]);
    assert_eq!(store.reading(&[0, 1, 2]), Ok(1));
    assert_eq!(store.reading(&[0, 1, 3]), Ok(0));
    assert_eq!(store.reading(&[0, 2, 1]), Err(Refusal::BadSet));
    assert_eq!(store.reading(&[3, 4]), Err(Refusal::NotOpen));
}

#[test]
fn p10_a_linked_run_is_not_closed() {
    let mut store = turned();
    let before = store.clone();
    assert_eq!(store.close(A), Err(Refusal::Touched));
    assert_eq!(store, before);
}

#[test]
fn six_runs_take_at_most_twelve_links() {
    let mut store = opened(6, 15, 2);
    let mut accepted = 0;
    for (i, &a) in ALL.iter().enumerate() {
        for &b in &ALL[..i] {
            match store.link(a, b) {
                Ok(_) => accepted += 1,
                Err(refusal) => assert_eq!(refusal, Refusal::TooDense),
            }
        }
    }
    assert!(accepted <= 12, "{} links were accepted", accepted);
}
