//! Turning: too dense links, the number of lists that may be turned, and what is left behind.

mod common;

use common::*;

/// Eight links, the new one included; the eighth list turned is the one that settles it.
const SETTLED_BY_THE_EIGHTH: [&[u32]; 8] = [&[], &[3, 4], &[4], &[], &[], &[4, 2], &[], &[1, 2]];

/// Eight links again, but a ninth list would have to be turned.
const A_NINTH_IS_NEEDED: [&[u32]; 7] = [&[4, 3], &[2], &[], &[4], &[1], &[], &[0, 3]];

#[test]
fn the_last_list_allowed_settles_it() {
    let mut caller = with_lists(&SETTLED_BY_THE_EIGHTH, 2);
    assert_eq!(link(&mut caller, 5, 7), done(24));
    assert_eq!(caller.tally.turnings().most_lists_turned_by_accepted, 8);
    assert_eq!(caller.tally.turnings().settled_at_the_last, 1);
    let lists = [vec![], vec![7, 4], vec![], vec![1], vec![2, 5], vec![2, 7], vec![], vec![2]];
    assert_eq!(all_targets(&caller), lists);
}

#[test]
fn one_list_more_is_too_dense() {
    let mut caller = with_lists(&A_NINTH_IS_NEEDED, 2);
    let before = caller.lent.store.clone();
    assert_eq!(link(&mut caller, 6, 1), refused(9));
    assert_eq!(caller.lent.store, before);
    assert_eq!(caller.lent.spare, before);
    assert_eq!(caller.lent.waiting, [0; 7]);
    assert_eq!(caller.lent.answers, []);
    // The link does not stand, from neither side.
    assert_eq!(ask(&mut caller, 6, 1), done(0));
    assert_eq!(ask(&mut caller, 1, 6), done(0));
    // With room for one more in each list nothing needs turning.
    caller.sizes.d = 3;
    assert_eq!(link(&mut caller, 6, 1), done(0));
}

#[test]
fn a_waiting_list_may_grow_past_one_too_many() {
    // Turning 0 makes 1 wait and then 2; turning 2 hands 1 another cell while it still waits.
    let mut caller = with_lists(&[&[1, 2], &[4, 5], &[1, 6], &[], &[], &[], &[]], 2);
    assert_eq!(link(&mut caller, 0, 3), done(3 + 3 + 4));
    assert_eq!(caller.tally.turnings().longest_list_turned, 4);
    assert_eq!(caller.tally.turnings().most_places_waiting, 2);
    let lists = [vec![1, 2], vec![], vec![1], vec![0], vec![1], vec![1], vec![2]];
    assert_eq!(all_targets(&caller), lists);
}

#[test]
fn cells_go_with_their_links() {
    let mut caller = with_lists(&[&[1, 2], &[], &[], &[]], 2);
    assert_eq!(link(&mut caller, 0, 3), done(3));
    let table = table(&caller);
    let cell = |place: usize| table.lists()[place][0].cell;
    // The new link has the first free cell, which was 0; the others keep 1 and 2.
    assert_eq!([cell(1), cell(2), cell(3)], [1, 2, 0]);
    assert!(table.free().is_empty());
}

#[test]
fn a_link_without_turning_leaves_the_working_tables() {
    let mut caller = with_lists(&[&[1], &[], &[]], 2);
    assert_eq!(link(&mut caller, 0, 2), done(0));
    assert!(caller.lent.spare.iter().chain(&caller.lent.waiting).all(|&word| word == GARBAGE));
}
