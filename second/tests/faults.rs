//! Every way to be unsound: found by its name, and refused with 2 without a change.

mod common;

use common::*;
use second::call::Call;
use second::caller::Caller;
use second::layout::Layout;
use second::sizes::{LINE_MAX, NONE};
use second::soundness::{judge, Fault};

/// n = 5, C = 6, D = 2: places 0 to 3 open, 0 holds 2 and 1 in cells 1 and 0, 1 holds 2 in cell 2,
/// cells 3, 4 and 5 are free.
fn store() -> Caller {
    let mut caller = emptied(5, 6, 2);
    for i in 0..4 {
        caller.call(&Call::Open(run(i)));
    }
    for (a, b) in [(0, 1), (0, 2), (1, 2)] {
        assert_eq!(link(&mut caller, a, b), done(0));
    }
    caller
}

fn layout(caller: &Caller) -> Layout {
    caller.sizes.layout().expect("sizes of a test are good")
}

/// Checks that the pokes lead to this fault, and that every call on the store is then refused.
fn assert_fault(fault: Fault, pokes: &[(usize, u32)]) {
    let mut caller = store();
    assert!(judge(&caller.lent.store, layout(&caller), 2).is_ok());
    for &(index, word) in pokes {
        assert_ne!(caller.lent.store[index], word, "the poke at {} changes nothing", index);
        caller.lent.store[index] = word;
    }
    let found = judge(&caller.lent.store, layout(&caller), 2).err();
    assert_eq!(found, Some(fault), "{:?}", pokes);
    for call in [
        Call::Open(run(4)),
        Call::Close(run(3)),
        Call::Link(run(2), run(3)),
        Call::Unlink(run(0), run(1)),
        Call::Ask(run(0), run(1)),
        Call::Reading(vec![0, 1]),
        Call::Stream,
    ] {
        assert_refused(&mut caller, &call, 2);
    }
    assert_eq!(caller.tally.faults(fault), 7);
}

#[test]
fn the_store_is_as_the_tests_take_it() {
    let caller = store();
    assert_eq!(all_targets(&caller), [vec![2, 1], vec![2], vec![], vec![], vec![]]);
    let cells: Vec<usize> = table(&caller).lists()[0].iter().map(|held| held.cell).collect();
    assert_eq!(cells, [1, 0]);
    assert_eq!(table(&caller).free(), &[3, 4, 5]);
}

#[test]
fn rule_one() {
    let at = layout(&store());
    for line in [LINE_MAX + 1, LINE_MAX + 2, NONE] {
        assert_fault(Fault::LineTooLarge, &[(at.line(0), line)]);
        assert_fault(Fault::LineTooLarge, &[(at.line(4), line)]);
    }
    assert_fault(Fault::FreePlaceNumbered, &[(at.number(4), 1)]);
    assert_fault(Fault::FreePlaceNumbered, &[(at.line(3), 0)]);
    assert_fault(Fault::NameTwice, &[(at.number(3), run(0).trip)]);
    assert_fault(Fault::NameTwice, &[(at.line(4), 1), (at.number(4), run(2).trip)]);
}

#[test]
fn one_trip_number_on_two_lines_is_sound() {
    let mut caller = store();
    let at = layout(&caller);
    caller.lent.store[at.line(3)] = 2;
    caller.lent.store[at.number(3)] = run(0).trip;
    assert_eq!(table(&caller).runs().iter().flatten().count(), 4);
}

#[test]
fn rule_two_chains() {
    let at = layout(&store());
    for cell in [6, 7, NONE - 1] {
        assert_fault(Fault::CellOutside, &[(at.head(2), cell)]);
        assert_fault(Fault::CellOutside, &[(at.head(5), cell)]);
        assert_fault(Fault::CellOutside, &[(at.next(0), cell)]);
        assert_fault(Fault::CellOutside, &[(at.next(4), cell)]);
    }
    assert_fault(Fault::ChainTooLong, &[(at.length(0), 1)]);
    assert_fault(Fault::ChainTooLong, &[(at.length(5), 2)]);
    assert_fault(Fault::ChainTooLong, &[(at.next(0), 1)]);
    assert_fault(Fault::ChainTooLong, &[(at.next(0), 1), (at.length(0), NONE)]);
    assert_fault(Fault::ChainTooLong, &[(at.next(5), 5), (at.length(5), NONE)]);
    assert_fault(Fault::ChainTooShort, &[(at.length(0), 3)]);
    assert_fault(Fault::ChainTooShort, &[(at.length(2), 1)]);
    assert_fault(Fault::ChainTooShort, &[(at.length(5), NONE)]);
    assert_fault(Fault::ChainTooShort, &[(at.next(1), NONE)]);
    assert_fault(Fault::ChainTooShort, &[(at.head(5), NONE)]);
    for owner in [1, 5, 6, NONE] {
        assert_fault(Fault::OtherOwner, &[(at.owner(0), owner)]);
    }
    assert_fault(Fault::OtherOwner, &[(at.owner(4), 0)]);
}

#[test]
fn rule_two_lengths() {
    let at = layout(&store());
    assert_fault(Fault::CellsMissing, &[(at.head(5), 4), (at.length(5), 2)]);
    assert_fault(Fault::CellsMissing, &[(at.head(0), 0), (at.length(0), 1)]);
    let third = [
        (at.head(5), 4),
        (at.length(5), 2),
        (at.head(0), 3),
        (at.length(0), 3),
        (at.owner(3), 0),
        (at.target(3), 3),
        (at.next(3), 1),
    ];
    assert_fault(Fault::ListOverLimit, &third);
}

#[test]
fn a_list_may_be_as_long_as_d_allows() {
    let mut caller = opened(4, 6, 3);
    for other in 1..4 {
        assert_eq!(link(&mut caller, 0, other), done(0));
    }
    let at = layout(&caller);
    assert_eq!(judge(&caller.lent.store, at, 2).err(), Some(Fault::ListOverLimit));
    assert!(judge(&caller.lent.store, at, 3).is_ok());
}

#[test]
fn rule_three() {
    let at = layout(&store());
    assert_fault(Fault::ListOfFreePlace, &[(at.line(0), 0), (at.number(0), 0)]);
    for target in [5, 6, NONE] {
        assert_fault(Fault::TargetOutside, &[(at.target(0), target)]);
    }
    assert_fault(Fault::TargetNotOpen, &[(at.target(0), 4)]);
    assert_fault(Fault::TargetNotOpen, &[(at.line(2), 0), (at.number(2), 0)]);
    assert_fault(Fault::TargetItself, &[(at.target(0), 0)]);
    for target in [0, 5, NONE - 1] {
        assert_fault(Fault::FreeCellTarget, &[(at.target(3), target)]);
    }
}

#[test]
fn rule_four() {
    let at = layout(&store());
    assert_fault(Fault::PairTwiceInList, &[(at.target(0), 2)]);
    assert_fault(Fault::PairInBothLists, &[(at.target(2), 0)]);
}
