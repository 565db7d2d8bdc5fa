//! Each refusal of each call, the order of the checks, and that a refused call changes nothing.

mod common;

use common::*;
use second::call::Call;
use second::caller::{Caller, Totals};
use second::record::Kind;
use second::run::Run;
use second::script::TableName;
use second::sizes::{
    Sizes, CELLS_MAX, LIMIT_MAX, LIMIT_MIN, LINE_MAX, PLACES_MAX, STREAM_BYTES_MAX, TOTAL_MAX,
};

/// A store with runs 0 to 2 open at places 0 to 2, place 3 free, and 0 linked with 1.
fn small() -> Caller {
    let mut caller = emptied(4, 3, 2);
    for i in 0..3 {
        caller.call(&Call::Open(run(i)));
    }
    assert_eq!(link(&mut caller, 0, 1), done(0));
    caller
}

/// Every call but empty, each of which would be done on the small store.
fn good_calls() -> Vec<Call> {
    vec![
        Call::Open(run(3)),
        Call::Close(run(2)),
        Call::Link(run(1), run(2)),
        Call::Unlink(run(1), run(0)),
        Call::Ask(run(0), run(1)),
        Call::Reading(vec![0, 1, 2]),
        Call::Stream,
    ]
}

#[test]
fn good_calls_are_done() {
    for call in good_calls() {
        assert_eq!(small().call(&call).refusal, 0, "{:?}", call);
    }
}

#[test]
fn sizes_outside_their_limits() {
    let far = [1 << 32, 1 << 62, 1 << 63, u64::MAX];
    let with = |n: &[u64], c: &[u64], d: &[u64]| {
        let n = n.iter().chain(&far).map(|&n| Sizes { n, c: 3, d: 2 });
        let c = c.iter().chain(&far).map(|&c| Sizes { n: 4, c, d: 2 });
        let d = d.iter().chain(&far).map(|&d| Sizes { n: 4, c: 3, d });
        n.chain(c).chain(d).collect::<Vec<Sizes>>()
    };
    let wrapped = 4 + (1 << 62);
    let wrong = with(&[0, PLACES_MAX + 1, wrapped], &[0, CELLS_MAX + 1], &[1, LIMIT_MAX + 1]);
    for sizes in wrong {
        for call in good_calls() {
            let mut caller = small();
            caller.sizes = sizes;
            assert_refused(&mut caller, &call, 1);
        }
    }
}

#[test]
fn one_size_past_its_end_with_fitting_tables() {
    for (n, c) in [(0, 3), (PLACES_MAX + 1, 3), (4, 0), (4, CELLS_MAX + 1)] {
        let mut caller = Caller { sizes: Sizes { n, c, d: 2 }, ..Caller::default() };
        caller.lent.store = vec![0; (4 * n + 2 + 3 * c) as usize];
        caller.lent.spare = caller.lent.store.clone();
        caller.lent.waiting = vec![0; n as usize];
        assert_refused(&mut caller, &Call::Empty, 1);
        assert_refused(&mut caller, &Call::Open(run(0)), 1);
        assert_refused(&mut caller, &Call::Stream, 1);
    }
}

#[test]
fn sizes_at_their_ends_are_good() {
    for (n, c, d) in [(1, 1, LIMIT_MIN), (PLACES_MAX, CELLS_MAX, LIMIT_MAX)] {
        let mut caller = emptied(n, c, d);
        assert_eq!(caller.call(&Call::Open(run(0))), done(0));
        assert_eq!(caller.call(&Call::Stream), done(0));
    }
}

#[test]
fn empty_needs_neither_d_nor_a_sound_store() {
    let mut caller = small();
    caller.sizes.d = u64::MAX;
    caller.lent.store.iter_mut().for_each(|word| *word = GARBAGE);
    caller.lent.spare.clear();
    assert_eq!(caller.call(&Call::Empty), done(0));
    let mut words = vec![0; 8];
    words.extend([u32::MAX, u32::MAX, u32::MAX, u32::MAX, 0]);
    words.extend([0, 0, 0, 0, 3]);
    words.extend([4, 4, 4]);
    words.extend([u32::MAX; 3]);
    words.extend([1, 2, u32::MAX]);
    assert_eq!(caller.lent.store, words);
    caller.lent.store.push(0);
    assert_refused(&mut caller, &Call::Empty, 1);
}

#[test]
fn tables_of_wrong_length() {
    for name in [TableName::Store, TableName::Spare, TableName::Waiting] {
        for call in good_calls() {
            let taken = match call {
                Call::Link(..) | Call::Stream => true,
                _ => name == TableName::Store,
            };
            for longer in [true, false] {
                let mut caller = small();
                resize(&mut caller, name, longer);
                assert_eq!(caller.call(&call).refusal, u32::from(taken), "{:?} {:?}", name, call);
            }
        }
    }
}

fn resize(caller: &mut Caller, name: TableName, longer: bool) {
    let words = match name {
        TableName::Store => &mut caller.lent.store,
        TableName::Spare => &mut caller.lent.spare,
        TableName::Waiting => &mut caller.lent.waiting,
        TableName::Answers => &mut caller.lent.answers,
    };
    let length = if longer { words.len() + 1 } else { words.len() - 1 };
    words.resize(length, 0);
}

#[test]
fn streams_too_long_answers_too_short_totals_too_large() {
    let mut caller = small();
    caller.lent.bytes = record(Kind::Ask, run(0), run(1)).repeat(65_535);
    caller.lent.answers = vec![GARBAGE; 2 * 65_535];
    assert_eq!(caller.lent.bytes.len(), STREAM_BYTES_MAX);
    caller.lent.bytes.push(0x52);
    assert_refused(&mut caller, &Call::Stream, 1);
    caller.lent.bytes.pop();
    caller.lent.answers.pop();
    assert_refused(&mut caller, &Call::Stream, 1);
    caller.lent.answers.push(GARBAGE);
    for (links, reversals) in [(TOTAL_MAX + 1, 0), (0, TOTAL_MAX + 1), (u64::MAX, u64::MAX)] {
        caller.lent.totals = Totals { links, reversals };
        assert_refused(&mut caller, &Call::Stream, 1);
    }
    caller.lent.totals = Totals { links: TOTAL_MAX, reversals: TOTAL_MAX };
    assert_eq!(caller.call(&Call::Stream), done(65_535));
    assert!(caller.lent.answers.chunks(2).all(|answer| answer == [0, 1]));
}

#[test]
fn an_unsound_store() {
    for call in good_calls() {
        let mut caller = small();
        caller.lent.store[0] = LINE_MAX + 1;
        assert_refused(&mut caller, &call, 2);
    }
}

/// Each call on two runs refuses these two.
fn assert_pair_refused(caller: &mut Caller, a: Run, b: Run, refusal: u32) {
    for call in [Call::Link(a, b), Call::Unlink(a, b), Call::Ask(a, b)] {
        assert_refused(caller, &call, refusal);
    }
}

#[test]
fn lines_that_are_none() {
    let mut caller = small();
    for line in [0, LINE_MAX + 1, (1 << 16) + 1, u32::MAX] {
        let bad = Run::new(line, 100);
        assert_refused(&mut caller, &Call::Open(bad), 3);
        assert_refused(&mut caller, &Call::Close(bad), 3);
        for (a, b) in [(bad, run(1)), (run(1), bad), (bad, bad)] {
            assert_pair_refused(&mut caller, a, b, 3);
        }
    }
    assert_eq!(caller.call(&Call::Open(Run::new(LINE_MAX, 0))), done(3));
}

#[test]
fn the_same_run_twice_open_or_not() {
    let mut caller = small();
    for same in [run(0), run(9)] {
        assert_pair_refused(&mut caller, same, same, 4);
    }
}

#[test]
fn runs_that_are_not_open() {
    let mut caller = small();
    assert_refused(&mut caller, &Call::Close(run(9)), 5);
    for (a, b) in [(run(0), run(9)), (run(9), run(0)), (run(8), run(9))] {
        assert_pair_refused(&mut caller, a, b, 5);
    }
}

#[test]
fn already_there_no_such_link_no_room() {
    let mut caller = small();
    assert_refused(&mut caller, &Call::Open(run(0)), 6);
    assert_refused(&mut caller, &Call::Link(run(0), run(1)), 6);
    assert_refused(&mut caller, &Call::Link(run(1), run(0)), 6);
    assert_refused(&mut caller, &Call::Unlink(run(0), run(2)), 7);
    assert_eq!(caller.call(&Call::Open(run(3))), done(3));
    assert_refused(&mut caller, &Call::Open(run(4)), 8);
    assert_eq!(link(&mut caller, 0, 2), done(0));
    assert_eq!(link(&mut caller, 1, 2), done(0));
    assert_refused(&mut caller, &Call::Link(run(3), run(0)), 8);
    // Six comes before eight.
    assert_refused(&mut caller, &Call::Link(run(2), run(0)), 6);
    assert_refused(&mut caller, &Call::Open(run(0)), 6);
}

#[test]
fn a_close_looks_at_both_lists() {
    let mut caller = small();
    assert_refused(&mut caller, &Call::Close(run(0)), 10);
    assert_refused(&mut caller, &Call::Close(run(1)), 10);
    assert_eq!(caller.call(&Call::Close(run(2))), done(0));
    // The lowest free place is taken first.
    assert_eq!(caller.call(&Call::Open(run(7))), done(2));
}

#[test]
fn sets_that_are_none_come_before_places_that_are_not_open() {
    let mut caller = small();
    let sets: [&[u32]; 6] = [&[], &[0], &[9], &[1, 1], &[1, 0], &[0, 9, 9]];
    for set in sets {
        assert_refused(&mut caller, &Call::Reading(set.to_vec()), 14);
    }
    let sets: [&[u32]; 4] = [&[0, 3], &[0, 4], &[0, 1, u32::MAX], &[7, 8]];
    for set in sets {
        assert_refused(&mut caller, &Call::Reading(set.to_vec()), 5);
    }
    assert_eq!(caller.call(&Call::Reading(vec![0, 1])), done(1));
}
