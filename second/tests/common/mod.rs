//! What the tests share: emptied stores, short names for calls, and views of lists.

// Each test file takes what it needs of this.
#![allow(dead_code)]

use second::call::Call;
use second::caller::{Caller, Lent};
use second::record::{Kind, Record};
use second::refusal::Outcome;
use second::run::Run;
use second::sizes::Sizes;
use second::soundness::judge;
use second::table::Table;

/// A word that no call writes, to see which words stay.
pub const GARBAGE: u32 = 0xdead_beef;

/// An emptied store, and working tables of the right length full of garbage.
pub fn emptied(n: u64, c: u64, d: u64) -> Caller {
    let sizes = Sizes { n, c, d };
    let layout = sizes.layout().expect("sizes of a test are good");
    let mut caller = Caller { sizes, ..Caller::default() };
    caller.lent.store = vec![GARBAGE; layout.store_words()];
    caller.lent.spare = vec![GARBAGE; layout.store_words()];
    caller.lent.waiting = vec![GARBAGE; layout.places()];
    assert_eq!(caller.call(&Call::Empty), done(0));
    caller
}

/// The same with `runs` runs open, so that run i has place i.
pub fn opened(runs: u32, c: u64, d: u64) -> Caller {
    let mut caller = emptied(u64::from(runs), c, d);
    for i in 0..runs {
        assert_eq!(caller.call(&Call::Open(run(i))), done(u64::from(i)));
    }
    caller
}

/// A sound store with the given lists of targets; cells are numbered from 1 and cell 0 is free.
pub fn with_lists(lists: &[&[u32]], d: u64) -> Caller {
    use second::table::{Held, List};
    let links: usize = lists.iter().map(|list| list.len()).sum();
    let mut caller = opened(lists.len() as u32, links as u64 + 1, d);
    let mut cells = 1..;
    let mut hold = |target: &u32| Held { cell: cells.next().unwrap(), target: *target as usize };
    let held: Vec<List> = lists.iter().map(|list| list.iter().map(&mut hold).collect()).collect();
    let table = table(&caller);
    let free = vec![0].into();
    caller.lent.store = Table::new(table.layout(), table.runs().to_vec(), held, free).words();
    caller
}

pub fn run(i: u32) -> Run {
    Run::new(1, 100 + i)
}

pub fn link(caller: &mut Caller, a: u32, b: u32) -> Outcome {
    caller.call(&Call::Link(run(a), run(b)))
}

pub fn unlink(caller: &mut Caller, a: u32, b: u32) -> Outcome {
    caller.call(&Call::Unlink(run(a), run(b)))
}

pub fn ask(caller: &mut Caller, a: u32, b: u32) -> Outcome {
    caller.call(&Call::Ask(run(a), run(b)))
}

pub fn done(number: u64) -> Outcome {
    Outcome { refusal: 0, number }
}

pub fn refused(refusal: u32) -> Outcome {
    Outcome { refusal, number: 0 }
}

/// The store as a structure; panics if it is not sound.
pub fn table(caller: &Caller) -> Table {
    let layout = caller.sizes.layout().expect("sizes of a test are good");
    let limit = caller.sizes.limit().expect("sizes of a test are good");
    judge(&caller.lent.store, layout, limit).expect("the store is sound")
}

/// The targets in the list of a place, front to back.
pub fn targets(caller: &Caller, place: usize) -> Vec<usize> {
    table(caller).lists()[place].iter().map(|held| held.target).collect()
}

/// All lists of targets.
pub fn all_targets(caller: &Caller) -> Vec<Vec<usize>> {
    (0..caller.sizes.n as usize).map(|place| targets(caller, place)).collect()
}

/// Does the call, and says whether it left every table and the totals as they were.
pub fn call_unchanged(caller: &mut Caller, call: &Call) -> (Outcome, bool) {
    let before: Lent = caller.lent.clone();
    let outcome = caller.call(call);
    (outcome, caller.lent == before)
}

/// A refused call that must leave everything as it was.
pub fn assert_refused(caller: &mut Caller, call: &Call, refusal: u32) {
    assert_eq!(call_unchanged(caller, call), (refused(refusal), true), "{:?}", call);
}

/// Bytes of one record; one-run kinds get no second run.
pub fn record(kind: Kind, first: Run, second: Run) -> Vec<u8> {
    let second = if kind.names_one_run() { Run::default() } else { second };
    Record { kind, first, second }.bytes()
}
