//! Random histories from an emptied store: the table stays sound, lists stay within D, and asking
//! says yes exactly for the pairs that an own set of accepted links holds.

mod common;

use std::collections::{BTreeMap, BTreeSet};

use common::*;
use second::call::Call;
use second::caller::Caller;
use second::make::Random;
use second::refusal::Outcome;
use second::run::Run;
use second::tally::Turnings;

/// What the history should have led to, kept without any store.
#[derive(Default)]
struct Expected {
    places: BTreeMap<Run, u64>,
    pairs: BTreeSet<(Run, Run)>,
}

fn unordered(a: Run, b: Run) -> (Run, Run) {
    (a.min(b), a.max(b))
}

impl Expected {
    /// The outcome that must follow; what turning does to a link is left open.
    fn judge(&self, call: &Call, n: u64, c: usize) -> Option<Outcome> {
        let is_open = |run: &Run| self.places.contains_key(run);
        let linked = |a: &Run, b: &Run| self.pairs.contains(&unordered(*a, *b));
        match call {
            Call::Open(run) if is_open(run) => Some(refused(6)),
            Call::Open(_) => Some(self.lowest_free(n).map_or(refused(8), done)),
            Call::Close(run) if !is_open(run) => Some(refused(5)),
            Call::Close(run) if self.touched(*run) => Some(refused(10)),
            Call::Close(_) => Some(done(0)),
            Call::Link(a, b) | Call::Unlink(a, b) | Call::Ask(a, b) if a == b => Some(refused(4)),
            Call::Link(a, b) | Call::Unlink(a, b) | Call::Ask(a, b)
                if !is_open(a) || !is_open(b) =>
            {
                Some(refused(5))
            }
            Call::Link(a, b) if linked(a, b) => Some(refused(6)),
            Call::Link(..) if self.pairs.len() == c => Some(refused(8)),
            Call::Link(..) => None,
            Call::Unlink(a, b) if !linked(a, b) => Some(refused(7)),
            Call::Unlink(..) => Some(done(0)),
            Call::Ask(a, b) => Some(done(u64::from(linked(a, b)))),
            other => panic!("{:?} is no part of these histories", other),
        }
    }

    fn lowest_free(&self, n: u64) -> Option<u64> {
        (0..n).find(|place| self.places.values().all(|taken| taken != place))
    }

    fn touched(&self, run: Run) -> bool {
        self.pairs.iter().any(|pair| pair.0 == run || pair.1 == run)
    }

    /// Takes note of a call that was done.
    fn note(&mut self, call: &Call, outcome: Outcome) {
        match call {
            Call::Open(run) => drop(self.places.insert(*run, outcome.number)),
            Call::Close(run) => drop(self.places.remove(run)),
            Call::Link(a, b) => drop(self.pairs.insert(unordered(*a, *b))),
            Call::Unlink(a, b) => drop(self.pairs.remove(&unordered(*a, *b))),
            _ => {}
        }
    }
}

/// A call on few trip numbers on few lines, so that runs differ in one of the two only.
fn random_call(random: &mut Random, names: u64, expected: &Expected, thinning: bool) -> Call {
    let mut run = || {
        let name = random.below(names) as u32;
        Run::new(1 + name % 3, name / 3)
    };
    let (a, b) = (run(), run());
    let standing: Vec<(Run, Run)> = expected.pairs.iter().copied().collect();
    match random.below(20) {
        0..=3 => Call::Open(a),
        4 => Call::Close(a),
        5 => Call::Unlink(a, b),
        6 => Call::Ask(a, b),
        7..=15 if thinning => {
            let (a, b) = random.pick_any(&standing).unwrap_or((a, b));
            Call::Unlink(b, a)
        }
        _ => Call::Link(a, b),
    }
}

/// The store is sound, its words follow from its structure, and it has the links it should have.
fn assert_sound(caller: &Caller, expected: &Expected) {
    let table = table(caller);
    assert_eq!(table.words(), caller.lent.store);
    assert!(table.lists().iter().all(|list| list.len() as u64 <= caller.sizes.d));
    let mut pairs = BTreeSet::new();
    for (place, list) in table.lists().iter().enumerate() {
        let ends =
            list.iter().filter_map(|held| table.runs()[place].zip(table.runs()[held.target]));
        pairs.extend(ends.map(|(a, b)| unordered(a, b)));
    }
    assert_eq!(pairs, expected.pairs);
    assert_eq!(table.links(), pairs.len());
}

/// Every pair of open runs is asked about, both ways round.
fn assert_answers(caller: &mut Caller, expected: &Expected) {
    let open: Vec<Run> = expected.places.keys().copied().collect();
    for &a in &open {
        for &b in open.iter().filter(|b| **b != a) {
            let yes = expected.pairs.contains(&unordered(a, b));
            assert_eq!(caller.call(&Call::Ask(a, b)), done(u64::from(yes)));
        }
    }
}

/// The reading of some open places, counted from the expected pairs.
fn assert_reading(caller: &mut Caller, expected: &Expected, random: &mut Random) {
    let chosen: BTreeMap<u64, Run> = expected
        .places
        .iter()
        .map(|(run, place)| (*place, *run))
        .filter(|_| random.chance(70))
        .collect();
    if chosen.len() < 2 {
        return;
    }
    let inside = |run: &Run| chosen.values().any(|other| other == run);
    let links = expected.pairs.iter().filter(|(a, b)| inside(a) && inside(b)).count();
    let set = chosen.keys().map(|&place| place as u32).collect();
    let ratio = (links / (chosen.len() - 1)) as u64;
    assert_eq!(caller.call(&Call::Reading(set)), done(ratio));
}

/// One history; gives what its turnings came to.
fn history(seed: u64) -> Turnings {
    let mut random = Random::new(seed);
    let (n, d) = (random.between(5, 12), random.pick(&[2, 2, 2, 3]));
    let c = if random.chance(20) { random.between(2, n * d) } else { n * d + 2 };
    let mut caller = emptied(n, c, d);
    let mut expected = Expected::default();
    for step in 0..600 {
        // Links grow for a while and are thinned for a while, so that turning can settle.
        let thinning = step % 80 >= 60;
        let call = random_call(&mut random, n + 2, &expected, thinning);
        let due = expected.judge(&call, n, c as usize);
        let outcome = caller.call(&call);
        match due {
            Some(due) => assert_eq!(outcome, due, "{:?}", call),
            None => assert!(outcome.refusal == 0 || outcome.refusal == 9, "{:?}", outcome),
        }
        if outcome.refusal == 0 {
            expected.note(&call, outcome);
        }
        assert_sound(&caller, &expected);
        if step % 5 == 0 {
            assert_answers(&mut caller, &expected);
            assert_reading(&mut caller, &expected, &mut random);
        }
    }
    caller.tally.turnings()
}

#[test]
fn random_histories_are_as_an_own_set_of_pairs_says() {
    let histories: Vec<Turnings> = (0..60).map(history).collect();
    let began: u64 = histories.iter().map(|turnings| turnings.links_that_began).sum();
    let too_dense: u64 = histories.iter().map(|turnings| turnings.began_and_refused).sum();
    assert!(too_dense >= 500, "only {} links were too dense", too_dense);
    assert!(began - too_dense >= 500, "only {} links turned lists", began - too_dense);
}
