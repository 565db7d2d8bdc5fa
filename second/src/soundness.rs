//! Soundness: a table of words judged rule by rule, and the name of the way it is unsound.

use std::collections::{HashMap, HashSet};

use crate::layout::Layout;
use crate::run::Run;
use crate::sizes::{LINE_MAX, NONE};
use crate::table::{Held, List, Table};

/// The ways in which a table can be unsound, in the order in which they are looked for.
#[derive(Clone, Copy, Debug, PartialEq, Eq, PartialOrd, Ord, Hash)]
pub enum Fault {
    /// Rule 1: a line word above the largest line.
    LineTooLarge,
    /// Rule 1: a free place whose number word is not 0.
    FreePlaceNumbered,
    /// Rule 1: two open places with one name.
    NameTwice,
    /// Rule 2: a head or next that is C or above and not NONE.
    CellOutside,
    /// Rule 2: a chain that goes on after as many cells as its length says, or loops.
    ChainTooLong,
    /// Rule 2: a chain that reaches NONE before as many cells as its length says.
    ChainTooShort,
    /// Rule 2: a cell in a list that its owner word does not name.
    OtherOwner,
    /// Rule 2: lengths that add up to less than C. (More is not possible once all chains hold.)
    CellsMissing,
    /// Rule 2: a place's list longer than D.
    ListOverLimit,
    /// Rule 3: a cell in the list of a place that is not open.
    ListOfFreePlace,
    /// Rule 3: a target of n or above.
    TargetOutside,
    /// Rule 3: a target below n that is not open.
    TargetNotOpen,
    /// Rule 3: a target that is the place itself.
    TargetItself,
    /// Rule 3: a free cell with a target.
    FreeCellTarget,
    /// Rule 4: a pair in two cells of one list.
    PairTwiceInList,
    /// Rule 4: a pair in the lists of both its ends.
    PairInBothLists,
}

impl Fault {
    pub const ALL: [Fault; 16] = [
        Fault::LineTooLarge,
        Fault::FreePlaceNumbered,
        Fault::NameTwice,
        Fault::CellOutside,
        Fault::ChainTooLong,
        Fault::ChainTooShort,
        Fault::OtherOwner,
        Fault::CellsMissing,
        Fault::ListOverLimit,
        Fault::ListOfFreePlace,
        Fault::TargetOutside,
        Fault::TargetNotOpen,
        Fault::TargetItself,
        Fault::FreeCellTarget,
        Fault::PairTwiceInList,
        Fault::PairInBothLists,
    ];
}

/// Judges a store of the right length and gives its structure, or the first fault found.
pub fn judge(words: &[u32], at: Layout, limit: usize) -> Result<Table, Fault> {
    let runs = rule_one(words, at)?;
    let chains = rule_two(words, at, limit)?;
    let lists = rule_three(words, at, &runs, &chains)?;
    rule_four(&lists)?;
    let free = chains[at.places()].iter().copied().collect();
    Ok(Table::new(at, runs, lists, free))
}

/// Rule 1, lines and numbers: the run at each place.
fn rule_one(words: &[u32], at: Layout) -> Result<Vec<Option<Run>>, Fault> {
    let named: Vec<Run> = (0..at.places())
        .map(|place| Run::new(words[at.line(place)], words[at.number(place)]))
        .collect();
    if named.iter().any(|run| run.line > LINE_MAX) {
        return Err(Fault::LineTooLarge);
    }
    if named.iter().any(|run| run.line == 0 && run.trip != 0) {
        return Err(Fault::FreePlaceNumbered);
    }
    let mut seen = HashSet::new();
    if named.iter().any(|run| run.line != 0 && !seen.insert(*run)) {
        return Err(Fault::NameTwice);
    }
    Ok(named.into_iter().map(|run| Some(run).filter(|run| run.line != 0)).collect())
}

/// Rule 2, chains and lengths: the cells of each list, the free list last.
fn rule_two(words: &[u32], at: Layout, limit: usize) -> Result<Vec<Vec<usize>>, Fault> {
    let mut chains = Vec::with_capacity(at.places() + 1);
    for list in 0..=at.places() {
        chains.push(chain(words, at, list)?);
    }
    if chains.iter().map(Vec::len).sum::<usize>() != at.cells() {
        return Err(Fault::CellsMissing);
    }
    if chains[..at.places()].iter().any(|cells| cells.len() > limit) {
        return Err(Fault::ListOverLimit);
    }
    Ok(chains)
}

/// Follows one chain to NONE. It ends because a chain of more than C cells must loop.
fn chain(words: &[u32], at: Layout, list: usize) -> Result<Vec<usize>, Fault> {
    let length = words[at.length(list)] as usize;
    let mut cells = Vec::new();
    let mut named = words[at.head(list)];
    while named != NONE {
        let cell = named as usize;
        if cell >= at.cells() {
            return Err(Fault::CellOutside);
        }
        if cells.len() == length || cells.len() == at.cells() {
            return Err(Fault::ChainTooLong);
        }
        if words[at.owner(cell)] as usize != list {
            return Err(Fault::OtherOwner);
        }
        cells.push(cell);
        named = words[at.next(cell)];
    }
    if cells.len() < length {
        return Err(Fault::ChainTooShort);
    }
    Ok(cells)
}

/// Rule 3, targets: the list of each place.
fn rule_three(
    words: &[u32],
    at: Layout,
    runs: &[Option<Run>],
    chains: &[Vec<usize>],
) -> Result<Vec<List>, Fault> {
    let (free, held) = chains.split_last().expect("the free list is always there");
    let mut lists = Vec::with_capacity(held.len());
    for (place, cells) in held.iter().enumerate() {
        let mut list = List::new();
        for &cell in cells {
            let target = target(words[at.target(cell)], place, runs)?;
            list.push_back(Held { cell, target });
        }
        lists.push(list);
    }
    if free.iter().any(|&cell| words[at.target(cell)] != NONE) {
        return Err(Fault::FreeCellTarget);
    }
    Ok(lists)
}

/// The target of a cell in the list of `place`.
fn target(named: u32, place: usize, runs: &[Option<Run>]) -> Result<usize, Fault> {
    if runs[place].is_none() {
        return Err(Fault::ListOfFreePlace);
    }
    let target = named as usize;
    match runs.get(target) {
        None => Err(Fault::TargetOutside),
        Some(None) => Err(Fault::TargetNotOpen),
        Some(Some(_)) if target == place => Err(Fault::TargetItself),
        Some(Some(_)) => Ok(target),
    }
}

/// Rule 4, pairs: each unordered pair with the list it was first met in.
fn rule_four(lists: &[List]) -> Result<(), Fault> {
    let mut met_in = HashMap::new();
    for (place, list) in lists.iter().enumerate() {
        for held in list {
            let pair = (place.min(held.target), place.max(held.target));
            match met_in.insert(pair, place) {
                None => {}
                Some(first) if first == place => return Err(Fault::PairTwiceInList),
                Some(_) => return Err(Fault::PairInBothLists),
            }
        }
    }
    Ok(())
}
