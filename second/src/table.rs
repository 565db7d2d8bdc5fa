//! Table: a sound store as maps and vectors, and the writing of its words.

use std::collections::{BTreeSet, HashMap, VecDeque};

use crate::layout::{word, Layout};
use crate::run::Run;
use crate::sizes::NONE;

/// A cell in the list of a place, with the place at the link's other end.
#[derive(Clone, Copy, Debug, PartialEq, Eq)]
pub struct Held {
    pub cell: usize,
    pub target: usize,
}

/// The list of a place, front first.
pub type List = VecDeque<Held>;

/// A sound store. Its words follow from `runs`, `lists` and `free`; the rest answers questions.
#[derive(Clone, Debug)]
pub struct Table {
    pub(crate) layout: Layout,
    pub(crate) runs: Vec<Option<Run>>,
    pub(crate) lists: Vec<List>,
    pub(crate) free: VecDeque<usize>,
    pub(crate) place_of: HashMap<Run, usize>,
    pub(crate) vacant: BTreeSet<usize>,
    /// For each place the places it is linked with, whichever list has the cell. Turning never
    /// touches these sets, so they show whether turning keeps the relations.
    pub(crate) related: Vec<BTreeSet<usize>>,
}

impl Table {
    /// The structure of given runs, lists and free cells, which the caller knows to be sound.
    pub fn new(
        layout: Layout,
        runs: Vec<Option<Run>>,
        lists: Vec<List>,
        free: VecDeque<usize>,
    ) -> Table {
        let mut table = Table {
            layout,
            place_of: HashMap::new(),
            vacant: BTreeSet::new(),
            related: vec![BTreeSet::new(); layout.places()],
            runs,
            lists,
            free,
        };
        for (place, run) in table.runs.iter().enumerate() {
            match run {
                Some(run) => drop(table.place_of.insert(*run, place)),
                None => drop(table.vacant.insert(place)),
            }
        }
        for (place, list) in table.lists.iter().enumerate() {
            for held in list {
                table.related[place].insert(held.target);
                table.related[held.target].insert(place);
            }
        }
        table
    }

    /// The store that the call `empty` writes.
    pub fn empty(layout: Layout) -> Table {
        let runs = vec![None; layout.places()];
        let lists = vec![List::new(); layout.places()];
        Table::new(layout, runs, lists, (0..layout.cells()).collect())
    }

    pub fn layout(&self) -> Layout {
        self.layout
    }

    /// The run at each place.
    pub fn runs(&self) -> &[Option<Run>] {
        &self.runs
    }

    /// The list of each place.
    pub fn lists(&self) -> &[List] {
        &self.lists
    }

    /// The free cells, front first.
    pub fn free(&self) -> &VecDeque<usize> {
        &self.free
    }

    /// Standing links.
    pub fn links(&self) -> usize {
        self.layout.cells() - self.free.len()
    }

    /// The store's words.
    pub fn words(&self) -> Vec<u32> {
        let at = self.layout;
        let mut words = vec![0; at.store_words()];
        for (place, run) in self.runs.iter().enumerate() {
            let run = run.unwrap_or_default();
            words[at.line(place)] = run.line;
            words[at.number(place)] = run.trip;
        }
        for (place, list) in self.lists.iter().enumerate() {
            let chain = list.iter().map(|held| (held.cell, word(held.target)));
            write_chain(&mut words, at, place, chain);
        }
        let chain = self.free.iter().map(|&cell| (cell, NONE));
        write_chain(&mut words, at, at.places(), chain);
        words
    }
}

/// Writes one list: its head, its length, and owner, target and next of each of its cells.
fn write_chain(
    words: &mut [u32],
    at: Layout,
    list: usize,
    chain: impl ExactSizeIterator<Item = (usize, u32)>,
) {
    words[at.length(list)] = word(chain.len());
    // The word that is to name the cell that comes next: first the head, then each cell's next.
    let mut naming = at.head(list);
    for (cell, target) in chain {
        words[naming] = word(cell);
        words[at.owner(cell)] = word(list);
        words[at.target(cell)] = target;
        naming = at.next(cell);
    }
    words[naming] = NONE;
}
