//! Sound tables made at random, also such as no history of calls leads to.

use std::collections::{BTreeSet, VecDeque};

use super::picks::name;
use super::random::Random;
use crate::layout::Layout;
use crate::run::Run;
use crate::table::{Held, List, Table};

/// A sound table with runs, links, directions and the order of cells all left to chance.
pub fn table(random: &mut Random, layout: Layout, limit: usize) -> Table {
    let open_percent = random.pick(&[0, 50, 80, 95, 100, 100]);
    table_with(random, layout, limit, open_percent)
}

/// The same with a run at every place.
pub fn all_open(random: &mut Random, layout: Layout, limit: usize) -> Table {
    table_with(random, layout, limit, 100)
}

fn table_with(random: &mut Random, layout: Layout, limit: usize, open_percent: u64) -> Table {
    let runs = runs(random, layout.places(), open_percent);
    let mut cells: VecDeque<usize> = shuffled(random, layout.cells()).into();
    let lists = lists(random, &runs, &mut cells, limit);
    Table::new(layout, runs, lists, cells)
}

/// So many places in a hundred open, in no order of names.
fn runs(random: &mut Random, places: usize, open_percent: u64) -> Vec<Option<Run>> {
    let names = shuffled(random, places).into_iter().map(name);
    names.map(|run| Some(run).filter(|_| random.chance(open_percent))).collect()
}

/// Links between open places as long as cells last, none of the lists over the limit.
fn lists(
    random: &mut Random,
    runs: &[Option<Run>],
    cells: &mut VecDeque<usize>,
    limit: usize,
) -> Vec<List> {
    let mut lists = vec![List::new(); runs.len()];
    let open: Vec<usize> = (0..runs.len()).filter(|&place| runs[place].is_some()).collect();
    let tries = random.index(2 * cells.len().min(limit * runs.len()) + 1);
    let mut pairs = BTreeSet::new();
    for _ in 0..tries {
        if open.len() < 2 || cells.is_empty() {
            break;
        }
        let (place, target) = (random.pick(&open), random.pick(&open));
        let pair = (place.min(target), place.max(target));
        if place == target || lists[place].len() == limit || !pairs.insert(pair) {
            continue;
        }
        lists[place].extend(cells.pop_front().map(|cell| Held { cell, target }));
    }
    lists
}

fn shuffled(random: &mut Random, count: usize) -> Vec<usize> {
    let mut numbers: Vec<usize> = (0..count).collect();
    random.shuffle(&mut numbers);
    numbers
}
