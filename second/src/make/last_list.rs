//! Episodes at the last list that may be turned: links that it settles, and links that need one
//! list more. Chance seldom leads there, so the shapes are given and only dressed at random.

use std::collections::VecDeque;

use super::maker::{Ground, Maker};
use super::picks::name;
use crate::call::Call;
use crate::run::Run;
use crate::script::{Command, TableName};
use crate::sizes::{Sizes, LIMIT_MIN};
use crate::table::{Held, List, Table};

/// Lists of targets, for D = 2, and the pair that is then linked.
struct Shape {
    lists: &'static [&'static [usize]],
    pair: (usize, usize),
}

/// In each the new link is the eighth. The eighth list turned leaves no place waiting in the first
/// shape; in the second a ninth would be needed, so the link is too dense.
const SHAPES: [Shape; 2] = [
    Shape { lists: &[&[], &[3, 4], &[4], &[], &[], &[4, 2], &[], &[1, 2]], pair: (5, 7) },
    Shape { lists: &[&[4, 3], &[2], &[], &[4], &[1], &[], &[0, 3]], pair: (6, 1) },
];

pub fn episode(maker: &mut Maker) {
    let shape = &SHAPES[maker.random.index(SHAPES.len())];
    let links: usize = shape.lists.iter().map(|list| list.len()).sum();
    let spare_cells = maker.random.between(1, 3);
    let sizes = Sizes { n: shape.lists.len() as u64, c: links as u64 + spare_cells, d: LIMIT_MIN };
    maker.begin(sizes, Ground::AllOpen);
    // Which place plays which part; the order inside lists, which decides, is kept.
    let mut parts: Vec<usize> = (0..shape.lists.len()).collect();
    maker.random.shuffle(&mut parts);
    let words = dressed(maker, shape, &parts).words();
    maker.say(Command::Table(TableName::Store, words));
    let (a, b) = (name(parts[shape.pair.0]), name(parts[shape.pair.1]));
    maker.call(Call::Link(a, b));
    maker.call(Call::Ask(b, a));
    maker.call(Call::Link(a, b));
}

/// The shape as a table, with its parts and cells dealt out.
fn dressed(maker: &mut Maker, shape: &Shape, parts: &[usize]) -> Table {
    let layout = maker.sizes().layout().expect("the sizes of a shape are within their limits");
    let mut cells: Vec<usize> = (0..layout.cells()).collect();
    maker.random.shuffle(&mut cells);
    let mut cells = VecDeque::from(cells);
    let mut lists = vec![List::new(); layout.places()];
    for (part, targets) in shape.lists.iter().enumerate() {
        let held = targets.iter().filter_map(|&target| {
            cells.pop_front().map(|cell| Held { cell, target: parts[target] })
        });
        lists[parts[part]] = held.collect();
    }
    let runs: Vec<Option<Run>> = (0..layout.places()).map(|place| Some(name(place))).collect();
    Table::new(layout, runs, lists, cells)
}
