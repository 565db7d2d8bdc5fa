//! A table with every place open and every cell in a list, for the judge alone. The cells of a list lie far apart.

use wormstrand::Sizes;

use crate::library::Library;
use crate::random::Random;
use crate::work::LIMIT;

const NONE: u32 = u32::MAX;

pub fn table(n: usize) -> Library {
    let mut random = Random::new(n as u64);
    let lines: Vec<u32> = (0..n).map(|_| 1 + random.below(65535) as u32).collect();
    let numbers: Vec<u32> = (0..n).map(|_| random.below(1 << 31) as u32).collect();
    let mut cells: Vec<usize> = (0..LIMIT * n).collect();
    random.shuffle(&mut cells);
    let words = [lines, numbers, lists(n, &cells)].concat();
    let library = Library::of(Sizes { n, c: LIMIT * n, d: LIMIT }, words);
    assert!(library.judge(), "the full table is sound");
    library
}

/// Heads, lengths, owners, targets and nexts: each place holds the links to the next places, as many as a list may have.
fn lists(n: usize, cells: &[usize]) -> Vec<u32> {
    let heads = (0..n).map(|v| cells[LIMIT * v] as u32).chain([NONE]);
    let lengths = (0..n).map(|_| LIMIT as u32).chain([0]);
    let mut cell_words = vec![[0; 3]; cells.len()];
    for (i, &cell) in cells.iter().enumerate() {
        let (v, k) = (i / LIMIT, i % LIMIT);
        let next = if k + 1 < LIMIT { cells[i + 1] as u32 } else { NONE };
        cell_words[cell] = [v as u32, ((v + 1 + k) % n) as u32, next];
    }
    let sections = (0..3).flat_map(|section| cell_words.iter().map(move |words| words[section]));
    heads.chain(lengths).chain(sections).collect()
}
