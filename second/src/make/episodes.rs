//! Episodes of reads, writes and links: stretches of a script with one store and its history.

use super::last_list;
use super::maker::{Ground, Maker};
use super::picks;
use super::trouble;
use crate::sizes::Sizes;

/// Begins with a small store of any kind.
fn begin_small(maker: &mut Maker) {
    let sizes = Sizes {
        n: maker.random.between(1, 6),
        c: maker.random.between(1, 9),
        d: maker.random.between(2, 4),
    };
    maker.begin(sizes, Ground::Any);
}

/// Small stores, many of them damaged, read in every way.
pub fn reads(maker: &mut Maker) {
    begin_small(maker);
    for _ in 0..maker.random.between(10, 50) {
        trouble::call(maker, 50, picks::reads);
        // A store without runs has little to ask about.
        if maker.table().map_or(true, |table| table.runs().iter().all(Option::is_none)) {
            maker.lay_ground();
        }
    }
}

/// Small stores, often full, on which runs come and go.
pub fn writes(maker: &mut Maker) {
    begin_small(maker);
    for _ in 0..maker.random.between(20, 100) {
        trouble::call(maker, 30, picks::writes);
    }
}

/// Dense stores, so that lists are turned again and again; a few are of some size.
pub fn links(maker: &mut Maker) {
    if maker.random.chance(15) {
        return last_list::episode(maker);
    }
    let large = maker.random.chance(6);
    let n = if large { maker.random.between(20, 60) } else { maker.random.between(4, 14) };
    let d = maker.random.between(2, 5);
    // Room for every list to be full and one cell more, or too little of it.
    let c = if maker.random.chance(80) { n * d + 1 } else { maker.random.between(d, n * d) };
    maker.begin(Sizes { n, c, d }, Ground::AllOpen);
    for _ in 0..maker.random.between(n * d, 3 * n * d) {
        trouble::stir_working_tables(maker);
        trouble::call(maker, 6, picks::links);
    }
}
