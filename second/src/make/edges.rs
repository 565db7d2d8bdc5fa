//! Edges: episodes with sizes at and just outside the ends of their ranges, tables fitting.

use super::maker::{garbage, Ground, Maker};
use super::picks;
use super::streams;
use super::trouble::{self, Choose};
use super::ScriptKind;
use crate::call::Call;
use crate::layout::Layout;
use crate::script::{Command, TableName};
use crate::sizes::{Sizes, CELLS_MAX, CELLS_MIN, LIMIT_MAX, LIMIT_MIN, PLACES_MAX, PLACES_MIN};
use crate::table::Table;

pub fn episode(kind: ScriptKind, maker: &mut Maker) {
    if maker.random.chance(30) {
        at_the_ends(kind, maker);
    } else {
        past_the_ends(kind, maker);
    }
}

fn choice(kind: ScriptKind, maker: &mut Maker) -> Choose {
    match kind {
        ScriptKind::Reads => picks::reads,
        ScriptKind::Writes => picks::writes,
        ScriptKind::Links => picks::links,
        ScriptKind::Streams => streams::choose,
        ScriptKind::All => maker.random.pick(&[
            picks::reads as Choose,
            picks::writes,
            picks::links,
            streams::choose,
        ]),
    }
}

/// The smallest and the largest stores there are.
fn at_the_ends(kind: ScriptKind, maker: &mut Maker) {
    // The largest come seldom: their tables make long lines.
    let (most_n, most_c) = if maker.random.chance(25) { (PLACES_MAX, CELLS_MAX) } else { (3, 7) };
    let sizes = Sizes {
        n: maker.random.pick(&[PLACES_MIN, most_n]),
        c: maker.random.pick(&[CELLS_MIN, most_c]),
        d: maker.random.pick(&[LIMIT_MIN, LIMIT_MAX]),
    };
    maker.begin(sizes, Ground::Any);
    let calls = if sizes.n == PLACES_MAX || sizes.c == CELLS_MAX { 4 } else { 30 };
    for _ in 0..calls {
        let choose = choice(kind, maker);
        trouble::call(maker, 20, choose);
    }
}

/// One size just outside its range, and every table of the length that would belong to it.
fn past_the_ends(kind: ScriptKind, maker: &mut Maker) {
    let (n, c, d) = (2, 2, 2);
    let sizes = maker.random.pick(&[
        Sizes { n: PLACES_MIN - 1, c, d },
        Sizes { n: PLACES_MAX + 1, c, d },
        Sizes { n, c: CELLS_MIN - 1, d },
        Sizes { n, c: CELLS_MAX + 1, d },
        Sizes { n, c, d: LIMIT_MIN - 1 },
        Sizes { n, c, d: LIMIT_MAX + 1 },
    ]);
    let lengths = Layout::new(sizes.n as usize, sizes.c as usize);
    maker.say(Command::Sizes(sizes));
    for (name, length) in [
        (TableName::Store, lengths.store_words()),
        (TableName::Spare, lengths.store_words()),
        (TableName::Waiting, lengths.places()),
    ] {
        let words = garbage(&mut maker.random, length);
        maker.say(Command::Table(name, words));
    }
    // D plays no part in empty, so this one is done if n and C are right.
    maker.call(Call::Empty);
    let choose = choice(kind, maker);
    let likeness = Table::empty(Layout::new(2, 2));
    for _ in 0..3 {
        let call = choose(&mut maker.random, &likeness);
        maker.call(call);
    }
}
