//! Trouble: calls on damaged stores, with wrong sizes and on tables of wrong length.

use super::damage::{aimed, wild};
use super::maker::Maker;
use super::random::Random;
use crate::call::Call;
use crate::script::{Command, TableName};
use crate::sizes::{Sizes, CELLS_MAX, LIMIT_MAX, LIMIT_MIN, PLACES_MAX};
use crate::soundness::Fault;
use crate::table::Table;

/// How a call is chosen, given the store it would meet if there were no trouble.
pub type Choose = fn(&mut Random, &Table) -> Call;

/// Numbers that are none of the sizes but look like one when cut to fewer bits or multiplied.
const TURNS_OF_A_WORD: [u64; 5] = [1 << 16, 1 << 32, 1 << 62, 1 << 63, 0xffff_ffff_0000_0000];

/// Changes a word of each working table now and then: what they hold at entry must play no part.
pub fn stir_working_tables(maker: &mut Maker) {
    for name in [TableName::Spare, TableName::Waiting] {
        let length = name.words(maker.lent()).len();
        if length > 0 && maker.random.chance(10) {
            let (index, word) = (maker.random.index(length) as u64, maker.random.word());
            maker.say(Command::Poke(name, index, word));
        }
    }
}

/// One call, or a few, with this chance of trouble. The store is sound before and after.
pub fn call(maker: &mut Maker, trouble_percent: u64, choose: Choose) {
    let table = match maker.table() {
        Some(table) => table,
        None => return maker.lay_ground(),
    };
    if !maker.random.chance(trouble_percent) {
        let call = choose(&mut maker.random, &table);
        maker.call(call);
        return;
    }
    match maker.random.below(20) {
        0..=11 => damaged(maker, &table, choose),
        12..=15 => other_sizes(maker, &table, choose),
        16..=18 => other_length(maker, &table, choose),
        _ => senseless(maker, &table, choose),
    }
    if maker.table().is_none() {
        maker.lay_ground();
    }
}

/// A few words changed, some calls, and the words put back if the store is still unsound.
fn damaged(maker: &mut Maker, table: &Table, choose: Choose) {
    let limit = maker.sizes().limit().unwrap_or(0);
    let fault = maker.random.pick(&Fault::ALL);
    let pokes = match aimed(fault, &mut maker.random, table, limit) {
        Some(pokes) if maker.random.chance(90) => pokes,
        _ => wild(&mut maker.random, table),
    };
    let before = table.words();
    let index_and_word = |index: usize, word| Command::Poke(TableName::Store, index as u64, word);
    for &(index, word) in &pokes {
        maker.say(index_and_word(index, word));
    }
    for _ in 0..maker.random.between(1, 2) {
        let call = choose(&mut maker.random, table);
        maker.call(call);
    }
    // Two troubles at once show which check comes first.
    if maker.random.chance(10) {
        other_length(maker, table, choose);
    }
    if maker.table().is_none() {
        for &(index, _) in &pokes {
            maker.say(index_and_word(index, before[index]));
        }
    }
}

/// Other sizes for one call.
fn other_sizes(maker: &mut Maker, table: &Table, choose: Choose) {
    let sizes = maker.sizes();
    let other = other_than(&mut maker.random, sizes);
    maker.say(Command::Sizes(other));
    let call = choose(&mut maker.random, table);
    maker.call(call);
    maker.say(Command::Sizes(sizes));
}

fn other_than(random: &mut Random, sizes: Sizes) -> Sizes {
    let Sizes { n, c, d } = sizes;
    match random.below(7) {
        0 | 1 => Sizes { n: outlier(random, n, PLACES_MAX), c, d },
        2 | 3 => Sizes { n, c: outlier(random, c, CELLS_MAX), d },
        4 | 5 => Sizes { n, c, d: outlier(random, d, LIMIT_MAX) },
        // The store keeps its length and gets another meaning: 4n + 3C does not change.
        _ if c > 4 => Sizes { n: n + 3, c: c - 4, d },
        _ => Sizes { n, c, d: random.between(LIMIT_MIN, LIMIT_MAX) },
    }
}

/// A number at or outside an end of a size's range, or one that looks like the right one.
fn outlier(random: &mut Random, right: u64, most: u64) -> u64 {
    let cut = right.wrapping_add(random.pick(&TURNS_OF_A_WORD));
    let near = random.pick(&[right - 1, right + 1, 0, 1, 2, most, most + 1]);
    random.pick(&[cut, near, near, 1 << 32, 1 << 63, u64::MAX])
}

/// One table a little or much too short or long for one call.
fn other_length(maker: &mut Maker, table: &Table, choose: Choose) {
    let name = maker.random.pick(&TableName::ALL);
    let words = name.words(maker.lent()).clone();
    let length = words.len();
    let lengths = [0, 1, length.saturating_sub(1), length + 1, length + 2, 2 * length];
    let mut other = words.clone();
    other.resize(maker.random.pick(&lengths), maker.random.word());
    maker.say(Command::Table(name, other));
    let call = choose(&mut maker.random, table);
    maker.call(call);
    // A stream may have filled an answer table that is too long; it is then kept.
    if name != TableName::Answers {
        maker.say(Command::Table(name, words));
    }
}

/// A store of the right length with small words at random.
fn senseless(maker: &mut Maker, table: &Table, choose: Choose) {
    let span = table.layout().places() as u64 + 2;
    let random = &mut maker.random;
    let words = (0..table.layout().store_words())
        .map(|_| if random.chance(20) { u32::MAX } else { random.below(span) as u32 })
        .collect();
    maker.say(Command::Table(TableName::Store, words));
    for _ in 0..2 {
        let call = choose(&mut maker.random, table);
        maker.call(call);
    }
}
