//! Episodes of streams: several days one after another on one store.

use super::maker::{garbage, Ground, Maker};
use super::picks::NAMES_TO_SPARE;
use super::random::Random;
use super::records;
use super::trouble;
use crate::call::Call;
use crate::caller::Totals;
use crate::script::{Command, TableName};
use crate::sizes::{
    Sizes, ANSWER_WORDS, CELLS_MAX, PLACES_MAX, RECORDS_MAX, RECORD_BYTES, TOTAL_MAX,
};
use crate::table::Table;

/// D for the longest streams: small enough that lists get turned, large enough that few links are
/// too dense, since on the largest store each of those turns thousands of lists.
const LONGEST_LIMIT: u64 = 5;

/// A stream names nothing but what is lent to it.
pub fn choose(_: &mut Random, _: &Table) -> Call {
    Call::Stream
}

/// A small store and some days, the totals running on from day to day.
pub fn episode(maker: &mut Maker) {
    let n = maker.random.between(1, 12);
    let d = maker.random.between(2, 4);
    let c = if maker.random.chance(70) { n * d + 1 } else { maker.random.between(1, n * d) };
    let ground = maker.random.pick(&[Ground::Any, Ground::AllOpen]);
    maker.begin(Sizes { n, c, d }, ground);
    let names = n as usize + NAMES_TO_SPARE;
    for _ in 0..maker.random.between(3, 12) {
        lend_day(maker, names);
        trouble::stir_working_tables(maker);
        trouble::call(maker, 20, choose);
    }
}

/// Sets bytes, answers and totals for the next stream.
fn lend_day(maker: &mut Maker, names: usize) {
    let count = maker.random.index(60);
    let mut bytes = records::records(&mut maker.random, names, count);
    if maker.random.chance(30) {
        records::spoil(&mut maker.random, &mut bytes);
    }
    let due = ANSWER_WORDS * (bytes.len() / RECORD_BYTES);
    let lengths = [due, due + 1, due + 7, due.saturating_sub(1)];
    let length = if maker.random.chance(70) { due } else { maker.random.pick(&lengths) };
    let answers = garbage(&mut maker.random, length);
    maker.say(Command::Bytes(bytes));
    maker.say(Command::Table(TableName::Answers, answers));
    lend_totals(maker);
}

/// Mostly the totals run on; at times they stand near their limit, or past it.
fn lend_totals(maker: &mut Maker) {
    let running = maker.lent().totals;
    let too_large = running.links > TOTAL_MAX || running.reversals > TOTAL_MAX;
    if !too_large && maker.random.chance(80) {
        return;
    }
    let mut total = || {
        let small = maker.random.below(1_000);
        let near = maker.random.pick(&[TOTAL_MAX - 1, TOTAL_MAX]);
        let past = maker.random.pick(&[TOTAL_MAX + 1, 1 << 63, u64::MAX]);
        maker.random.pick(&[small, small, small, small, small, near, near, past])
    };
    let totals = Totals { links: total(), reversals: total() };
    maker.say(Command::Totals(totals));
}

/// The longest stream there may be on the largest store, and the same with one byte more.
pub fn longest(maker: &mut Maker) {
    maker.begin(Sizes { n: PLACES_MAX, c: CELLS_MAX, d: LONGEST_LIMIT }, Ground::Any);
    let mut bytes = records::opens(PLACES_MAX as usize);
    let others = RECORDS_MAX - PLACES_MAX as usize;
    bytes.extend(records::records(&mut maker.random, PLACES_MAX as usize, others));
    maker.say(Command::Bytes(bytes.clone()));
    maker.say(Command::Table(TableName::Answers, vec![7; ANSWER_WORDS * RECORDS_MAX]));
    maker.say(Command::Totals(Totals::default()));
    maker.call(Call::Stream);
    bytes.push(0x52);
    maker.say(Command::Bytes(bytes));
    maker.call(Call::Stream);
}
