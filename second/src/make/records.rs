//! Records: the bytes of random streams and days, whole and spoilt.

use super::picks::name;
use super::random::Random;
use crate::record::{Kind, Record, KIND_AT, SECOND_AT};
use crate::run::Run;
use crate::sizes::RECORD_BYTES;

/// How often each kind comes up, in twentieths: open, close, link, unlink and ask.
#[derive(Clone, Copy)]
struct Shares([u64; 5]);

/// On some days the links grow until lists get turned and links are refused, on others they thin.
const GROWING: Shares = Shares([4, 1, 11, 2, 2]);
const THINNING: Shares = Shares([4, 1, 6, 7, 2]);

impl Shares {
    fn pick(self, random: &mut Random) -> Kind {
        let mut share = random.below(self.0.iter().sum());
        for (kind, own) in Kind::ALL.iter().zip(self.0) {
            if share < own {
                return *kind;
            }
            share -= own;
        }
        Kind::Ask
    }
}

/// A run out of so many names; now and then line 0, the only wrong line a record can have.
fn run(random: &mut Random, names: usize) -> Run {
    let known = name(random.index(names));
    if random.below(40) == 0 {
        Run::new(0, known.trip)
    } else {
        known
    }
}

/// A good record's bytes.
fn record(random: &mut Random, names: usize, shares: Shares) -> Vec<u8> {
    let kind = shares.pick(random);
    let first = run(random, names);
    let second = match kind {
        _ if kind.names_one_run() => Run::default(),
        _ if random.below(30) == 0 => first,
        _ => run(random, names),
    };
    Record { kind, first, second }.bytes()
}

/// Good records over so many names.
pub fn records(random: &mut Random, names: usize, count: usize) -> Vec<u8> {
    let shares = random.pick(&[GROWING, THINNING]);
    (0..count).flat_map(|_| record(random, names, shares)).collect()
}

/// Opens of the first names, one each.
pub fn opens(names: usize) -> Vec<u8> {
    let open = |index| Record { kind: Kind::Open, first: name(index), second: Run::default() };
    (0..names).flat_map(|index| open(index).bytes()).collect()
}

/// Links between all pairs of the first names, in random order and direction.
pub fn all_links(random: &mut Random, names: usize) -> Vec<u8> {
    let mut pairs: Vec<(usize, usize)> = Vec::new();
    for a in 0..names {
        pairs.extend((0..a).map(|b| if random.chance(50) { (a, b) } else { (b, a) }));
    }
    random.shuffle(&mut pairs);
    let link = |(a, b)| Record { kind: Kind::Link, first: name(a), second: name(b) };
    pairs.into_iter().flat_map(|pair| link(pair).bytes()).collect()
}

/// Spoils the bytes in one way: a mark, a kind, a second run, any byte, or the end.
pub fn spoil(random: &mut Random, bytes: &mut Vec<u8>) {
    let records = bytes.len() / RECORD_BYTES;
    if records == 0 {
        return bytes.extend((0..random.index(RECORD_BYTES)).map(|_| 0x52));
    }
    let start = RECORD_BYTES * random.index(records);
    match random.below(7) {
        0 => bytes[start + random.index(KIND_AT)] ^= random.pick(&[1, 0x80, 0xff]),
        1 => bytes[start + KIND_AT] = random.pick(&[0, 6, 7, 255]),
        2 => {
            bytes[start + KIND_AT] = random.pick(&[1, 2]);
            bytes[start + random.index(RECORD_BYTES - SECOND_AT) + SECOND_AT] = 1;
        }
        3 => bytes[start + random.index(RECORD_BYTES)] = random.below(256) as u8,
        4 => bytes.truncate(bytes.len() - random.between(1, 14) as usize),
        5 => bytes.extend((0..random.between(1, 14)).map(|_| random.below(256) as u8)),
        // A byte lost inside: every record after it is out of step.
        _ => drop(bytes.remove(start + random.index(RECORD_BYTES))),
    }
}
