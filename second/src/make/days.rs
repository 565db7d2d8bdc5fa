//! Days: files of a day's bytes, for comparing what `dayrun` prints.

use std::fs;
use std::io;
use std::path::Path;

use super::random::Random;
use super::records;
use crate::sizes::{DAY_BYTES_MAX, DAY_SIZES, RECORD_BYTES};

/// The fewest runs whose pairs are more links than their lists of D = 4 can hold: 45 against 40.
const CORE: usize = 10;

/// Writes `count` days to `folder`/0.day, 1.day and so on.
pub fn write(seed: u64, count: u64, folder: &Path) -> io::Result<()> {
    fs::create_dir_all(folder)?;
    let mut random = Random::new(seed);
    for index in 0..count {
        fs::write(folder.join(format!("{}.day", index)), day(&mut random, index))?;
    }
    Ok(())
}

/// One day. What it is like goes by its index, so that a few days already hold every likeness.
pub fn day(random: &mut Random, index: u64) -> Vec<u8> {
    match index % 10 {
        0 => spoilt(random),
        1 => random_day(random),
        2 => dense_core(random),
        3 => too_many_opens(random),
        4 => dense_core_spoilt(random),
        5 => too_long(random),
        6 => longest(random),
        7 => spoilt(random),
        8 => wide(random),
        _ => Vec::new(),
    }
}

fn random_day(random: &mut Random) -> Vec<u8> {
    let names = random.between(2, 30) as usize;
    let count = random.between(1, 300) as usize;
    records::records(random, names, count)
}

fn spoilt(random: &mut Random) -> Vec<u8> {
    let mut bytes = random_day(random);
    records::spoil(random, &mut bytes);
    bytes
}

/// All pairs of a few runs, which is too dense, and then any records on them.
fn dense_core(random: &mut Random) -> Vec<u8> {
    let names = CORE + random.index(6);
    let mut bytes = records::opens(names);
    bytes.extend(records::all_links(random, names));
    let count = random.index(200);
    bytes.extend(records::records(random, names, count));
    bytes
}

fn dense_core_spoilt(random: &mut Random) -> Vec<u8> {
    let mut bytes = dense_core(random);
    records::spoil(random, &mut bytes);
    bytes
}

/// More opens than there are places.
fn too_many_opens(random: &mut Random) -> Vec<u8> {
    let names = DAY_SIZES.n as usize + 1 + random.index(20);
    let mut bytes = records::opens(names);
    bytes.extend(records::records(random, names, 300));
    bytes
}

/// Many runs, most of them open, as many records as a day may have.
fn wide(random: &mut Random) -> Vec<u8> {
    let names = 60 + random.index(100);
    let mut bytes = records::opens(names);
    let left = DAY_BYTES_MAX / RECORD_BYTES - names;
    bytes.extend(records::records(random, names, left));
    bytes
}

/// Exactly as long as a day may be.
fn longest(random: &mut Random) -> Vec<u8> {
    let names = random.between(10, 40) as usize;
    records::records(random, names, DAY_BYTES_MAX / RECORD_BYTES)
}

/// One byte, a record, or much more than a day may be.
fn too_long(random: &mut Random) -> Vec<u8> {
    let mut bytes = longest(random);
    bytes.resize(DAY_BYTES_MAX + random.pick(&[1, 15, 16, 5_000]), 0x52);
    bytes
}
