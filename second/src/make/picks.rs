//! Picks: which runs, pairs and sets a call names, so that each refusal has its chance.

use super::random::Random;
use crate::call::Call;
use crate::run::Run;
use crate::sizes::LINE_MAX;
use crate::table::Table;

/// Lines that are none: at, just past and far past the end, and some that fit once cut to 16 bits.
const BAD_LINES: [u32; 6] = [0, LINE_MAX + 1, LINE_MAX + 2, 1 << 31, (1 << 31) + 1, u32::MAX];

/// Names beyond the number of places, so that some are never open.
pub const NAMES_TO_SPARE: usize = 2;

/// Good names by number. Four in a row share a trip number, because names must not be mixed up.
pub fn name(index: usize) -> Run {
    let line = [1, 2, LINE_MAX, 256][index % 4];
    let trip = match index / 4 {
        0 => 100,
        1 => 0,
        2 => u32::MAX,
        3 => 65_536,
        other => 1_000 + other as u32,
    };
    Run::new(line, trip)
}

/// A run: mostly an open one, at times one that may not be open, now and then no good name.
pub fn run(random: &mut Random, table: &Table) -> Run {
    let known = name(random.index(table.layout().places() + NAMES_TO_SPARE));
    match random.below(24) {
        0 => Run::new(random.pick(&BAD_LINES), known.trip),
        1..=3 => known,
        _ => {
            let open: Vec<Run> = table.runs().iter().flatten().copied().collect();
            random.pick_any(&open).unwrap_or(known)
        }
    }
}

/// Two runs: mostly different ones, at times one twice.
pub fn pair(random: &mut Random, table: &Table) -> (Run, Run) {
    const TRIES: usize = 4;
    let first = run(random, table);
    if random.below(30) == 0 {
        return (first, first);
    }
    let others = (0..TRIES).map(|_| run(random, table)).find(|other| *other != first);
    (first, others.unwrap_or(first))
}

/// The two ends of a standing link, either of them first; any two if there is no link.
fn linked_pair(random: &mut Random, table: &Table) -> (Run, Run) {
    let mut links = Vec::new();
    for (place, list) in table.lists().iter().enumerate() {
        links.extend(list.iter().map(|held| (place, held.target)));
    }
    let found = random.pick_any(&links).and_then(|(a, b)| table.runs()[a].zip(table.runs()[b]));
    match found {
        Some((a, b)) if random.chance(50) => (b, a),
        Some(ends) => ends,
        None => pair(random, table),
    }
}

/// A pair, with this chance the ends of a standing link.
fn pair_linked_at(random: &mut Random, table: &Table, percent: u64) -> (Run, Run) {
    if random.chance(percent) {
        linked_pair(random, table)
    } else {
        pair(random, table)
    }
}

pub fn ask(random: &mut Random, table: &Table) -> Call {
    let (a, b) = pair_linked_at(random, table, 40);
    Call::Ask(a, b)
}

pub fn unlink(random: &mut Random, table: &Table) -> Call {
    let (a, b) = pair_linked_at(random, table, 60);
    Call::Unlink(a, b)
}

/// Mostly a pair that is not linked yet, as far as a few tries find one.
pub fn link(random: &mut Random, table: &Table) -> Call {
    const TRIES: usize = 4;
    let (mut a, mut b) = pair_linked_at(random, table, 8);
    for _ in 0..TRIES {
        if random.chance(20) || table.ask(a, b) != Ok(1) {
            break;
        }
        (a, b) = pair(random, table);
    }
    Call::Link(a, b)
}

pub fn open(random: &mut Random, table: &Table) -> Call {
    let names = table.layout().places() + NAMES_TO_SPARE;
    if random.chance(70) {
        Call::Open(name(random.index(names)))
    } else {
        Call::Open(run(random, table))
    }
}

pub fn close(random: &mut Random, table: &Table) -> Call {
    Call::Close(run(random, table))
}

/// A set of places: mostly rising and open, at times with a place outside, equal or falling.
pub fn reading(random: &mut Random, table: &Table) -> Call {
    let places = table.layout().places();
    let only_open = random.chance(60);
    let percent = random.pick(&[10, 50, 90, 100]);
    let mut set: Vec<u32> = (0..places)
        .filter(|&place| !only_open || table.runs()[place].is_some())
        .filter(|_| random.chance(percent))
        .map(|place| place as u32)
        .collect();
    match random.below(12) {
        0 => set.push(random.pick(&[places as u32, places as u32 + 1, 1 << 31, u32::MAX])),
        1 => set.extend(set.last().copied()),
        2 => set.reverse(),
        3 => set.truncate(random.index(2)),
        _ => {}
    }
    Call::Reading(set)
}

/// A call that reads.
pub fn reads(random: &mut Random, table: &Table) -> Call {
    match random.below(30) {
        0 => Call::Empty,
        1..=15 => ask(random, table),
        _ => reading(random, table),
    }
}

/// A call that writes; links too, since without them nothing could be unlinked.
pub fn writes(random: &mut Random, table: &Table) -> Call {
    match random.below(20) {
        0..=5 => open(random, table),
        6..=9 => close(random, table),
        10..=14 => unlink(random, table),
        _ => link(random, table),
    }
}

/// Links above all. Where they are many, unlinks keep the store short of too dense for a while.
pub fn links(random: &mut Random, table: &Table) -> Call {
    let longest = table.lists().iter().map(|list| list.len()).max().unwrap_or(0);
    let many = 5 * table.links() > 3 * longest * table.layout().places();
    match random.below(40) {
        0 => ask(random, table),
        1 => open(random, table),
        2..=4 => unlink(random, table),
        5..=16 if many => unlink(random, table),
        _ => link(random, table),
    }
}
