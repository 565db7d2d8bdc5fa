//! The work that all are given at one size: a table, single calls on it, and a day.

use std::collections::HashSet;

use wormstrand::{Run, Sizes};

use crate::call::Call;
use crate::pairs::{turned, Pair, Pairs};
use crate::random::Random;

pub const LIMIT: usize = 4;
pub const CELLS_PER_PLACE: usize = 4;
/// Standing links for each place.
pub const LINKS_PER_PLACE: usize = 2;

/// Asks in a stream. Those about the first two places take so little that it needs more of them.
const ASKS: usize = 2048;
const NEAR_ASKS: usize = 32768;
/// The calls of one kind that are done one by one, at most; all of them are done as records of a stream.
const SINGLE: usize = 128;

pub struct Work {
    pub sizes: Sizes,
    /// Every run opened, then every link.
    pub table: Vec<Call>,
    /// Half of them of runs that are linked.
    pub asks: Vec<Call>,
    /// All of them of the first two places.
    pub near_asks: Vec<Call>,
    pub links: Vec<Call>,
    /// The links just made, in another order and either way round.
    pub unlinks: Vec<Call>,
    pub day: Vec<Call>,
}

/// Those of the calls that are done one by one, and the others.
pub fn split(calls: &[Call]) -> (&[Call], &[Call]) {
    calls.split_at(calls.len().min(SINGLE))
}

/// What the work is made of while it is made up.
struct Maker {
    random: Random,
    names: HashSet<Run>,
    runs: Vec<Run>,
    pairs: Pairs,
    /// The runs from here on have no links: a day closes and opens them.
    loose: usize,
    closed: Option<usize>,
}

impl Work {
    pub fn new(n: usize, records: usize) -> Work {
        let mut maker = Maker::new(n);
        let table = maker.table();
        let asks = (0..ASKS).map(|_| maker.ask()).collect();
        let (a, b) = (maker.runs[0], maker.runs[1]);
        let near_asks = vec![Call::Ask(a, b); NEAR_ASKS];
        let day = (0..records).map(|_| maker.record()).collect();
        let (links, unlinks) = Maker::at_table(n).changes();
        let sizes = Sizes { n, c: CELLS_PER_PLACE * n, d: LIMIT };
        Work { sizes, table, asks, near_asks, links, unlinks, day }
    }
}

impl Maker {
    fn new(n: usize) -> Maker {
        let loose = n - n / 16;
        let (random, names) = (Random::new(n as u64), HashSet::new());
        let pairs = Pairs::new(loose);
        let mut maker = Maker { random, names, runs: Vec::new(), pairs, loose, closed: None };
        maker.runs = (0..n).map(|_| maker.new_run()).collect();
        maker
    }

    /// The maker as it is when the table stands.
    fn at_table(n: usize) -> Maker {
        let mut maker = Maker::new(n);
        maker.table();
        maker
    }

    /// A name that no run has had.
    fn new_run(&mut self) -> Run {
        loop {
            let line = 1 + self.random.below(65535) as u32;
            let run = Run { line, trip: self.random.below(1 << 31) as u32 };
            if self.names.insert(run) {
                return run;
            }
        }
    }

    fn named(&self, (a, b): Pair) -> (Run, Run) {
        (self.runs[a], self.runs[b])
    }

    fn table(&mut self) -> Vec<Call> {
        let mut calls: Vec<Call> = self.runs.iter().map(|&run| Call::Open(run)).collect();
        for _ in 0..LINKS_PER_PLACE * self.runs.len() {
            calls.push(self.link());
        }
        calls
    }

    fn changes(mut self) -> (Vec<Call>, Vec<Call>) {
        let count = self.runs.len() / 2;
        let mut pairs: Vec<Pair> = (0..count).map(|_| self.pairs.add(&mut self.random)).collect();
        let links = pairs.iter().map(|&pair| self.named(pair)).map(|(a, b)| Call::Link(a, b));
        let links = links.collect();
        self.random.shuffle(&mut pairs);
        pairs.iter_mut().for_each(|pair| *pair = turned(*pair, &mut self.random));
        let unlinks = pairs.iter().map(|&pair| self.named(pair));
        (links, unlinks.map(|(a, b)| Call::Unlink(a, b)).collect())
    }

    fn link(&mut self) -> Call {
        let pair = self.pairs.add(&mut self.random);
        let (a, b) = self.named(pair);
        Call::Link(a, b)
    }

    fn ask(&mut self) -> Call {
        let pair = match self.random.coin() {
            true => self.pairs.present(&mut self.random),
            false => self.pairs.absent(&mut self.random),
        };
        let (a, b) = self.named(pair);
        Call::Ask(a, b)
    }

    /// On average 8 of 16 records are asks, 6 links and unlinks by turns, 1 an open or a close by turns, and 1 an ask about a
    /// run that is not open.
    fn record(&mut self) -> Call {
        match self.random.below(16) {
            0..=7 => self.ask(),
            8..=13 if self.pairs.count() > LINKS_PER_PLACE * self.runs.len() => {
                let pair = self.pairs.take(&mut self.random);
                let (a, b) = self.named(pair);
                Call::Unlink(a, b)
            }
            8..=13 => self.link(),
            14 => self.open_or_close(),
            _ => {
                let unknown = self.new_run();
                Call::Ask(self.runs[self.random.below(self.loose)], unknown)
            }
        }
    }

    fn open_or_close(&mut self) -> Call {
        if let Some(place) = self.closed.take() {
            self.runs[place] = self.new_run();
            return Call::Open(self.runs[place]);
        }
        let place = self.loose + self.random.below(self.runs.len() - self.loose);
        self.closed = Some(place);
        Call::Close(self.runs[place])
    }
}
