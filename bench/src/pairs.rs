//! The links that stand while work is made up, so that what is asked, added and taken away is known.

use std::collections::HashSet;

use crate::random::Random;

/// Two runs by their position among the runs of the work.
pub type Pair = (usize, usize);

pub struct Pairs {
    /// Only the first so many runs have links.
    runs: usize,
    standing: Vec<Pair>,
    known: HashSet<Pair>,
}

impl Pairs {
    pub fn new(runs: usize) -> Pairs {
        Pairs { runs, standing: Vec::new(), known: HashSet::new() }
    }

    pub fn count(&self) -> usize {
        self.standing.len()
    }

    /// A pair with no link, either way round.
    pub fn absent(&self, random: &mut Random) -> Pair {
        loop {
            let (a, b) = (random.below(self.runs), random.below(self.runs));
            if a != b && !self.known.contains(&(a.min(b), a.max(b))) {
                return (a, b);
            }
        }
    }

    /// A pair with a link, either way round.
    pub fn present(&self, random: &mut Random) -> Pair {
        turned(self.standing[random.below(self.standing.len())], random)
    }

    pub fn add(&mut self, random: &mut Random) -> Pair {
        let (a, b) = self.absent(random);
        self.standing.push((a, b));
        self.known.insert((a.min(b), a.max(b)));
        (a, b)
    }

    pub fn take(&mut self, random: &mut Random) -> Pair {
        let (a, b) = self.standing.swap_remove(random.below(self.standing.len()));
        self.known.remove(&(a.min(b), a.max(b)));
        turned((a, b), random)
    }
}

/// The pair one way round or the other.
pub fn turned((a, b): Pair, random: &mut Random) -> Pair {
    if random.coin() {
        (a, b)
    } else {
        (b, a)
    }
}
