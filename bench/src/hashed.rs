//! What people would use instead: a hash set of pairs with a hash map of runs. It has no places, no cells and no limit, so it
//! refuses neither with 8 nor with 9, and it has nothing to judge.

use std::collections::{HashMap, HashSet};

use wormstrand::Run;

use crate::call::{Answer, Call};
use crate::contender::{Contender, Day};

type Name = (u32, u32);

#[derive(Clone, Default)]
pub struct Hashed {
    /// Each open run with the number of its links.
    runs: HashMap<Name, u32>,
    /// Each link once, the lower name first.
    links: HashSet<(Name, Name)>,
    day: Day,
}

/// Refusal 3.
fn named(run: Run) -> Result<Name, u32> {
    match run.line {
        1..=65535 => Ok((run.line, run.trip)),
        _ => Err(3),
    }
}

impl Hashed {
    pub fn new() -> Hashed {
        Hashed::default()
    }

    /// The pair of two open runs, or refusal 3, 4 or 5.
    fn pair(&self, a: Run, b: Run) -> Result<(Name, Name), u32> {
        let (a, b) = (named(a)?, named(b)?);
        if a == b {
            return Err(4);
        }
        if !self.runs.contains_key(&a) || !self.runs.contains_key(&b) {
            return Err(5);
        }
        Ok((a.min(b), a.max(b)))
    }

    fn count(&mut self, (a, b): (Name, Name), change: impl Fn(u32) -> u32) {
        for name in [a, b] {
            self.runs.entry(name).and_modify(|links| *links = change(*links));
        }
    }

    fn open(&mut self, run: Run) -> Result<u32, u32> {
        let name = named(run)?;
        if self.runs.contains_key(&name) {
            return Err(6);
        }
        self.runs.insert(name, 0);
        Ok(0)
    }

    fn close(&mut self, run: Run) -> Result<u32, u32> {
        let name = named(run)?;
        if *self.runs.get(&name).ok_or(5_u32)? != 0 {
            return Err(10);
        }
        self.runs.remove(&name);
        Ok(0)
    }

    fn link(&mut self, a: Run, b: Run) -> Result<u32, u32> {
        let pair = self.pair(a, b)?;
        if !self.links.insert(pair) {
            return Err(6);
        }
        self.count(pair, |links| links + 1);
        Ok(0)
    }

    fn unlink(&mut self, a: Run, b: Run) -> Result<u32, u32> {
        let pair = self.pair(a, b)?;
        if !self.links.remove(&pair) {
            return Err(7);
        }
        self.count(pair, |links| links - 1);
        Ok(0)
    }

    fn ask(&self, a: Run, b: Run) -> Result<u32, u32> {
        Ok(u32::from(self.links.contains(&self.pair(a, b)?)))
    }
}

impl Contender for Hashed {
    fn name(&self) -> &'static str {
        "hash set"
    }

    fn carry(&mut self, call: Call) -> Answer {
        Answer::from(match call {
            Call::Open(run) => self.open(run),
            Call::Close(run) => self.close(run),
            Call::Link(a, b) => self.link(a, b),
            Call::Unlink(a, b) => self.unlink(a, b),
            Call::Ask(a, b) => self.ask(a, b),
        })
    }

    fn lend(&mut self, bytes: &[u8]) {
        self.day = Day::new(bytes);
    }

    fn stream(&mut self) -> usize {
        let mut day = std::mem::take(&mut self.day);
        let carried = day.carry_out(|call| self.carry(call));
        self.day = day;
        carried
    }

    fn answers(&self) -> &[u32] {
        self.day.answers()
    }

    fn words(&self) -> Option<&[u32]> {
        None
    }
}
