//! The calls on a table of words, as document 01 has them.

use wormstrand::{Run, Sizes};

use super::judge;
use super::sections::{Sections, NONE};
use super::turning;

#[derive(Clone)]
pub struct Store {
    pub at: Sections,
    pub d: usize,
    pub words: Vec<u32>,
    spare: Vec<u32>,
    waiting: Vec<u32>,
}

impl Store {
    pub fn new(sizes: Sizes) -> Store {
        let at = Sections { n: sizes.n, c: sizes.c };
        let spare = vec![0; at.words()];
        Store { at, d: sizes.d, words: empty(at), spare, waiting: vec![0; sizes.n] }
    }

    pub fn sound(&self) -> bool {
        judge::sound(&self.words, self.at, self.d)
    }

    pub fn open(&mut self, run: Run) -> Result<u32, u32> {
        named(run)?;
        if self.find(run).is_some() {
            return Err(6);
        }
        let place = self.words[..self.at.n].iter().position(|&line| line == 0).ok_or(8_u32)?;
        self.rename(place, run);
        Ok(place as u32)
    }

    pub fn close(&mut self, run: Run) -> Result<u32, u32> {
        named(run)?;
        let place = self.find(run).ok_or(5_u32)?;
        let targets = &self.words[self.at.target(0)..self.at.next(0)];
        if self.words[self.at.length(place)] != 0 || targets.contains(&(place as u32)) {
            return Err(10);
        }
        self.rename(place, Run { line: 0, trip: 0 });
        Ok(0)
    }

    pub fn ask(&self, a: Run, b: Run) -> Result<u32, u32> {
        let (u, v) = self.both(a, b)?;
        Ok(u32::from(self.hook_of(u, v).is_some()))
    }

    pub fn unlink(&mut self, a: Run, b: Run) -> Result<u32, u32> {
        let (u, v) = self.both(a, b)?;
        let (list, hook) = self.hook_of(u, v).ok_or(7_u32)?;
        turning::shift(&mut self.words, self.at, (list, hook), self.at.n, NONE);
        Ok(0)
    }

    pub fn link(&mut self, a: Run, b: Run) -> Result<u32, u32> {
        let (u, v) = self.both(a, b)?;
        if self.hook_of(u, v).is_some() {
            return Err(6);
        }
        if self.words[self.at.length(self.at.n)] == 0 {
            return Err(8);
        }
        let full = self.words[self.at.length(u)] as usize == self.d;
        if full {
            self.spare.copy_from_slice(&self.words);
        }
        let free = (self.at.n, self.at.head(self.at.n));
        turning::shift(&mut self.words, self.at, free, u, v as u32);
        if full {
            return self.settle(u);
        }
        Ok(0)
    }

    /// Turns lists over with u alone waiting; too dense, and the store is put back.
    fn settle(&mut self, u: usize) -> Result<u32, u32> {
        let settled = turning::turn(&mut self.words, &mut self.waiting, self.at, self.d, u);
        self.waiting.fill(0);
        if settled.is_none() {
            self.words.copy_from_slice(&self.spare);
        }
        settled.ok_or(9)
    }

    /// The places of two runs, or refusal 3, 4 or 5.
    fn both(&self, a: Run, b: Run) -> Result<(usize, usize), u32> {
        named(a)?;
        named(b)?;
        if a == b {
            return Err(4);
        }
        Ok((self.find(a).ok_or(5_u32)?, self.find(b).ok_or(5_u32)?))
    }

    /// The walk over the places.
    fn find(&self, run: Run) -> Option<usize> {
        let (lines, rest) = self.words.split_at(self.at.n);
        let mut places = lines.iter().zip(&rest[..self.at.n]);
        places.position(|(&line, &number)| line == run.line && number == run.trip)
    }

    /// The list that has the link of two places, and the position of the word that names its cell.
    fn hook_of(&self, u: usize, v: usize) -> Option<(usize, usize)> {
        let in_first = self.seek(u, v).map(|hook| (u, hook));
        in_first.or_else(|| self.seek(v, u).map(|hook| (v, hook)))
    }

    fn seek(&self, list: usize, target: usize) -> Option<usize> {
        let mut hook = self.at.head(list);
        while self.words[hook] != NONE {
            let cell = self.words[hook] as usize;
            if self.words[self.at.target(cell)] as usize == target {
                return Some(hook);
            }
            hook = self.at.next(cell);
        }
        None
    }

    fn rename(&mut self, place: usize, run: Run) {
        self.words[place] = run.line;
        self.words[self.at.number(place)] = run.trip;
    }
}

/// Refusal 3.
fn named(run: Run) -> Result<(), u32> {
    match run.line {
        1..=65535 => Ok(()),
        _ => Err(3),
    }
}

fn empty(at: Sections) -> Vec<u32> {
    let mut words = vec![0; at.words()];
    words[at.head(0)..at.head(at.n)].fill(NONE);
    words[at.length(at.n)] = at.c as u32;
    words[at.owner(0)..at.target(0)].fill(at.n as u32);
    words[at.target(0)..at.next(0)].fill(NONE);
    let nexts = &mut words[at.next(0)..];
    nexts.iter_mut().zip(1..).for_each(|(next, after)| *next = after);
    nexts[at.c - 1] = NONE;
    words
}
