//! Acts: what each call does to a judged table, with the refusals that concern runs and links.

use std::collections::BTreeSet;

use crate::refusal::{Answer, Refusal};
use crate::run::Run;
use crate::table::{Held, Table};
use crate::turning::{turn, Turning};

/// What a link did: its answer and, if turning began, what that did.
#[derive(Debug)]
pub struct Linked {
    pub answer: Answer,
    pub turned: Option<Turned>,
}

/// A turning, with the store's words as they were when the link came in.
#[derive(Debug)]
pub struct Turned {
    pub entry: Vec<u32>,
    pub turning: Turning,
}

impl Table {
    pub fn open(&mut self, run: Run) -> Answer {
        run.judge()?;
        if self.place_of.contains_key(&run) {
            return Err(Refusal::Already);
        }
        let place = *self.vacant.iter().next().ok_or(Refusal::NoRoom)?;
        self.vacant.remove(&place);
        self.place_of.insert(run, place);
        self.runs[place] = Some(run);
        Ok(place as u64)
    }

    pub fn close(&mut self, run: Run) -> Answer {
        run.judge()?;
        let place = self.place(run)?;
        if !self.related[place].is_empty() {
            return Err(Refusal::StillLinked);
        }
        self.place_of.remove(&run);
        self.vacant.insert(place);
        self.runs[place] = None;
        Ok(0)
    }

    pub fn ask(&self, a: Run, b: Run) -> Answer {
        let (a, b) = self.two_places(a, b)?;
        Ok(u64::from(self.related[a].contains(&b)))
    }

    pub fn unlink(&mut self, a: Run, b: Run) -> Answer {
        let (a, b) = self.two_places(a, b)?;
        if !self.related[a].contains(&b) {
            return Err(Refusal::NoSuchLink);
        }
        self.related[a].remove(&b);
        self.related[b].remove(&a);
        let cell = self
            .take_cell(a, b)
            .or_else(|| self.take_cell(b, a))
            .expect("a related pair has its cell in one of the two lists");
        self.free.push_front(cell);
        Ok(0)
    }

    /// Takes the cell that targets `target` out of the list of `place`, if that list has it.
    fn take_cell(&mut self, place: usize, target: usize) -> Option<usize> {
        let position = self.lists[place].iter().position(|held| held.target == target)?;
        self.lists[place].remove(position).map(|held| held.cell)
    }

    pub fn link(&mut self, a: Run, b: Run, limit: usize) -> Linked {
        match self.new_cell(a, b) {
            Err(refusal) => Linked { answer: Err(refusal), turned: None },
            Ok((place, new)) if self.lists[place].len() < limit => {
                self.lists[place].push_front(new);
                self.stand(place, new.target);
                Linked { answer: Ok(0), turned: None }
            }
            Ok((place, new)) => self.link_turning(place, new, limit),
        }
    }

    /// Where a link would put its cell, once every refusal but 9 has been ruled out.
    fn new_cell(&self, a: Run, b: Run) -> Result<(usize, Held), Refusal> {
        let (a, b) = self.two_places(a, b)?;
        if self.related[a].contains(&b) {
            return Err(Refusal::Already);
        }
        let cell = *self.free.front().ok_or(Refusal::NoRoom)?;
        Ok((a, Held { cell, target: b }))
    }

    fn link_turning(&mut self, place: usize, new: Held, limit: usize) -> Linked {
        let entry = self.words();
        let mut turning = turn(&self.lists, place, new, self.links() + 1, limit);
        let answer = if turning.settled {
            for (place, list) in turning.lists.drain() {
                self.lists[place] = list;
            }
            self.stand(place, new.target);
            Ok(turning.reversals)
        } else {
            Err(Refusal::TooDense)
        };
        Linked { answer, turned: Some(Turned { entry, turning }) }
    }

    /// The link now stands: its cell, the first free one, is no longer free.
    fn stand(&mut self, a: usize, b: usize) {
        self.free.pop_front();
        self.related[a].insert(b);
        self.related[b].insert(a);
    }

    /// Refusal 14 comes before 5 here.
    pub fn reading(&self, set: &[u32]) -> Answer {
        if set.len() < 2 || set.windows(2).any(|pair| pair[0] >= pair[1]) {
            return Err(Refusal::Set);
        }
        let places: BTreeSet<usize> = set.iter().map(|&place| place as usize).collect();
        let open = |place: &usize| matches!(self.runs.get(*place), Some(Some(_)));
        if !places.iter().all(open) {
            return Err(Refusal::NotOpen);
        }
        // Each link inside the set is met from both of its ends.
        let ends: usize =
            places.iter().map(|&p| self.related[p].intersection(&places).count()).sum();
        Ok((ends / 2 / (places.len() - 1)) as u64)
    }

    /// The place of an open run, or refusal 5.
    fn place(&self, run: Run) -> Result<usize, Refusal> {
        self.place_of.get(&run).copied().ok_or(Refusal::NotOpen)
    }

    /// The places of two runs, after refusals 3, 4 and 5 in this order for both names together.
    fn two_places(&self, a: Run, b: Run) -> Result<(usize, usize), Refusal> {
        a.judge()?;
        b.judge()?;
        if a == b {
            return Err(Refusal::SameRun);
        }
        Ok((self.place(a)?, self.place(b)?))
    }
}
