//! Turning: the turning over of lists that a link begins when it makes a list too long.

use std::collections::HashMap;

use crate::table::{Held, List};

/// What turning did. Nothing of it stands in the table until the link is accepted.
#[derive(Debug, Default)]
pub struct Turning {
    /// The new list of every place whose list was touched.
    pub lists: HashMap<usize, List>,
    /// Standing links, the new one included: the most lists that may be turned.
    pub links: u64,
    /// No place was left waiting.
    pub settled: bool,
    /// Lists turned.
    pub turned: u64,
    pub reversals: u64,
    /// The longest list that was turned; while it waits, a list may grow past D + 1.
    pub longest: usize,
    /// The most places that waited at once.
    pub waiting: usize,
}

/// A trial on copies of the lists it touches, so that a link that is too dense leaves no trace.
struct Trial<'a> {
    before: &'a [List],
    limit: usize,
    waiting: Vec<usize>,
    result: Turning,
}

/// Puts `new` at the front of `first`'s list, and turns lists until none is over `limit` or as
/// many as `links` have been turned. `links` counts the new one.
pub fn turn(before: &[List], first: usize, new: Held, links: usize, limit: usize) -> Turning {
    let result = Turning { links: links as u64, ..Turning::default() };
    let mut trial = Trial { before, limit, waiting: Vec::new(), result };
    trial.receive(first, new);
    while trial.result.turned < trial.result.links {
        match trial.waiting.pop() {
            Some(place) => trial.turn_list(place),
            None => break,
        }
    }
    trial.result.settled = trial.waiting.is_empty();
    trial.result
}

impl Trial<'_> {
    fn list(&mut self, place: usize) -> &mut List {
        let before = self.before;
        self.result.lists.entry(place).or_insert_with(|| before[place].clone())
    }

    /// A cell comes to the front of a list; the place waits from the moment its list is D + 1.
    fn receive(&mut self, place: usize, held: Held) {
        let list = self.list(place);
        list.push_front(held);
        if list.len() == self.limit + 1 {
            self.waiting.push(place);
            self.result.waiting = self.result.waiting.max(self.waiting.len());
        }
    }

    /// Turns one whole list over to the other ends, front to back.
    fn turn_list(&mut self, place: usize) {
        let former = std::mem::take(self.list(place));
        self.result.turned += 1;
        self.result.longest = self.result.longest.max(former.len());
        for held in former {
            self.receive(held.target, Held { cell: held.cell, target: place });
            self.result.reversals += 1;
        }
    }
}
