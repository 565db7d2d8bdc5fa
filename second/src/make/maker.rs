//! Maker: a script in the making, with the tables as they are after each of its lines.

use std::fmt::Write;

use super::random::Random;
use super::sound;
use crate::call::Call;
use crate::caller::{Caller, Lent};
use crate::layout::Layout;
use crate::refusal::Outcome;
use crate::script::{Command, TableName};
use crate::sizes::Sizes;
use crate::soundness;
use crate::table::Table;

/// Up to this many words, garbage differs from word to word; above, it is one word many times.
const MIXED_GARBAGE_MAX: usize = 64;

/// The sound store an episode begins with, and goes back to when its store is spoilt.
#[derive(Clone, Copy, Debug, PartialEq, Eq)]
pub enum Ground {
    /// Any sound store, an emptied one among them.
    Any,
    /// A run at every place, with few links or many.
    AllOpen,
}

pub struct Maker {
    pub random: Random,
    caller: Caller,
    ground: Ground,
    text: String,
    calls_left: u64,
}

impl Maker {
    pub fn new(seed: u64, count: u64) -> Maker {
        Maker {
            random: Random::new(seed),
            caller: Caller::default(),
            ground: Ground::Any,
            text: String::new(),
            calls_left: count,
        }
    }

    /// The script has all its calls.
    pub fn full(&self) -> bool {
        self.calls_left == 0
    }

    pub fn take_text(&mut self) -> String {
        std::mem::take(&mut self.text)
    }

    /// Adds a line and does it. Once the script has all its calls nothing is added any more.
    pub fn say(&mut self, command: Command) -> Option<Outcome> {
        if self.full() {
            return None;
        }
        writeln!(self.text, "{}", command).expect("writing to a string does not fail");
        if let Command::Call(_) = command {
            self.calls_left -= 1;
        }
        command.obey(&mut self.caller)
    }

    pub fn call(&mut self, call: Call) -> Option<Outcome> {
        self.say(Command::Call(call))
    }

    pub fn sizes(&self) -> Sizes {
        self.caller.sizes
    }

    pub fn lent(&self) -> &Lent {
        &self.caller.lent
    }

    /// The store as a structure, if it is sound for the sizes handed in.
    pub fn table(&self) -> Option<Table> {
        let layout = self.sizes().layout().ok()?;
        let limit = self.sizes().limit().ok()?;
        if self.caller.lent.store.len() != layout.store_words() {
            return None;
        }
        soundness::judge(&self.caller.lent.store, layout, limit).ok()
    }

    /// Sets sizes, and tables of the lengths they ask for; only the store has sense in it.
    pub fn begin(&mut self, sizes: Sizes, ground: Ground) {
        self.say(Command::Sizes(sizes));
        self.ground = ground;
        self.lay_ground();
        let layout = sizes.layout().expect("an episode begins with sizes within their limits");
        self.lay_working_tables(layout);
    }

    /// Writes a sound store: an emptied one, or one that no history need have led to.
    pub fn lay_ground(&mut self) {
        // A full script takes no line any more, so its sizes may be what a trouble left.
        if self.full() {
            return;
        }
        let layout = self.sizes().layout().expect("ground is laid for sizes within their limits");
        let limit = self.sizes().limit().expect("ground is laid for sizes within their limits");
        let emptied = self.ground == Ground::Any && self.random.chance(25);
        let words = match self.ground {
            _ if emptied => garbage(&mut self.random, layout.store_words()),
            Ground::Any => sound::table(&mut self.random, layout, limit).words(),
            Ground::AllOpen => sound::all_open(&mut self.random, layout, limit).words(),
        };
        self.say(Command::Table(TableName::Store, words));
        if emptied {
            self.call(Call::Empty);
        }
    }

    fn lay_working_tables(&mut self, layout: Layout) {
        let spare = garbage(&mut self.random, layout.store_words());
        self.say(Command::Table(TableName::Spare, spare));
        let waiting = garbage(&mut self.random, layout.places());
        self.say(Command::Table(TableName::Waiting, waiting));
    }
}

/// Words without sense, small and large.
pub fn garbage(random: &mut Random, length: usize) -> Vec<u32> {
    if length > MIXED_GARBAGE_MAX {
        return vec![random.word(); length];
    }
    (0..length)
        .map(|_| if random.chance(50) { random.word() } else { random.below(9) as u32 })
        .collect()
}
