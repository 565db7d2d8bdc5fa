//! The same procedure on the same table of words in ordinary Rust, with nothing proved: a judge of the library's kind before each
//! single call, and once before a stream.

mod judge;
mod sections;
mod store;
mod turning;

use wormstrand::Sizes;

use crate::call::{Answer, Call};
use crate::contender::{Contender, Day};
use store::Store;

#[derive(Clone)]
pub struct Plain {
    store: Store,
    day: Day,
}

impl Plain {
    pub fn new(sizes: Sizes) -> Plain {
        Plain { store: Store::new(sizes), day: Day::default() }
    }

    /// The judge alone.
    pub fn judge(&self) -> bool {
        self.store.sound()
    }
}

/// The call on a table that is known to be sound.
fn carry_sound(store: &mut Store, call: Call) -> Answer {
    Answer::from(match call {
        Call::Open(run) => store.open(run),
        Call::Close(run) => store.close(run),
        Call::Link(a, b) => store.link(a, b),
        Call::Unlink(a, b) => store.unlink(a, b),
        Call::Ask(a, b) => store.ask(a, b),
    })
}

impl Contender for Plain {
    fn name(&self) -> &'static str {
        "plain Rust"
    }

    fn carry(&mut self, call: Call) -> Answer {
        if !self.store.sound() {
            return Answer { refusal: 2, number: 0 };
        }
        carry_sound(&mut self.store, call)
    }

    fn lend(&mut self, bytes: &[u8]) {
        self.day = Day::new(bytes);
    }

    fn stream(&mut self) -> usize {
        let Plain { store, day, .. } = self;
        if !store.sound() {
            return 0;
        }
        day.carry_out(|call| carry_sound(store, call))
    }

    fn answers(&self) -> &[u32] {
        self.day.answers()
    }

    fn words(&self) -> Option<&[u32]> {
        Some(&self.store.words)
    }
}
