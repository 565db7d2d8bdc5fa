//! The proved library, through its Rust crate: each single call judges the table, a stream judges it once.

use wormstrand::{calls, Outcome, Sizes, Totals};

use crate::call::{Answer, Call, RECORD_BYTES};
use crate::contender::Contender;

#[derive(Clone)]
pub struct Library {
    sizes: Sizes,
    store: Vec<u32>,
    spare: Vec<u32>,
    waiting: Vec<u32>,
    bytes: Vec<u8>,
    answers: Vec<u32>,
    totals: Totals,
}

impl Library {
    pub fn new(sizes: Sizes) -> Library {
        let words = sizes.store_words().expect("n and C are within their limits");
        let mut store = vec![0; words];
        calls::empty(sizes, &mut store).number().expect("the table has the right length");
        Library::of(sizes, store)
    }

    /// A store of given words.
    pub fn of(sizes: Sizes, store: Vec<u32>) -> Library {
        Library {
            sizes,
            spare: vec![0; store.len()],
            waiting: vec![0; sizes.n],
            store,
            bytes: Vec::new(),
            answers: Vec::new(),
            totals: Totals::default(),
        }
    }

    /// The judge alone: a set of no places is refused with 14 once the store is found sound.
    pub fn judge(&self) -> bool {
        answer(calls::reading(self.sizes, &self.store, &[])).refusal == 14
    }
}

fn answer(outcome: Outcome) -> Answer {
    Answer::from(outcome.number().map_err(|refusal| refusal.number()))
}

impl Contender for Library {
    fn name(&self) -> &'static str {
        "library"
    }

    fn carry(&mut self, call: Call) -> Answer {
        let Library { sizes, store, spare, waiting, .. } = self;
        answer(match call {
            Call::Open(run) => calls::open(*sizes, store, run),
            Call::Close(run) => calls::close(*sizes, store, run),
            Call::Link(a, b) => calls::link(*sizes, store, spare, waiting, a, b),
            Call::Unlink(a, b) => calls::unlink(*sizes, store, a, b),
            Call::Ask(a, b) => calls::ask(*sizes, store, a, b),
        })
    }

    fn lend(&mut self, bytes: &[u8]) {
        self.bytes = bytes.to_vec();
        self.answers = vec![0; 2 * (bytes.len() / RECORD_BYTES)];
    }

    fn stream(&mut self) -> usize {
        let Library { sizes, store, spare, waiting, bytes, answers, totals } = self;
        calls::stream(*sizes, store, spare, waiting, bytes, answers, totals).carried as usize
    }

    fn answers(&self) -> &[u32] {
        &self.answers
    }

    fn words(&self) -> Option<&[u32]> {
        Some(&self.store)
    }
}
