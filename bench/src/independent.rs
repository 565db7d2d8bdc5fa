//! The second program, which judges a table into maps, works there and writes the whole table out again.

use second::call::Call as Named;
use second::caller::Caller;
use second::run::Run as SecondRun;
use wormstrand::{Run, Sizes};

use crate::call::{Answer, Call, RECORD_BYTES};
use crate::contender::Contender;

#[derive(Clone)]
pub struct Independent {
    caller: Caller,
}

impl Independent {
    pub fn new(sizes: Sizes) -> Independent {
        let words = sizes.store_words().expect("n and C are within their limits");
        let mut caller = Caller::default();
        caller.sizes.n = sizes.n as u64;
        caller.sizes.c = sizes.c as u64;
        caller.sizes.d = sizes.d as u64;
        caller.lent.store = vec![0; words];
        caller.lent.spare = vec![0; words];
        caller.lent.waiting = vec![0; sizes.n];
        caller.call(&Named::Empty);
        Independent { caller }
    }
}

fn run(run: Run) -> SecondRun {
    SecondRun::new(run.line, run.trip)
}

impl Contender for Independent {
    fn name(&self) -> &'static str {
        "second"
    }

    fn carry(&mut self, call: Call) -> Answer {
        let outcome = self.caller.call(&match call {
            Call::Open(a) => Named::Open(run(a)),
            Call::Close(a) => Named::Close(run(a)),
            Call::Link(a, b) => Named::Link(run(a), run(b)),
            Call::Unlink(a, b) => Named::Unlink(run(a), run(b)),
            Call::Ask(a, b) => Named::Ask(run(a), run(b)),
        });
        Answer { refusal: outcome.refusal, number: outcome.number as u32 }
    }

    fn lend(&mut self, bytes: &[u8]) {
        self.caller.lent.bytes = bytes.to_vec();
        self.caller.lent.answers = vec![0; 2 * (bytes.len() / RECORD_BYTES)];
    }

    fn stream(&mut self) -> usize {
        self.caller.call(&Named::Stream).number as usize
    }

    fn answers(&self) -> &[u32] {
        &self.caller.lent.answers
    }

    fn words(&self) -> Option<&[u32]> {
        Some(&self.caller.lent.store)
    }
}
