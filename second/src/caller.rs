//! Caller: the sizes and tables lent to a call, and the calls on them, refusals 1 and 2 included.

use crate::call::Call;
use crate::layout::Layout;
use crate::refusal::{Answer, Outcome, Refusal};
use crate::run::Run;
use crate::sizes::{Sizes, ANSWER_WORDS, RECORD_BYTES, STREAM_BYTES_MAX, TOTAL_MAX};
use crate::soundness;
use crate::stream;
use crate::table::Table;
use crate::tally::Tally;

/// The running totals that streams bring forward.
#[derive(Clone, Copy, Debug, Default, PartialEq, Eq)]
pub struct Totals {
    /// Accepted links.
    pub links: u64,
    /// Reversals of accepted links.
    pub reversals: u64,
}

/// Everything lent to a call. Tables may have any length and any words.
#[derive(Clone, Debug, Default, PartialEq, Eq)]
pub struct Lent {
    pub store: Vec<u32>,
    pub spare: Vec<u32>,
    pub waiting: Vec<u32>,
    pub answers: Vec<u32>,
    pub bytes: Vec<u8>,
    pub totals: Totals,
}

/// One who calls: the sizes handed in, the tables lent, and a count of what came up.
#[derive(Clone, Debug, Default)]
pub struct Caller {
    pub sizes: Sizes,
    pub lent: Lent,
    pub tally: Tally,
}

/// The judged sizes of a call.
#[derive(Clone, Copy)]
struct Frame {
    layout: Layout,
    limit: usize,
}

impl Caller {
    /// Does a call on the lent tables.
    pub fn call(&mut self, call: &Call) -> Outcome {
        let outcome = match call {
            Call::Empty => self.empty().into(),
            Call::Open(run) => self.change(|table| table.open(*run)).into(),
            Call::Close(run) => self.change(|table| table.close(*run)).into(),
            Call::Unlink(a, b) => self.change(|table| table.unlink(*a, *b)).into(),
            Call::Ask(a, b) => self.table().and_then(|table| table.ask(*a, *b)).into(),
            Call::Reading(set) => self.table().and_then(|table| table.reading(set)).into(),
            Call::Link(a, b) => self.link(*a, *b).into(),
            Call::Stream => self.stream(),
        };
        self.tally.call(call.name(), outcome);
        outcome
    }

    /// Empty asks neither for D nor for a sound store.
    fn empty(&mut self) -> Answer {
        let layout = self.sizes.layout()?;
        exactly(self.lent.store.len(), layout.store_words())?;
        self.lent.store = Table::empty(layout).words();
        Ok(0)
    }

    /// A call that takes the store alone and may change it.
    fn change(&mut self, act: impl FnOnce(&mut Table) -> Answer) -> Answer {
        let mut table = self.table()?;
        let number = act(&mut table)?;
        self.lent.store = table.words();
        Ok(number)
    }

    fn link(&mut self, a: Run, b: Run) -> Answer {
        let frame = self.frame()?;
        self.judge_working_tables(frame.layout)?;
        let mut table = self.sound(frame)?;
        let linked = table.link(a, b, frame.limit);
        self.tally.link(&linked);
        let number = stream::after_link(&mut self.lent, linked)?;
        self.lent.store = table.words();
        Ok(number)
    }

    fn stream(&mut self) -> Outcome {
        match self.judge_stream() {
            Err(refusal) => Outcome::stopped(refusal, 0),
            Ok((mut table, limit)) => {
                let outcome = stream::carry_out(&mut table, limit, &mut self.lent, &mut self.tally);
                self.lent.store = table.words();
                outcome
            }
        }
    }

    /// Refusals 1 and 2 of a stream.
    fn judge_stream(&mut self) -> Result<(Table, usize), Refusal> {
        let frame = self.frame()?;
        self.judge_working_tables(frame.layout)?;
        let lent = &self.lent;
        let too_long = lent.bytes.len() > STREAM_BYTES_MAX;
        let too_few_answers = lent.answers.len() < ANSWER_WORDS * (lent.bytes.len() / RECORD_BYTES);
        let total_too_large = lent.totals.links > TOTAL_MAX || lent.totals.reversals > TOTAL_MAX;
        if too_long || too_few_answers || total_too_large {
            return Err(Refusal::Sizes);
        }
        Ok((self.sound(frame)?, frame.limit))
    }

    /// The judged store, for a call that takes the store alone.
    fn table(&mut self) -> Result<Table, Refusal> {
        let frame = self.frame()?;
        self.sound(frame)
    }

    /// Refusal 1 as far as sizes and the store's length go.
    fn frame(&self) -> Result<Frame, Refusal> {
        let layout = self.sizes.layout()?;
        let limit = self.sizes.limit()?;
        exactly(self.lent.store.len(), layout.store_words())?;
        Ok(Frame { layout, limit })
    }

    /// Refusal 1 for the two tables that only link and stream take.
    fn judge_working_tables(&self, layout: Layout) -> Result<(), Refusal> {
        exactly(self.lent.spare.len(), layout.store_words())?;
        exactly(self.lent.waiting.len(), layout.places())
    }

    /// Refusal 2, with its way counted.
    fn sound(&mut self, frame: Frame) -> Result<Table, Refusal> {
        soundness::judge(&self.lent.store, frame.layout, frame.limit).map_err(|fault| {
            self.tally.fault(fault);
            Refusal::Unsound
        })
    }
}

/// Refusal 1 for a table of another length.
fn exactly(length: usize, due: usize) -> Result<(), Refusal> {
    if length == due {
        Ok(())
    } else {
        Err(Refusal::Sizes)
    }
}
