//! What each way to keep runs and links can do, so that all of them are given the same work.

use crate::call::{Answer, Call};

pub trait Contender: Clone {
    fn name(&self) -> &'static str;

    /// Does a single call.
    fn carry(&mut self, call: Call) -> Answer;

    /// Takes a day in, with room for its answers. Not a part of any time.
    fn lend(&mut self, bytes: &[u8]);

    /// Carries out the day that was taken in, and says how many records that were.
    fn stream(&mut self) -> usize;

    /// Two words for each record carried out.
    fn answers(&self) -> &[u32];

    /// The words of the store, where it has any.
    fn words(&self) -> Option<&[u32]>;
}

/// The day that was taken in, with the answers so far, for those who carry it out call by call.
#[derive(Clone, Default)]
pub struct Day {
    bytes: Vec<u8>,
    answers: Vec<u32>,
}

impl Day {
    pub fn new(bytes: &[u8]) -> Day {
        let records = bytes.len() / crate::call::RECORD_BYTES;
        Day { bytes: bytes.to_vec(), answers: vec![0; 2 * records] }
    }

    pub fn answers(&self) -> &[u32] {
        &self.answers
    }

    /// Carries the records out in order, to the end or to the one that stops it.
    pub fn carry_out(&mut self, mut carry: impl FnMut(Call) -> Answer) -> usize {
        let mut carried = 0;
        let mut rest = &self.bytes[..];
        while let Ok(call) = Call::read(rest) {
            let answer = carry(call);
            self.answers[2 * carried] = answer.refusal;
            self.answers[2 * carried + 1] = answer.number;
            carried += 1;
            rest = &rest[crate::call::RECORD_BYTES..];
        }
        carried
    }
}
