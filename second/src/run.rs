//! Run: a train run, which is its line and its trip number together.

use crate::refusal::Refusal;
use crate::sizes::LINE_MAX;

#[derive(Clone, Copy, Debug, Default, PartialEq, Eq, PartialOrd, Ord, Hash)]
pub struct Run {
    pub line: u32,
    pub trip: u32,
}

impl Run {
    pub fn new(line: u32, trip: u32) -> Run {
        Run { line, trip }
    }

    /// Refusal 3. Every trip number is ordinary, 0 included.
    pub fn judge(self) -> Result<(), Refusal> {
        if self.line == 0 || self.line > LINE_MAX {
            return Err(Refusal::Line);
        }
        Ok(())
    }
}
