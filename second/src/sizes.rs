//! Sizes: every limit of document 01, standing once, and the judging of n, C and D against them.

use crate::layout::Layout;
use crate::refusal::Refusal;

/// Fewest and most places for runs, n.
pub const PLACES_MIN: u64 = 1;
pub const PLACES_MAX: u64 = 4_096;

/// Fewest and most cells for links, C.
pub const CELLS_MIN: u64 = 1;
pub const CELLS_MAX: u64 = 16_384;

/// Smallest and largest list limit, D.
pub const LIMIT_MIN: u64 = 2;
pub const LIMIT_MAX: u64 = 64;

/// The largest line a run may have; line 0 marks a free place.
pub const LINE_MAX: u32 = 65_535;

/// The word that stands for "no cell" and "no place".
pub const NONE: u32 = u32::MAX;

/// Bytes of one day record, and the most records one stream may have.
pub const RECORD_BYTES: usize = 15;
pub const RECORDS_MAX: usize = 65_535;

/// The longest stream.
pub const STREAM_BYTES_MAX: usize = RECORD_BYTES * RECORDS_MAX;

/// Words of the answer table that one record fills.
pub const ANSWER_WORDS: usize = 2;

/// The largest running total a stream may be handed.
pub const TOTAL_MAX: u64 = 1 << 62;

/// The sizes of a day's run, and the longest day it takes.
pub const DAY_SIZES: Sizes = Sizes { n: 256, c: 1_024, d: 4 };
pub const DAY_BYTES_MAX: usize = 12_000;

/// n, C and D as they are handed in: any numbers at all.
#[derive(Clone, Copy, Debug, Default, PartialEq, Eq)]
pub struct Sizes {
    pub n: u64,
    pub c: u64,
    pub d: u64,
}

impl Sizes {
    /// Judges n and C, the two sizes a store's length follows from.
    pub fn layout(self) -> Result<Layout, Refusal> {
        let places = within(self.n, PLACES_MIN, PLACES_MAX)?;
        let cells = within(self.c, CELLS_MIN, CELLS_MAX)?;
        Ok(Layout::new(places, cells))
    }

    /// Judges D.
    pub fn limit(self) -> Result<usize, Refusal> {
        within(self.d, LIMIT_MIN, LIMIT_MAX)
    }
}

/// The number as an index type, or refusal 1 outside its range.
fn within(number: u64, least: u64, most: u64) -> Result<usize, Refusal> {
    if number < least || number > most {
        return Err(Refusal::Sizes);
    }
    usize::try_from(number).map_err(|_| Refusal::Sizes)
}
