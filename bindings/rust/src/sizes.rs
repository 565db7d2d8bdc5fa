//! The sizes of a store, and a run's name.

/// The sizes of a store. They go with every call and are judged by it.
#[derive(Clone, Copy, Debug, PartialEq, Eq)]
pub struct Sizes {
    /// Places for runs, 1 to 4,096.
    pub n: usize,
    /// Cells for links, 1 to 16,384.
    pub c: usize,
    /// The list limit, 2 to 64.
    pub d: usize,
}

impl Sizes {
    /// The most places.
    pub const PLACES_MOST: usize = 4096;
    /// The most cells.
    pub const CELLS_MOST: usize = 16384;

    /// The words of a store, and of its spare: 4n + 2 + 3C. Nothing where n or C is above its most.
    pub fn store_words(self) -> Option<usize> {
        if self.n > Sizes::PLACES_MOST || self.c > Sizes::CELLS_MOST {
            return None;
        }
        Some(4 * self.n + 2 + 3 * self.c)
    }
}

/// A run is its line and its trip number together.
#[derive(Clone, Copy, Debug, PartialEq, Eq, Hash)]
pub struct Run {
    /// 1 to 65,535; another line is refused.
    pub line: u32,
    /// Any number, 0 too.
    pub trip: u32,
}
