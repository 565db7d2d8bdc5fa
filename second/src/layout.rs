//! Layout: where each word of a store stands, for a judged n and C.

/// The sections of a store: line, number, head, length, owner, target, next, in this order.
#[derive(Clone, Copy, Debug, PartialEq, Eq)]
pub struct Layout {
    places: usize,
    cells: usize,
}

impl Layout {
    pub(crate) fn new(places: usize, cells: usize) -> Layout {
        Layout { places, cells }
    }

    /// n, which is also the number of the list of free cells.
    pub fn places(self) -> usize {
        self.places
    }

    /// C.
    pub fn cells(self) -> usize {
        self.cells
    }

    /// Words of the whole store.
    pub fn store_words(self) -> usize {
        self.next(self.cells)
    }

    pub fn line(self, place: usize) -> usize {
        place
    }

    pub fn number(self, place: usize) -> usize {
        self.places + place
    }

    pub fn head(self, list: usize) -> usize {
        2 * self.places + list
    }

    /// Heads take n + 1 words, one more than there are places.
    pub fn length(self, list: usize) -> usize {
        3 * self.places + 1 + list
    }

    pub fn owner(self, cell: usize) -> usize {
        4 * self.places + 2 + cell
    }

    pub fn target(self, cell: usize) -> usize {
        self.owner(self.cells) + cell
    }

    pub fn next(self, cell: usize) -> usize {
        self.target(self.cells) + cell
    }
}

/// A place, cell or length as a store's word. All of them are far below 2^32 by the size limits.
pub fn word(number: usize) -> u32 {
    u32::try_from(number).expect("a place, cell or length is below 2^32")
}
