//! Where the words of a store stand.

pub const NONE: u32 = u32::MAX;

#[derive(Clone, Copy)]
pub struct Sections {
    pub n: usize,
    pub c: usize,
}

impl Sections {
    #[inline]
    pub fn number(self, place: usize) -> usize {
        self.n + place
    }

    #[inline]
    pub fn head(self, list: usize) -> usize {
        2 * self.n + list
    }

    #[inline]
    pub fn length(self, list: usize) -> usize {
        3 * self.n + 1 + list
    }

    #[inline]
    pub fn owner(self, cell: usize) -> usize {
        4 * self.n + 2 + cell
    }

    #[inline]
    pub fn target(self, cell: usize) -> usize {
        4 * self.n + 2 + self.c + cell
    }

    #[inline]
    pub fn next(self, cell: usize) -> usize {
        4 * self.n + 2 + 2 * self.c + cell
    }

    pub fn words(self) -> usize {
        4 * self.n + 2 + 3 * self.c
    }
}
