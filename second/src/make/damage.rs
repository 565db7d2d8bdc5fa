//! Damage: changes of a few words of a sound store, each aimed at one way to be unsound.

use super::random::Random;
use crate::layout::word;
use crate::sizes::{LINE_MAX, NONE};
use crate::soundness::Fault;
use crate::table::{Held, Table};

/// Words to write: each its index in the store and its new value.
pub type Pokes = Vec<(usize, u32)>;

/// One sound store to be damaged.
struct Aim<'a> {
    random: &'a mut Random,
    table: &'a Table,
    words: &'a [u32],
    limit: usize,
}

/// Pokes that aim at a fault, if this store gives it a chance. One looked for earlier may come up.
pub fn aimed(fault: Fault, random: &mut Random, table: &Table, limit: usize) -> Option<Pokes> {
    let words = table.words();
    let mut aim = Aim { random, table, words: &words, limit };
    match fault {
        Fault::LineTooLarge => aim.line_too_large(),
        Fault::FreePlaceNumbered => aim.free_place_numbered(),
        Fault::NameTwice => aim.name_twice(),
        Fault::CellOutside => aim.cell_outside(),
        Fault::ChainTooLong => aim.chain_too_long(),
        Fault::ChainTooShort => aim.chain_too_short(),
        Fault::OtherOwner => aim.other_owner(),
        Fault::CellsMissing => aim.cells_missing(),
        Fault::ListOverLimit => aim.list_over_limit(),
        Fault::ListOfFreePlace => aim.list_of_free_place(),
        Fault::TargetOutside => aim.target_outside(),
        Fault::TargetNotOpen => aim.target_not_open(),
        Fault::TargetItself => aim.target_itself(),
        Fault::FreeCellTarget => aim.free_cell_target(),
        Fault::PairTwiceInList => aim.pair_twice_in_list(),
        Fault::PairInBothLists => aim.pair_in_both_lists(),
    }
}

/// Pokes at random, with words that may well mean something in a small store.
pub fn wild(random: &mut Random, table: &Table) -> Pokes {
    let at = table.layout();
    let span = at.places().max(at.cells()) as u64 + 3;
    (0..random.between(1, 4))
        .map(|_| {
            let small = random.below(span) as u32;
            (random.index(at.store_words()), random.pick(&[small, small, NONE, 1 << 31]))
        })
        .collect()
}

impl Aim<'_> {
    fn open_places(&self) -> Vec<usize> {
        self.places(true)
    }

    fn free_places(&self) -> Vec<usize> {
        self.places(false)
    }

    fn places(&self, open: bool) -> Vec<usize> {
        let runs = self.table.runs();
        (0..runs.len()).filter(|&place| runs[place].is_some() == open).collect()
    }

    /// Some cell in the list of a place, with that place.
    fn held(&mut self) -> Option<(usize, Held)> {
        let mut all = Vec::new();
        for (place, list) in self.table.lists().iter().enumerate() {
            all.extend(list.iter().map(|held| (place, *held)));
        }
        self.random.pick_any(&all)
    }

    /// The number of some list, the free list as likely as all others together.
    fn list(&mut self) -> usize {
        let places = self.table.layout().places();
        if self.random.chance(50) {
            places
        } else {
            self.random.index(places)
        }
    }

    fn cell(&mut self) -> usize {
        self.random.index(self.table.layout().cells())
    }

    fn line_too_large(&mut self) -> Option<Pokes> {
        let at = self.table.layout();
        let place = self.random.index(at.places());
        // One of these is the right line once cut to 16 bits.
        let cut = self.words[at.line(place)] + LINE_MAX + 1;
        Some(vec![(at.line(place), self.random.pick(&[cut, LINE_MAX + 1, NONE]))])
    }

    fn free_place_numbered(&mut self) -> Option<Pokes> {
        let place = self.random.pick_any(&self.free_places())?;
        Some(vec![(self.table.layout().number(place), self.random.pick(&[1, 100, NONE]))])
    }

    fn name_twice(&mut self) -> Option<Pokes> {
        let at = self.table.layout();
        let open = self.random.pick_any(&self.open_places())?;
        let other = (open + 1 + self.random.index(at.places())) % at.places();
        let (line, number) = (self.words[at.line(open)], self.words[at.number(open)]);
        Some(vec![(at.line(other), line), (at.number(other), number)])
    }

    fn cell_outside(&mut self) -> Option<Pokes> {
        let at = self.table.layout();
        let (list, cell) = (self.list(), self.cell());
        let index = self.random.pick(&[at.head(list), at.next(cell)]);
        let cells = word(at.cells());
        Some(vec![(index, self.random.pick(&[cells, cells + 1, 1 << 31, NONE - 1]))])
    }

    fn chain_too_long(&mut self) -> Option<Pokes> {
        let at = self.table.layout();
        let list = self.list();
        let length = self.words[at.length(list)];
        let shorter = (at.length(list), length.checked_sub(1)?);
        let loops = (at.next(self.cell()), word(self.cell()));
        // A loop under a length that no chain can have: the walk must still end.
        let endless =
            vec![loops, (at.length(list), self.random.pick(&[NONE, word(at.cells()) + 1]))];
        match self.random.below(3) {
            0 => Some(vec![shorter]),
            1 => Some(vec![loops]),
            _ => Some(endless),
        }
    }

    fn chain_too_short(&mut self) -> Option<Pokes> {
        let at = self.table.layout();
        let list = self.list();
        let longer = self.words[at.length(list)] + 1;
        match self.random.below(4) {
            0 => Some(vec![(at.next(self.cell()), NONE)]),
            1 => Some(vec![(at.head(list), NONE)]),
            2 => Some(vec![(at.length(list), NONE)]),
            _ => Some(vec![(at.length(list), longer)]),
        }
    }

    fn other_owner(&mut self) -> Option<Pokes> {
        let at = self.table.layout();
        let places = at.places();
        let owner = self.random.pick(&[0, places - 1, places, places + 1, NONE as usize]);
        Some(vec![(at.owner(self.cell()), word(owner))])
    }

    /// Takes the first cell out of a list without giving it to another.
    fn cells_missing(&mut self) -> Option<Pokes> {
        let at = self.table.layout();
        let list = self.list();
        let head = self.words[at.head(list)];
        let shorter = self.words[at.length(list)].checked_sub(1)?;
        let second = self.words[at.next(head as usize)];
        Some(vec![(at.head(list), second), (at.length(list), shorter)])
    }

    /// Gives a place free cells until its list is one too long.
    fn list_over_limit(&mut self) -> Option<Pokes> {
        let place = self.random.pick_any(&self.open_places())?;
        let mut table = self.table.clone();
        while table.lists[place].len() <= self.limit {
            let cell = table.free.pop_front()?;
            let target = self.random.index(self.table.layout().places());
            table.lists[place].push_front(Held { cell, target });
        }
        Some(self.difference(&table))
    }

    fn list_of_free_place(&mut self) -> Option<Pokes> {
        let at = self.table.layout();
        let (place, _) = self.held()?;
        Some(vec![(at.line(place), 0), (at.number(place), 0)])
    }

    fn target_outside(&mut self) -> Option<Pokes> {
        let at = self.table.layout();
        let (_, held) = self.held()?;
        let places = word(at.places());
        Some(vec![(at.target(held.cell), self.random.pick(&[places, places + 1, 1 << 31, NONE]))])
    }

    /// Aims a cell at a free place, or frees a place that a cell aims at and that has no list.
    fn target_not_open(&mut self) -> Option<Pokes> {
        let at = self.table.layout();
        let (_, held) = self.held()?;
        match self.random.pick_any(&self.free_places()) {
            Some(place) => Some(vec![(at.target(held.cell), word(place))]),
            None => Some(vec![(at.line(held.target), 0), (at.number(held.target), 0)]),
        }
    }

    fn target_itself(&mut self) -> Option<Pokes> {
        let (place, held) = self.held()?;
        Some(vec![(self.table.layout().target(held.cell), word(place))])
    }

    fn free_cell_target(&mut self) -> Option<Pokes> {
        let at = self.table.layout();
        let free: Vec<usize> = self.table.free().iter().copied().collect();
        let cell = self.random.pick_any(&free)?;
        let target = self.random.pick(&[0, word(at.places()), NONE - 1]);
        Some(vec![(at.target(cell), target)])
    }

    /// Another cell of the same list gets the same target.
    fn pair_twice_in_list(&mut self) -> Option<Pokes> {
        let (place, held) = self.held()?;
        let twin = self.table.lists()[place].iter().find(|other| other.cell != held.cell);
        match twin {
            Some(twin) => Some(vec![(self.table.layout().target(twin.cell), word(held.target))]),
            None => self.free_cell_to(place, held.target),
        }
    }

    /// The list of the other end gets a cell for the same pair.
    fn pair_in_both_lists(&mut self) -> Option<Pokes> {
        let (place, held) = self.held()?;
        self.free_cell_to(held.target, place)
    }

    fn free_cell_to(&mut self, place: usize, target: usize) -> Option<Pokes> {
        let mut table = self.table.clone();
        let cell = table.free.pop_front()?;
        table.lists[place].push_front(Held { cell, target });
        Some(self.difference(&table))
    }

    /// The words in which a changed table differs.
    fn difference(&self, changed: &Table) -> Pokes {
        let changed = changed.words();
        let differing = (0..changed.len()).filter(|&index| changed[index] != self.words[index]);
        differing.map(|index| (index, changed[index])).collect()
    }
}
