//! Why a call is refused.

use std::error::Error;
use std::fmt;

/// Why a call is refused. A call makes its checks in the order of the numbers, but `BadSet` comes before `NotOpen`; a stream's record
/// is judged by `CutShort`, `WrongMark` and `WrongKind`, in that order, before the checks of its call.
///
/// ```
/// use wormstrand::{Refusal, Sizes, Store};
///
/// let refusal = Store::new(Sizes { n: 0, c: 16, d: 2 }).unwrap_err();
/// assert_eq!((refusal, refusal.number()), (Refusal::Sizes, 1));
/// assert_eq!(Refusal::Touched.to_string(), "a link touches the run (refusal 10)");
/// ```
#[derive(Clone, Copy, Debug, PartialEq, Eq, Hash)]
#[repr(u8)]
pub enum Refusal {
    /// A size outside its limits, a table of wrong length, a stream too long, a total too large.
    Sizes = 1,
    /// The store is not sound for its sizes.
    Unsound = 2,
    /// A named run has line 0 or above 65,535.
    BadName = 3,
    /// Both names are the same run.
    SameRun = 4,
    /// A named run, or a place in a set, is not open.
    NotOpen = 5,
    /// Open: already open. Link: already linked.
    Already = 6,
    /// Unlink: no such link.
    NoLink = 7,
    /// Open: no free place. Link: no free cell.
    NoRoom = 8,
    /// Link: a place still waits after as many lists were turned as there are links.
    TooDense = 9,
    /// Close: a link touches the run.
    Touched = 10,
    /// Stream: a record without its mark.
    WrongMark = 11,
    /// Stream: a record of an unknown kind, or with a second run where there is none.
    WrongKind = 12,
    /// Stream: a record cut short by the end of the bytes.
    CutShort = 13,
    /// Reading: a set of fewer than two places, or not strictly rising.
    BadSet = 14,
}

impl Refusal {
    /// Every refusal, in the order of the numbers.
    pub const ALL: [Refusal; 14] = [
        Refusal::Sizes,
        Refusal::Unsound,
        Refusal::BadName,
        Refusal::SameRun,
        Refusal::NotOpen,
        Refusal::Already,
        Refusal::NoLink,
        Refusal::NoRoom,
        Refusal::TooDense,
        Refusal::Touched,
        Refusal::WrongMark,
        Refusal::WrongKind,
        Refusal::CutShort,
        Refusal::BadSet,
    ];

    /// The refusal's number, 1 to 14.
    pub fn number(self) -> u32 {
        self as u32
    }

    /// The refusal with a number, if one has it.
    pub fn of(number: u32) -> Option<Refusal> {
        Refusal::ALL.iter().copied().find(|refusal| refusal.number() == number)
    }

    fn words(self) -> &'static str {
        match self {
            Refusal::Sizes => "a size is outside its limits, or a length or a total is wrong",
            Refusal::Unsound => "the store is not sound",
            Refusal::BadName => "a line is 0 or above 65,535",
            Refusal::SameRun => "both names are the same run",
            Refusal::NotOpen => "a run or a place is not open",
            Refusal::Already => "the run is already open or the link already there",
            Refusal::NoLink => "there is no such link",
            Refusal::NoRoom => "no place or no cell is free",
            Refusal::TooDense => "the runs are linked too densely for one more link",
            Refusal::Touched => "a link touches the run",
            Refusal::WrongMark => "a record does not begin with the mark",
            Refusal::WrongKind => "a record has no known kind or one run too many",
            Refusal::CutShort => "a record is cut short",
            Refusal::BadSet => "the set has fewer than two places or does not rise",
        }
    }
}

impl fmt::Display for Refusal {
    fn fmt(&self, f: &mut fmt::Formatter<'_>) -> fmt::Result {
        write!(f, "{} (refusal {})", self.words(), self.number())
    }
}

impl Error for Refusal {}
