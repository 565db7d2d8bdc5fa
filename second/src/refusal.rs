//! Refusals: the numbered reasons why a call is not carried out.

/// One case for each row of the refusal table of document 01.
#[derive(Clone, Copy, Debug, PartialEq, Eq, PartialOrd, Ord, Hash)]
pub enum Refusal {
    /// A size or total outside its limits, a table of wrong length, or a stream too long.
    Sizes = 1,
    /// The store breaks one of the rules of soundness.
    Unsound = 2,
    /// A named run's line is 0 or too large.
    Line = 3,
    /// Both names are one run.
    SameRun = 4,
    /// A run that is named, or a place of a set, is not open.
    NotOpen = 5,
    /// The run is open already, or the link stands already.
    Already = 6,
    /// There is no such link to take away.
    NoSuchLink = 7,
    /// No free place, or no free cell.
    NoRoom = 8,
    /// A place still waits after as many lists were turned as there are links.
    TooDense = 9,
    /// The run to be closed has a link.
    StillLinked = 10,
    /// A record does not begin with the mark.
    Mark = 11,
    /// A record's kind is unknown, or it has a second run where none belongs.
    Kind = 12,
    /// The stream ends inside a record.
    Cut = 13,
    /// A set is too small or does not rise.
    Set = 14,
}

impl Refusal {
    pub fn number(self) -> u32 {
        self as u32
    }
}

/// What a single call answers: its number, or why it was refused.
pub type Answer = Result<u64, Refusal>;

/// What a call returns: the refusal's number (0 for done) and the call's number.
#[derive(Clone, Copy, Debug, PartialEq, Eq)]
pub struct Outcome {
    pub refusal: u32,
    pub number: u64,
}

impl Outcome {
    /// A stream that stops keeps its count, so the number is told apart from the refusal.
    pub fn stopped(refusal: Refusal, number: u64) -> Outcome {
        Outcome { refusal: refusal.number(), number }
    }

    pub fn done(number: u64) -> Outcome {
        Outcome { refusal: 0, number }
    }
}

impl From<Answer> for Outcome {
    fn from(answer: Answer) -> Outcome {
        match answer {
            Ok(number) => Outcome::done(number),
            Err(refusal) => Outcome::stopped(refusal, 0),
        }
    }
}
