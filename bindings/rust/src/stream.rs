//! What a stream of records brings forward and answers.

use std::iter::{Copied, Map};
use std::{slice, vec};

use crate::outcome::{halves, Outcome};
use crate::refusal::Refusal;

/// The running totals that streams bring forward, each at most 2^62 on entry.
#[derive(Clone, Copy, Debug, Default, PartialEq, Eq)]
#[repr(C)]
pub struct Totals {
    /// Accepted links.
    pub accepted: u64,
    /// Reversals of accepted links.
    pub reversals: u64,
}

/// How a stream ended.
#[derive(Clone, Copy, Debug, PartialEq, Eq)]
pub struct Streamed {
    /// What stopped it, or nothing at the end of the bytes.
    pub stop: Option<Refusal>,
    /// The records carried out.
    pub carried: u32,
}

impl Streamed {
    pub(crate) fn unpack(result: u64) -> Streamed {
        let (stop, carried) = halves(result);
        Streamed { stop, carried }
    }
}

/// A day that was carried out: how it ended, and each record's outcome.
///
/// A loop over a day goes over its records' answers in order, each as the single call on a [`Store`](crate::Store) gives it:
///
/// ```
/// use wormstrand::{Refusal, Sizes, Store, Totals};
///
/// // Line 1 trip 100 is opened twice, and the third record is cut short.
/// let opening = b"RN\x01\0\x01\0\0\0\x64\0\0\0\0\0\0";
/// let bytes = [&opening[..], &opening[..], b"RN"].concat();
/// let mut store = Store::new(Sizes { n: 8, c: 16, d: 2 })?;
/// let day = store.stream(&bytes, &mut Totals::default());
/// for (position, answer) in (1..).zip(&day) {
///     match answer {
///         Ok(number) => println!("record {}: {}", position, number),
///         Err(refusal) => println!("record {}: {}", position, refusal),
///     }
/// }
/// assert!(day.iter().eq([Ok(0), Err(Refusal::Already)]));
/// assert_eq!(day.stop, Some(Refusal::CutShort));
/// # Ok::<(), Refusal>(())
/// ```
#[derive(Clone, Debug, PartialEq, Eq)]
pub struct Day {
    /// What stopped it, or nothing at the end of the bytes.
    pub stop: Option<Refusal>,
    /// The outcomes of the records carried out, in order.
    pub outcomes: Vec<Outcome>,
}

impl Day {
    /// The first words of an answer table, two for each record carried out.
    pub(crate) fn read(streamed: Streamed, answers: &[u32]) -> Day {
        let carried = answers.chunks_exact(2).take(streamed.carried as usize);
        let outcomes = carried.map(|words| Outcome::of(words[0], words[1])).collect();
        Day { stop: streamed.stop, outcomes }
    }

    /// The answers of the records carried out, in order.
    pub fn iter(&self) -> <&Day as IntoIterator>::IntoIter {
        self.outcomes.iter().copied().map(Outcome::number)
    }
}

impl<'a> IntoIterator for &'a Day {
    type Item = Result<u32, Refusal>;
    type IntoIter = Map<Copied<slice::Iter<'a, Outcome>>, fn(Outcome) -> Self::Item>;

    fn into_iter(self) -> Self::IntoIter {
        self.iter()
    }
}

impl IntoIterator for Day {
    type Item = Result<u32, Refusal>;
    type IntoIter = Map<vec::IntoIter<Outcome>, fn(Outcome) -> Self::Item>;

    fn into_iter(self) -> Self::IntoIter {
        self.outcomes.into_iter().map(Outcome::number)
    }
}
