//! The calls on tables that the caller lends.
//!
//! A refused call leaves every table as it was, with two exceptions. `TooDense` leaves the store as it was, and spare and waiting
//! as an accepted link that began turning does. `WrongMark`, `WrongKind` and `CutShort` stop a stream, and the records before stand.
//!
//! ```
//! use wormstrand::{calls, Outcome, Run, Sizes};
//!
//! let sizes = Sizes { n: 1, c: 1, d: 2 };
//! let mut store = [0; 9];
//! assert_eq!(calls::empty(sizes, &mut store), Outcome::Done(0));
//! assert_eq!(calls::open(sizes, &mut store, Run { line: 1, trip: 100 }), Outcome::Done(0));
//! ```

// What the library asks of its caller is that no pointer is null, each is aligned and leads to as many words as its length says,
// and the tables of one call do not overlap. Slices have all of that, so every function here is safe.

use crate::foreign;
use crate::outcome::Outcome;
use crate::sizes::{Run, Sizes};
use crate::stream::{Streamed, Totals};

/// Writes the store with no run and no link over whatever the table holds. The limit plays no part. Number: 0.
pub fn empty(sizes: Sizes, store: &mut [u32]) -> Outcome {
    Outcome::unpack(unsafe { foreign::ws_empty(sizes.n, sizes.c, store.as_mut_ptr(), store.len()) })
}

/// Opens a run in the lowest free place. Number: that place.
pub fn open(sizes: Sizes, store: &mut [u32], run: Run) -> Outcome {
    let Sizes { n, c, d } = sizes;
    Outcome::unpack(unsafe {
        foreign::ws_open(n, c, d, store.as_mut_ptr(), store.len(), run.line, run.trip)
    })
}

/// Closes a run that no link touches. Number: 0.
pub fn close(sizes: Sizes, store: &mut [u32], run: Run) -> Outcome {
    let Sizes { n, c, d } = sizes;
    Outcome::unpack(unsafe {
        foreign::ws_close(n, c, d, store.as_mut_ptr(), store.len(), run.line, run.trip)
    })
}

/// Links two open runs. Number: the reversals, 0 where no list was turned.
///
/// Spare is as long as the store and waiting has a word for each place; what they hold on entry plays no part. Where turning
/// began, spare then holds the store as it was on entry and every word of waiting is 0; else both stay as they were.
pub fn link(
    sizes: Sizes,
    store: &mut [u32],
    spare: &mut [u32],
    waiting: &mut [u32],
    a: Run,
    b: Run,
) -> Outcome {
    let Sizes { n, c, d } = sizes;
    Outcome::unpack(unsafe {
        foreign::ws_link(
            n,
            c,
            d,
            store.as_mut_ptr(),
            store.len(),
            spare.as_mut_ptr(),
            spare.len(),
            waiting.as_mut_ptr(),
            waiting.len(),
            a.line,
            a.trip,
            b.line,
            b.trip,
        )
    })
}

/// Takes the link of two open runs away, whichever way round they are named. Number: 0.
pub fn unlink(sizes: Sizes, store: &mut [u32], a: Run, b: Run) -> Outcome {
    let Sizes { n, c, d } = sizes;
    Outcome::unpack(unsafe {
        foreign::ws_unlink(n, c, d, store.as_mut_ptr(), store.len(), a.line, a.trip, b.line, b.trip)
    })
}

/// Whether two open runs are linked. Number: 1 or 0.
pub fn ask(sizes: Sizes, store: &[u32], a: Run, b: Run) -> Outcome {
    let Sizes { n, c, d } = sizes;
    Outcome::unpack(unsafe {
        foreign::ws_ask(n, c, d, store.as_ptr(), store.len(), a.line, a.trip, b.line, b.trip)
    })
}

/// The reading of a set of at least two open places, strictly rising. Number: the links with both ends in the set, divided by one
/// less than its size, the whole part.
pub fn reading(sizes: Sizes, store: &[u32], places: &[u32]) -> Outcome {
    let Sizes { n, c, d } = sizes;
    Outcome::unpack(unsafe {
        foreign::ws_reading(n, c, d, store.as_ptr(), store.len(), places.as_ptr(), places.len())
    })
}

/// Carries out the records of a day, 15 bytes each and at most 983,025 bytes, as the single calls in turn.
///
/// Each record carried out writes its refusal and its number to two words of answers, which has at least two for each 15 bytes;
/// other words there stay. The totals are brought forward in place. Spare and waiting hold what the last link that began turning
/// left, or stay as they were.
pub fn stream(
    sizes: Sizes,
    store: &mut [u32],
    spare: &mut [u32],
    waiting: &mut [u32],
    bytes: &[u8],
    answers: &mut [u32],
    totals: &mut Totals,
) -> Streamed {
    let Sizes { n, c, d } = sizes;
    Streamed::unpack(unsafe {
        foreign::ws_stream(
            n,
            c,
            d,
            store.as_mut_ptr(),
            store.len(),
            spare.as_mut_ptr(),
            spare.len(),
            waiting.as_mut_ptr(),
            waiting.len(),
            bytes.as_ptr(),
            bytes.len(),
            answers.as_mut_ptr(),
            answers.len(),
            totals,
        )
    })
}
