//! Wormstrand's proved store of open train runs and the links between them.
//!
//! [`Store`] owns its tables and is the usual way in. [`calls`] has each call on tables that the caller lends, as slices of 32-bit
//! words; any sizes, lengths and words may be handed in, and a wrong one is refused with its number.
//!
//! ```
//! use wormstrand::{Run, Sizes, Store};
//!
//! let mut store = Store::new(Sizes { n: 8, c: 16, d: 2 })?;
//! let (early, late) = (Run { line: 1, trip: 100 }, Run { line: 2, trip: 100 });
//! store.open(early)?;
//! store.open(late)?;
//! store.link(early, late)?;
//! assert!(store.ask(late, early)?);
//! # Ok::<(), wormstrand::Refusal>(())
//! ```

#![deny(missing_docs)]

pub mod calls;
mod foreign;
mod outcome;
mod refusal;
mod sizes;
mod store;
mod stream;

pub use outcome::Outcome;
pub use refusal::Refusal;
pub use sizes::{Run, Sizes};
pub use store::Store;
pub use stream::{Day, Streamed, Totals};
