//! The second program of Wormstrand: every call of document 01, done on maps and vectors.
//!
//! A table of words is judged once into a structure (`soundness`, `table`), the call is done there
//! (`acts`, `turning`), and the whole table is written out again from the structure. Nothing here
//! walks or mends the words in place, so that a slip in the store proper is not repeated here.

#![forbid(unsafe_code)]

pub mod acts;
pub mod call;
pub mod caller;
pub mod day;
pub mod digest;
pub mod layout;
pub mod make;
pub mod record;
pub mod refusal;
pub mod run;
pub mod runner;
pub mod script;
pub mod sizes;
pub mod soundness;
pub mod stream;
pub mod table;
pub mod tally;
pub mod turning;
