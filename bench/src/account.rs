//! Where the time goes, said with the numbers of the run.

use crate::measure::Measured;
use crate::text::{grouped, percent};

pub fn where_time_goes(sizes: &[Measured]) -> String {
    let parts = [judge(sizes), walk(sizes), turning(sizes), day(sizes), HASH_SET.to_string()];
    format!("## Where the time goes\n\n{}", parts.join("\n"))
}

/// One number for each size, in the order of the sizes.
fn each(sizes: &[Measured], number: impl Fn(&Measured) -> String) -> String {
    sizes.iter().map(number).collect::<Vec<_>>().join(", ")
}

fn judge(sizes: &[Measured]) -> String {
    format!(
        "- **The judge.** Of an ask with the judge's part, judging is {} at n = {}. The judge reads the
  whole table, so its time goes with the table and not with what the call does. In a row on the same table it goes faster, most
  where the table is small; plain Rust does as well, so that lies with the processor. Who has many calls hands them in as a
  stream, which judges once.
- **Checks of indices.** Plain Rust checks each index as it runs. The library's are proved to be within, and its code has no such
  checks.",
        each(sizes, |at| percent(1.0 - at.library.calls[0].record / at.library.calls[0].single)),
        each(sizes, |at| grouped(at.n as f64)),
    )
}

fn walk(sizes: &[Measured]) -> String {
    format!(
        "- **The walk over the places.** Without the judge's part, an ask mostly looks for two runs by their names, place by place from
  the first: {} of its time. The same ask about the first two places takes {}, and that does not
  grow with n: a list has at most D cells.",
        each(sizes, |at| percent(1.0 - at.near_ask / at.library.calls[0].record)),
        each(sizes, |at| grouped(at.near_ask)),
    )
}

fn turning(sizes: &[Measured]) -> String {
    format!(
        "- **Turning.** A link whose list is full copies the store to the spare, in proportion to the table, before it turns cells, a few
  words for each: {} links of 100 did, with {} reversals on average. Turning is most of what a link takes
  beyond an unlink.",
        each(sizes, |at| grouped(100.0 * at.turnings.len() as f64 / at.links as f64)),
        each(sizes, |at| grouped(average(&at.turnings))),
    )
}

fn average(numbers: &[u32]) -> f64 {
    let sum: u32 = numbers.iter().sum();
    f64::from(sum) / numbers.len() as f64
}

fn day(sizes: &[Measured]) -> String {
    format!(
        "- **A day.** Judging once is {} of a day's time. The rest is the walk, the copies for links that turn,
  and, for a close, the look through all cells for a link that touches the run.",
        each(sizes, |at| percent(at.day_judge / at.library.day)),
    )
}

const HASH_SET: &str = "- **The hash set** pays for hashing and next to nothing for size. It bounds nothing and judges nothing.";
