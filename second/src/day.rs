//! Day: what `dayrun` prints for a day's bytes.

use std::fmt::Write;

use crate::call::Call;
use crate::caller::Caller;
use crate::record::KIND_AT;
use crate::refusal::{Outcome, Refusal};
use crate::sizes::{ANSWER_WORDS, DAY_BYTES_MAX, DAY_SIZES, RECORD_BYTES};
use crate::soundness;

/// The lines printed for a day.
pub fn lines(bytes: &[u8]) -> String {
    if bytes.len() > DAY_BYTES_MAX {
        return end_line(Outcome::stopped(Refusal::Sizes, 0), 0, 0);
    }
    let mut caller = fresh_caller(bytes);
    let outcome = caller.call(&Call::Stream);
    let mut text = String::new();
    for position in 0..outcome.number as usize {
        let kind = bytes[RECORD_BYTES * position + KIND_AT];
        let answer = &caller.lent.answers[ANSWER_WORDS * position..];
        writeln!(text, "{} {} {} {}", position + 1, kind, answer[0], answer[1])
            .expect("writing to a string does not fail");
    }
    text + &end_line(outcome, caller.lent.totals.reversals, standing_links(&caller))
}

/// An emptied store of a day's sizes, with the day's bytes.
fn fresh_caller(bytes: &[u8]) -> Caller {
    let layout = DAY_SIZES.layout().expect("a day's sizes are within their limits");
    let mut caller = Caller { sizes: DAY_SIZES, ..Caller::default() };
    caller.lent.store = vec![0; layout.store_words()];
    caller.lent.spare = vec![0; layout.store_words()];
    caller.lent.waiting = vec![0; layout.places()];
    caller.lent.answers = vec![0; ANSWER_WORDS * (bytes.len() / RECORD_BYTES)];
    caller.lent.bytes = bytes.to_vec();
    caller.call(&Call::Empty);
    caller
}

fn standing_links(caller: &Caller) -> usize {
    let layout = caller.sizes.layout().expect("a day's sizes are within their limits");
    let limit = caller.sizes.limit().expect("a day's sizes are within their limits");
    let table = soundness::judge(&caller.lent.store, layout, limit);
    table.expect("a stream leaves the store sound").links()
}

fn end_line(outcome: Outcome, reversals: u64, links: usize) -> String {
    format!("end {} {} {} {}\n", outcome.refusal, outcome.number, reversals, links)
}
