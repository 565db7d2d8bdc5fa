//! Stream: the records of a day carried out in order on a table judged once.

use crate::acts::{Linked, Turned};
use crate::caller::Lent;
use crate::record::{Kind, Record};
use crate::refusal::{Answer, Outcome};
use crate::sizes::ANSWER_WORDS;
use crate::table::Table;
use crate::tally::Tally;

/// Carries out the records of the lent bytes. The store's words are left to the caller to write.
pub fn carry_out(table: &mut Table, limit: usize, lent: &mut Lent, tally: &mut Tally) -> Outcome {
    let bytes = std::mem::take(&mut lent.bytes);
    let mut rest = &bytes[..];
    let mut carried = 0;
    let mut stopped = None;
    while !rest.is_empty() && stopped.is_none() {
        match Record::read(rest) {
            Ok((record, after)) => {
                let answer = carry_out_one(&record, table, limit, lent, tally);
                tally.record(record.kind, answer.into());
                write_answer(&mut lent.answers, carried, answer.into());
                carried += 1;
                rest = after;
            }
            Err(refusal) => stopped = Some(refusal),
        }
    }
    lent.bytes = bytes;
    match stopped {
        Some(refusal) => Outcome::stopped(refusal, carried as u64),
        None => Outcome::done(carried as u64),
    }
}

fn carry_out_one(
    record: &Record,
    table: &mut Table,
    limit: usize,
    lent: &mut Lent,
    tally: &mut Tally,
) -> Answer {
    let (first, second) = (record.first, record.second);
    match record.kind {
        Kind::Open => table.open(first),
        Kind::Close => table.close(first),
        Kind::Unlink => table.unlink(first, second),
        Kind::Ask => table.ask(first, second),
        Kind::Link => {
            let linked = table.link(first, second, limit);
            tally.link(&linked);
            bring_totals_forward(lent, &linked.answer);
            after_link(lent, linked)
        }
    }
}

/// Leaves spare and waiting as a link leaves them: untouched unless turning began.
pub fn after_link(lent: &mut Lent, linked: Linked) -> Answer {
    if let Some(Turned { entry, .. }) = linked.turned {
        lent.spare = entry;
        lent.waiting.iter_mut().for_each(|word| *word = 0);
    }
    linked.answer
}

/// Only accepted links count, and only their reversals.
fn bring_totals_forward(lent: &mut Lent, answer: &Answer) {
    if let Ok(reversals) = answer {
        lent.totals.links += 1;
        lent.totals.reversals += reversals;
    }
}

fn write_answer(answers: &mut [u32], position: usize, outcome: Outcome) {
    let at = ANSWER_WORDS * position;
    answers[at] = outcome.refusal;
    answers[at + 1] = u32::try_from(outcome.number).expect("a record's number is one word");
}
