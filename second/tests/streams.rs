//! Streams: the same as the single calls in turn, and what a stream that stops leaves behind.

mod common;

use common::*;
use second::call::Call;
use second::caller::{Caller, Totals};
use second::make::Random;
use second::record::{Kind, Record};
use second::refusal::{Outcome, Refusal};
use second::run::Run;
use second::sizes::RECORD_BYTES;

const LINE_ZERO: Run = Run { line: 0, trip: 9 };

/// Lends bytes, and an answer table of `words` words of garbage.
fn lend(caller: &mut Caller, bytes: Vec<u8>, words: usize) {
    caller.lent.bytes = bytes;
    caller.lent.answers = vec![GARBAGE; words];
}

fn opens(count: u32) -> Vec<u8> {
    (0..count).flat_map(|i| record(Kind::Open, run(i), run(0))).collect()
}

#[test]
fn no_bytes_are_a_stream_done() {
    let mut caller = opened(2, 2, 2);
    lend(&mut caller, Vec::new(), 3);
    let outcome = call_unchanged(&mut caller, &Call::Stream);
    assert_eq!(outcome, (done(0), true));
}

#[test]
fn each_record_writes_two_words_and_no_more() {
    let mut caller = emptied(2, 1, 2);
    let mut bytes = opens(3);
    bytes.extend(record(Kind::Link, run(0), run(1)));
    lend(&mut caller, bytes, 10);
    caller.lent.totals = Totals { links: 5, reversals: 7 };
    assert_eq!(caller.call(&Call::Stream), done(4));
    assert_eq!(caller.lent.answers, [0, 0, 0, 1, 8, 0, 0, 0, GARBAGE, GARBAGE]);
    assert_eq!(caller.lent.totals, Totals { links: 6, reversals: 7 });
    assert!(caller.lent.spare.iter().chain(&caller.lent.waiting).all(|&word| word == GARBAGE));
}

/// Checks that a spoilt record stops a stream after the two before it, which stand. Unless the
/// record is cut, a good one follows it and must not be carried out.
fn assert_stops(spoilt: &[u8], refusal: u32) {
    let mut caller = emptied(4, 1, 2);
    let mut bytes = opens(2);
    bytes.extend(spoilt);
    if spoilt.len() == RECORD_BYTES {
        bytes.extend(record(Kind::Open, run(3), run(0)));
    }
    lend(&mut caller, bytes, 8);
    let outcome = caller.call(&Call::Stream);
    assert_eq!(outcome, Outcome { refusal, number: 2 }, "{:02x?}", spoilt);
    assert_eq!(caller.lent.answers, [0, 0, 0, 1, GARBAGE, GARBAGE, GARBAGE, GARBAGE]);
    assert_eq!(table(&caller).runs(), [Some(run(0)), Some(run(1)), None, None]);
}

#[test]
fn marks_kinds_and_cut_ends_stop_a_stream() {
    let good = record(Kind::Open, run(2), run(0));
    let with = |pokes: &[(usize, u8)]| {
        let mut bytes = good.clone();
        pokes.iter().for_each(|&(index, byte)| bytes[index] = byte);
        bytes
    };
    assert_stops(&with(&[(0, 0x53)]), 11);
    assert_stops(&with(&[(1, 0x52)]), 11);
    for kind in [0, 6, 255] {
        assert_stops(&with(&[(2, kind)]), 12);
    }
    for index in 9..15 {
        assert_stops(&with(&[(index, 1)]), 12);
        assert_stops(&with(&[(2, 2), (3, 0), (index, 0x80)]), 12);
    }
    for length in 1..15 {
        assert_stops(&good[..length], 13);
    }
}

#[test]
fn a_record_is_judged_by_13_then_11_then_12_then_the_rest() {
    let mut bytes = record(Kind::Open, LINE_ZERO, run(0));
    let read = |bytes: &[u8]| Record::read(bytes).map(|(record, rest)| (record, rest.len()));
    assert_eq!(read(&bytes).map(|(record, rest)| (record.first, rest)), Ok((LINE_ZERO, 0)));
    bytes[2] = 9;
    assert_eq!(read(&bytes), Err(Refusal::Kind));
    bytes[0] = 0;
    assert_eq!(read(&bytes), Err(Refusal::Mark));
    assert_eq!(read(&bytes[..14]), Err(Refusal::Cut));
}

#[test]
fn a_second_run_belongs_to_a_link() {
    let bytes = record(Kind::Link, Run::new(0x0102, 0x0304_0506), Run::new(0xfffe, 0xfdfc_fbfa));
    let due = [0x52, 0x4e, 3, 1, 2, 3, 4, 5, 6, 0xff, 0xfe, 0xfd, 0xfc, 0xfb, 0xfa];
    assert_eq!(bytes, due);
    let (read, rest) = Record::read(&bytes).expect("a good record");
    assert_eq!(read.second, Run::new(0xfffe, 0xfdfc_fbfa));
    assert!(rest.is_empty());
}

fn single(record: &Record) -> Call {
    match record.kind {
        Kind::Open => Call::Open(record.first),
        Kind::Close => Call::Close(record.first),
        Kind::Link => Call::Link(record.first, record.second),
        Kind::Unlink => Call::Unlink(record.first, record.second),
        Kind::Ask => Call::Ask(record.first, record.second),
    }
}

fn random_records(random: &mut Random, count: u64) -> Vec<Record> {
    (0..count)
        .map(|_| {
            let kind = random.pick(&[
                Kind::Open,
                Kind::Close,
                Kind::Link,
                Kind::Link,
                Kind::Link,
                Kind::Link,
                Kind::Unlink,
                Kind::Ask,
            ]);
            let first = if random.chance(3) { LINE_ZERO } else { run(random.below(9) as u32) };
            Record { kind, first, second: run(random.below(9) as u32) }
        })
        .collect()
}

/// Does the records one by one, and keeps answers and totals the way a stream does.
fn one_by_one(caller: &mut Caller, records: &[Record]) {
    for (position, record) in records.iter().enumerate() {
        let outcome = caller.call(&single(record));
        caller.lent.answers[2 * position] = outcome.refusal;
        caller.lent.answers[2 * position + 1] = outcome.number as u32;
        if record.kind == Kind::Link && outcome.refusal == 0 {
            caller.lent.totals.links += 1;
            caller.lent.totals.reversals += outcome.number;
        }
    }
}

#[test]
fn a_stream_equals_its_single_calls() {
    let mut refusals = [0; 11];
    for seed in 0..200 {
        let mut random = Random::new(seed);
        let mut streamed = opened(7, 12, 2);
        streamed.lent.totals = Totals { links: random.below(9), reversals: random.below(9) };
        let records = random_records(&mut random, 80);
        let bytes = records.iter().flat_map(|r| record(r.kind, r.first, r.second)).collect();
        lend(&mut streamed, bytes, 2 * records.len() + 3);
        let mut single = streamed.clone();
        assert_eq!(streamed.call(&Call::Stream), done(80));
        one_by_one(&mut single, &records);
        assert_eq!(streamed.lent, single.lent, "seed {}", seed);
        for answer in streamed.lent.answers[..160].chunks(2) {
            refusals[answer[0] as usize] += 1;
        }
    }
    // Every refusal a record can have came up, and no other.
    let came_up: Vec<bool> = refusals.iter().map(|&count| count > 0).collect();
    let due: Vec<bool> = (0..11).map(|refusal| refusal != 1 && refusal != 2).collect();
    assert_eq!(came_up, due, "{:?}", refusals);
}

#[test]
fn the_spare_is_the_store_before_the_last_link_that_turned() {
    let mut caller = opened(5, 6, 2);
    let links = [(0, 1), (0, 2), (0, 3), (4, 0)];
    let bytes = links.iter().flat_map(|&(a, b)| record(Kind::Link, run(a), run(b))).collect();
    let mut before = caller.clone();
    lend(&mut caller, bytes, 8);
    assert_eq!(caller.call(&Call::Stream), done(4));
    assert_eq!(caller.lent.answers, [0, 0, 0, 0, 0, 3, 0, 0]);
    link(&mut before, 0, 1);
    link(&mut before, 0, 2);
    assert_eq!(caller.lent.spare, before.lent.store);
    assert_eq!(caller.lent.waiting, [0; 5]);
    assert_eq!(caller.lent.totals, Totals { links: 4, reversals: 3 });
}
