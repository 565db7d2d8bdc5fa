//! Streams of records: document 01's sample day, and streams that stop.

use wormstrand::{calls, Outcome, Refusal, Sizes, Store, Streamed, Totals};

const SAMPLE: &[u8] = include_bytes!("../../../tests/sample.day");
const PRINTED: &str = include_str!("../../../tests/sample.out");
const SIZES: Sizes = Sizes { n: 256, c: 1024, d: 4 };

/// The refusal and the number in each line of the sample's records: position, kind, refusal, number.
fn expected() -> Vec<Outcome> {
    let records = PRINTED.lines().filter(|line| !line.starts_with("end"));
    let outcome = |line: &str| {
        let words: Vec<u32> = line.split(' ').map(|word| word.parse().unwrap()).collect();
        Refusal::of(words[2]).map_or(Outcome::Done(words[3]), Outcome::Refused)
    };
    records.map(outcome).collect()
}

#[test]
fn the_sample_day() {
    let mut store = Store::new(SIZES).unwrap();
    let mut totals = Totals::default();
    let day = store.stream(SAMPLE, &mut totals);
    assert_eq!(day.stop, None);
    assert_eq!(day.outcomes, expected());
    assert_eq!(totals, Totals { accepted: 5, reversals: 5 });
    // The totals go on from where they are.
    let again = store.stream(SAMPLE, &mut totals);
    assert_eq!(again.outcomes.len(), 16);
    assert!(totals.accepted >= 5);
}

#[test]
fn what_stops_a_stream() {
    let wrong_mark = [&SAMPLE[..30], &[0], &SAMPLE[31..]].concat();
    let wrong_kind = [&SAMPLE[..32], &[6], &SAMPLE[33..]].concat();
    for (bytes, stop, carried) in [
        (&wrong_mark[..], Refusal::WrongMark, 2),
        (&wrong_kind[..], Refusal::WrongKind, 2),
        (&SAMPLE[..59], Refusal::CutShort, 3),
    ] {
        let mut store = Store::new(SIZES).unwrap();
        let day = store.stream(bytes, &mut Totals::default());
        assert_eq!((day.stop, day.outcomes.len()), (Some(stop), carried));
    }
}

/// The sample on lent tables: refused with `Sizes`, and nothing is written.
fn refused_whole(answer_words: usize, mut totals: Totals) {
    let store = Store::new(SIZES).unwrap();
    let (mut words, mut spare, mut waiting) = (store.words().to_vec(), vec![7; 4098], vec![7; 256]);
    let (mut answers, before) = (vec![7; answer_words], totals);
    let streamed = calls::stream(
        SIZES,
        &mut words,
        &mut spare,
        &mut waiting,
        SAMPLE,
        &mut answers,
        &mut totals,
    );
    assert_eq!(streamed, Streamed { stop: Some(Refusal::Sizes), carried: 0 });
    assert_eq!((answers, totals), (vec![7; answer_words], before));
    assert_eq!((&words[..], spare, waiting), (store.words(), vec![7; 4098], vec![7; 256]));
}

#[test]
fn streams_that_are_refused_whole() {
    // One answer word too few.
    refused_whole(31, Totals::default());
    // A total above 2^62.
    refused_whole(32, Totals { accepted: 0, reversals: (1 << 62) + 1 });
    refused_whole(32, Totals { accepted: (1 << 62) + 1, reversals: 0 });
}

#[test]
fn no_bytes_are_a_day_too() {
    let mut store = Store::new(SIZES).unwrap();
    let before = store.clone();
    let day = store.stream(&[], &mut Totals::default());
    assert_eq!((day.stop, day.outcomes.len()), (None, 0));
    assert_eq!(store, before);
}
