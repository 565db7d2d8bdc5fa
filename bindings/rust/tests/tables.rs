//! Sizes and tables that a caller may get wrong: refused, and left as they were.

use wormstrand::{calls, Outcome, Refusal, Run, Sizes, Store};

const RIGHT: Sizes = Sizes { n: 2, c: 3, d: 2 };
const A: Run = Run { line: 1, trip: 0 };
const B: Run = Run { line: 65_535, trip: u32::MAX };

#[test]
fn sizes_outside_their_limits_are_refused() {
    for wrong in [
        Sizes { n: 0, ..RIGHT },
        Sizes { n: 4097, ..RIGHT },
        Sizes { n: usize::MAX, ..RIGHT },
        Sizes { c: 0, ..RIGHT },
        Sizes { c: 16_385, ..RIGHT },
        Sizes { c: usize::MAX, ..RIGHT },
        Sizes { d: 1, ..RIGHT },
        Sizes { d: 65, ..RIGHT },
    ] {
        assert_eq!(Store::new(wrong).err(), Some(Refusal::Sizes), "{:?}", wrong);
    }
}

#[test]
fn the_largest_store_is_taken() {
    let mut store = Store::new(Sizes { n: 4096, c: 16_384, d: 64 }).unwrap();
    assert_eq!(store.words().len(), 65_538);
    assert_eq!((store.open(A), store.open(B)), (Ok(0), Ok(1)));
    assert_eq!(store.link(A, B), Ok(0));
    assert_eq!(store.ask(B, A), Ok(true));
}

#[test]
fn tables_of_wrong_length_are_refused() {
    let words = Store::new(RIGHT).unwrap().words().to_vec();
    for length in [0, 1, words.len() - 1, words.len() + 1] {
        let mut store = vec![5; length];
        assert_eq!(calls::empty(RIGHT, &mut store), Outcome::Refused(Refusal::Sizes));
        assert_eq!(calls::ask(RIGHT, &store, A, B), Outcome::Refused(Refusal::Sizes));
        assert_eq!(store, vec![5; length]);
    }
    let (mut store, mut spare) = (words.clone(), words.clone());
    let outcome = calls::link(RIGHT, &mut store, &mut spare, &mut [], A, B);
    assert_eq!(outcome, Outcome::Refused(Refusal::Sizes));
    let outcome = calls::link(RIGHT, &mut store, &mut [], &mut [0; 2], A, B);
    assert_eq!(outcome, Outcome::Refused(Refusal::Sizes));
    assert_eq!((&store, &spare), (&words, &words));
}

#[test]
fn a_spoilt_store_is_refused() {
    let mut words = Store::new(RIGHT).unwrap().words().to_vec();
    words[0] = 65_536;
    assert_eq!(Store::of(RIGHT, words.clone()).err(), Some(Refusal::Unsound));
    let before = words.clone();
    assert_eq!(calls::open(RIGHT, &mut words, A), Outcome::Refused(Refusal::Unsound));
    assert_eq!(words, before);
}

#[test]
fn a_store_is_taken_up_again_from_its_words() {
    let mut store = Store::new(RIGHT).unwrap();
    store.open(A).unwrap();
    store.open(B).unwrap();
    store.link(A, B).unwrap();
    let again = Store::of(RIGHT, store.words().to_vec()).unwrap();
    assert_eq!(again.ask(B, A), Ok(true));
}

#[test]
fn refusals_have_their_numbers() {
    for (refusal, number) in Refusal::ALL.iter().zip(1..) {
        assert_eq!(refusal.number(), number);
        assert_eq!(Refusal::of(number), Some(*refusal));
    }
    assert_eq!((Refusal::of(0), Refusal::of(15)), (None, None));
}
