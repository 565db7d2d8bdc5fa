//! A store with its tables.

use crate::calls;
use crate::refusal::Refusal;
use crate::sizes::{Run, Sizes};
use crate::stream::{Day, Totals};

/// The bytes of a record.
const RECORD_BYTES: usize = 15;

/// A store that owns its tables, all of the lengths that its sizes ask for.
///
/// ```
/// use wormstrand::{Refusal, Run, Sizes, Store};
///
/// let mut store = Store::new(Sizes { n: 8, c: 16, d: 2 })?;
/// let (local, feeder) = (Run { line: 2, trip: 100 }, Run { line: 7, trip: 4012 });
/// assert_eq!((store.open(local)?, store.open(feeder)?), (0, 1));
/// store.link(local, feeder)?;
/// assert_eq!(store.close(feeder), Err(Refusal::Touched));
/// assert_eq!(store.reading(&[0, 1])?, 1);
///
/// // Its words can be kept elsewhere and taken up again.
/// let again = Store::of(store.sizes(), store.words().to_vec())?;
/// assert!(again == store && again.ask(feeder, local)?);
/// # Ok::<(), Refusal>(())
/// ```
#[derive(Clone, Debug)]
pub struct Store {
    sizes: Sizes,
    words: Vec<u32>,
    spare: Vec<u32>,
    waiting: Vec<u32>,
}

/// Sizes and words: what spare and waiting hold plays no part.
impl PartialEq for Store {
    fn eq(&self, other: &Store) -> bool {
        self.sizes == other.sizes && self.words == other.words
    }
}

impl Eq for Store {}

impl Store {
    /// A store with no run and no link, or `Sizes` where a size is outside its limits.
    pub fn new(sizes: Sizes) -> Result<Store, Refusal> {
        let length = sizes.store_words().ok_or(Refusal::Sizes)?;
        let mut words = vec![0; length];
        calls::empty(sizes, &mut words).number()?;
        Store::of(sizes, words)
    }

    /// A store of given words, as `words` has handed them out: refused with `Sizes` or `Unsound` where they do not fit.
    pub fn of(sizes: Sizes, words: Vec<u32>) -> Result<Store, Refusal> {
        // The store is judged before the set, so an empty set is reached only by a sound store.
        match calls::reading(sizes, &words, &[]).number() {
            Err(Refusal::BadSet) => {}
            Err(refusal) => return Err(refusal),
            Ok(_) => unreachable!("an empty set has no reading"),
        }
        let (spare, waiting) = (vec![0; words.len()], vec![0; sizes.n]);
        Ok(Store { sizes, words, spare, waiting })
    }

    /// The sizes it was made with.
    pub fn sizes(&self) -> Sizes {
        self.sizes
    }

    /// The words of the store.
    pub fn words(&self) -> &[u32] {
        &self.words
    }

    /// Opens a run in the lowest free place, and gives that place.
    pub fn open(&mut self, run: Run) -> Result<u32, Refusal> {
        calls::open(self.sizes, &mut self.words, run).number()
    }

    /// Closes a run that no link touches.
    pub fn close(&mut self, run: Run) -> Result<(), Refusal> {
        calls::close(self.sizes, &mut self.words, run).number().map(drop)
    }

    /// Links two open runs, and gives the number of reversals.
    pub fn link(&mut self, a: Run, b: Run) -> Result<u32, Refusal> {
        calls::link(self.sizes, &mut self.words, &mut self.spare, &mut self.waiting, a, b).number()
    }

    /// Takes the link of two open runs away.
    pub fn unlink(&mut self, a: Run, b: Run) -> Result<(), Refusal> {
        calls::unlink(self.sizes, &mut self.words, a, b).number().map(drop)
    }

    /// Whether two open runs are linked.
    pub fn ask(&self, a: Run, b: Run) -> Result<bool, Refusal> {
        calls::ask(self.sizes, &self.words, a, b).number().map(|number| number == 1)
    }

    /// The reading of a set of open places.
    pub fn reading(&self, places: &[u32]) -> Result<u32, Refusal> {
        calls::reading(self.sizes, &self.words, places).number()
    }

    /// Carries out a day's records and brings the totals forward. Where the bytes or the totals are too large, `Sizes` stops it
    /// and nothing is carried out.
    ///
    /// ```
    /// use wormstrand::{Refusal, Sizes, Store, Totals};
    ///
    /// // Lines 1 and 2 open their trip 100, and the two are linked.
    /// let bytes = b"RN\x01\0\x01\0\0\0\x64\0\0\0\0\0\0\
    ///               RN\x01\0\x02\0\0\0\x64\0\0\0\0\0\0\
    ///               RN\x03\0\x01\0\0\0\x64\0\x02\0\0\0\x64";
    /// let mut store = Store::new(Sizes { n: 8, c: 16, d: 2 })?;
    /// let mut totals = Totals::default();
    /// let day = store.stream(bytes, &mut totals);
    /// assert_eq!(day.into_iter().collect::<Result<Vec<_>, _>>()?, [0, 1, 0]);
    /// assert_eq!(totals, Totals { accepted: 1, reversals: 0 });
    /// # Ok::<(), Refusal>(())
    /// ```
    pub fn stream(&mut self, bytes: &[u8], totals: &mut Totals) -> Day {
        let mut answers = vec![0; 2 * (bytes.len() / RECORD_BYTES)];
        let Store { sizes, words, spare, waiting } = self;
        let streamed = calls::stream(*sizes, words, spare, waiting, bytes, &mut answers, totals);
        Day::read(streamed, &answers)
    }
}
