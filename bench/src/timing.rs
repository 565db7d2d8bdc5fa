//! Times by turns: every job is run once in each round, and the least time of each is kept, so that what disturbs the machine for
//! a while disturbs all of them and counts for none.

use std::time::{Duration, Instant};

use crate::call::{day, Call};
use crate::contender::Contender;

const ROUNDS_LEAST: usize = 5;

/// A job runs its work once and says how long that took, with a sum of the answers that has to come out the same each time.
type Job<'a> = Box<dyn Fn() -> (Duration, u64) + 'a>;

#[derive(Default)]
pub struct Turns<'a> {
    jobs: Vec<Job<'a>>,
}

/// A job that was added.
#[derive(Clone, Copy)]
pub struct Slot(usize);

/// The least time of each job.
pub struct Least {
    nanoseconds: Vec<f64>,
}

impl<'a> Turns<'a> {
    pub fn add(&mut self, job: impl Fn() -> (Duration, u64) + 'a) -> Slot {
        self.jobs.push(Box::new(job));
        Slot(self.jobs.len() - 1)
    }

    /// The single calls on a table, one after the other.
    pub fn calls<C: Contender>(&mut self, ready: &'a C, calls: &'a [Call]) -> Slot {
        self.add(move || {
            let mut contender = ready.clone();
            timed(|| calls.iter().map(|&call| weight(&mut contender, call)).sum())
        })
    }

    /// The same calls as one stream.
    pub fn stream<C: Contender + 'a>(&mut self, ready: &C, calls: &[Call]) -> Slot {
        let mut lent = ready.clone();
        lent.lend(&day(calls));
        self.add(move || {
            let mut contender = lent.clone();
            timed(|| contender.stream() as u64)
        })
    }

    /// Goes round for some time, and a few times at least.
    pub fn rounds(self, time: Duration) -> Least {
        let began = Instant::now();
        let mut least: Vec<(Duration, u64)> = self.jobs.iter().map(|job| job()).collect();
        let mut rounds = 1;
        while rounds < ROUNDS_LEAST || began.elapsed() < time {
            for (job, (shortest, sum)) in self.jobs.iter().zip(&mut least) {
                let (took, again) = job();
                assert_eq!(*sum, again, "the same work gives the same answers");
                *shortest = took.min(*shortest);
            }
            rounds += 1;
        }
        Least {
            nanoseconds: least.iter().map(|(shortest, _)| shortest.as_nanos() as f64).collect(),
        }
    }
}

impl Least {
    pub fn of(&self, slot: Slot) -> f64 {
        self.nanoseconds[slot.0]
    }
}

/// Runs the work and says how long it took.
pub fn timed(work: impl FnOnce() -> u64) -> (Duration, u64) {
    let began = Instant::now();
    let sum = work();
    (began.elapsed(), sum)
}

fn weight<C: Contender>(contender: &mut C, call: Call) -> u64 {
    let answer = contender.carry(call);
    u64::from(answer.refusal) << 32 | u64::from(answer.number)
}
