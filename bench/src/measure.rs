//! What is timed at one size, and what comes of it.

use crate::call::{day, Call};
use crate::contender::Contender;
use crate::hashed::Hashed;
use crate::independent::Independent;
use crate::library::Library;
use crate::plain::Plain;
use crate::timing::{timed, Least, Slot, Turns};
use crate::work::{split, Work};

/// So often the judge is run in a row.
const IN_A_ROW: usize = 128;

/// The calls that are timed one by one.
pub const KINDS: [&str; 3] = ["ask", "link", "unlink"];

/// Nanoseconds of a call: the single call, and the same call as a record of a stream without the judge's part.
pub struct Times {
    pub single: f64,
    pub record: f64,
}

/// Nanoseconds of the judge: once between other work, and each time in a row of many.
pub struct Judge {
    pub once: f64,
    pub in_a_row: f64,
}

/// One who is timed: its calls in the order of `KINDS`, and nanoseconds for each record of a day.
pub struct Timed {
    pub calls: Vec<Times>,
    pub day: f64,
}

pub struct Measured {
    pub n: usize,
    pub library: Timed,
    pub plain: Timed,
    pub hashed: Timed,
    pub second_day: f64,
    pub library_judge: Judge,
    pub plain_judge: Judge,
    /// The library's ask about the first two places as a record.
    pub near_ask: f64,
    /// What judging once comes to for each record of a day.
    pub day_judge: f64,
    pub links: usize,
    /// The reversals of each link that began turning.
    pub turnings: Vec<u32>,
}

/// A table with the links that stand, and with those of the work beside.
struct Tables<C> {
    before: C,
    after: C,
}

/// All of them ready for the work of one size.
pub struct Ready<'w> {
    work: &'w Work,
    library: Tables<Library>,
    plain: Tables<Plain>,
    hashed: Tables<Hashed>,
    second: Independent,
}

/// The jobs of one kind of call.
struct CallJobs {
    singles: usize,
    single: Slot,
    records: usize,
    stream: Slot,
    no_records: Slot,
}

struct TimedJobs {
    calls: Vec<CallJobs>,
    day: Slot,
}

/// The jobs of one size.
pub struct Jobs<'a> {
    ready: &'a Ready<'a>,
    library: TimedJobs,
    plain: TimedJobs,
    hashed: TimedJobs,
    second_day: Slot,
    library_judge: [Slot; 2],
    plain_judge: [Slot; 2],
    near_asks: Slot,
}

fn carried_out<C: Contender>(mut on: C, calls: &[Call]) -> C {
    on.lend(&day(calls));
    on.stream();
    on.lend(&[]);
    on
}

impl<C: Contender> Tables<C> {
    fn new(empty: C, work: &Work) -> Tables<C> {
        let before = carried_out(empty, &work.table);
        Tables { after: carried_out(before.clone(), &work.links), before }
    }

    fn jobs<'a>(&'a self, work: &'a Work, turns: &mut Turns<'a>) -> TimedJobs {
        let kinds =
            [(&self.before, &work.asks), (&self.before, &work.links), (&self.after, &work.unlinks)];
        let calls = kinds.into_iter().map(|(table, calls)| CallJobs {
            singles: split(calls).0.len(),
            single: turns.calls(table, split(calls).0),
            records: calls.len(),
            stream: turns.stream(table, calls),
            no_records: turns.stream(table, &[]),
        });
        TimedJobs { calls: calls.collect(), day: turns.stream(&self.before, &work.day) }
    }
}

impl<'w> Ready<'w> {
    pub fn new(work: &'w Work) -> Ready<'w> {
        Ready {
            work,
            library: Tables::new(Library::new(work.sizes), work),
            plain: Tables::new(Plain::new(work.sizes), work),
            hashed: Tables::new(Hashed::new(), work),
            second: carried_out(Independent::new(work.sizes), &work.table),
        }
    }

    pub fn jobs<'a>(&'a self, turns: &mut Turns<'a>) -> Jobs<'a> {
        Jobs {
            ready: self,
            library: self.library.jobs(self.work, turns),
            plain: self.plain.jobs(self.work, turns),
            hashed: self.hashed.jobs(self.work, turns),
            second_day: turns.stream(&self.second, &self.work.day),
            library_judge: judge_jobs(turns, move || self.library.before.judge()),
            plain_judge: judge_jobs(turns, move || self.plain.before.judge()),
            near_asks: turns.stream(&self.library.before, &self.work.near_asks),
        }
    }

    fn turnings(&self) -> Vec<u32> {
        let mut library = self.library.before.clone();
        library.lend(&day(&self.work.links));
        library.stream();
        let numbers = library.answers().chunks_exact(2).map(|words| words[1]);
        numbers.filter(|&number| number > 0).collect()
    }
}

fn judge_jobs<'a>(turns: &mut Turns<'a>, judge: impl Fn() -> bool + Copy + 'a) -> [Slot; 2] {
    let job = |times: usize| move || timed(|| (0..times).map(|_| u64::from(judge())).sum());
    [turns.add(job(1)), turns.add(job(IN_A_ROW))]
}

fn judge_times([once, in_a_row]: [Slot; 2], least: &Least) -> Judge {
    Judge { once: least.of(once), in_a_row: least.of(in_a_row) / IN_A_ROW as f64 }
}

impl CallJobs {
    fn times(&self, least: &Least) -> Times {
        let single = least.of(self.single) / self.singles as f64;
        let stream = least.of(self.stream) - least.of(self.no_records);
        Times { single, record: stream / self.records as f64 }
    }
}

impl TimedJobs {
    fn timed(&self, least: &Least, records: f64) -> Timed {
        let calls = self.calls.iter().map(|calls| calls.times(least)).collect();
        Timed { calls, day: least.of(self.day) / records }
    }
}

impl Jobs<'_> {
    pub fn measured(&self, least: &Least) -> Measured {
        let work = self.ready.work;
        let records = work.day.len() as f64;
        let no_records = least.of(self.library.calls[0].no_records);
        let near_asks = least.of(self.near_asks) - no_records;
        Measured {
            n: work.sizes.n,
            library: self.library.timed(least, records),
            plain: self.plain.timed(least, records),
            hashed: self.hashed.timed(least, records),
            second_day: least.of(self.second_day) / records,
            library_judge: judge_times(self.library_judge, least),
            plain_judge: judge_times(self.plain_judge, least),
            near_ask: near_asks / work.near_asks.len() as f64,
            day_judge: no_records / records,
            links: work.links.len(),
            turnings: self.ready.turnings(),
        }
    }
}
