//! That all answer alike: the time of a wrong answer is worth nothing.

use crate::call::{day, Answer, Call};
use crate::contender::Contender;
use crate::hashed::Hashed;
use crate::independent::Independent;
use crate::library::Library;
use crate::plain::Plain;
use crate::work::{split, Work};

/// The library and all others, on tables that hold the same.
struct All {
    library: Library,
    plain: Plain,
    second: Independent,
    hashed: Hashed,
}

/// Gives all of them the work and holds their answers and tables to the library's.
pub fn check(work: &Work) -> Result<(), String> {
    let mut all = All::new(work);
    all.stream(&work.table)?;
    for calls in [&work.asks, &work.near_asks, &work.links, &work.unlinks] {
        let (singles, records) = split(calls);
        singles.iter().try_for_each(|&call| all.carry(call))?;
        all.stream(records)?;
    }
    all.stream(&work.day)
}

impl All {
    fn new(work: &Work) -> All {
        All {
            library: Library::new(work.sizes),
            plain: Plain::new(work.sizes),
            second: Independent::new(work.sizes),
            hashed: Hashed::new(),
        }
    }

    fn carry(&mut self, call: Call) -> Result<(), String> {
        let due = self.library.carry(call);
        same(call, due, self.plain.name(), self.plain.carry(call))?;
        same(call, due, self.second.name(), self.second.carry(call))?;
        same_as_hashed(call, due, self.hashed.carry(call))
    }

    fn stream(&mut self, calls: &[Call]) -> Result<(), String> {
        let bytes = day(calls);
        let due = streamed(&mut self.library, &bytes, calls.len())?;
        let plain = streamed(&mut self.plain, &bytes, calls.len())?;
        let second = streamed(&mut self.second, &bytes, calls.len())?;
        let hashed = streamed(&mut self.hashed, &bytes, calls.len())?;
        for (i, &call) in calls.iter().enumerate() {
            same(call, due[i], self.plain.name(), plain[i])?;
            same(call, due[i], self.second.name(), second[i])?;
            same_as_hashed(call, due[i], hashed[i])?;
        }
        self.same_words()
    }

    fn same_words(&self) -> Result<(), String> {
        let due = self.library.words();
        if self.plain.words() == due && self.second.words() == due {
            return Ok(());
        }
        Err("the tables differ after the same calls".to_string())
    }
}

fn streamed<C: Contender>(to: &mut C, bytes: &[u8], records: usize) -> Result<Vec<Answer>, String> {
    to.lend(bytes);
    let carried = to.stream();
    if carried != records {
        return Err(format!("{} carried out {} of {} records", to.name(), carried, records));
    }
    let answers = to.answers().chunks_exact(2);
    Ok(answers.map(|words| Answer { refusal: words[0], number: words[1] }).collect())
}

fn same(call: Call, due: Answer, name: &str, given: Answer) -> Result<(), String> {
    if due == given {
        return Ok(());
    }
    Err(format!("{}: the library gives {}, {} gives {}", call, due, name, given))
}

/// The hash set knows no places and no reversals: its number counts for an ask alone.
fn same_as_hashed(call: Call, due: Answer, given: Answer) -> Result<(), String> {
    let number = match call {
        Call::Ask(..) => given.number,
        _ => due.number,
    };
    same(call, due, "hash set", Answer { refusal: given.refusal, number })
}
