//! Script: the commands of a script of calls on raw tables, read from lines and written to lines.
//!
//! One command a line, words separated by one space, decimal numbers; empty lines and lines that
//! begin with `#` are passed over. At the start sizes and totals are 0 and every table is bare.
//!
//! ```text
//! sizes N C D            the sizes handed to the calls that follow, each up to 2^64 - 1
//! store W W ..           the whole table; each W is a word or `W*K`, K copies of it
//! spare / waiting / answers W W ..      likewise
//! poke TABLE I W         sets word I of that table; passed over if I is past its end
//! bytes HEX              the stream's bytes, two hex digits each; `bytes` alone for none
//! totals A R             the running totals, each up to 2^64 - 1
//! empty | open L T | close L T | link L T L T | unlink L T L T | ask L T L T
//! reading P P .. | stream
//! show                   prints every table whole
//! ```
//!
//! Tables, sizes, bytes and totals stay from line to line. Each call prints one line,
//! `NAME REFUSAL NUMBER DIGEST`, the digest being that of `digest::of` in 16 lowercase hex digits.
//! `show` prints `store:`, `spare:`, `waiting:` and `answers:`, each on a line with its words after
//! it, a space before each word, and then `totals: A R`.

use std::fmt;
use std::str::FromStr;

use crate::call::Call;
use crate::caller::{Caller, Lent, Totals};
use crate::refusal::Outcome;
use crate::run::Run;
use crate::sizes::Sizes;

/// The most words a script may give a table: far above every table that can be right, and low
/// enough that a slip in a count cannot take all memory.
pub const TABLE_WORDS_MAX: u64 = 1 << 24;

/// From this many equal words on, a table is written with the short form `W*K`.
const SHORT_FORM_FROM: usize = 4;

/// The tables that a script can set.
#[derive(Clone, Copy, Debug, PartialEq, Eq)]
pub enum TableName {
    Store,
    Spare,
    Waiting,
    Answers,
}

impl TableName {
    pub const ALL: [TableName; 4] =
        [TableName::Store, TableName::Spare, TableName::Waiting, TableName::Answers];

    pub fn name(self) -> &'static str {
        match self {
            TableName::Store => "store",
            TableName::Spare => "spare",
            TableName::Waiting => "waiting",
            TableName::Answers => "answers",
        }
    }

    fn of(name: &str) -> Option<TableName> {
        TableName::ALL.iter().copied().find(|table| table.name() == name)
    }

    /// The lent table of this name.
    pub fn words(self, lent: &Lent) -> &Vec<u32> {
        match self {
            TableName::Store => &lent.store,
            TableName::Spare => &lent.spare,
            TableName::Waiting => &lent.waiting,
            TableName::Answers => &lent.answers,
        }
    }

    fn words_mut(self, lent: &mut Lent) -> &mut Vec<u32> {
        match self {
            TableName::Store => &mut lent.store,
            TableName::Spare => &mut lent.spare,
            TableName::Waiting => &mut lent.waiting,
            TableName::Answers => &mut lent.answers,
        }
    }
}

/// One line of a script.
#[derive(Clone, Debug, PartialEq, Eq)]
pub enum Command {
    Sizes(Sizes),
    Table(TableName, Vec<u32>),
    Poke(TableName, u64, u32),
    Bytes(Vec<u8>),
    Totals(Totals),
    Call(Call),
    Show,
}

impl Command {
    /// Does the command. A call gives its outcome; `show` is left to the one who prints.
    pub fn obey(&self, caller: &mut Caller) -> Option<Outcome> {
        match self {
            Command::Sizes(sizes) => caller.sizes = *sizes,
            Command::Table(table, words) => *table.words_mut(&mut caller.lent) = words.clone(),
            Command::Poke(table, index, word) => {
                poke(table.words_mut(&mut caller.lent), *index, *word)
            }
            Command::Bytes(bytes) => caller.lent.bytes = bytes.clone(),
            Command::Totals(totals) => caller.lent.totals = *totals,
            Command::Call(call) => return Some(caller.call(call)),
            Command::Show => {}
        }
        None
    }
}

/// Sets one word; an index past the end is passed over.
fn poke(words: &mut [u32], index: u64, word: u32) {
    let found = usize::try_from(index).ok().and_then(|index| words.get_mut(index));
    if let Some(found) = found {
        *found = word;
    }
}

/// Reads one line: nothing for an empty line or a remark, else its command or what is wrong.
pub fn parse(line: &str) -> Result<Option<Command>, String> {
    if line.is_empty() || line.starts_with('#') {
        return Ok(None);
    }
    let words: Vec<&str> = line.split(' ').collect();
    if words.iter().any(|word| word.is_empty()) {
        return Err("words must be separated by exactly one space".to_string());
    }
    command(words[0], &words[1..]).map(Some)
}

fn command(verb: &str, rest: &[&str]) -> Result<Command, String> {
    if let Some(table) = TableName::of(verb) {
        return Ok(Command::Table(table, table_words(rest)?));
    }
    match verb {
        "sizes" => {
            let [n, c, d] = numbers(verb, rest)?;
            Ok(Command::Sizes(Sizes { n, c, d }))
        }
        "totals" => {
            let [links, reversals] = numbers(verb, rest)?;
            Ok(Command::Totals(Totals { links, reversals }))
        }
        "poke" => poke_command(rest),
        "bytes" => Ok(Command::Bytes(hex_bytes(rest)?)),
        "show" => numbers::<u32, 0>(verb, rest).map(|_| Command::Show),
        _ => call(verb, rest).map(Command::Call),
    }
}

fn call(verb: &str, rest: &[&str]) -> Result<Call, String> {
    match verb {
        "empty" => numbers::<u32, 0>(verb, rest).map(|_| Call::Empty),
        "stream" => numbers::<u32, 0>(verb, rest).map(|_| Call::Stream),
        "open" => one_run(verb, rest).map(Call::Open),
        "close" => one_run(verb, rest).map(Call::Close),
        "link" => two_runs(verb, rest).map(|(a, b)| Call::Link(a, b)),
        "unlink" => two_runs(verb, rest).map(|(a, b)| Call::Unlink(a, b)),
        "ask" => two_runs(verb, rest).map(|(a, b)| Call::Ask(a, b)),
        "reading" => {
            rest.iter().map(|word| number(word)).collect::<Result<_, _>>().map(Call::Reading)
        }
        _ => Err(format!("no command is called `{}`", verb)),
    }
}

fn one_run(verb: &str, rest: &[&str]) -> Result<Run, String> {
    let [line, trip] = numbers(verb, rest)?;
    Ok(Run::new(line, trip))
}

fn two_runs(verb: &str, rest: &[&str]) -> Result<(Run, Run), String> {
    let [line_a, trip_a, line_b, trip_b] = numbers(verb, rest)?;
    Ok((Run::new(line_a, trip_a), Run::new(line_b, trip_b)))
}

fn poke_command(rest: &[&str]) -> Result<Command, String> {
    match rest {
        [name, index, word] => {
            let table = TableName::of(name).ok_or(format!("no table is called `{}`", name))?;
            Ok(Command::Poke(table, number(index)?, number(word)?))
        }
        _ => Err(format!("`poke` takes a table and 2 numbers, not {} words", rest.len())),
    }
}

/// Words of a table, each a number or `W*K`.
fn table_words(rest: &[&str]) -> Result<Vec<u32>, String> {
    let mut words = Vec::new();
    for piece in rest {
        let (word, copies) = piece.split_once('*').unwrap_or((piece, "1"));
        let (word, copies): (u32, u64) = (number(word)?, number(copies)?);
        if copies > TABLE_WORDS_MAX - words.len() as u64 {
            return Err(format!(
                "`{}` makes the table longer than {} words",
                piece, TABLE_WORDS_MAX
            ));
        }
        words.extend(std::iter::repeat(word).take(copies as usize));
    }
    Ok(words)
}

fn hex_bytes(rest: &[&str]) -> Result<Vec<u8>, String> {
    match rest {
        [] => Ok(Vec::new()),
        [text] if text.len() % 2 == 0 => text.as_bytes().chunks(2).map(hex_byte).collect(),
        [text] => Err(format!("{} hex digits do not make whole bytes", text.len())),
        _ => Err(format!("`bytes` takes one word of hex digits, not {}", rest.len())),
    }
}

fn hex_byte(digits: &[u8]) -> Result<u8, String> {
    digits.iter().try_fold(0, |byte, &digit| {
        let value = char::from(digit).to_digit(16);
        let value = value.ok_or(format!("byte {} is not a hex digit", digit))?;
        Ok(byte << 4 | value as u8)
    })
}

/// Exactly K numbers.
fn numbers<T: FromStr, const K: usize>(verb: &str, rest: &[&str]) -> Result<[T; K], String> {
    let found = rest.iter().map(|word| number(word)).collect::<Result<Vec<T>, String>>()?;
    let count = found.len();
    <[T; K]>::try_from(found).map_err(|_| format!("`{}` takes {} numbers, not {}", verb, K, count))
}

/// A decimal number, digits alone.
fn number<T: FromStr>(word: &str) -> Result<T, String> {
    if word.is_empty() || !word.bytes().all(|byte| byte.is_ascii_digit()) {
        return Err(format!("`{}` is not a decimal number", word));
    }
    word.parse().map_err(|_| format!("{} is too large", word))
}

impl fmt::Display for Command {
    fn fmt(&self, f: &mut fmt::Formatter<'_>) -> fmt::Result {
        match self {
            Command::Sizes(sizes) => write!(f, "sizes {} {} {}", sizes.n, sizes.c, sizes.d),
            Command::Table(table, words) => {
                write!(f, "{}", table.name())?;
                write_words(f, words)
            }
            Command::Poke(table, index, word) => {
                write!(f, "poke {} {} {}", table.name(), index, word)
            }
            Command::Bytes(bytes) if bytes.is_empty() => write!(f, "bytes"),
            Command::Bytes(bytes) => {
                write!(f, "bytes ")?;
                bytes.iter().try_for_each(|byte| write!(f, "{:02x}", byte))
            }
            Command::Totals(totals) => write!(f, "totals {} {}", totals.links, totals.reversals),
            Command::Call(call) => write!(f, "{}", call),
            Command::Show => write!(f, "show"),
        }
    }
}

/// Words with a space before each, equal neighbours in the short form.
fn write_words(f: &mut fmt::Formatter<'_>, words: &[u32]) -> fmt::Result {
    let mut rest = words;
    while let Some(&word) = rest.first() {
        let copies = rest.iter().take_while(|&&other| other == word).count();
        if copies >= SHORT_FORM_FROM {
            write!(f, " {}*{}", word, copies)?;
            rest = &rest[copies..];
        } else {
            write!(f, " {}", word)?;
            rest = &rest[1..];
        }
    }
    Ok(())
}

impl fmt::Display for Call {
    fn fmt(&self, f: &mut fmt::Formatter<'_>) -> fmt::Result {
        write!(f, "{}", self.name())?;
        match self {
            Call::Empty | Call::Stream => Ok(()),
            Call::Open(run) | Call::Close(run) => write!(f, " {} {}", run.line, run.trip),
            Call::Link(a, b) | Call::Unlink(a, b) | Call::Ask(a, b) => {
                write!(f, " {} {} {} {}", a.line, a.trip, b.line, b.trip)
            }
            Call::Reading(set) => set.iter().try_for_each(|place| write!(f, " {}", place)),
        }
    }
}
