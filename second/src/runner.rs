//! Runner: a script read line by line, and the lines printed for it.

use std::fmt;
use std::io::{self, BufRead, Write};

use crate::caller::Caller;
use crate::digest;
use crate::script::{self, Command, TableName};

/// Why a script could not be run to its end.
#[derive(Debug)]
pub enum Trouble {
    /// A line that is not a command: its number from 1 and what is wrong with it.
    Line(u64, String),
    Reading(u64, io::Error),
    Writing(io::Error),
}

impl fmt::Display for Trouble {
    fn fmt(&self, f: &mut fmt::Formatter<'_>) -> fmt::Result {
        match self {
            Trouble::Line(line, wrong) => write!(f, "script line {}: {}", line, wrong),
            Trouble::Reading(line, error) => write!(f, "reading script line {}: {}", line, error),
            Trouble::Writing(error) => write!(f, "writing the outcomes: {}", error),
        }
    }
}

/// Runs a script from bare tables, prints to `out`, and gives the caller as it is at the end.
pub fn run(script: impl BufRead, out: &mut impl Write) -> Result<Caller, Trouble> {
    let mut caller = Caller::default();
    for (line, position) in script.lines().zip(1..) {
        let line = line.map_err(|error| Trouble::Reading(position, error))?;
        let command = script::parse(&line).map_err(|wrong| Trouble::Line(position, wrong))?;
        if let Some(command) = command {
            obey(&command, &mut caller, out).map_err(Trouble::Writing)?;
        }
    }
    Ok(caller)
}

fn obey(command: &Command, caller: &mut Caller, out: &mut impl Write) -> io::Result<()> {
    let outcome = command.obey(caller);
    match (command, outcome) {
        (Command::Call(call), Some(outcome)) => {
            let digest = digest::of(&caller.lent);
            writeln!(out, "{} {} {} {:016x}", call.name(), outcome.refusal, outcome.number, digest)
        }
        (Command::Show, _) => show(caller, out),
        _ => Ok(()),
    }
}

/// Every table whole, one line each.
fn show(caller: &Caller, out: &mut impl Write) -> io::Result<()> {
    for table in TableName::ALL {
        write!(out, "{}:", table.name())?;
        table.words(&caller.lent).iter().try_for_each(|word| write!(out, " {}", word))?;
        writeln!(out)?;
    }
    let totals = caller.lent.totals;
    writeln!(out, "totals: {} {}", totals.links, totals.reversals)
}
