//! The command line of the second program: `day`, `run`, `make` and `days`.

#![forbid(unsafe_code)]

use std::io::{self, BufWriter, Read, Write};
use std::path::Path;
use std::process::ExitCode;

use second::make::{self, days, ScriptKind};
use second::{day, runner};

const USAGE: &str = "usage: second day
       second run [--counts]
       second make reads|writes|links|streams|all SEED COUNT
       second days SEED COUNT DIR";

/// The exit status when the arguments or the script are wrong, as against a failed read or write.
const WRONG_INPUT: u8 = 2;

/// What stops the program: its exit status and what it says.
struct Failure(u8, String);

fn main() -> ExitCode {
    let arguments: Vec<String> = std::env::args().skip(1).collect();
    let arguments: Vec<&str> = arguments.iter().map(String::as_str).collect();
    match carry_out(&arguments) {
        Ok(()) => ExitCode::SUCCESS,
        Err(Failure(status, wrong)) => {
            eprintln!("second: {}", wrong);
            ExitCode::from(status)
        }
    }
}

fn carry_out(arguments: &[&str]) -> Result<(), Failure> {
    match arguments {
        ["day"] => print_day(),
        ["run"] => run_script(false),
        ["run", "--counts"] => run_script(true),
        ["make", kind, seed, count] => {
            let kind = ScriptKind::of(kind).ok_or_else(|| wrong(format!("no kind `{}`", kind)))?;
            print_script(kind, number(seed)?, number(count)?)
        }
        ["days", seed, count, folder] => {
            let (seed, count) = (number(seed)?, number(count)?);
            days::write(seed, count, Path::new(folder)).map_err(|error| failed(folder, error))
        }
        _ => Err(wrong(USAGE.to_string())),
    }
}

fn print_day() -> Result<(), Failure> {
    let mut bytes = Vec::new();
    io::stdin().read_to_end(&mut bytes).map_err(|error| failed("standard input", error))?;
    let text = day::lines(&bytes);
    io::stdout().write_all(text.as_bytes()).map_err(|error| failed("standard output", error))
}

fn run_script(counts: bool) -> Result<(), Failure> {
    let mut out = BufWriter::new(io::stdout());
    let result = runner::run(io::stdin().lock(), &mut out);
    // What was done before a wrong line is printed all the same.
    out.flush().map_err(|error| failed("standard output", error))?;
    let caller = result.map_err(|trouble| wrong(trouble.to_string()))?;
    if counts {
        eprint!("{}", caller.tally);
    }
    Ok(())
}

fn print_script(kind: ScriptKind, seed: u64, count: u64) -> Result<(), Failure> {
    let mut out = BufWriter::new(io::stdout());
    make::make(kind, seed, count, &mut out)
        .and_then(|()| out.flush())
        .map_err(|error| failed("standard output", error))
}

fn number(word: &str) -> Result<u64, Failure> {
    word.parse().map_err(|_| wrong(format!("`{}` is not a number below 2^64", word)))
}

fn wrong(what: String) -> Failure {
    Failure(WRONG_INPUT, what)
}

fn failed(place: &str, error: io::Error) -> Failure {
    Failure(1, format!("{}: {}", place, error))
}
