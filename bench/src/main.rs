//! How long the library's calls take, beside the same procedure in plain Rust, a hash set of pairs and the second program.
//!
//! `bench MACHINE` times everything in one run and prints a page; MACHINE is what the page says of where it ran. `bench --check`
//! gives all of them the work once at small sizes and times nothing.

mod account;
mod agree;
mod call;
mod contender;
mod full;
mod hashed;
mod independent;
mod library;
mod measure;
mod pairs;
mod plain;
mod random;
mod report;
mod text;
mod timing;
mod work;

use std::process::ExitCode;
use std::time::Duration;

use measure::{Jobs, Measured, Ready};
use report::Page;
use timing::{timed, Turns};
use work::Work;

const SIZES: [usize; 4] = [64, 256, 1024, 4096];
const DAY_RECORDS: usize = 65535;
/// The full tables whose judging is held to each other.
const FULL_SIZES: [usize; 2] = [1024, 4096];
const SECONDS: u64 = 90;

const CHECK_SIZES: [usize; 2] = [64, 256];
const CHECK_RECORDS: usize = 4096;

fn main() -> ExitCode {
    let arguments: Vec<String> = std::env::args().skip(1).collect();
    let page = match &arguments[..] {
        [argument] if argument == "--check" => check(),
        [machine] => page(machine),
        _ => Err("one argument: the machine's name, or --check".to_string()),
    };
    match page {
        Ok(page) => {
            println!("{}", page);
            ExitCode::SUCCESS
        }
        Err(trouble) => {
            eprintln!("bench: {}", trouble);
            ExitCode::FAILURE
        }
    }
}

/// The work at one size, once all agree on it.
fn agreed(n: usize, records: usize) -> Result<Work, String> {
    let work = Work::new(n, records);
    agree::check(&work).map_err(|trouble| format!("n {}: {}", n, trouble))?;
    Ok(work)
}

fn check() -> Result<String, String> {
    for n in CHECK_SIZES {
        agreed(n, CHECK_RECORDS)?;
    }
    Ok("bench: library, plain Rust, second program and hash set agree".to_string())
}

fn page(machine: &str) -> Result<String, String> {
    let works: Vec<Work> =
        SIZES.into_iter().map(|n| agreed(n, DAY_RECORDS)).collect::<Result<_, _>>()?;
    let ready: Vec<Ready> = works.iter().map(Ready::new).collect();
    let full = FULL_SIZES.map(full::table);
    let mut turns = Turns::default();
    let jobs: Vec<Jobs> = ready.iter().map(|ready| ready.jobs(&mut turns)).collect();
    let [small, large] =
        [&full[0], &full[1]].map(|table| turns.add(move || timed(|| u64::from(table.judge()))));
    let least = turns.rounds(Duration::from_secs(SECONDS));
    let sizes: Vec<Measured> = jobs.iter().map(|jobs| jobs.measured(&least)).collect();
    let full = [least.of(small), least.of(large)];
    Ok(report::page(machine, &Page { sizes, records: DAY_RECORDS, full_sizes: FULL_SIZES, full }))
}
