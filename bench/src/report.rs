//! The page: what was measured and the tables.

use crate::account;
use crate::measure::{Measured, Times, KINDS};
use crate::text::{grouped, row, table, times_as_long};
use crate::work::{CELLS_PER_PLACE, LIMIT, LINKS_PER_PLACE};

/// What was measured, in one run.
pub struct Page {
    pub sizes: Vec<Measured>,
    /// The records of a day.
    pub records: usize,
    /// The full tables, and the judge on each of them.
    pub full_sizes: [usize; 2],
    pub full: [f64; 2],
}

pub fn page(machine: &str, page: &Page) -> String {
    let parts = [
        head(machine),
        with_judge(&page.sizes),
        without_judge(&page.sizes),
        stream(page),
        judge(page),
        account::where_time_goes(&page.sizes),
    ];
    parts.join("\n\n")
}

fn head(machine: &str) -> String {
    format!(
        "# How long calls take

Written by `bench/run.sh`, from one run; a time says something only beside the others of the same run. The machine:
{machine}.

All are given the same work. Before anything is timed they are held to the same answers, and those with tables to the same words.
C is {cells} times n and D is {limit}; every place is open and {links} links stand for each place; about half of the asks are of linked
runs. All times are nanoseconds, and each is the least of many rounds in which every job is run once.

- **library**: the proved calls, through `bindings/rust`.
- **plain Rust**: the same procedure on the same tables with a judge of the same kind, nothing proved (`bench/src/plain`).
- **hash set**: a hash set of pairs with a hash map of runs (`bench/src/hashed.rs`), which is what people would use instead. It
  has no limit and no tables, so it neither bounds a list nor judges anything.
- **second**: the independent program, `second/`, with its checks for overflow.",
        machine = machine,
        cells = CELLS_PER_PLACE,
        limit = LIMIT,
        links = LINKS_PER_PLACE,
    )
}

const SINGLES_HEAD: [&str; 7] = [
    "n",
    "call",
    "library",
    "plain Rust",
    "hash set",
    "library / plain Rust",
    "library / hash set",
];

fn with_judge(sizes: &[Measured]) -> String {
    format!(
        "## With the judge's part\n\nOne single call. The library and plain Rust judge the whole table first.\n\n{}",
        singles_table(sizes, |times| times.single)
    )
}

fn without_judge(sizes: &[Measured]) -> String {
    format!(
        "## Without the judge's part

The same calls as the records of one stream, which judges once: the time of the stream less that of a stream without records,
for each record. Reading the record and writing its answer are in it.

{}",
        singles_table(sizes, |times| times.record)
    )
}

fn singles_table(sizes: &[Measured], time: impl Fn(&Times) -> f64) -> String {
    let mut rows = Vec::new();
    for at in sizes {
        for (kind, name) in KINDS.iter().enumerate() {
            let [library, plain, hashed] =
                [&at.library, &at.plain, &at.hashed].map(|timed| time(&timed.calls[kind]));
            let mut cells = vec![grouped(at.n as f64), name.to_string()];
            cells.extend([library, plain, hashed].map(grouped));
            cells.extend([library / plain, library / hashed].map(times_as_long));
            rows.push(row(&cells));
        }
    }
    table(&SINGLES_HEAD, &rows)
}

fn stream(page: &Page) -> String {
    let rows = page.sizes.iter().map(|at| {
        let mut cells = vec![grouped(at.n as f64)];
        let others = [at.second_day, at.plain.day, at.hashed.day];
        cells.push(grouped(at.library.day));
        cells.extend(others.map(grouped));
        cells.extend(others.map(|other| times_as_long(at.library.day / other)));
        row(&cells)
    });
    let head = [
        "n",
        "library",
        "second",
        "plain Rust",
        "hash set",
        "library / second",
        "library / plain Rust",
        "library / hash set",
    ];
    format!(
        "## The stream

A day of {} records in one stream, for each record. On average 8 of 16 records are asks, 6 links and unlinks by turns, 1 an open or
a close by turns, and 1 an ask about a run that is not open.

{}",
        grouped(page.records as f64),
        table(&head, &rows.collect::<Vec<_>>())
    )
}

const JUDGE_HEAD: [&str; 7] = [
    "n",
    "library, once",
    "plain Rust, once",
    "library / plain Rust",
    "library, in a row",
    "plain Rust, in a row",
    "library / plain Rust",
];

fn judge(page: &Page) -> String {
    let rows = page.sizes.iter().map(|at| {
        let mut cells = vec![grouped(at.n as f64)];
        let (library, plain) = (&at.library_judge, &at.plain_judge);
        for (library, plain) in [(library.once, plain.once), (library.in_a_row, plain.in_a_row)] {
            cells.extend([library, plain].map(grouped));
            cells.push(times_as_long(library / plain));
        }
        row(&cells)
    });
    let [small, large] = page.full;
    let [few, many] = page.full_sizes.map(|n| grouped(n as f64));
    format!(
        "## The judge alone

The reading of a set without places, which is refused once the store is found sound: once between other work, and many times in a
row on the same table, as the single calls above are timed.

{table}

On full tables, every place open and every cell in a list, the judge takes {small} at n = {few} and {large} at n = {many}: the
ratio is **{ratio}**. Four times the table should take four times as long.",
        table = table(&JUDGE_HEAD, &rows.collect::<Vec<_>>()),
        small = grouped(small),
        few = few,
        large = grouped(large),
        many = many,
        ratio = times_as_long(large / small)
    )
}
