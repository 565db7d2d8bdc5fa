//! Record: one day record of fifteen bytes, read from the front of a stream.

use crate::refusal::Refusal;
use crate::run::Run;
use crate::sizes::RECORD_BYTES;

/// The mark before each record.
pub const MARK: [u8; 2] = [0x52, 0x4E];

/// Where the kind byte and the two runs stand in a record.
pub const KIND_AT: usize = MARK.len();
pub const FIRST_AT: usize = KIND_AT + 1;
pub const SECOND_AT: usize = FIRST_AT + RUN_BYTES;

/// Bytes of a run: two for the line, four for the trip number.
const RUN_BYTES: usize = 6;

/// The kinds of record.
#[derive(Clone, Copy, Debug, PartialEq, Eq, PartialOrd, Ord, Hash)]
pub enum Kind {
    Open = 1,
    Close = 2,
    Link = 3,
    Unlink = 4,
    Ask = 5,
}

impl Kind {
    pub const ALL: [Kind; 5] = [Kind::Open, Kind::Close, Kind::Link, Kind::Unlink, Kind::Ask];

    fn of(byte: u8) -> Option<Kind> {
        Kind::ALL.iter().copied().find(|kind| *kind as u8 == byte)
    }

    /// Opening and closing concern one run only.
    pub fn names_one_run(self) -> bool {
        matches!(self, Kind::Open | Kind::Close)
    }
}

#[derive(Clone, Copy, Debug, PartialEq, Eq)]
pub struct Record {
    pub kind: Kind,
    pub first: Run,
    pub second: Run,
}

impl Record {
    /// Reads the record at the front of a stream that has not ended, and hands on the rest.
    pub fn read(bytes: &[u8]) -> Result<(Record, &[u8]), Refusal> {
        if bytes.len() < RECORD_BYTES {
            return Err(Refusal::Cut);
        }
        let (record, rest) = bytes.split_at(RECORD_BYTES);
        if !record.starts_with(&MARK) {
            return Err(Refusal::Mark);
        }
        let kind = Kind::of(record[KIND_AT]).ok_or(Refusal::Kind)?;
        let first = run(&record[FIRST_AT..SECOND_AT]);
        let second = run(&record[SECOND_AT..]);
        if kind.names_one_run() && second != Run::default() {
            return Err(Refusal::Kind);
        }
        Ok((Record { kind, first, second }, rest))
    }

    /// The record's bytes. A line must be below 2^16, which every line of a record is.
    pub fn bytes(&self) -> Vec<u8> {
        let mut bytes = MARK.to_vec();
        bytes.push(self.kind as u8);
        for run in [self.first, self.second] {
            bytes.extend(&run.line.to_be_bytes()[2..]);
            bytes.extend(&run.trip.to_be_bytes());
        }
        bytes
    }
}

/// A run from its six bytes, the most significant first.
fn run(bytes: &[u8]) -> Run {
    let (line, trip) = bytes.split_at(2);
    Run::new(big_endian(line), big_endian(trip))
}

fn big_endian(bytes: &[u8]) -> u32 {
    bytes.iter().fold(0, |number, &byte| number << 8 | u32::from(byte))
}
