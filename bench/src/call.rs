//! A call that a record can ask for, its answer, and the record's fifteen bytes.

use std::fmt;

use wormstrand::Run;

pub const RECORD_BYTES: usize = 15;
const MARK: [u8; 2] = [0x52, 0x4E];
const NO_RUN: Run = Run { line: 0, trip: 0 };

const WRONG_MARK: u32 = 11;
const WRONG_KIND: u32 = 12;
const CUT_SHORT: u32 = 13;

#[derive(Clone, Copy, Debug, PartialEq, Eq)]
pub enum Call {
    Open(Run),
    Close(Run),
    Link(Run, Run),
    Unlink(Run, Run),
    Ask(Run, Run),
}

/// The refusal, 0 where the call is done, and the number.
#[derive(Clone, Copy, Debug, PartialEq, Eq)]
pub struct Answer {
    pub refusal: u32,
    pub number: u32,
}

impl From<Result<u32, u32>> for Answer {
    fn from(result: Result<u32, u32>) -> Answer {
        match result {
            Ok(number) => Answer { refusal: 0, number },
            Err(refusal) => Answer { refusal, number: 0 },
        }
    }
}

impl Call {
    fn parts(self) -> (u8, Run, Run) {
        match self {
            Call::Open(run) => (1, run, NO_RUN),
            Call::Close(run) => (2, run, NO_RUN),
            Call::Link(a, b) => (3, a, b),
            Call::Unlink(a, b) => (4, a, b),
            Call::Ask(a, b) => (5, a, b),
        }
    }

    /// The call of the record at the front of the bytes, or the refusal that stops a stream there.
    pub fn read(bytes: &[u8]) -> Result<Call, u32> {
        let record = bytes.get(..RECORD_BYTES).ok_or(CUT_SHORT)?;
        if record[..2] != MARK {
            return Err(WRONG_MARK);
        }
        let (a, b) = (run(&record[3..9]), run(&record[9..]));
        match record[2] {
            1 if b == NO_RUN => Ok(Call::Open(a)),
            2 if b == NO_RUN => Ok(Call::Close(a)),
            3 => Ok(Call::Link(a, b)),
            4 => Ok(Call::Unlink(a, b)),
            5 => Ok(Call::Ask(a, b)),
            _ => Err(WRONG_KIND),
        }
    }

    fn write(self, bytes: &mut Vec<u8>) {
        let (kind, a, b) = self.parts();
        bytes.extend(MARK);
        bytes.push(kind);
        for run in [a, b] {
            bytes.extend((run.line as u16).to_be_bytes());
            bytes.extend(run.trip.to_be_bytes());
        }
    }
}

/// A day's bytes.
pub fn day(calls: &[Call]) -> Vec<u8> {
    let mut bytes = Vec::with_capacity(RECORD_BYTES * calls.len());
    calls.iter().for_each(|call| call.write(&mut bytes));
    bytes
}

fn run(bytes: &[u8]) -> Run {
    Run {
        line: u32::from(u16::from_be_bytes([bytes[0], bytes[1]])),
        trip: u32::from_be_bytes([bytes[2], bytes[3], bytes[4], bytes[5]]),
    }
}

impl fmt::Display for Call {
    fn fmt(&self, f: &mut fmt::Formatter<'_>) -> fmt::Result {
        let (kind, a, b) = self.parts();
        let name = ["open", "close", "link", "unlink", "ask"][usize::from(kind) - 1];
        write!(f, "{} {} {}", name, a.line, a.trip)?;
        match self {
            Call::Open(_) | Call::Close(_) => Ok(()),
            _ => write!(f, " {} {}", b.line, b.trip),
        }
    }
}

impl fmt::Display for Answer {
    fn fmt(&self, f: &mut fmt::Formatter<'_>) -> fmt::Result {
        write!(f, "refusal {} number {}", self.refusal, self.number)
    }
}
