//! What a call answers, unpacked from the number that the library returns.

use crate::refusal::Refusal;

/// What a call answers.
#[derive(Clone, Copy, Debug, PartialEq, Eq)]
pub enum Outcome {
    /// Done, with the call's number.
    Done(u32),
    /// Refused; the store is as it was.
    Refused(Refusal),
}

/// The refusal and the number of a result: the library returns the refusal times 2^32 plus the number.
pub(crate) fn halves(result: u64) -> (Option<Refusal>, u32) {
    (named((result >> 32) as u32), result as u32)
}

fn named(refusal: u32) -> Option<Refusal> {
    match refusal {
        0 => None,
        _ => Some(Refusal::of(refusal).expect("the library's refusals are numbered 1 to 14")),
    }
}

impl Outcome {
    pub(crate) fn unpack(result: u64) -> Outcome {
        let (refusal, number) = halves(result);
        refusal.map_or(Outcome::Done(number), Outcome::Refused)
    }

    /// The outcome that two answer words say.
    pub(crate) fn of(refusal: u32, number: u32) -> Outcome {
        named(refusal).map_or(Outcome::Done(number), Outcome::Refused)
    }

    /// The number of a call that is done.
    pub fn number(self) -> Result<u32, Refusal> {
        match self {
            Outcome::Done(number) => Ok(number),
            Outcome::Refused(refusal) => Err(refusal),
        }
    }
}

#[cfg(test)]
mod tests {
    use super::*;

    #[test]
    fn refusal_and_number_are_taken_apart() {
        assert_eq!(Outcome::unpack(0), Outcome::Done(0));
        assert_eq!(Outcome::unpack(u64::from(u32::MAX)), Outcome::Done(u32::MAX));
        for refusal in Refusal::ALL {
            let result = u64::from(refusal.number()) << 32;
            assert_eq!(Outcome::unpack(result), Outcome::Refused(refusal));
            assert_eq!(halves(result + 7), (Some(refusal), 7));
        }
    }
}
