//! What comes back: a result, or a refusal with its number and place.

use std::fmt;

/// The refusals by name and number (rule 2.4).
#[derive(Clone, Copy, Debug, PartialEq, Eq)]
pub enum Refusal {
    BadBench = 1,
    NoSuchRequest = 2,
    Short = 3,
    ArgSize = 4,
    Flags = 5,
    Index = 6,
    Unaligned = 7,
    Empty = 8,
    Range = 9,
    Overlap = 10,
    NoRoom = 11,
    Cuts = 12,
    TooLong = 13,
    Unmapped = 14,
    NoRight = 15,
    Unwritten = 16,
    Running = 17,
    Truncated = 18,
    Header = 19,
    UnknownPart = 20,
    Twice = 21,
    Value = 22,
    Mismatch = 23,
    Missing = 24,
    Unset = 25,
    ReadOnly = 26,
    NoSpace = 27,
    QueueNotReady = 28,
    RingDistance = 29,
    DescriptorIndex = 30,
    ChainLength = 31,
    Indirect = 32,
    Magic = 33,
}

/// A refusal and its place, which is 0 unless a rule states one (rule 2.2).
#[derive(Clone, Copy, Debug, PartialEq, Eq)]
pub struct Refused {
    pub refusal: Refusal,
    pub place: u64,
}

/// What a call gives.
pub type Answer<T> = Result<T, Refused>;

impl Refusal {
    pub fn number(self) -> u64 {
        self as u64
    }

    pub fn at(self, place: u64) -> Refused {
        Refused {
            refusal: self,
            place,
        }
    }
}

impl From<Refusal> for Refused {
    fn from(refusal: Refusal) -> Refused {
        refusal.at(0)
    }
}

impl fmt::Display for Refused {
    fn fmt(&self, f: &mut fmt::Formatter) -> fmt::Result {
        let number = self.refusal.number();
        write!(f, "refused {number} {:?} at {}", self.refusal, self.place)
    }
}

/// One line of a list of checks.
pub fn refuse_if(fault: bool, with: impl Into<Refused>) -> Answer<()> {
    if fault {
        Err(with.into())
    } else {
        Ok(())
    }
}

#[cfg(test)]
mod tests {
    use super::*;

    #[test]
    fn the_refusals_have_the_numbers_of_the_rules() {
        let names = [
            (Refusal::BadBench, 1),
            (Refusal::NoSuchRequest, 2),
            (Refusal::Short, 3),
            (Refusal::ArgSize, 4),
            (Refusal::Flags, 5),
            (Refusal::Index, 6),
            (Refusal::Unaligned, 7),
            (Refusal::Empty, 8),
            (Refusal::Range, 9),
            (Refusal::Overlap, 10),
            (Refusal::NoRoom, 11),
            (Refusal::Cuts, 12),
            (Refusal::TooLong, 13),
            (Refusal::Unmapped, 14),
            (Refusal::NoRight, 15),
            (Refusal::Unwritten, 16),
            (Refusal::Running, 17),
            (Refusal::Truncated, 18),
            (Refusal::Header, 19),
            (Refusal::UnknownPart, 20),
            (Refusal::Twice, 21),
            (Refusal::Value, 22),
            (Refusal::Mismatch, 23),
            (Refusal::Missing, 24),
            (Refusal::Unset, 25),
            (Refusal::ReadOnly, 26),
            (Refusal::NoSpace, 27),
            (Refusal::QueueNotReady, 28),
            (Refusal::RingDistance, 29),
            (Refusal::DescriptorIndex, 30),
            (Refusal::ChainLength, 31),
            (Refusal::Indirect, 32),
            (Refusal::Magic, 33),
        ];
        for (refusal, number) in names {
            assert_eq!(refusal.number(), number, "{refusal:?}");
        }
    }

    #[test]
    fn a_refusal_is_shown_with_number_name_and_place() {
        assert_eq!(
            Refusal::Unwritten.at(1).to_string(),
            "refused 16 Unwritten at 1"
        );
        assert_eq!(
            Refused::from(Refusal::Cuts).to_string(),
            "refused 12 Cuts at 0"
        );
    }
}
