//! Answer numbers.

use std::error::Error;
use std::fmt;

/// What a call answered.
#[derive(Clone, Copy, Debug, PartialEq, Eq, Hash)]
pub enum Answer {
    /// Done: number 0.
    Done,
    /// Refused; nothing was changed but counters.
    Refused(Refusal),
}

/// Why a call was refused. After it, table and outgoing buffer hold what they held before; a refused frame may have been counted.
#[derive(Clone, Copy, Debug, PartialEq, Eq, Hash)]
pub enum Refusal {
    /// 1: the memory is no table: its size or port count is wrong, or a field is out of range. Of a move: it is none of the form that
    /// is moved, or the memory for the other form has not just the size.
    TableWrong,
    /// 2: no port, or no aggregator, has this number; they count from 1.
    NoSuchPort,
    /// 3: the outgoing buffer is too short for a frame.
    BufferShort,
    /// 4: in the default partner block Collecting and Synchronization differ; of an ask: the waiting time is not 1 to 600 ticks.
    DefaultWrong,
    /// 5: an LACPDU without fault, but the link is down or the duplex half.
    LacpOff,
    /// 6: a frame under 14 octets, or not to 01-80-C2-00-00-02: not for this part.
    Foreign,
    /// 7: to that address, but of another type than 88-09, or a subtype from 3 to 10: for others.
    Unknown,
    /// 8: a Slow Protocols frame that breaks the rules of its subtype.
    Illegal,
    /// 9: a Marker on a port that neither collects nor distributes.
    NotCollecting,
    /// 10: nothing is due, the link is down or the duplex half.
    NothingToSend,
    /// 11: something is due, but three LACPDUs went with fewer than eleven ticks after the first of them; ask again after the next
    /// tick.
    TooManySends,
    /// 12: a Marker Response that nobody awaits: the port asked for no Marker, or not for this one, or waits no longer.
    Response,
    /// 13: a Marker is asked for on a port that does not distribute.
    NotDistributing,
    /// 14: a Marker is asked for on a port that awaits the Response to another.
    AlreadyAwaiting,
    /// A number that this interface has no name for: that of a later library.
    Unnamed(u32),
    /// The library could not be reached. Only where it is in a process of its own, which did not start or ended.
    Unreachable,
}

impl Answer {
    /// The answer of that number.
    pub fn from_number(number: u32) -> Answer {
        Answer::Refused(match number {
            0 => return Answer::Done,
            1 => Refusal::TableWrong,
            2 => Refusal::NoSuchPort,
            3 => Refusal::BufferShort,
            4 => Refusal::DefaultWrong,
            5 => Refusal::LacpOff,
            6 => Refusal::Foreign,
            7 => Refusal::Unknown,
            8 => Refusal::Illegal,
            9 => Refusal::NotCollecting,
            10 => Refusal::NothingToSend,
            11 => Refusal::TooManySends,
            12 => Refusal::Response,
            13 => Refusal::NotDistributing,
            14 => Refusal::AlreadyAwaiting,
            u32::MAX => Refusal::Unreachable,
            number => Refusal::Unnamed(number),
        })
    }

    /// The number of this answer.
    pub fn number(self) -> u32 {
        match self {
            Answer::Done => 0,
            Answer::Refused(refusal) => refusal.number(),
        }
    }

    /// `Ok` for [`Answer::Done`].
    pub fn result(self) -> Result<(), Refusal> {
        match self {
            Answer::Done => Ok(()),
            Answer::Refused(refusal) => Err(refusal),
        }
    }
}

impl Refusal {
    /// The number of this refusal; [`raw::UNREACHABLE`](crate::raw::UNREACHABLE) for [`Refusal::Unreachable`].
    pub fn number(self) -> u32 {
        match self {
            Refusal::TableWrong => 1,
            Refusal::NoSuchPort => 2,
            Refusal::BufferShort => 3,
            Refusal::DefaultWrong => 4,
            Refusal::LacpOff => 5,
            Refusal::Foreign => 6,
            Refusal::Unknown => 7,
            Refusal::Illegal => 8,
            Refusal::NotCollecting => 9,
            Refusal::NothingToSend => 10,
            Refusal::TooManySends => 11,
            Refusal::Response => 12,
            Refusal::NotDistributing => 13,
            Refusal::AlreadyAwaiting => 14,
            Refusal::Unnamed(number) => number,
            Refusal::Unreachable => u32::MAX,
        }
    }
}

impl From<Refusal> for Answer {
    fn from(refusal: Refusal) -> Answer {
        Answer::Refused(refusal)
    }
}

impl fmt::Display for Refusal {
    fn fmt(&self, f: &mut fmt::Formatter<'_>) -> fmt::Result {
        f.write_str(match self {
            Refusal::TableWrong => "the memory is no table",
            Refusal::NoSuchPort => "no such port or aggregator",
            Refusal::BufferShort => "the outgoing buffer has under 124 octets",
            Refusal::DefaultWrong => {
                "the default partner block has Collecting different from Synchronization, or a waiting time is not 1 to 600 ticks"
            }
            Refusal::LacpOff => "an LACPDU while the link is down or the duplex half",
            Refusal::Foreign => "a frame that is not for this part",
            Refusal::Unknown => "a frame of another type or of an unknown Slow Protocol",
            Refusal::Illegal => "a frame that breaks the rules of its subtype",
            Refusal::NotCollecting => "a Marker on a port that neither collects nor distributes",
            Refusal::NothingToSend => "nothing to send",
            Refusal::TooManySends => "three LACPDUs went with fewer than eleven ticks after the first of them",
            Refusal::Response => "a Marker Response that nobody awaits",
            Refusal::NotDistributing => "a Marker asked for on a port that does not distribute",
            Refusal::AlreadyAwaiting => "a Marker asked for on a port that awaits the Response to another",
            Refusal::Unnamed(number) => return write!(f, "answer {number}, which has no name here"),
            Refusal::Unreachable => "the library could not be reached",
        })
    }
}

impl Error for Refusal {}

#[cfg(test)]
mod tests {
    use super::*;

    #[test]
    fn numbers_go_there_and_back() {
        for number in (0..40).chain([u32::MAX - 1, u32::MAX]) {
            assert_eq!(Answer::from_number(number).number(), number);
        }
        assert_eq!(Answer::from_number(0), Answer::Done);
        assert_eq!(Answer::from_number(12), Refusal::Response.into());
        assert_eq!(
            [13, 14].map(Answer::from_number),
            [Refusal::NotDistributing, Refusal::AlreadyAwaiting].map(Answer::from)
        );
        assert!((15..40).all(|n| Answer::from_number(n) == Refusal::Unnamed(n).into()));
    }
}
