//! Why a port carries or does not.

use std::fmt;

/// Why a port carries or does not. Prints as one sentence.
///
/// ```
/// # use myrkosti::{Block, Cause, Refusal, Settings, SystemId, Table};
/// # fn main() -> Result<(), Refusal> {
/// # let settings = Settings { address: [0; 6], key: 1, port_priority: 1, activity: true, short_timeout: true,
/// #     aggregation: true, default_partner: Block::default() };
/// # let mut table = Table::start(3, SystemId::default(), 0, &settings)?;
/// assert_eq!(table.why(3)?.cause, Cause::LinkDown);
/// assert_eq!(table.why(3)?.to_string(), "Port 3 does not carry: its link is down.");
/// table.line(3, true, true)?;
/// for _ in 0..30 {
///     table.tick()?; // and nobody answers
/// }
/// assert_eq!(table.why(3)?.to_string(), "Port 3 does not carry: no partner is heard on it.");
/// # Ok(())
/// # }
/// ```
#[derive(Clone, Copy, Debug, PartialEq, Eq, Hash)]
pub struct Why {
    /// The port, from 1.
    pub port: u32,
    /// The first cause that applies, in the order of [`Cause`] from [`Cause::Carries`] on.
    pub cause: Cause,
}

/// What a port carries by, or for what it does not.
#[derive(Clone, Copy, Debug, PartialEq, Eq, Hash)]
pub enum Cause {
    /// 0: none. Only in memory that no start and later calls made.
    NoCause,
    /// 1: the port distributes, by what its partner says of itself.
    Carries,
    /// 2: it distributes on the administrative word alone: LACP is off at half duplex, or the partner is the default block.
    CarriesByDefault,
    /// 3: the link is down.
    LinkDown,
    /// 4: the link is up at half duplex, so LACP is off.
    HalfDuplex,
    /// 5: the partner was not heard since the start or since the link came up, or was given up: DEFAULTED.
    Defaulted,
    /// 6: the partner is silent, or the link came up less than three seconds ago and nobody was heard yet: EXPIRED.
    Expired,
    /// 7: the port waits for others of its group: WAITING, and its wait timer runs.
    Waits {
        /// What its wait timer has left.
        ticks: u32,
    },
    /// 8: its own wait is over, and another port that waits for the same aggregator holds it back.
    HeldBack {
        /// The port that holds it back longest, the lowest-numbered of several. Its own link may be down.
        by: u32,
        /// So many ticks more, if nothing else happens.
        ticks: u32,
    },
    /// 9: the partner's Synchronization is clear.
    OutOfSync,
    /// 10: the partner is in sync, and its Collecting is clear.
    NotCollecting,
    /// A number that this interface has no name for: that of a later library.
    Unnamed(u32),
}

impl Cause {
    /// The cause of that number, with the port that holds back and the ticks that belong to it.
    pub(crate) fn from_numbers([cause, holder, ticks]: [u32; 3]) -> Cause {
        match cause {
            0 => Cause::NoCause,
            1 => Cause::Carries,
            2 => Cause::CarriesByDefault,
            3 => Cause::LinkDown,
            4 => Cause::HalfDuplex,
            5 => Cause::Defaulted,
            6 => Cause::Expired,
            7 => Cause::Waits { ticks },
            8 => Cause::HeldBack { by: holder, ticks },
            9 => Cause::OutOfSync,
            10 => Cause::NotCollecting,
            number => Cause::Unnamed(number),
        }
    }

    /// The number of this cause.
    pub fn number(self) -> u32 {
        match self {
            Cause::NoCause => 0,
            Cause::Carries => 1,
            Cause::CarriesByDefault => 2,
            Cause::LinkDown => 3,
            Cause::HalfDuplex => 4,
            Cause::Defaulted => 5,
            Cause::Expired => 6,
            Cause::Waits { .. } => 7,
            Cause::HeldBack { .. } => 8,
            Cause::OutOfSync => 9,
            Cause::NotCollecting => 10,
            Cause::Unnamed(number) => number,
        }
    }

    /// Whether the port distributes: only then it carries traffic.
    pub fn carries(self) -> bool {
        matches!(self, Cause::Carries | Cause::CarriesByDefault)
    }
}

impl Why {
    /// Whether the port distributes: only then it carries traffic.
    pub fn carries(self) -> bool {
        self.cause.carries()
    }
}

impl fmt::Display for Why {
    fn fmt(&self, f: &mut fmt::Formatter<'_>) -> fmt::Result {
        write!(f, "Port {} ", self.port)?;
        match self.cause {
            Cause::NoCause => f.write_str("does not carry, and nothing says why."),
            Cause::Carries => f.write_str("carries."),
            Cause::CarriesByDefault => f.write_str("carries on its settings alone: no partner is heard to agree."),
            Cause::LinkDown => f.write_str("does not carry: its link is down."),
            Cause::HalfDuplex => f.write_str("does not carry: its link is at half duplex, so LACP is off."),
            Cause::Defaulted => f.write_str("does not carry: no partner is heard on it."),
            Cause::Expired => f.write_str("does not carry: its partner is silent."),
            Cause::Waits { ticks } => write!(f, "waits, {} more.", Ticks(ticks)),
            Cause::HeldBack { by, ticks } => write!(f, "waits for port {by}, {} more.", Ticks(ticks)),
            Cause::OutOfSync => f.write_str("does not carry: its partner is not in sync with it."),
            Cause::NotCollecting => f.write_str("does not carry: its partner is in sync, but does not collect."),
            Cause::Unnamed(number) => write!(f, "does not carry, for cause {number}, which has no name here."),
        }
    }
}

/// `1 tick`, `2 ticks`.
struct Ticks(u32);

impl fmt::Display for Ticks {
    fn fmt(&self, f: &mut fmt::Formatter<'_>) -> fmt::Result {
        write!(f, "{} tick{}", self.0, if self.0 == 1 { "" } else { "s" })
    }
}

#[cfg(test)]
mod tests {
    use super::*;

    #[test]
    fn sentences() {
        let said = [
            "does not carry, and nothing says why.",
            "carries.",
            "carries on its settings alone: no partner is heard to agree.",
            "does not carry: its link is down.",
            "does not carry: its link is at half duplex, so LACP is off.",
            "does not carry: no partner is heard on it.",
            "does not carry: its partner is silent.",
            "waits, 12 ticks more.",
            "waits for port 5, 12 ticks more.",
            "does not carry: its partner is not in sync with it.",
            "does not carry: its partner is in sync, but does not collect.",
            "does not carry, for cause 11, which has no name here.",
        ];
        for (number, said) in (0..).zip(said) {
            let cause = Cause::from_numbers([number, 5, 12]);
            assert_eq!(Why { port: 3, cause }.to_string(), format!("Port 3 {said}"));
            assert_eq!((cause.number(), cause.carries()), (number, number == 1 || number == 2));
        }
        assert_eq!(Why { port: 32, cause: Cause::Waits { ticks: 1 } }.to_string(), "Port 32 waits, 1 tick more.");
        let held = Cause::HeldBack { by: 1, ticks: 1 };
        assert_eq!(Why { port: 2, cause: held }.to_string(), "Port 2 waits for port 1, 1 tick more.");
    }
}
