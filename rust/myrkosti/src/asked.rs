//! What a port's record says of the Markers that were asked for.

use std::fmt;

/// What came of the Marker that was asked for last. It stays until the next ask.
#[derive(Clone, Copy, Debug, PartialEq, Eq, Hash)]
pub enum AskOutcome {
    /// None was asked for since the table was started.
    None,
    /// Its Response is awaited.
    Awaiting,
    /// Its Response came: what was sent on the link before the Marker has arrived.
    Answered,
    /// No Response came in the waiting time.
    TimedOut,
    /// The link fell first, or the duplex changed while it was up.
    Cancelled,
}

impl AskOutcome {
    /// Whether that is one of the three ends of a Marker.
    pub fn ended(self) -> bool {
        matches!(self, AskOutcome::Answered | AskOutcome::TimedOut | AskOutcome::Cancelled)
    }
}

/// The Markers that a port was asked for. Prints in words.
#[derive(Clone, Copy, Debug, PartialEq, Eq, Hash)]
pub struct Asked {
    /// What came of the last.
    pub outcome: AskOutcome,
    /// The tick at which it times out, counted from now; 0 unless its Response is awaited.
    pub ticks_left: u16,
    /// The transaction that the next Marker will have: 0 after a start, one more with each that was asked for, modulo 2^32.
    pub next_transaction: u32,
}

impl Asked {
    /// The last octets of a record: outcome, timer, number. None if the outcome is out of its range.
    pub(crate) fn from_octets(octets: &[u8; 7]) -> Option<Asked> {
        let [outcome, t1, t0, number @ ..] = *octets;
        Some(Asked {
            outcome: ask_outcome(outcome)?,
            ticks_left: u16::from_be_bytes([t1, t0]),
            next_transaction: u32::from_be_bytes(number),
        })
    }

    /// The transaction of the last Marker, if one was asked for.
    pub fn transaction(self) -> Option<u32> {
        (self.outcome != AskOutcome::None).then(|| self.next_transaction.wrapping_sub(1))
    }
}

fn ask_outcome(octet: u8) -> Option<AskOutcome> {
    Some(match octet {
        0 => AskOutcome::None,
        1 => AskOutcome::Awaiting,
        2 => AskOutcome::Answered,
        3 => AskOutcome::TimedOut,
        4 => AskOutcome::Cancelled,
        _ => return None,
    })
}

impl fmt::Display for AskOutcome {
    fn fmt(&self, f: &mut fmt::Formatter<'_>) -> fmt::Result {
        f.write_str(match self {
            AskOutcome::None => "none",
            AskOutcome::Awaiting => "awaited",
            AskOutcome::Answered => "answered",
            AskOutcome::TimedOut => "timed out",
            AskOutcome::Cancelled => "cancelled",
        })
    }
}

impl fmt::Display for Asked {
    fn fmt(&self, f: &mut fmt::Formatter<'_>) -> fmt::Result {
        let Some(transaction) = self.transaction() else {
            return f.write_str("no Marker asked for");
        };
        write!(f, "Marker {transaction} {}", self.outcome)?;
        match (self.outcome, self.ticks_left) {
            (AskOutcome::Awaiting, 1) => f.write_str(", 1 tick left"),
            (AskOutcome::Awaiting, ticks) => write!(f, ", {ticks} ticks left"),
            _ => Ok(()),
        }
    }
}

#[cfg(test)]
mod tests {
    use super::*;

    #[test]
    fn words() {
        let words = |outcome, ticks_left, next| Asked { outcome, ticks_left, next_transaction: next }.to_string();
        assert_eq!(words(AskOutcome::None, 0, 0), "no Marker asked for");
        assert_eq!(words(AskOutcome::Awaiting, 600, 1), "Marker 0 awaited, 600 ticks left");
        assert_eq!(words(AskOutcome::Awaiting, 1, 2), "Marker 1 awaited, 1 tick left");
        assert_eq!(words(AskOutcome::Answered, 0, 0), "Marker 4294967295 answered");
        assert_eq!(words(AskOutcome::TimedOut, 0, 3), "Marker 2 timed out");
        assert_eq!(words(AskOutcome::Cancelled, 0, 4), "Marker 3 cancelled");
    }

    #[test]
    fn outcomes_in_range() {
        for outcome in 0..=255 {
            let asked = Asked::from_octets(&[outcome, 1, 2, 3, 4, 5, 6]);
            assert_eq!(asked.is_some(), outcome < 5);
            assert!(asked.is_none_or(|asked| (asked.ticks_left, asked.next_transaction) == (0x0102, 0x0304_0506)));
            assert_eq!(asked.is_some_and(|asked| asked.outcome.ended()), (2..5).contains(&outcome));
        }
    }
}
