//! What a port's record says of churn: links that never settle.

use std::fmt;

/// States of a Churn Detection machine (43.4.17).
#[derive(Clone, Copy, Debug, PartialEq, Eq, Hash)]
pub enum ChurnState {
    /// NO_CHURN: that end is in sync.
    NoChurn,
    /// MONITOR: it is not, and is watched; or the link is down, and the watch has yet to begin.
    Monitor,
    /// CHURN: the link is up, and that end has not been in sync for [`CHURN_DETECTION_TIME`](crate::CHURN_DETECTION_TIME) or longer.
    Churn,
}

/// A Churn Detection machine: the watch over one end of a link. Prints in words.
#[derive(Clone, Copy, Debug, PartialEq, Eq, Hash)]
pub struct ChurnMonitor {
    /// Its state.
    pub state: ChurnState,
    /// In MONITOR, the ticks after which that end churns unless it gets in sync; 0 otherwise.
    pub ticks_left: u16,
    /// How often that end began to churn since the table was started or came out of the old form, modulo 2^32.
    pub count: u32,
}

/// The watch over both ends of a link. Prints in words which of them churns.
///
/// ```
/// # use myrkosti::{Block, Refusal, Settings, SystemId, Table};
/// # fn main() -> Result<(), Refusal> {
/// # let settings = Settings { address: [0; 6], key: 1, port_priority: 1, activity: true, short_timeout: true,
/// #     aggregation: true, default_partner: Block::default() };
/// # let mut table = Table::start(1, SystemId::default(), 0, &settings)?;
/// table.line(1, true, true)?;
/// for _ in 0..420 {
///     table.tick()?; // and nobody answers
/// }
/// assert_eq!(table.port(1)?.churn.to_string(), "this end settled; far end watched, 180 ticks left");
/// for _ in 0..180 {
///     table.tick()?;
/// }
/// let churn = table.port(1)?.churn;
/// assert_eq!(churn.to_string(), "this end settled; far end churning, out of sync for 600 ticks or more, churned once");
/// assert!(churn.partner.churns() && !churn.actor.churns());
/// # Ok(())
/// # }
/// ```
#[derive(Clone, Copy, Debug, PartialEq, Eq, Hash)]
pub struct Churn {
    /// This end: by the Synchronization that the port says of itself.
    pub actor: ChurnMonitor,
    /// The far end: by the Synchronization of the partner in force.
    pub partner: ChurnMonitor,
}

/// The churn of a port that is read again and again, and since when either end churns, which a record does not tell. Prints in words.
///
/// ```
/// # use myrkosti::{Block, ChurnSince, Refusal, Settings, SystemId, Table};
/// # fn main() -> Result<(), Refusal> {
/// # let settings = Settings { address: [0; 6], key: 1, port_priority: 1, activity: true, short_timeout: true,
/// #     aggregation: true, default_partner: Block::default() };
/// # let mut table = Table::start(1, SystemId::default(), 0, &settings)?;
/// let mut since = ChurnSince::new(table.port(1)?.churn, 0);
/// table.line(1, true, true)?;
/// for tick in 1..1000 {
///     table.tick()?; // and nobody answers
///     since.read(table.port(1)?.churn, tick);
/// }
/// assert_eq!(since.partner(), Some(600));
/// assert_eq!(since.to_string(), "this end settled; far end churning since tick 600, churned once");
/// # Ok(())
/// # }
/// ```
#[derive(Clone, Copy, Debug, PartialEq, Eq, Hash)]
pub struct ChurnSince {
    churn: Churn,
    actor: Option<u64>,
    partner: Option<u64>,
}

impl ChurnSince {
    /// The port's churn as it is read first, at this tick. The caller counts the ticks.
    pub fn new(churn: Churn, tick: u64) -> ChurnSince {
        let since = |monitor: ChurnMonitor| monitor.churns().then_some(tick);
        ChurnSince { churn, actor: since(churn.actor), partner: since(churn.partner) }
    }

    /// The same as it is read at a later tick. Read it after every tick, and the times are exact.
    pub fn read(&mut self, churn: Churn, tick: u64) {
        let since = |old: ChurnMonitor, new: ChurnMonitor, since: Option<u64>| {
            new.churns().then(|| since.filter(|_| old.count == new.count).unwrap_or(tick))
        };
        self.actor = since(self.churn.actor, churn.actor, self.actor);
        self.partner = since(self.churn.partner, churn.partner, self.partner);
        self.churn = churn;
    }

    /// The tick at which this end was first read as churning, if it churns. It was out of sync for 600 ticks then.
    pub fn actor(self) -> Option<u64> {
        self.actor
    }

    /// The tick at which the far end was first read as churning, if it churns.
    pub fn partner(self) -> Option<u64> {
        self.partner
    }
}

impl ChurnMonitor {
    /// Whether that end churns.
    pub fn churns(self) -> bool {
        self.state == ChurnState::Churn
    }
}

impl Churn {
    /// The octets of a record behind the partner: states, timers, counts, the actor's first each time. None if a state is out of its
    /// range.
    pub(crate) fn from_octets(octets: &[u8; 14]) -> Option<Churn> {
        let [actor, partner, a1, a0, p1, p0, counts @ ..] = *octets;
        let [a, b, c, d, e, f, g, h] = counts;
        let monitor = |state, ticks, count| {
            let (ticks_left, count) = (u16::from_be_bytes(ticks), u32::from_be_bytes(count));
            Some(ChurnMonitor { state: churn_state(state)?, ticks_left, count })
        };
        Some(Churn {
            actor: monitor(actor, [a1, a0], [a, b, c, d])?,
            partner: monitor(partner, [p1, p0], [e, f, g, h])?,
        })
    }

    /// Whether either end churns.
    pub fn churns(self) -> bool {
        self.actor.churns() || self.partner.churns()
    }
}

fn churn_state(octet: u8) -> Option<ChurnState> {
    Some(match octet {
        0 => ChurnState::NoChurn,
        1 => ChurnState::Monitor,
        2 => ChurnState::Churn,
        _ => return None,
    })
}

impl ChurnMonitor {
    /// In words, with the tick since when that end churns if it is known.
    fn words(self, since: Option<u64>) -> String {
        let state = match (self.state, since) {
            (ChurnState::NoChurn, _) => "settled".to_string(),
            (ChurnState::Monitor, _) if self.ticks_left == 1 => "watched, 1 tick left".to_string(),
            (ChurnState::Monitor, _) => format!("watched, {} ticks left", self.ticks_left),
            (ChurnState::Churn, Some(tick)) => format!("churning since tick {tick}"),
            (ChurnState::Churn, None) => {
                format!("churning, out of sync for {} ticks or more", crate::CHURN_DETECTION_TIME)
            }
        };
        match self.count {
            0 => state,
            1 => format!("{state}, churned once"),
            count => format!("{state}, churned {count} times"),
        }
    }
}

impl fmt::Display for ChurnMonitor {
    fn fmt(&self, f: &mut fmt::Formatter<'_>) -> fmt::Result {
        f.write_str(&self.words(None))
    }
}

impl fmt::Display for Churn {
    fn fmt(&self, f: &mut fmt::Formatter<'_>) -> fmt::Result {
        write!(f, "this end {}; far end {}", self.actor, self.partner)
    }
}

impl fmt::Display for ChurnSince {
    fn fmt(&self, f: &mut fmt::Formatter<'_>) -> fmt::Result {
        let [actor, partner] = [self.churn.actor.words(self.actor), self.churn.partner.words(self.partner)];
        write!(f, "this end {actor}; far end {partner}")
    }
}

#[cfg(test)]
mod tests {
    use super::*;

    #[test]
    fn words() {
        let words = |state, ticks_left, count| ChurnMonitor { state, ticks_left, count }.to_string();
        assert_eq!(words(ChurnState::NoChurn, 0, 0), "settled");
        assert_eq!(words(ChurnState::NoChurn, 0, 1), "settled, churned once");
        assert_eq!(words(ChurnState::Monitor, 1, 0), "watched, 1 tick left");
        assert_eq!(words(ChurnState::Monitor, 600, 7), "watched, 600 ticks left, churned 7 times");
        assert_eq!(
            words(ChurnState::Churn, 0, u32::MAX),
            "churning, out of sync for 600 ticks or more, churned 4294967295 times"
        );
    }

    #[test]
    fn since_when() {
        let settled = ChurnMonitor { state: ChurnState::NoChurn, ticks_left: 0, count: 0 };
        let churning = |count| ChurnMonitor { state: ChurnState::Churn, ticks_left: 0, count };
        let of = |actor, partner| Churn { actor, partner };
        let mut since = ChurnSince::new(of(settled, churning(3)), 7);
        assert_eq!((since.actor(), since.partner()), (None, Some(7)));
        since.read(of(churning(1), churning(3)), 8);
        since.read(of(churning(1), churning(3)), 9);
        assert_eq!((since.actor(), since.partner()), (Some(8), Some(7)));
        assert_eq!(
            since.to_string(),
            "this end churning since tick 8, churned once; far end churning since tick 7, churned 3 times"
        );
        // what came and went between two looks is told by the count
        since.read(of(churning(1), churning(4)), 2000);
        assert_eq!((since.actor(), since.partner()), (Some(8), Some(2000)));
        since.read(of(settled, churning(4)), 2001);
        assert_eq!((since.actor(), since.partner()), (None, Some(2000)));
        since.read(of(churning(2), settled), 3000);
        assert_eq!(since.to_string(), "this end churning since tick 3000, churned 2 times; far end settled");
    }

    #[test]
    fn states_in_range() {
        let octets = |actor, partner| [actor, partner, 0, 1, 2, 3, 4, 5, 6, 7, 8, 9, 10, 11];
        for state in 0..=255 {
            let known = [Churn::from_octets(&octets(state, 0)), Churn::from_octets(&octets(0, state))];
            assert!(known.iter().all(|churn| churn.is_some() == (state < 3)));
        }
        let churn = Churn::from_octets(&octets(2, 1)).unwrap();
        assert_eq!(churn.actor, ChurnMonitor { state: ChurnState::Churn, ticks_left: 0x0001, count: 0x0405_0607 });
        assert_eq!(churn.partner, ChurnMonitor { state: ChurnState::Monitor, ticks_left: 0x0203, count: 0x0809_0A0B });
        assert!(churn.churns() && !churn.partner.churns());
    }
}
