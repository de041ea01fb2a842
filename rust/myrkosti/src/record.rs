//! Settings, information blocks, and a port's record, decoded.

use crate::asked::Asked;
use crate::churn::Churn;
use crate::{BLOCK, RECORD};
use std::fmt;

/// What names a system to its neighbours: the lower, the stronger.
#[derive(Clone, Copy, Debug, Default, PartialEq, Eq, PartialOrd, Ord, Hash)]
pub struct SystemId {
    /// System priority.
    pub priority: u16,
    /// System address.
    pub address: [u8; 6],
}

/// A state octet: Actor_State or Partner_State of 43.4.2.2. Prints as its octet and the names of its bits.
#[derive(Clone, Copy, Default, PartialEq, Eq, Hash)]
pub struct PortState(pub u8);

impl PortState {
    /// LACP_Activity: active.
    pub const ACTIVITY: PortState = PortState(0x01);
    /// LACP_Timeout: short.
    pub const TIMEOUT: PortState = PortState(0x02);
    /// Aggregation: aggregatable.
    pub const AGGREGATION: PortState = PortState(0x04);
    /// Synchronization: in sync.
    pub const SYNCHRONIZATION: PortState = PortState(0x08);
    /// Collecting.
    pub const COLLECTING: PortState = PortState(0x10);
    /// Distributing.
    pub const DISTRIBUTING: PortState = PortState(0x20);
    /// Defaulted: the partner information is the default block.
    pub const DEFAULTED: PortState = PortState(0x40);
    /// Expired: the Receive machine expired.
    pub const EXPIRED: PortState = PortState(0x80);

    const NAMES: [(PortState, &'static str); 8] = [
        (PortState::ACTIVITY, "Activity"),
        (PortState::TIMEOUT, "Timeout"),
        (PortState::AGGREGATION, "Aggregation"),
        (PortState::SYNCHRONIZATION, "Synchronization"),
        (PortState::COLLECTING, "Collecting"),
        (PortState::DISTRIBUTING, "Distributing"),
        (PortState::DEFAULTED, "Defaulted"),
        (PortState::EXPIRED, "Expired"),
    ];

    /// Whether all bits of `bits` are set.
    pub const fn has(self, bits: PortState) -> bool {
        self.0 & bits.0 == bits.0
    }

    /// This state with the bits of `bits` set too.
    #[must_use]
    pub const fn with(self, bits: PortState) -> PortState {
        PortState(self.0 | bits.0)
    }

    /// This state with the bits of `bits` clear.
    #[must_use]
    pub const fn without(self, bits: PortState) -> PortState {
        PortState(self.0 & !bits.0)
    }
}

impl fmt::Debug for PortState {
    fn fmt(&self, f: &mut fmt::Formatter<'_>) -> fmt::Result {
        write!(f, "{:02X}", self.0)?;
        let mut set = PortState::NAMES.iter().filter(|(bit, _)| self.has(*bit)).map(|(_, name)| name);
        if let Some(first) = set.next() {
            write!(f, " ({first}")?;
            for name in set {
                write!(f, " {name}")?;
            }
            write!(f, ")")?;
        }
        Ok(())
    }
}

/// An information block: what an LACPDU says of its actor or partner, and what is kept of a partner. The default is all zeros.
#[derive(Clone, Copy, Debug, Default, PartialEq, Eq, Hash)]
pub struct Block {
    /// The system.
    pub system: SystemId,
    /// Operational key.
    pub key: u16,
    /// Port priority.
    pub port_priority: u16,
    /// Port number.
    pub port: u16,
    /// State octet.
    pub state: PortState,
}

impl Block {
    /// The block that these octets are.
    pub fn from_octets(octets: &[u8; BLOCK]) -> Block {
        let [y1, y0, a, b, c, d, e, f, k1, k0, q1, q0, n1, n0, state] = *octets;
        Block {
            system: SystemId { priority: u16::from_be_bytes([y1, y0]), address: [a, b, c, d, e, f] },
            key: u16::from_be_bytes([k1, k0]),
            port_priority: u16::from_be_bytes([q1, q0]),
            port: u16::from_be_bytes([n1, n0]),
            state: PortState(state),
        }
    }

    /// The octets of this block: from 0 system priority, 2 system, 8 key, 10 port priority, 12 port, 14 state.
    pub fn to_octets(&self) -> [u8; BLOCK] {
        let [y1, y0] = self.system.priority.to_be_bytes();
        let [a, b, c, d, e, f] = self.system.address;
        let [k1, k0] = self.key.to_be_bytes();
        let [q1, q0] = self.port_priority.to_be_bytes();
        let [n1, n0] = self.port.to_be_bytes();
        [y1, y0, a, b, c, d, e, f, k1, k0, q1, q0, n1, n0, self.state.0]
    }
}

/// The settings of a port.
#[derive(Clone, Copy, Debug, PartialEq, Eq, Hash)]
pub struct Settings {
    /// Own address, the source of every frame that the port sends.
    pub address: [u8; 6],
    /// Own key: ports of different keys never form one trunk.
    pub key: u16,
    /// Own port priority.
    pub port_priority: u16,
    /// Active: speaks also to a passive partner.
    pub activity: bool,
    /// Short timeout (3 s) instead of long (90 s): how long the partner may be silent.
    pub short_timeout: bool,
    /// Aggregatable; otherwise the port is always alone.
    pub aggregation: bool,
    /// What is taken for the partner while none speaks. Its Collecting and Synchronization must be equal. With
    /// [`PortState::TIMEOUT`] the port speaks once a second instead of every 30 s then, and finds a partner sooner.
    pub default_partner: Block,
}

/// States of the Receive machine (43.4.12).
#[derive(Clone, Copy, Debug, PartialEq, Eq, Hash)]
pub enum ReceiveState {
    /// INITIALIZE.
    Initialize,
    /// PORT_DISABLED: the link is down.
    PortDisabled,
    /// EXPIRED: the partner was silent too long, or the link just came up.
    Expired,
    /// LACP_DISABLED: half duplex.
    LacpDisabled,
    /// DEFAULTED: no partner speaks.
    Defaulted,
    /// CURRENT: the partner speaks.
    Current,
}

/// States of the Periodic Transmission machine (43.4.13).
#[derive(Clone, Copy, Debug, PartialEq, Eq, Hash)]
pub enum PeriodicState {
    /// NO_PERIODIC: nothing is sent of itself.
    NoPeriodic,
    /// FAST_PERIODIC: once a second.
    FastPeriodic,
    /// SLOW_PERIODIC: every 30 seconds.
    SlowPeriodic,
    /// PERIODIC_TX: a passing state.
    PeriodicTx,
}

/// States of the Mux machine with independent control (43.4.15).
#[derive(Clone, Copy, Debug, PartialEq, Eq, Hash)]
pub enum MuxState {
    /// DETACHED: a passing state.
    Detached,
    /// WAITING for the others of its group.
    Waiting,
    /// ATTACHED to its aggregator.
    Attached,
    /// COLLECTING: takes frames from the link.
    Collecting,
    /// DISTRIBUTING: also sends frames to it.
    Distributing,
}

impl MuxState {
    /// ATTACHED or above.
    pub fn attached(self) -> bool {
        matches!(self, MuxState::Attached | MuxState::Collecting | MuxState::Distributing)
    }
}

/// What is kept for a port.
#[derive(Clone, Debug, PartialEq, Eq)]
pub struct Record {
    /// Receive state.
    pub receive: ReceiveState,
    /// Periodic state.
    pub periodic: PeriodicState,
    /// Mux state.
    pub mux: MuxState,
    /// Selected is SELECTED, not UNSELECTED.
    pub selected: bool,
    /// Aggregator held, from 1.
    pub aggregator: u8,
    /// NTT: an LACPDU is due.
    pub ntt: bool,
    /// The link is up.
    pub link_up: bool,
    /// The duplex is full.
    pub full_duplex: bool,
    /// Actor_Oper_Port_State: what the port says of itself.
    pub actor_state: PortState,
    /// Current-while timer, in ticks.
    pub current_while: u16,
    /// Periodic timer, in ticks.
    pub periodic_timer: u16,
    /// Wait timer, in ticks.
    pub wait_while: u8,
    /// Ages in ticks, 0 to 10, of the sends that are remembered, newest first.
    pub sends: [Option<u8>; 3],
    /// The settings in force.
    pub settings: Settings,
    /// Partner information in force.
    pub partner: Block,
    /// Whether the link has settled at either end. It prints in words.
    pub churn: Churn,
    /// What came of the Marker that was asked for last. It prints in words.
    pub asked: Asked,
}

impl Record {
    /// The record in these octets, as [`raw::Report::Port`](crate::raw::Report::Port) gives them; none if a field is out of its range.
    pub fn from_octets(octets: &[u8; RECORD]) -> Option<Record> {
        let mut fields = Fields(octets);
        let [receive, periodic, mux, selected, aggregator, ntt, link, duplex, actor_state] = fields.octets()?;
        let actor_state = PortState(actor_state);
        Some(Record {
            receive: receive_state(receive)?,
            periodic: periodic_state(periodic)?,
            mux: mux_state(mux)?,
            selected: flag(selected)?,
            aggregator,
            ntt: flag(ntt)?,
            link_up: flag(link)?,
            full_duplex: flag(duplex)?,
            actor_state,
            current_while: fields.number()?,
            periodic_timer: fields.number()?,
            wait_while: fields.octets().map(|[ticks]| ticks)?,
            sends: fields.octets::<3>()?.map(|age| (age != NO_SEND).then_some(age)),
            settings: Settings {
                address: fields.octets()?,
                key: fields.number()?,
                port_priority: fields.number()?,
                activity: actor_state.has(PortState::ACTIVITY),
                short_timeout: actor_state.has(PortState::TIMEOUT),
                aggregation: actor_state.has(PortState::AGGREGATION),
                default_partner: Block::from_octets(&fields.octets()?),
            },
            partner: Block::from_octets(&fields.octets()?),
            churn: Churn::from_octets(&fields.octets()?)?,
            asked: Asked::from_octets(&fields.octets()?)?,
        })
    }
}

/// Where no send is remembered.
const NO_SEND: u8 = 255;

fn receive_state(octet: u8) -> Option<ReceiveState> {
    Some(match octet {
        0 => ReceiveState::Initialize,
        1 => ReceiveState::PortDisabled,
        2 => ReceiveState::Expired,
        3 => ReceiveState::LacpDisabled,
        4 => ReceiveState::Defaulted,
        5 => ReceiveState::Current,
        _ => return None,
    })
}

fn periodic_state(octet: u8) -> Option<PeriodicState> {
    Some(match octet {
        0 => PeriodicState::NoPeriodic,
        1 => PeriodicState::FastPeriodic,
        2 => PeriodicState::SlowPeriodic,
        3 => PeriodicState::PeriodicTx,
        _ => return None,
    })
}

fn mux_state(octet: u8) -> Option<MuxState> {
    Some(match octet {
        0 => MuxState::Detached,
        1 => MuxState::Waiting,
        2 => MuxState::Attached,
        3 => MuxState::Collecting,
        4 => MuxState::Distributing,
        _ => return None,
    })
}

fn flag(octet: u8) -> Option<bool> {
    (octet <= 1).then_some(octet == 1)
}

/// Takes fields off the front of a record.
struct Fields<'a>(&'a [u8]);

impl Fields<'_> {
    fn octets<const N: usize>(&mut self) -> Option<[u8; N]> {
        let (octets, rest) = self.0.split_first_chunk()?;
        self.0 = rest;
        Some(*octets)
    }

    fn number(&mut self) -> Option<u16> {
        self.octets().map(u16::from_be_bytes)
    }
}

#[cfg(test)]
mod tests {
    use super::*;
    use crate::asked::AskOutcome;
    use crate::churn::{ChurnMonitor, ChurnState};

    #[test]
    fn a_record_of_any_octets() {
        let mut octets: [u8; RECORD] = std::array::from_fn(|at| at as u8);
        octets[..9].copy_from_slice(&[5, 2, 4, 1, 7, 0, 1, 1, 0x3D]);
        octets[15] = 255;
        octets[57..59].copy_from_slice(&[1, 2]);
        octets[71] = 3;
        let record = Record::from_octets(&octets).unwrap();
        assert_eq!((record.receive, record.mux), (ReceiveState::Current, MuxState::Distributing));
        assert_eq!((record.current_while, record.periodic_timer, record.wait_while), (0x090A, 0x0B0C, 13));
        assert_eq!(record.sends, [Some(14), None, Some(16)]);
        assert_eq!((record.settings.key, record.settings.port_priority), (0x1718, 0x191A));
        assert_eq!(record.settings.address, [17, 18, 19, 20, 21, 22]);
        assert_eq!(record.settings.default_partner.to_octets(), octets[27..42]);
        assert_eq!(record.partner.to_octets(), octets[42..57]);
        assert_eq!(
            record.churn.actor,
            ChurnMonitor { state: ChurnState::Monitor, ticks_left: 0x3B3C, count: 0x3F40_4142 }
        );
        assert_eq!(
            record.churn.partner,
            ChurnMonitor { state: ChurnState::Churn, ticks_left: 0x3D3E, count: 0x4344_4546 }
        );
        let asked = Asked { outcome: AskOutcome::TimedOut, ticks_left: 0x4849, next_transaction: 0x4A4B_4C4D };
        assert_eq!(record.asked, asked);
        assert!(record.settings.activity && !record.settings.short_timeout && record.settings.aggregation);
        for at in 0..RECORD {
            for octet in 0..=255 {
                let mut changed = octets;
                changed[at] = octet;
                let _ = Record::from_octets(&changed);
            }
        }
    }

    #[test]
    fn a_state_prints_its_bits() {
        assert_eq!(format!("{:?}", PortState(0x81)), "81 (Activity Expired)");
        assert_eq!(format!("{:?}", PortState(0)), "00");
    }
}
