//! Why two ports are in no common group: what the selection rule compares (43.3.6, 43.4.14), each for itself.

use crate::breakage::{self, Breakage};
use crate::calls::Refusal;
use crate::record::{Port, Table};
use crate::wire::{Block, State};

/// Own Aggregation is clear, of the first port; of the second it is `SECOND` bits higher, as the two that follow.
pub const INDIVIDUAL: u32 = 0x001;
/// The partner's Aggregation is clear.
pub const PARTNER_INDIVIDUAL: u32 = 0x002;
/// The partner is this system.
pub const LOOPED: u32 = 0x004;
/// How much higher the three stand of the second port.
pub const SECOND: u32 = 3;
/// Own keys differ.
pub const KEYS_DIFFER: u32 = 0x040;
/// The partners' system priorities differ.
pub const PARTNER_PRIORITIES_DIFFER: u32 = 0x080;
/// The partners' system addresses differ.
pub const PARTNER_SYSTEMS_DIFFER: u32 = 0x100;
/// The partners' keys differ.
pub const PARTNER_KEYS_DIFFER: u32 = 0x200;

/// The reasons whose statement is so.
fn set<const N: usize>(reasons: [(u32, bool); N]) -> u32 {
    reasons.iter().filter(|(_, so)| *so).fold(0, |set, (reason, _)| set | reason)
}

/// The partner that is compared: the one in force, but in the breakages.
fn partner(port: &Port) -> &Block {
    let default = breakage::is(Breakage::DefaultsCompared) || !port.link && breakage::is(Breakage::DownPortByDefault);
    if default {
        &port.default
    } else {
        &port.partner
    }
}

impl Table {
    /// The reasons for which ports p and q, which there must be, are apart; none of a port and itself.
    pub fn apart(&self, p: u32, q: u32) -> u32 {
        if p == q && !breakage::is(Breakage::PortApartFromItself) {
            return 0;
        }
        let [first, second] = [p, q].map(|n| &self.ports[n as usize - 1]);
        let own = self.alone(first) | self.alone(second) << SECOND;
        if own != 0 && breakage::is(Breakage::IndividualHidesTheRest) {
            return own;
        }
        let differ = differ(first, second);
        match breakage::in_force() {
            Some(Breakage::FirstAndSecondExchanged) => self.alone(second) | self.alone(first) << SECOND | differ,
            Some(Breakage::OneIndividualIsEnough) if own & ((1 << SECOND) - 1) != 0 => self.alone(first) | differ,
            _ => own | differ,
        }
    }

    /// For what a port is individual.
    fn alone(&self, port: &Port) -> u32 {
        let aggregates = |state: State| state.has(State::AGGREGATION);
        let (priority, address) = (partner(port).system_priority, partner(port).system);
        let partners_state =
            if breakage::is(Breakage::OwnAggregationForPartners) { port.actor_state } else { partner(port).state };
        let same_priority = priority == self.system_priority || breakage::is(Breakage::LoopedByAddressAlone);
        let same_address = address == self.system || breakage::is(Breakage::LoopedByPriorityAlone);
        set([
            (INDIVIDUAL, !aggregates(port.actor_state)),
            (PARTNER_INDIVIDUAL, !aggregates(partners_state)),
            (LOOPED, same_priority && same_address),
        ])
    }
}

/// In what two ports differ, whether they are individual or not.
fn differ(first: &Port, second: &Port) -> u32 {
    let (one, other) = (partner(first), partner(second));
    let keys = first.key != second.key;
    let priorities = one.system_priority != other.system_priority;
    let systems = one.system != other.system;
    let partner_keys = one.key != other.key;
    match breakage::in_force() {
        Some(Breakage::KeysExchanged) => set([
            (PARTNER_KEYS_DIFFER, keys),
            (PARTNER_PRIORITIES_DIFFER, priorities),
            (PARTNER_SYSTEMS_DIFFER, systems),
            (KEYS_DIFFER, partner_keys),
        ]),
        Some(Breakage::PriorityAndAddressAsOne) => set([
            (KEYS_DIFFER, keys),
            (PARTNER_PRIORITIES_DIFFER | PARTNER_SYSTEMS_DIFFER, priorities || systems),
            (PARTNER_KEYS_DIFFER, partner_keys),
        ]),
        Some(Breakage::PortPrioritiesCompared) => set([
            (KEYS_DIFFER, keys || first.port_priority != second.port_priority),
            (PARTNER_PRIORITIES_DIFFER, priorities),
            (PARTNER_SYSTEMS_DIFFER, systems),
            (PARTNER_KEYS_DIFFER, partner_keys || one.port_priority != other.port_priority),
        ]),
        _ => set([
            (KEYS_DIFFER, keys),
            (PARTNER_PRIORITIES_DIFFER, priorities),
            (PARTNER_SYSTEMS_DIFFER, systems),
            (PARTNER_KEYS_DIFFER, partner_keys),
        ]),
    }
}

/// What is written: also beside a refusal, but in a breakage.
pub(crate) fn number(reasons: Result<u32, Refusal>, untouched: u32) -> u32 {
    match reasons {
        Ok(reasons) => reasons,
        Err(_) if breakage::is(Breakage::RefusedApartUnwritten) => untouched,
        Err(_) => 0,
    }
}
