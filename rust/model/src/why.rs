//! Why a port carries or does not: the first cause that applies, in the order of their numbers.

use crate::breakage::{self, Breakage};
use crate::calls::Refusal;
use crate::record::{Mux, Port, Receive, Table};
use crate::wire::State;

/// A cause; the discriminants are the numbers.
#[derive(Clone, Copy, Debug, PartialEq, Eq)]
#[allow(missing_docs)]
pub enum Cause {
    None = 0,
    Carries = 1,
    CarriesByDefault = 2,
    LinkDown = 3,
    HalfDuplex = 4,
    Defaulted = 5,
    Expired = 6,
    Waits = 7,
    HeldBack = 8,
    OutOfSync = 9,
    NotCollecting = 10,
}

/// A cause with the port that holds back and the ticks that belong to it, each 0 where there is none.
#[derive(Clone, Copy, Debug, PartialEq, Eq)]
#[allow(missing_docs)]
pub struct Why {
    pub cause: Cause,
    pub holder: u32,
    pub ticks: u32,
}

/// The causes in their order.
const IN_ORDER: [Cause; 10] = [
    Cause::Carries,
    Cause::CarriesByDefault,
    Cause::LinkDown,
    Cause::HalfDuplex,
    Cause::Defaulted,
    Cause::Expired,
    Cause::Waits,
    Cause::HeldBack,
    Cause::OutOfSync,
    Cause::NotCollecting,
];

/// The order in which the causes are tried; in the breakages one of them comes too soon.
fn order() -> [Cause; 10] {
    let mut order = IN_ORDER;
    let (to, from) = match breakage::in_force() {
        Some(Breakage::LinkDownBeforeCarries) => (0, 2),
        Some(Breakage::HalfDuplexBeforeCarriesByDefault) => (1, 3),
        Some(Breakage::HalfDuplexBeforeLinkDown) => (2, 3),
        Some(Breakage::DefaultedBeforeHalfDuplex) => (3, 4),
        Some(Breakage::WaitsBeforeDefaulted) => (4, 6),
        Some(Breakage::WaitsBeforeExpired) => (5, 6),
        Some(Breakage::HeldBackBeforeWaits) => (6, 7),
        Some(Breakage::OutOfSyncBeforeHeldBack) => (7, 8),
        Some(Breakage::NotCollectingBeforeOutOfSync) => (8, 9),
        _ => return order,
    };
    order[to..=from].rotate_right(1);
    order
}

impl Table {
    /// Why port n, which there must be, carries or does not.
    pub fn why(&self, n: u32) -> Why {
        let port = &self.ports[n as usize - 1];
        let holder = self.holder(port);
        let cause = order().into_iter().find(|cause| port.applies(*cause, holder.is_some())).unwrap_or(Cause::None);
        let (holder, ticks) = match cause {
            Cause::Waits => (0, port.wait_while),
            Cause::HeldBack if breakage::is(Breakage::HeldBackWithOwnTicks) => {
                (holder.map_or(0, |(m, _)| m), port.wait_while)
            }
            Cause::HeldBack if breakage::is(Breakage::HolderUnnamed) => (0, holder.map_or(0, |(_, ticks)| ticks)),
            Cause::HeldBack => holder.unwrap_or((0, 0)),
            _ if breakage::is(Breakage::HolderBesideAnyCause) => (holder.map_or(0, |(m, _)| m), 0),
            _ if breakage::is(Breakage::TicksBesideAnyCause) => (0, port.wait_while),
            _ => (0, 0),
        };
        Why { cause, holder, ticks: ticks.into() }
    }

    /// Of those that wait for the aggregator of this port with their timer running: the one with the most ticks left, the lowest of
    /// several, and these ticks. Such a one keeps Ready (43.4.8) from being true.
    fn holder(&self, port: &Port) -> Option<(u32, u8)> {
        let any_aggregator = breakage::is(Breakage::HolderOfAnyAggregator);
        let any_state = breakage::is(Breakage::HolderInAnyState);
        let holds = |other: &Port| {
            (other.mux == Mux::Waiting || any_state)
                && (other.aggregator == port.aggregator || any_aggregator)
                && other.wait_while > 0
        };
        let holding = (1..).zip(&self.ports).filter(|(_, other)| holds(other)).map(|(m, other)| (m, other.wait_while));
        match breakage::in_force() {
            Some(Breakage::HolderIsTheFirst) => holding.min_by_key(|(m, _)| *m),
            Some(Breakage::HolderIsTheHighest) => holding.max_by_key(|(m, ticks)| (*ticks, *m)),
            _ => holding.max_by_key(|(m, ticks)| (*ticks, u32::MAX - *m)),
        }
    }
}

impl Port {
    /// Whether a cause applies where none before it does; `held` if a port waits for the same aggregator with its timer running.
    fn applies(&self, cause: Cause, held: bool) -> bool {
        match cause {
            Cause::None => true,
            Cause::Carries => self.mux.distributes() && !self.on_the_settings_alone(),
            Cause::CarriesByDefault => self.mux.distributes() && self.on_the_settings_alone(),
            Cause::LinkDown => !self.link,
            Cause::HalfDuplex => !self.full_duplex,
            Cause::Defaulted if breakage::is(Breakage::DefaultedByBit) => self.actor_state.has(State::DEFAULTED),
            Cause::Defaulted => self.receive == Receive::Defaulted,
            Cause::Expired => self.receive == Receive::Expired,
            Cause::Waits if breakage::is(Breakage::WaitsByItsTimerAlone) => self.wait_while > 0,
            Cause::Waits if breakage::is(Breakage::WaitsByItsStateAlone) => self.mux == Mux::Waiting,
            Cause::Waits => self.mux == Mux::Waiting && self.wait_while > 0,
            Cause::HeldBack if breakage::is(Breakage::HeldBackInAnyState) => held,
            Cause::HeldBack if breakage::is(Breakage::HeldBackBeforeWaits) => self.mux == Mux::Waiting && held,
            Cause::HeldBack => self.mux == Mux::Waiting && self.wait_while == 0 && held,
            Cause::OutOfSync if breakage::is(Breakage::OwnSynchronizationForPartners) => {
                !self.actor_state.has(State::SYNCHRONIZATION)
            }
            Cause::OutOfSync => !self.partner.state.has(State::SYNCHRONIZATION),
            Cause::NotCollecting if breakage::is(Breakage::DistributingForCollecting) => {
                !self.partner.state.has(State::DISTRIBUTING)
            }
            Cause::NotCollecting => !self.partner.state.has(State::COLLECTING),
        }
    }

    /// The partner in force is the administrative one: LACP is off (LACP_DISABLED), or nobody was heard (DEFAULTED).
    fn on_the_settings_alone(&self) -> bool {
        match breakage::in_force() {
            Some(Breakage::DefaultTakenForPartner) => self.receive == Receive::LacpDisabled,
            Some(Breakage::LacpOffTakenForPartner) => self.receive == Receive::Defaulted,
            Some(Breakage::SettingsAloneByBit) => self.actor_state.has(State::DEFAULTED),
            _ => matches!(self.receive, Receive::LacpDisabled | Receive::Defaulted),
        }
    }
}

/// What is written: also beside a refusal, but in a breakage.
pub(crate) fn numbers(why: Result<Why, Refusal>, untouched: [u32; 3]) -> [u32; 3] {
    match why {
        Ok(Why { cause, holder, ticks }) => [cause as u32, holder, ticks],
        Err(_) if breakage::is(Breakage::RefusedWhyUnwritten) => untouched,
        Err(_) => [0; 3],
    }
}
