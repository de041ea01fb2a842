//! Receive machine (43.4.12, Figure 43-10), the functions of 43.4.9, and displaced ports (port_moved, 43.4.8).

use crate::breakage::{self, Breakage};
use crate::churn::Churn;
use crate::record::{Port, Receive, Table, LONG_TIMEOUT_TIME, SHORT_TIMEOUT_TIME};
use crate::wire::{Block, State};

/// What `update_NTT` compares of the state octet.
const NTT_BITS: u8 = State::ACTIVITY | State::TIMEOUT | State::SYNCHRONIZATION | State::AGGREGATION;

impl Port {
    /// recordPDU: the frame's actor block, its Synchronization kept only if the sender has us right and the link is
    /// actively maintained. `me` is what this port says of itself.
    fn record_pdu(&mut self, me: &Block, actor: &Block, partner: &Block) {
        let matched = partner.agrees(me, State::AGGREGATION);
        let individual = !actor.state.has(State::AGGREGATION);
        let maintained =
            actor.state.has(State::ACTIVITY) || me.state.has(State::ACTIVITY) && partner.state.has(State::ACTIVITY);
        let in_sync = actor.state.has(State::SYNCHRONIZATION) && maintained && (matched || individual);
        self.partner = *actor;
        self.partner.state.put(State::SYNCHRONIZATION, in_sync);
        self.actor_state.put(State::DEFAULTED, false);
    }

    /// recordDefault: the default block as it stands.
    fn record_default(&mut self) {
        self.partner = self.default;
        self.actor_state.put(State::DEFAULTED, true);
    }

    /// update_Selected: five numbers and Aggregation of the newcomer against the partner in force.
    fn update_selected(&mut self, actor: &Block) {
        if !actor.agrees(&self.partner, State::AGGREGATION) {
            self.selected = false;
        }
    }

    /// update_Default_Selected: the same with the default block.
    fn update_default_selected(&mut self) {
        let default = self.default;
        self.update_selected(&default);
    }

    /// update_NTT: an LACPDU is due if the sender has us wrong.
    fn update_ntt(&mut self, me: &Block, partner: &Block) {
        let bits = if breakage::is(Breakage::NttByWholeState) { 0xFF } else { NTT_BITS };
        if !partner.agrees(me, bits) {
            self.ntt = true;
        }
    }

    /// INITIALIZE, and on to PORT_DISABLED unconditionally.
    pub fn initialize(&mut self) {
        self.selected = false;
        self.record_default();
        self.actor_state.put(State::EXPIRED, false);
        self.port_disabled();
    }

    /// PORT_DISABLED: Selected, the learned partner and Expired stay.
    fn port_disabled(&mut self) {
        self.receive = Receive::PortDisabled;
        self.current_while = 0;
        self.partner.state.put(State::SYNCHRONIZATION, false);
        if breakage::is(Breakage::PortDisabledClearsExpired) {
            self.actor_state.put(State::EXPIRED, false);
        }
    }

    fn expired(&mut self) {
        self.receive = Receive::Expired;
        if breakage::is(Breakage::ExpiredRecordsDefault) {
            self.update_default_selected();
            self.record_default();
        }
        self.partner.state.put(State::SYNCHRONIZATION, false);
        self.partner.state.put(State::TIMEOUT, true);
        self.current_while = SHORT_TIMEOUT_TIME;
        self.actor_state.put(State::EXPIRED, true);
    }

    fn lacp_disabled(&mut self) {
        self.receive = Receive::LacpDisabled;
        self.current_while = 0;
        self.selected = false;
        self.record_default();
        self.partner.state.put(State::AGGREGATION, false);
        self.actor_state.put(State::EXPIRED, false);
    }

    fn defaulted(&mut self) {
        self.receive = Receive::Defaulted;
        self.current_while = 0;
        self.update_default_selected();
        self.record_default();
        self.actor_state.put(State::EXPIRED, false);
        if breakage::is(Breakage::DefaultedForcesSynchronization) {
            self.partner.state.put(State::SYNCHRONIZATION, true);
        }
    }

    /// CURRENT: compares before it records; the timer goes by our own Timeout.
    pub fn current(&mut self, me: &Block, actor: &Block, partner: &Block) {
        self.receive = Receive::Current;
        if breakage::is(Breakage::ComparesAfterRecording) {
            self.update_ntt(me, partner);
            self.record_pdu(me, actor, partner);
            self.update_selected(actor);
        } else {
            self.update_selected(actor);
            self.update_ntt(me, partner);
            self.record_pdu(me, actor, partner);
        }
        let by = if breakage::is(Breakage::PartnersTimeout) { self.partner.state } else { self.actor_state };
        self.current_while = if by.has(State::TIMEOUT) { SHORT_TIMEOUT_TIME } else { LONG_TIMEOUT_TIME };
        self.actor_state.put(State::EXPIRED, false);
    }

    /// Every transition of Figure 43-10 but those on BEGIN, port_moved and an LACPDU, until none applies. Actions belong to the
    /// entry of a state: a record that rests in INITIALIZE, which no run leaves there, has had them and goes on.
    pub fn receive_machine(&mut self) {
        while self.receive_step() {}
    }

    fn receive_step(&mut self) -> bool {
        let ran_out = self.current_while == 0;
        match (self.receive, self.link) {
            (Receive::Initialize, _) if breakage::is(Breakage::RestingStatesAct) => self.initialize(),
            (Receive::Initialize, _) => self.port_disabled(),
            (Receive::PortDisabled, false) => return false,
            (_, false) => self.port_disabled(),
            (Receive::PortDisabled, true) if self.full_duplex => self.expired(),
            (Receive::PortDisabled, true) => self.lacp_disabled(),
            (Receive::Expired, true) if ran_out => self.defaulted(),
            (Receive::Current, true) if ran_out => self.expired(),
            _ => return false,
        }
        true
    }
}

/// Other ports in PORT_DISABLED whose partner in force is the frame's actor system and port begin anew.
pub fn displace(table: &mut Table, receiver: u32, actor: &Block) {
    for (n, port) in (1..).zip(&mut table.ports) {
        let same_port = port.partner.port == actor.port || breakage::is(Breakage::DisplacedBySystemAlone);
        let moved = port.partner.system == actor.system && same_port;
        if n != receiver && port.receive == Receive::PortDisabled && moved {
            port.initialize();
            if breakage::is(Breakage::DisplacementForgetsCount) {
                port.churn = Churn::begun();
            }
        }
    }
}
