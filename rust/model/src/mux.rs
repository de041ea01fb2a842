//! Mux machine with independent control (43.4.15, Figure 43-13).

use crate::asks::Fate;
use crate::breakage::{self, Breakage};
use crate::record::{Mux, Port, AGGREGATE_WAIT_TIME};
use crate::wire::State;

impl Port {
    /// Enters a state: its actions, in the figure's order as far as the record shows them.
    pub fn enter(&mut self, mux: Mux) {
        if self.mux == Mux::Distributing && breakage::is(Breakage::LeavingDistributingCancels) {
            self.asked.end(Fate::Cancelled);
        }
        self.mux = mux;
        self.wait_while = if mux == Mux::Waiting { AGGREGATE_WAIT_TIME } else { 0 };
        match mux {
            Mux::Detached => {
                self.actor_state.put(State::SYNCHRONIZATION, false);
                self.actor_state.put(State::DISTRIBUTING, false);
                self.actor_state.put(State::COLLECTING, false);
                self.ntt = true;
            }
            Mux::Waiting => {}
            Mux::Attached => {
                self.actor_state.put(State::SYNCHRONIZATION, true);
                self.actor_state.put(State::COLLECTING, false);
                self.ntt = true;
            }
            Mux::Collecting => {
                self.actor_state.put(State::COLLECTING, true);
                self.actor_state.put(State::DISTRIBUTING, false);
                self.ntt = true;
            }
            Mux::Distributing => {
                self.actor_state.put(State::DISTRIBUTING, true);
                if breakage::is(Breakage::DistributingSetsNtt) {
                    self.ntt = true;
                }
            }
        }
    }

    /// The machine with these values of Selected and Ready, until no step applies.
    pub fn mux_machine(&mut self, ready: bool) {
        while let Some(next) = self.mux_step(ready) {
            self.enter(next);
        }
    }

    /// The state that Figure 43-13 gives next, if any.
    fn mux_step(&self, ready: bool) -> Option<Mux> {
        let in_sync = self.partner.state.has(State::SYNCHRONIZATION);
        let collecting = self.partner.state.has(State::COLLECTING);
        match self.mux {
            Mux::Detached if self.selected => Some(Mux::Waiting),
            Mux::Waiting if !self.selected => Some(Mux::Detached),
            Mux::Waiting if ready => Some(Mux::Attached),
            Mux::Attached if !self.selected => Some(Mux::Detached),
            Mux::Attached if in_sync => Some(Mux::Collecting),
            Mux::Collecting if !self.selected || !in_sync => Some(Mux::Attached),
            Mux::Collecting if collecting => Some(Mux::Distributing),
            Mux::Distributing if !self.selected || !in_sync || !collecting => Some(Mux::Collecting),
            _ => None,
        }
    }
}
