//! Periodic Transmission machine (43.4.13, Figure 43-11).

use crate::breakage::{self, Breakage};
use crate::record::{Periodic, Port, FAST_PERIODIC_TIME, SLOW_PERIODIC_TIME};
use crate::wire::State;

impl Port {
    /// The machine until no step applies.
    pub fn periodic_machine(&mut self) {
        while self.periodic_step() {}
    }

    /// The open arrow to NO_PERIODIC first, then a timer that ran out, then a changed partner Timeout.
    fn periodic_step(&mut self) -> bool {
        let passive = !self.actor_state.has(State::ACTIVITY) && !self.partner.state.has(State::ACTIVITY);
        if !self.link || !self.full_duplex || passive {
            self.periodic = Periodic::NoPeriodic;
            self.periodic_timer = 0;
            return false;
        }
        let short = self.partner.state.has(State::TIMEOUT);
        let ran_out = self.periodic_timer == 0;
        match self.periodic {
            Periodic::NoPeriodic => self.fast_periodic(),
            Periodic::FastPeriodic if !short && breakage::is(Breakage::TimeoutBeforeTimer) => self.slow_periodic(),
            Periodic::FastPeriodic if ran_out => self.periodic_tx(),
            Periodic::FastPeriodic if !short => self.slow_periodic(),
            Periodic::SlowPeriodic if ran_out || short => self.periodic_tx(),
            Periodic::PeriodicTx => {
                if breakage::is(Breakage::RestingStatesAct) {
                    self.ntt = true;
                }
                if short {
                    self.fast_periodic();
                } else {
                    self.slow_periodic();
                }
            }
            _ => return false,
        }
        true
    }

    fn fast_periodic(&mut self) {
        self.periodic = Periodic::FastPeriodic;
        self.periodic_timer = FAST_PERIODIC_TIME;
    }

    fn slow_periodic(&mut self) {
        self.periodic = Periodic::SlowPeriodic;
        self.periodic_timer = SLOW_PERIODIC_TIME;
    }

    /// PERIODIC_TX: a passing state. A record that rests in it, which no run leaves there, has had its NTT and goes on.
    fn periodic_tx(&mut self) {
        self.periodic = Periodic::PeriodicTx;
        self.periodic_timer = 0;
        self.ntt = true;
    }
}
