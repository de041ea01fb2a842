//! The selection rule (43.4.14 and document 01), Ready (43.4.8), and steps 3 to 6 of the order of work with the Churn Detection
//! machines behind them.

use crate::breakage::{self, Breakage};
use crate::record::{Mux, Periodic, Port, Table};
use crate::wire::State;

impl Table {
    /// Own or partner's Aggregation clear, or the partner's system is ours.
    fn individual(&self, port: &Port) -> bool {
        let both = port.actor_state.has(State::AGGREGATION) && port.partner.state.has(State::AGGREGATION);
        let ours = port.partner.system_priority == self.system_priority && port.partner.system == self.system;
        !both && !breakage::is(Breakage::IndividualsAbsorbed) || ours && !breakage::is(Breakage::LoopbackForgotten)
    }

    /// Whether two ports that are not individual share a group.
    fn same_group(p: &Port, q: &Port) -> bool {
        p.key == q.key
            && p.partner.system_priority == q.partner.system_priority
            && p.partner.system == q.partner.system
            && p.partner.key == q.partner.key
    }

    /// The aggregator that the rule gives each port: that of the lowest port of its group.
    pub fn rule(&self) -> Vec<u8> {
        let groups = |p: &Port, q: &Port| !self.individual(p) && !self.individual(q) && Table::same_group(p, q);
        let lowest = |own: usize| (0..own).find(|&other| groups(&self.ports[own], &self.ports[other])).unwrap_or(own);
        (0..self.ports.len()).map(|own| lowest(own) as u8 + 1).collect()
    }

    /// Steps 3 to 6, and then the Churn Detection machines of all ports.
    pub fn settle(&mut self) {
        if breakage::is(Breakage::MonitorsBeforeStepThree) {
            self.watch();
            self.steps_three_to_six();
        } else {
            self.steps_three_to_six();
            if !breakage::is(Breakage::MonitorsRunAtTicksAlone) {
                self.watch();
            }
        }
    }

    /// The Churn Detection machines of all ports.
    pub fn watch(&mut self) {
        self.ports.iter_mut().for_each(Port::churn_machines);
    }

    fn steps_three_to_six(&mut self) {
        let rule = self.rule();
        self.detach(&rule);
        self.take(&rule);
        self.attach();
        for port in &mut self.ports {
            port.mux_machine(false);
            if port.clears_ntt() {
                port.ntt = false;
            }
        }
    }

    /// Step 3: state by state down to DETACHED, where UNSELECTED or where the rule has another aggregator.
    fn detach(&mut self, rule: &[u8]) {
        for (port, aggregator) in self.ports.iter_mut().zip(rule) {
            if port.aggregator != *aggregator && !breakage::is(Breakage::BystandersForgotten) {
                port.selected = false;
            }
            if !port.selected && !breakage::is(Breakage::SelectsBeforeDetaching) {
                port.mux_machine(false);
            }
        }
    }

    /// Step 4: they hold what the rule gives now, are SELECTED, and wait.
    fn take(&mut self, rule: &[u8]) {
        for (port, aggregator) in self.ports.iter_mut().zip(rule) {
            if !port.selected {
                port.aggregator = *aggregator;
                port.selected = true;
                if !breakage::is(Breakage::SelectsBeforeDetaching) || !port.mux.attached() {
                    port.enter(Mux::Waiting);
                }
            }
        }
    }

    /// Step 5: Ready of each aggregator, and then whoever waits for one that is.
    fn attach(&mut self) {
        let waits = |port: &Port| port.mux == Mux::Waiting;
        let ready: Vec<bool> = (1..=self.ports.len())
            .map(|aggregator| {
                let held = |port: &&Port| waits(port) && usize::from(port.aggregator) == aggregator;
                self.ports.iter().filter(held).all(|port| port.wait_while == 0)
            })
            .collect();
        for port in &mut self.ports {
            let own = breakage::is(Breakage::OwnTimerForReady) && port.wait_while == 0;
            if waits(port) && (own || ready[usize::from(port.aggregator) - 1]) {
                port.enter(Mux::Attached);
            }
        }
    }
}

impl Port {
    /// Where NTT is cleared (43.4.16): LACP off, or both ends passive on an up port.
    fn clears_ntt(&self) -> bool {
        let rests = self.periodic == Periodic::NoPeriodic && !breakage::is(Breakage::PassiveKeepsNtt);
        !self.full_duplex || self.link && rests
    }
}
