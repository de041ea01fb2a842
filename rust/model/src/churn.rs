//! Churn Detection machines (43.4.17, Figures 43-15 and 43-16; request M-105): one watches the actor's Synchronization, one the
//! partner's.

use crate::breakage::{self, Breakage};
use crate::record::{Port, CHURN_DETECTION_TIME, SHORT_TIMEOUT_TIME};
use crate::wire::State;

/// States of a Churn Detection machine. The churn flag is its last state.
#[derive(Clone, Copy, Debug, PartialEq, Eq)]
#[allow(missing_docs)]
pub enum ChurnState {
    NoChurn,
    Monitor,
    Churn,
}

/// One machine of a port.
#[derive(Clone, Copy, Debug, PartialEq, Eq)]
pub struct Monitor {
    /// Its state.
    pub state: ChurnState,
    /// actor_churn_timer or partner_churn_timer.
    pub timer: u16,
    /// How often it entered CHURN, modulo 2^32.
    pub count: u32,
}

/// Both machines of a port.
#[derive(Clone, Copy, Debug, PartialEq, Eq)]
pub struct Churn {
    /// That of the actor's Synchronization.
    pub actor: Monitor,
    /// That of the partner's.
    pub partner: Monitor,
}

impl Monitor {
    /// BEGIN: in MONITOR, and nothing counted.
    fn begun() -> Monitor {
        let mut monitor = Monitor { state: ChurnState::Monitor, timer: 0, count: 0 };
        monitor.enter(ChurnState::Monitor);
        monitor
    }

    /// Enters a state: its actions. The timer belongs to MONITOR alone; CHURN is counted.
    fn enter(&mut self, state: ChurnState) {
        self.state = state;
        match state {
            ChurnState::Monitor => self.timer = detection_time(),
            ChurnState::NoChurn if breakage::is(Breakage::MonitorTimerLeftRunning) => {}
            ChurnState::NoChurn => self.timer = 0,
            ChurnState::Churn => {
                self.timer = 0;
                self.count = counted(self.count);
            }
        }
    }

    /// The machine until no step applies: the open arrow of a disabled port first.
    fn run(&mut self, enabled: bool, in_sync: bool) {
        if enabled || in_sync && breakage::is(Breakage::SynchronizationBeforeDisabled) {
            if self.state == ChurnState::Churn && breakage::is(Breakage::ChurnCountedAtEveryRun) {
                self.count = counted(self.count);
            }
            while let Some(next) = self.step(in_sync) {
                self.enter(next);
            }
            if self.state != ChurnState::Monitor && breakage::is(Breakage::IdleMonitorClearsTimer) {
                self.timer = 0;
            }
        } else {
            self.disabled();
        }
    }

    /// MONITOR is entered again and again, so that its timer stands at its beginning.
    fn disabled(&mut self) {
        if self.state != ChurnState::Monitor || !breakage::is(Breakage::MonitorRunsWhileDown) {
            self.enter(ChurnState::Monitor);
        }
        if breakage::is(Breakage::LinkFallForgetsCount) {
            self.count = 0;
        }
    }

    /// The state that the figure gives next on an enabled port, if any: Synchronization before a timer that ran out.
    fn step(&self, in_sync: bool) -> Option<ChurnState> {
        let ran_out = self.timer == 0;
        match self.state {
            ChurnState::Monitor if ran_out && breakage::is(Breakage::ExpiryBeforeSynchronization) => {
                Some(ChurnState::Churn)
            }
            ChurnState::Monitor if in_sync => Some(ChurnState::NoChurn),
            ChurnState::Monitor if ran_out => Some(ChurnState::Churn),
            ChurnState::NoChurn if !in_sync => Some(ChurnState::Monitor),
            ChurnState::Churn if in_sync => Some(ChurnState::NoChurn),
            _ => None,
        }
    }

    /// Step 1 of a tick: a timer above 0 falls, in whatever state.
    fn ticked(&mut self) {
        if self.state == ChurnState::Monitor || !breakage::is(Breakage::UnusedTimersStand) {
            self.timer = self.timer.saturating_sub(1);
        }
    }
}

/// Churn_Detection_Time (43.4.4, 43.4.10); the text of 43.4.17 names another.
fn detection_time() -> u16 {
    if breakage::is(Breakage::ChurnAfterShortTimeout) {
        SHORT_TIMEOUT_TIME
    } else {
        CHURN_DETECTION_TIME
    }
}

/// One more, of 32 bits.
fn counted(count: u32) -> u32 {
    if breakage::is(Breakage::ChurnCountSaturates) {
        count.saturating_add(1)
    } else if breakage::is(Breakage::ChurnCountOfSixteenBits) {
        u32::from((count as u16).wrapping_add(1))
    } else {
        count.wrapping_add(1)
    }
}

impl Churn {
    /// Both at BEGIN.
    pub fn begun() -> Churn {
        Churn { actor: Monitor::begun(), partner: Monitor::begun() }
    }

    /// Step 1 of a tick.
    pub fn ticked(&mut self) {
        self.actor.ticked();
        self.partner.ticked();
    }
}

impl Port {
    /// Both machines on what stands. Disabled is a port without link (port_enabled), whatever its duplex.
    pub fn churn_machines(&mut self) {
        let enabled = self.link && (self.full_duplex || !breakage::is(Breakage::HalfDuplexDisables));
        let ours = self.actor_state.has(State::SYNCHRONIZATION);
        let theirs = self.partner.state.has(State::SYNCHRONIZATION);
        let seen = if breakage::is(Breakage::PartnerMonitorSeesOurs) { ours } else { theirs };
        self.churn.actor.run(enabled, ours);
        self.churn.partner.run(enabled, seen);
    }
}
