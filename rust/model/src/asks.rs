//! Markers that are asked for (43.5; request M-102): what a port keeps of the last one, what ends it, and what its Response must say.
//! A port awaits one at most, and what became of it stays until the next.

use crate::breakage::{self, Breakage};
use crate::calls::Refusal;
use crate::record::{Port, Table, WAITING_TIME};
use crate::wire::Request;

/// What became of the Marker that was asked for last.
#[derive(Clone, Copy, Debug, PartialEq, Eq)]
pub enum Fate {
    /// None was asked for.
    None,
    /// Its Response is awaited.
    Awaiting,
    /// Its Response came.
    Answered,
    /// Its Response did not come within the waiting time.
    TimedOut,
    /// The link fell.
    Cancelled,
}

/// What a port keeps of the Markers that it is asked for.
#[derive(Clone, Copy, Debug, PartialEq, Eq)]
pub struct Asked {
    /// What became of the last.
    pub fate: Fate,
    /// The ticks for which its Response is still awaited.
    pub timer: u16,
    /// The number of the next transaction, modulo 2^32.
    pub next: u32,
}

impl Asked {
    /// Nothing was asked for.
    pub fn begun() -> Asked {
        Asked { fate: Fate::None, timer: 0, next: 0 }
    }

    /// The next Marker is asked for.
    pub fn ask(&mut self, ticks: u16) {
        self.fate = Fate::Awaiting;
        self.timer = ticks;
        self.take_number();
    }

    /// A number is used.
    pub fn take_number(&mut self) {
        self.next = match breakage::in_force() {
            Some(Breakage::NumberStands) => self.next,
            Some(Breakage::NumberSaturates) => self.next.saturating_add(1),
            Some(Breakage::NumberOfSixteenBits) => u32::from((self.next as u16).wrapping_add(1)),
            _ => self.next.wrapping_add(1),
        };
    }

    /// What is awaited ends so; where nothing is awaited, nothing does.
    pub fn end(&mut self, fate: Fate) {
        if self.fate == Fate::Awaiting || self.ended_again(fate) {
            self.fate = fate;
            if !breakage::is(Breakage::EndLeavesTimer) {
                self.timer = 0;
            }
        }
    }

    /// What has ended ends once more: never, but in a breakage.
    fn ended_again(&self, fate: Fate) -> bool {
        fate == Fate::Cancelled && self.fate != Fate::None && breakage::is(Breakage::LinkFallForgetsOutcome)
    }

    /// Step 1 of a tick: a timer above 0 falls, whatever became of the Marker. One that is awaited has timed out where it stands at 0 then.
    pub fn ticked(&mut self) {
        let late = self.timer == 0;
        if self.fate == Fate::Awaiting || !breakage::is(Breakage::UnusedTimersStand) {
            self.timer = self.timer.saturating_sub(1);
        }
        let ran_out = if breakage::is(Breakage::WaitEndsATickLate) { late } else { self.timer == 0 };
        if ran_out {
            self.end(Fate::TimedOut);
        }
    }

    /// Whether a Response is awaited.
    fn awaits(&self) -> bool {
        let ended = match breakage::in_force() {
            Some(Breakage::SecondCopyAccepted) => Fate::Answered,
            Some(Breakage::LateResponseAccepted) => Fate::TimedOut,
            Some(Breakage::ResponseAcceptedAfterFall) => Fate::Cancelled,
            _ => Fate::Awaiting,
        };
        self.fate == Fate::Awaiting || self.fate == ended
    }
}

impl Port {
    /// Tests 13 and 14.
    pub fn may_ask(&self) -> Result<(), Refusal> {
        let distributes = self.mux.distributes() || self.mux.collects() && breakage::is(Breakage::AskedWhileCollecting);
        let awaits = self.asked.fate == Fate::Awaiting && !breakage::is(Breakage::AskedWhileAwaiting);
        match (distributes, awaits) {
            (true, false) => Ok(()),
            (false, true) if breakage::is(Breakage::AwaitingTestedFirst) => Err(Refusal::Awaiting),
            (false, _) => Err(Refusal::NotDistributing),
            (true, true) => Err(Refusal::Awaiting),
        }
    }

    /// Link and duplex go from these, of which one changes, to others: on an up port that is a link that falls.
    pub fn line_changes(&mut self, (was_up, was_full): (bool, bool), (up, full): (bool, bool)) {
        let duplex_alone = was_up == up && was_full != full;
        let falls = match breakage::in_force() {
            Some(Breakage::DuplexCancelsNothing) => was_up && !duplex_alone,
            Some(Breakage::DownPortCancels) => true,
            _ => was_up,
        };
        if falls {
            self.asked.end(Fate::Cancelled);
        }
    }
}

impl Table {
    /// What the Marker says that was asked for last on port n.
    pub fn requested(&self, n: u32) -> Request {
        let transaction = self.ports[n as usize - 1].asked.next.wrapping_sub(1);
        Request { port: n as u16, system: self.system, transaction }
    }

    /// Whether a Response that says this is awaited on port n.
    fn awaits(&self, n: u32, said: &Request) -> bool {
        let port = &self.ports[n as usize - 1];
        let mut awaited = self.requested(n);
        match breakage::in_force() {
            Some(Breakage::ResponsePortUncompared) => awaited.port = said.port,
            Some(Breakage::ResponseSystemUncompared) => awaited.system = said.system,
            Some(Breakage::ResponseTransactionUncompared) => awaited.transaction = said.transaction,
            Some(Breakage::ResponseTransactionOfSixteenBits) => {
                awaited.transaction = awaited.transaction & 0xFFFF | said.transaction & 0xFFFF_0000;
            }
            Some(Breakage::ResponseRefusedUnlessDistributing) if !port.mux.distributes() => return false,
            _ => {}
        }
        port.asked.awaits() && awaited == *said
    }

    /// A Response that says this came in on port n; whether it is accepted.
    pub fn answered(&mut self, n: u32, said: &Request) -> bool {
        let count = self.ports.len() as u32;
        let elsewhere = breakage::is(Breakage::ResponseAcceptedOnAnyPort);
        let asking = (1..=count).find(|other| (*other == n || elsewhere) && self.awaits(*other, said));
        if let Some(asking) = asking {
            self.ports[asking as usize - 1].asked.end(Fate::Answered);
        }
        asking.is_some()
    }
}

/// Test 4 of an ask.
pub fn waiting_time(ticks: u32) -> Result<u16, Refusal> {
    let (least, most) = match breakage::in_force() {
        Some(Breakage::WaitOfZeroAccepted) => (0, WAITING_TIME),
        Some(Breakage::WaitOf601Accepted) => (1, WAITING_TIME + 1),
        Some(Breakage::WaitOfSixteenBits) => return waiting_time_in(ticks & 0xFFFF, 1, WAITING_TIME),
        _ => (1, WAITING_TIME),
    };
    waiting_time_in(ticks, least, most)
}

fn waiting_time_in(ticks: u32, least: u16, most: u16) -> Result<u16, Refusal> {
    let ticks = u16::try_from(ticks).ok().filter(|ticks| (least..=most).contains(ticks));
    ticks.ok_or(Refusal::ArgumentWrong)
}
