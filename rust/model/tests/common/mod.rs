//! A bench for the tests: one system (priority 1, address 9), settings key 1,
//! priority 1, own bits active 1, short 2, aggregatable 4.
#![allow(dead_code, missing_docs)]

use calls::{Call, Counters, Outcome, Report, SettingsArguments};
use model::record::{Port, Table};
use model::wire::{self, Block, State, FRAME};

pub const ADDRESS: [u8; 6] = [0x02, 0x00, 0x5E, 0x10, 0x20, 0x30];
pub const OURS: [u8; 6] = [0, 0, 0, 0, 0, 9];
pub const DELAY: u16 = 0x1234;

/// Settings as arguments.
#[derive(Clone, Copy)]
pub struct Set {
    pub address: [u8; 6],
    pub key: u16,
    pub priority: u16,
    pub bits: u8,
    pub default: Block,
}

impl Set {
    fn arguments(&self) -> SettingsArguments {
        SettingsArguments {
            address: self.address,
            key: self.key,
            port_priority: self.priority,
            activity: self.bits & 1 != 0,
            timeout: self.bits & 2 != 0,
            aggregation: self.bits & 4 != 0,
            partner: self.default.octets(),
        }
    }
}

/// Key 1, priority 1, these own bits, a default block of zeros with that state.
pub fn set(bits: u8, default_state: u8) -> Set {
    let default = Block { state: State(default_state), ..Block::default() };
    Set { address: ADDRESS, key: 1, priority: 1, bits, default }
}

/// System priority 1, key 1, port priority 1.
pub fn far(system: u8, port: u16, state: u8) -> Block {
    Block { system_priority: 1, system: [0, 0, 0, 0, 0, system], key: 1, port_priority: 1, port, state: State(state) }
}

pub struct Bench {
    pub memory: Vec<u8>,
}

impl Bench {
    pub fn start(count: u32, bits: u8, default_state: u8) -> Bench {
        Bench::start_with(count, set(bits, default_state))
    }

    pub fn start_with(count: u32, set: Set) -> Bench {
        let mut bench = Bench { memory: vec![0xA5; model::table_size(count) as usize] };
        assert_eq!(bench.restart(count, set), 0);
        bench
    }

    pub fn restart(&mut self, count: u32, set: Set) -> u32 {
        self.call(&Call::Start {
            ports: count,
            system_priority: 1,
            system: OURS,
            collector_max_delay: DELAY,
            settings: set.arguments(),
        })
    }

    /// The answer to a call, with a buffer of 124 octets.
    pub fn call(&mut self, call: &Call) -> u32 {
        self.perform(call, &mut [0xFF; FRAME]).answer
    }

    /// With counters that nobody reads.
    pub fn perform(&mut self, call: &Call, out: &mut [u8]) -> Outcome {
        self.counting(call, out, &mut Counters::default())
    }

    pub fn counting(&mut self, call: &Call, out: &mut [u8], counters: &mut Counters) -> Outcome {
        model::perform(call, &mut self.memory, out, counters)
    }

    pub fn report(&self, report: Report) -> Outcome {
        model::report(report, &self.memory, &mut [])
    }

    /// The answer to the report of a port, and what so many octets, 0xEE before it, hold after it.
    pub fn record(&self, n: u32, lent: usize) -> (u32, Vec<u8>) {
        let mut record = vec![0xEE; lent];
        let outcome = model::report(Report::Port { port: n }, &self.memory, &mut record);
        (outcome.answer, record)
    }

    /// The record of a port as it stands in memory, in its three places.
    pub fn octets(&self, n: usize) -> Vec<u8> {
        let ports = usize::from(self.memory[0]);
        let place = |before: usize, length: usize| &self.memory[11 + before * ports + length * (n - 1)..][..length];
        [place(0, 57), place(57, 14), place(71, 7)].concat()
    }

    pub fn table(&self) -> Table {
        Table::read(&self.memory).expect("in range")
    }

    pub fn port(&self, n: usize) -> Port {
        self.table().ports[n - 1].clone()
    }

    /// Changes the record of a port in memory.
    pub fn poke(&mut self, n: usize, change: impl FnOnce(&mut Port)) {
        let mut table = self.table();
        change(&mut table.ports[n - 1]);
        table.write(&mut self.memory);
    }

    pub fn ticks(&mut self, count: u32) {
        for _ in 0..count {
            assert_eq!(self.call(&Call::Tick), 0);
        }
    }

    pub fn line(&mut self, n: u32, up: bool, full: bool) {
        assert_eq!(self.call(&Call::Line { port: n, up, full }), 0);
    }

    /// The link alone: the duplex is as it was.
    pub fn link(&mut self, n: u32, up: bool) {
        let full = self.port(n as usize).full_duplex;
        self.line(n, up, full);
    }

    /// The duplex alone: the link is as it was.
    pub fn duplex(&mut self, n: u32, full: bool) {
        let up = self.port(n as usize).link;
        self.line(n, up, full);
    }

    pub fn settings(&mut self, n: u32, set: Set) -> u32 {
        self.call(&Call::Settings { port: n, settings: set.arguments() })
    }

    pub fn fetch(&mut self, n: u32) -> u32 {
        self.call(&Call::Fetch { port: n })
    }

    /// The ports that have something to send, which must be those on which a fetch, tried on a copy, is answered 0.
    pub fn due(&self) -> u32 {
        let Outcome { answer, due, .. } = self.report(Report::Due);
        assert_eq!(answer, 0);
        for n in 0..=33 {
            let sends = Bench { memory: self.memory.clone() }.fetch(n) == 0;
            assert_eq!(sends, n > 0 && u64::from(due) >> (n - 1) & 1 == 1, "port {n} of {due:b}");
        }
        due
    }

    /// Hands over a frame with a buffer of 124 octets.
    pub fn hand(&mut self, n: u32, frame: &[u8]) -> u32 {
        let Outcome { answer, sent, .. } =
            self.perform(&Call::Receive { port: n, frame: frame.into() }, &mut [0xFF; FRAME]);
        assert!(sent == 0 || sent == 124 && answer == 0);
        answer
    }

    /// Receives an LACPDU with these blocks.
    pub fn rx_both(&mut self, n: u32, actor: Block, partner: Block) -> u32 {
        self.hand(n, &wire::lacpdu(&actor.system, &actor, &partner, 0))
    }

    /// Receives an LACPDU of that actor which repeats what the port says of itself.
    pub fn rx(&mut self, n: u32, actor: Block) {
        let partner = self.table().actor(n);
        assert_eq!(self.rx_both(n, actor, partner), 0);
    }

    /// The answer to an ask, and the frame that it gives, 0xEE before it.
    pub fn ask(&mut self, n: u32, ticks: u32) -> (u32, [u8; FRAME]) {
        let mut out = [0xEE; FRAME];
        let answer = self.perform(&Call::Ask { port: n, ticks }, &mut out).answer;
        (answer, out)
    }

    /// The aggregators held.
    pub fn held(&self) -> Vec<u8> {
        self.table().ports.iter().map(|port| port.aggregator).collect()
    }
}

pub fn lacpdu() -> [u8; FRAME] {
    wire::lacpdu(&[2, 0, 0, 0, 0, 5], &far(5, 1, 0x3F), &far(9, 1, 0x07), 0)
}

pub fn marker(kind: u8) -> [u8; FRAME] {
    let mut frame = lacpdu();
    frame[14..].fill(0x77);
    frame[14..18].copy_from_slice(&[2, 1, kind, 16]);
    frame
}

/// The Response to a Marker, from another address, with its pad and reserved octets at 0x77.
pub fn response_to(marker: &[u8]) -> Vec<u8> {
    [&marker[..6], &[2, 0, 0, 0, 0, 5], &marker[12..16], &[2, 16], &marker[18..30], &[0x77; 94]].concat()
}

/// Numbers below a bound, the same each time.
pub fn numbers() -> impl FnMut(u64) -> u64 {
    let mut seed = 1_u64;
    move |bound| {
        seed = seed.wrapping_mul(6_364_136_223_846_793_005).wrapping_add(1_442_695_040_888_963_407);
        (seed >> 33) % bound
    }
}

/// A call at random on one of three ports, or on one that there is not; whether it was a tick or a start that was accepted.
pub fn any_call(t: &mut Bench, below: &mut impl FnMut(u64) -> u64) -> (bool, bool) {
    let n = below(4) as u32;
    let set = Set { key: below(2) as u16, ..set(7 - below(2) as u8, [0, 0x3F, 0x07, 0x10][below(4) as usize]) };
    match below(12) {
        0..=5 => {
            let states = [0x3F, 0x0F, 0x07, 0x39, 0x05];
            let partner = if n > 0 && below(3) > 0 { t.table().actor(n.min(3)) } else { far(9, 1, 0) };
            t.rx_both(n, far(5 + below(2) as u8, below(3) as u16, states[below(5) as usize]), partner);
        }
        6..=7 => drop(t.call(&Call::Line { port: n, up: below(4) > 0, full: below(2) == 1 })),
        8 => drop(t.settings(n, set)),
        9 => drop(t.fetch(n)),
        10 => drop(t.hand(n, &marker(1))),
        _ if below(20) == 0 => return (false, t.restart(3, set) == 0),
        _ => return (t.call(&Call::Tick) == 0, false),
    }
    (false, false)
}
