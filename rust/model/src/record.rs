//! A port's record, the table in memory, and the ranges of its fields.

use crate::asks::{Asked, Fate};
use crate::breakage::{self, Breakage};
use crate::churn::{Churn, ChurnState, Monitor};
use crate::wire::{Block, State, BLOCK};

/// Octets before the first record.
pub const HEADER: usize = 11;
/// Octets of a port from its receive state to its partner, which stand together in a table.
pub const BASE: usize = 57;
/// Octets of a port's churn; in a table these groups stand behind the last port's `BASE`.
pub const CHURN: usize = 14;
/// Octets of what a port keeps of its Markers; in a table these groups stand behind all else.
pub const ASKED: usize = 7;
/// Octets of a port's record, as it is reported: one behind the other.
pub const RECORD: usize = BASE + CHURN + ASKED;
/// The most ports that a table has.
pub const PORTS: u32 = 32;

/// Fast_Periodic_Time in ticks (43.4.4).
pub const FAST_PERIODIC_TIME: u16 = 10;
/// Slow_Periodic_Time in ticks.
pub const SLOW_PERIODIC_TIME: u16 = 300;
/// Short_Timeout_Time in ticks.
pub const SHORT_TIMEOUT_TIME: u16 = 30;
/// Long_Timeout_Time in ticks.
pub const LONG_TIMEOUT_TIME: u16 = 900;
/// Churn_Detection_Time in ticks.
pub const CHURN_DETECTION_TIME: u16 = 600;
/// The most ticks for which a Marker's Response is awaited.
pub const WAITING_TIME: u16 = 600;
/// Aggregate_Wait_Time in ticks.
pub const AGGREGATE_WAIT_TIME: u8 = 20;
/// The oldest age in ticks of a send that is remembered.
pub const OLDEST_AGE: u8 = 10;
/// What stands in memory where no send is remembered.
pub const NO_SEND: u8 = 255;

/// States of the Receive machine (43.4.12).
#[derive(Clone, Copy, Debug, PartialEq, Eq)]
#[allow(missing_docs)]
pub enum Receive {
    Initialize,
    PortDisabled,
    Expired,
    LacpDisabled,
    Defaulted,
    Current,
}

/// States of the Periodic Transmission machine (43.4.13).
#[derive(Clone, Copy, Debug, PartialEq, Eq)]
#[allow(missing_docs)]
pub enum Periodic {
    NoPeriodic,
    FastPeriodic,
    SlowPeriodic,
    PeriodicTx,
}

/// States of the Mux machine with independent control (43.4.15).
#[derive(Clone, Copy, Debug, PartialEq, Eq)]
#[allow(missing_docs)]
pub enum Mux {
    Detached,
    Waiting,
    Attached,
    Collecting,
    Distributing,
}

impl Receive {
    const IN_MEMORY: [Receive; 6] = [
        Receive::Initialize,
        Receive::PortDisabled,
        Receive::Expired,
        Receive::LacpDisabled,
        Receive::Defaulted,
        Receive::Current,
    ];
}

impl Periodic {
    const IN_MEMORY: [Periodic; 4] =
        [Periodic::NoPeriodic, Periodic::FastPeriodic, Periodic::SlowPeriodic, Periodic::PeriodicTx];
}

impl ChurnState {
    const IN_MEMORY: [ChurnState; 3] = [ChurnState::NoChurn, ChurnState::Monitor, ChurnState::Churn];
}

impl Fate {
    const IN_MEMORY: [Fate; 5] = [Fate::None, Fate::Awaiting, Fate::Answered, Fate::TimedOut, Fate::Cancelled];
}

impl Mux {
    const IN_MEMORY: [Mux; 5] = [Mux::Detached, Mux::Waiting, Mux::Attached, Mux::Collecting, Mux::Distributing];

    /// Attached to its aggregator: ATTACHED or above.
    pub fn attached(self) -> bool {
        matches!(self, Mux::Attached | Mux::Collecting | Mux::Distributing)
    }

    /// Collecting or distributing: a Marker is answered.
    pub fn collects(self) -> bool {
        matches!(self, Mux::Collecting | Mux::Distributing)
    }

    /// Distributing: carries traffic.
    pub fn distributes(self) -> bool {
        self == Mux::Distributing
    }
}

/// The settings of a port.
#[derive(Clone, Copy, Debug, PartialEq, Eq)]
pub struct Settings {
    /// Own address, the source of what the port sends.
    pub address: [u8; 6],
    /// Own key.
    pub key: u16,
    /// Own port priority.
    pub port_priority: u16,
    /// Own Activity, Timeout and Aggregation, as bits of a state octet.
    pub own_bits: u8,
    /// Default partner block.
    pub default: Block,
}

/// The bits of the state octet that belong to the settings.
pub const OWN_BITS: u8 = State::ACTIVITY | State::TIMEOUT | State::AGGREGATION;

/// What is kept for a port.
#[derive(Clone, Debug, PartialEq, Eq)]
pub struct Port {
    /// State of the Receive machine.
    pub receive: Receive,
    /// State of the Periodic Transmission machine.
    pub periodic: Periodic,
    /// State of the Mux machine.
    pub mux: Mux,
    /// Selected is SELECTED.
    pub selected: bool,
    /// Aggregator held, from 1.
    pub aggregator: u8,
    /// NTT: an LACPDU is due.
    pub ntt: bool,
    /// port_enabled: the link is up.
    pub link: bool,
    /// LACP_Enabled: the duplex is full.
    pub full_duplex: bool,
    /// Actor_Oper_Port_State.
    pub actor_state: State,
    /// current_while_timer.
    pub current_while: u16,
    /// periodic_timer.
    pub periodic_timer: u16,
    /// wait_while_timer.
    pub wait_while: u8,
    /// Ages of the sends that are remembered.
    pub ages: [Option<u8>; 3],
    /// Own address.
    pub address: [u8; 6],
    /// Own key.
    pub key: u16,
    /// Own port priority.
    pub port_priority: u16,
    /// Default partner block.
    pub default: Block,
    /// Partner information in force.
    pub partner: Block,
    /// The Churn Detection machines.
    pub churn: Churn,
    /// What it keeps of the Markers that it is asked for.
    pub asked: Asked,
}

impl Port {
    /// The settings in force.
    pub fn settings(&self) -> Settings {
        Settings {
            address: self.address,
            key: self.key,
            port_priority: self.port_priority,
            own_bits: self.actor_state.0 & OWN_BITS,
            default: self.default,
        }
    }

    /// Puts settings in force; the partner information stays as it is.
    pub fn put_settings(&mut self, settings: &Settings) {
        self.address = settings.address;
        self.key = settings.key;
        self.port_priority = settings.port_priority;
        self.actor_state.0 = self.actor_state.0 & !OWN_BITS | settings.own_bits & OWN_BITS;
        self.default = settings.default;
    }

    /// The record in these octets, with that churn and those Markers, if every field is in its range for a table of `count` ports.
    fn read(base: &[u8], churn: Churn, asked: Asked, count: u8) -> Option<Port> {
        let mut reader = Reader(base);
        let port = Port {
            receive: *Receive::IN_MEMORY.get(usize::from(reader.octet()?))?,
            periodic: *Periodic::IN_MEMORY.get(usize::from(reader.octet()?))?,
            mux: *Mux::IN_MEMORY.get(usize::from(reader.octet()?))?,
            selected: reader.flag()?,
            aggregator: reader.octet()?,
            ntt: reader.flag()?,
            link: reader.flag()?,
            full_duplex: reader.flag()?,
            actor_state: State(reader.octet()?),
            current_while: reader.number()?,
            periodic_timer: reader.number()?,
            wait_while: reader.octet()?,
            ages: [reader.age()?, reader.age()?, reader.age()?],
            address: reader.octets()?,
            key: reader.number()?,
            port_priority: reader.number()?,
            default: Block::read(&reader.octets::<BLOCK>()?),
            partner: Block::read(&reader.octets::<BLOCK>()?),
            churn,
            asked,
        };
        let in_range = (1..=count).contains(&port.aggregator)
            && port.current_while <= LONG_TIMEOUT_TIME
            && port.periodic_timer <= SLOW_PERIODIC_TIME
            && port.wait_while <= AGGREGATE_WAIT_TIME;
        in_range.then_some(port)
    }

    /// All but the churn and the Markers.
    fn write(&self, to: &mut Vec<u8>) {
        to.push(self.receive as u8);
        to.push(self.periodic as u8);
        to.push(self.mux as u8);
        to.push(u8::from(self.selected));
        to.push(self.aggregator);
        to.push(u8::from(self.ntt));
        to.push(u8::from(self.link));
        to.push(u8::from(self.full_duplex));
        to.push(self.actor_state.0);
        to.extend(self.current_while.to_be_bytes());
        to.extend(self.periodic_timer.to_be_bytes());
        to.push(self.wait_while);
        to.extend(self.ages.map(|age| age.unwrap_or(NO_SEND)));
        to.extend(self.address);
        to.extend(self.key.to_be_bytes());
        to.extend(self.port_priority.to_be_bytes());
        to.extend(self.default.octets());
        to.extend(self.partner.octets());
    }
}

impl Churn {
    /// The churn in these octets, if every field is in its range: states, timers, counts, the actor's first each time.
    pub(crate) fn read(octets: &[u8]) -> Option<Churn> {
        let mut reader = Reader(octets);
        let states = [reader.churn_state()?, reader.churn_state()?];
        let timers = [reader.churn_timer()?, reader.churn_timer()?];
        let counts = [reader.count()?, reader.count()?];
        let [actor, partner] = [0, 1].map(|at| Monitor { state: states[at], timer: timers[at], count: counts[at] });
        Some(Churn { actor, partner })
    }

    pub(crate) fn write(&self, to: &mut Vec<u8>) {
        let both = [self.actor, self.partner];
        to.extend(both.map(|monitor| monitor.state as u8));
        both.iter().for_each(|monitor| to.extend(monitor.timer.to_be_bytes()));
        both.iter().for_each(|monitor| to.extend(monitor.count.to_be_bytes()));
    }
}

impl Asked {
    /// The group in these octets, if every field is in its range. A Marker that is awaited with its timer at 0 is: the next tick ends it.
    pub(crate) fn read(octets: &[u8]) -> Option<Asked> {
        let mut reader = Reader(octets);
        let asked = Asked { fate: reader.fate()?, timer: reader.waiting_time()?, next: reader.count()? };
        let at_zero = asked.fate == Fate::Awaiting && asked.timer == 0;
        (!at_zero || !breakage::is(Breakage::AwaitingAtZeroRefused)).then_some(asked)
    }

    pub(crate) fn write(&self, to: &mut Vec<u8>) {
        to.push(self.fate as u8);
        to.extend(self.timer.to_be_bytes());
        to.extend(self.next.to_be_bytes());
    }
}

/// A table: one Aggregation System. Port n is `ports[n - 1]`.
#[derive(Clone, Debug, PartialEq, Eq)]
pub struct Table {
    /// Own system priority.
    pub system_priority: u16,
    /// Own system address.
    pub system: [u8; 6],
    /// CollectorMaxDelay in tens of microseconds.
    pub collector_max_delay: u16,
    /// The ports, 1 to 32.
    pub ports: Vec<Port>,
}

/// The two forms of a table (request M-106). Nothing in a table names its form: it is the one whose size fits the count.
#[derive(Clone, Copy, Debug, PartialEq, Eq)]
pub enum Form {
    /// As before request M-105: without churn.
    Old,
    /// As every call but a move takes it.
    New,
}

impl Form {
    /// The octets of the memory of a table of that many ports; none for a count outside 1 to 32.
    pub fn size(self, ports: u32) -> Option<usize> {
        let record = match self {
            Form::Old => BASE + ASKED,
            Form::New => RECORD,
        };
        (1..=PORTS).contains(&ports).then(|| HEADER + record * ports as usize)
    }
}

impl Table {
    /// The table in this memory; none is answer 1.
    pub fn read(memory: &[u8]) -> Option<Table> {
        Table::read_in(Form::New, memory)
    }

    /// The table of that form in this memory. Where the form has no churn, it begins.
    pub fn read_in(form: Form, memory: &[u8]) -> Option<Table> {
        let (header, rest) = memory.split_first_chunk::<HEADER>()?;
        let mut reader = Reader(header);
        let count = reader.octet()?;
        if memory.len() != form.size(u32::from(count))? {
            return None;
        }
        let mut table = Table {
            system_priority: reader.number()?,
            system: reader.octets()?,
            collector_max_delay: reader.number()?,
            ports: Vec::with_capacity(usize::from(count)),
        };
        let (records, groups) = rest.split_at_checked(BASE * usize::from(count))?;
        let (watched, asked) = groups.split_at_checked(groups.len().checked_sub(ASKED * usize::from(count))?)?;
        let mut watched = watched.chunks_exact(CHURN);
        for (base, asked) in records.chunks_exact(BASE).zip(asked.chunks_exact(ASKED)) {
            let churn = watched.next().map_or(Some(Churn::begun()), Churn::read)?;
            table.ports.push(Port::read(base, churn, Asked::read(asked)?, count)?);
        }
        Some(table)
    }

    /// Writes the table over the memory from which it was read, or that has its size.
    pub fn write(&self, memory: &mut [u8]) {
        memory.copy_from_slice(&self.octets(Form::New));
    }

    /// The table in that form.
    pub fn octets(&self, form: Form) -> Vec<u8> {
        let mut octets = Vec::with_capacity(HEADER + RECORD * self.ports.len());
        octets.push(self.ports.len() as u8);
        octets.extend(self.system_priority.to_be_bytes());
        octets.extend(self.system);
        octets.extend(self.collector_max_delay.to_be_bytes());
        for port in &self.ports {
            port.write(&mut octets);
        }
        for port in self.ports.iter().filter(|_| form == Form::New) {
            port.churn.write(&mut octets);
        }
        for port in &self.ports {
            port.asked.write(&mut octets);
        }
        octets
    }

    /// What port n says of itself: the actor block of what it sends.
    pub fn actor(&self, n: u32) -> Block {
        let port = &self.ports[n as usize - 1];
        Block {
            system_priority: self.system_priority,
            system: self.system,
            key: port.key,
            port_priority: port.port_priority,
            port: n as u16,
            state: port.actor_state,
        }
    }
}

/// Reads fields one after the other; none where the octets end or a field is out of its range.
struct Reader<'a>(&'a [u8]);

impl Reader<'_> {
    fn octets<const N: usize>(&mut self) -> Option<[u8; N]> {
        let (octets, rest) = self.0.split_first_chunk::<N>()?;
        self.0 = rest;
        Some(*octets)
    }

    fn octet(&mut self) -> Option<u8> {
        self.octets().map(|[octet]| octet)
    }

    fn number(&mut self) -> Option<u16> {
        self.octets().map(u16::from_be_bytes)
    }

    fn count(&mut self) -> Option<u32> {
        self.octets().map(u32::from_be_bytes)
    }

    fn churn_state(&mut self) -> Option<ChurnState> {
        let code = self.octet()?;
        let code = if breakage::is(Breakage::ChurnStateOf3Accepted) && code == 3 { 2 } else { code };
        ChurnState::IN_MEMORY.get(usize::from(code)).copied()
    }

    fn churn_timer(&mut self) -> Option<u16> {
        let beyond = u16::from(breakage::is(Breakage::ChurnTimerOf601Accepted));
        self.number().filter(|ticks| *ticks <= CHURN_DETECTION_TIME + beyond)
    }

    fn fate(&mut self) -> Option<Fate> {
        let code = self.octet()?;
        let code = if breakage::is(Breakage::OutcomeOf5Accepted) && code == 5 { 4 } else { code };
        Fate::IN_MEMORY.get(usize::from(code)).copied()
    }

    fn waiting_time(&mut self) -> Option<u16> {
        let beyond = u16::from(breakage::is(Breakage::WaitTimerOf601Accepted));
        self.number().filter(|ticks| *ticks <= WAITING_TIME + beyond)
    }

    fn flag(&mut self) -> Option<bool> {
        match self.octet()? {
            0 => Some(false),
            1 => Some(true),
            _ => None,
        }
    }

    fn age(&mut self) -> Option<Option<u8>> {
        let oldest = if breakage::is(Breakage::AgeOfElevenAccepted) { OLDEST_AGE + 1 } else { OLDEST_AGE };
        match self.octet()? {
            NO_SEND => Some(None),
            age if age <= oldest => Some(Some(age)),
            _ => None,
        }
    }
}
