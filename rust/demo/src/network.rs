//! Two tables of the library, and the cables that carry their frames.

use crate::cabling::{all_ports, Cabling, Port, Switch};
use crate::script::{Command, LinkChange, Setting};
use crate::trunk::TrunkPage;
use myrkosti::{
    Apart, AskOutcome, Asked, Block, Counters, MuxState, PortState, ReceiveState, Received, Record, Refusal, Settings,
    SystemId, Table, Why, FRAME,
};

/// How a port stands, as the timeline shows it.
#[derive(Clone, Copy, Debug, PartialEq, Eq)]
pub enum State {
    Down,
    /// Half duplex.
    LacpOff,
    /// The partner is expired or defaulted, and the port does not carry.
    Unheard,
    Waiting,
    Attached,
    Collecting,
    Distributing,
    /// Distributing too, but what the port sends does not reach a collecting port.
    Lost,
}

/// An end of a port's link.
#[derive(Clone, Copy, Debug, PartialEq, Eq)]
pub enum End {
    This,
    Far,
}

impl End {
    pub const BOTH: [End; 2] = [End::This, End::Far];
}

/// A port as its report shows it.
#[derive(Clone, Copy, PartialEq, Eq)]
pub struct PortLook {
    pub state: State,
    /// The aggregator that it holds.
    pub aggregator: u32,
    /// Whether its link churns at this end, and at the far end.
    churns: [bool; 2],
    /// The partner that it learned: system and port. None if it goes by the default.
    pub partner: Option<(SystemId, u16)>,
    /// What came of the Marker that was asked for last.
    pub asked: AskOutcome,
    /// The transaction of that Marker, if there was one.
    pub transaction: Option<u32>,
    /// Why it carries or does not.
    pub why: Why,
}

impl PortLook {
    fn of(record: &Record, why: Why) -> PortLook {
        let partner = (record.partner.system, record.partner.port);
        let learned = !record.actor_state.has(PortState::DEFAULTED);
        PortLook {
            state: state_of(record),
            aggregator: u32::from(record.aggregator),
            churns: [record.churn.actor.churns(), record.churn.partner.churns()],
            partner: learned.then_some(partner),
            asked: record.asked.outcome,
            transaction: record.asked.transaction(),
            why,
        }
    }

    /// Whether that end of its link churns.
    pub fn churns(&self, end: End) -> bool {
        self.churns[end as usize]
    }
}

/// An aggregator that carries traffic, and its ports that distribute.
#[derive(PartialEq, Eq)]
pub struct Trunk {
    pub aggregator: u32,
    pub ports: Vec<u32>,
}

/// What the reports of A and of B show at one time.
#[derive(Default, PartialEq, Eq)]
pub struct Look {
    pub ports: [Vec<PortLook>; 2],
    pub trunks: [Vec<Trunk>; 2],
}

impl Look {
    pub fn port(&self, port: Port) -> &PortLook {
        &self.ports[port.switch.index()][port.index()]
    }

    /// The most ports on which one aggregator of this switch carries.
    pub fn width(&self, switch: Switch) -> usize {
        self.trunks[switch.index()].iter().map(|trunk| trunk.ports.len()).max().unwrap_or(0)
    }
}

/// What came of a Marker that was asked for.
#[derive(Clone, Copy, Debug, PartialEq, Eq)]
pub enum Came {
    /// It was asked for in vain.
    Refused(Refusal),
    /// It has come to one of its ends.
    Ended(Asked),
}

/// Two switches and their cables. A refusal of the library that is no part of the game ends it.
pub struct Network {
    tables: [Table; 2],
    cabling: Cabling,
    /// The ports to which frames are lost.
    deaf: [Vec<bool>; 2],
    /// Those of each port of A and of B.
    counters: [Vec<Counters>; 2],
    /// The ports that await the Response to a Marker.
    awaiting: Vec<Port>,
    /// What is to be told of Markers.
    came: Vec<(Port, Came)>,
    ports: u32,
}

impl Network {
    /// Two switches of that many ports, joined port by port, every link down.
    pub fn start(ports: u32) -> Result<Network, Refusal> {
        let tables = [start_switch(ports, 0x0A)?, start_switch(ports, 0x0B)?];
        let deaf = Switch::BOTH.map(|_| vec![false; ports as usize]);
        let counters = Switch::BOTH.map(|_| vec![Counters::default(); ports as usize]);
        let (cabling, awaiting, came) = (Cabling::straight(ports), Vec::new(), Vec::new());
        Ok(Network { tables, cabling, deaf, counters, awaiting, came, ports })
    }

    /// A tick passes at both switches, and what is due goes over the cables.
    pub fn tick(&mut self) -> Result<(), Refusal> {
        for table in &mut self.tables {
            table.tick()?;
        }
        self.exchange()?;
        self.note_ended()
    }

    /// Performs a command other than a tick, and what is due goes over the cables. A moved table has nothing due that it had not before.
    pub fn perform(&mut self, command: &Command) -> Result<(), Refusal> {
        match command {
            Command::Link(change, link) => self.change_link(*change, Port::a(*link))?,
            Command::Deaf(port) => self.set_deaf(*port, true),
            Command::Set(setting, port) => self.set(*setting, *port)?,
            Command::Move(port, to) => self.move_cable(port.cable_to(*to))?,
            Command::Ask(port, ticks) => self.ask(*port, *ticks)?,
            Command::Reload(switch) => return self.reload(*switch),
            Command::Tick(_) | Command::Note(_) => return Ok(()),
        }
        self.exchange()?;
        self.note_ended()
    }

    /// What is to be told of Markers since it was told last.
    pub fn tell(&mut self) -> Vec<(Port, Came)> {
        std::mem::take(&mut self.came)
    }

    /// The Markers that were asked for on the ports of A and of B.
    pub fn asked(&self) -> Result<[Vec<Asked>; 2], Refusal> {
        let mut asked = [Vec::new(), Vec::new()];
        for port in all_ports(self.ports) {
            asked[port.switch.index()].push(self.table(port).port(port.number)?.asked);
        }
        Ok(asked)
    }

    /// What the reports show now.
    pub fn look(&self) -> Result<Look, Refusal> {
        let mut look = Look::default();
        for port in all_ports(self.ports) {
            let (record, why) = (self.table(port).port(port.number)?, self.table(port).why(port.number)?);
            look.ports[port.switch.index()].push(PortLook::of(&record, why));
            let report = self.table(port).aggregator(port.number)?;
            if report.count > 0 {
                let ports = report.distributing.iter().collect();
                look.trunks[port.switch.index()].push(Trunk { aggregator: port.number, ports });
            }
        }
        self.mark_lost(&mut look);
        Ok(look)
    }

    /// Why two ports of a switch are apart.
    pub fn apart(&self, first: Port, second: u32) -> Result<Apart, Refusal> {
        self.table(first).apart(first.number, second)
    }

    /// The pages of the trunks of A and of B.
    pub fn trunk_pages(&self) -> Result<[Vec<TrunkPage>; 2], Refusal> {
        let [a, b] = &self.tables;
        Ok([TrunkPage::all(a, self.ports)?, TrunkPage::all(b, self.ports)?])
    }

    /// What the ports of A and of B have counted.
    pub fn counters(&self) -> [Vec<Counters>; 2] {
        self.counters.clone()
    }

    /// How many LACPDUs A and B have sent.
    pub fn sent(&self) -> [u64; 2] {
        self.counters.each_ref().map(|ports| ports.iter().map(|port| u64::from(port.lacpdus_sent)).sum())
    }

    fn mark_lost(&self, look: &mut Look) {
        let collects = |state| matches!(state, State::Collecting | State::Distributing);
        let seen = look.ports.clone();
        for port in all_ports(self.ports) {
            let far = self.way_from(port).map(|far| seen[far.switch.index()][far.index()].state);
            let state = &mut look.ports[port.switch.index()][port.index()].state;
            if *state == State::Distributing && !far.is_some_and(collects) {
                *state = State::Lost;
            }
        }
    }

    fn table(&self, port: Port) -> &Table {
        &self.tables[port.switch.index()]
    }

    fn table_mut(&mut self, port: Port) -> &mut Table {
        &mut self.tables[port.switch.index()]
    }

    /// The table of a port, and the counters that a call on it is lent.
    fn counting(&mut self, port: Port) -> (&mut Table, &mut Counters) {
        let switch = port.switch.index();
        (&mut self.tables[switch], &mut self.counters[switch][port.index()])
    }

    /// Where a frame of this port arrives; none without a cable, or where it is lost.
    fn way_from(&self, port: Port) -> Option<Port> {
        self.cabling.far(port).filter(|far| !self.deaf[far.switch.index()][far.index()])
    }

    fn set_deaf(&mut self, port: Port, deaf: bool) {
        self.deaf[port.switch.index()][port.index()] = deaf;
    }

    /// Every port that has something to send is fetched once; then the frames arrive.
    fn exchange(&mut self) -> Result<(), Refusal> {
        let mut frames = Vec::new();
        for switch in Switch::BOTH {
            for number in self.tables[switch.index()].due()?.iter() {
                let port = Port { switch, number };
                let mut out = [0; FRAME];
                let (table, counters) = self.counting(port);
                table.fetch(number, &mut out, counters)?;
                frames.push((port, out));
            }
        }
        frames.iter().try_for_each(|(port, frame)| self.carry(*port, frame))
    }

    /// A frame of a port arrives at the other end of its cable, if it is not lost, and the Response to a Marker comes back.
    fn carry(&mut self, port: Port, frame: &[u8; FRAME]) -> Result<(), Refusal> {
        let Some(far) = self.way_from(port) else { return Ok(()) };
        let mut response = [0; FRAME];
        let (table, counters) = self.counting(far);
        match table.receive(far.number, frame, &mut response, counters) {
            Ok(Received::Marker(_)) => self.carry(far, &response),
            Ok(_) | Err(Refusal::LacpOff | Refusal::NotCollecting) => Ok(()),
            Err(refusal) => Err(refusal),
        }
    }

    /// A Marker goes to the far end, unless the port is not to be asked.
    fn ask(&mut self, port: Port, ticks: u32) -> Result<(), Refusal> {
        let mut marker = [0; FRAME];
        match self.table_mut(port).ask(port.number, ticks, &mut marker) {
            Ok(_) => {
                self.awaiting.push(port);
                self.carry(port, &marker)
            }
            Err(refusal @ (Refusal::NotDistributing | Refusal::AlreadyAwaiting)) => {
                self.came.push((port, Came::Refused(refusal)));
                Ok(())
            }
            Err(refusal) => Err(refusal),
        }
    }

    /// Takes note of the Markers that are awaited no longer.
    fn note_ended(&mut self) -> Result<(), Refusal> {
        for port in std::mem::take(&mut self.awaiting) {
            match self.table(port).port(port.number)?.asked {
                asked if asked.outcome.ended() => self.came.push((port, Came::Ended(asked))),
                _ => self.awaiting.push(port),
            }
        }
        Ok(())
    }

    fn change_link(&mut self, change: LinkChange, port: Port) -> Result<(), Refusal> {
        for end in [Some(port), self.cabling.far(port)].into_iter().flatten() {
            match change {
                LinkChange::Up => self.set_link(end, true)?,
                LinkChange::Down => self.set_link(end, false)?,
                LinkChange::Silence => self.set_deaf(end, true),
                LinkChange::Speak => self.set_deaf(end, false),
            }
        }
        Ok(())
    }

    /// The link of a port is up or down now, its duplex as it was.
    fn set_link(&mut self, port: Port, up: bool) -> Result<(), Refusal> {
        let table = self.table_mut(port);
        let full = table.port(port.number)?.full_duplex;
        table.line(port.number, up, full)
    }

    fn set(&mut self, setting: Setting, port: Port) -> Result<(), Refusal> {
        let table = self.table_mut(port);
        let Record { link_up, mut settings, .. } = table.port(port.number)?;
        match setting {
            Setting::FullDuplex(full) => return table.line(port.number, link_up, full),
            Setting::Key(key) => settings.key = key,
            Setting::ShortTimeout(short) => settings.short_timeout = short,
            Setting::Active(active) => settings.activity = active,
            Setting::Aggregatable(aggregatable) => settings.aggregation = aggregatable,
            Setting::DefaultPartner(key) => settings.default_partner = taken_for_granted(key),
        }
        table.settings(port.number, &settings)
    }

    fn move_cable(&mut self, (a, b): (Port, Port)) -> Result<(), Refusal> {
        for end in [Some(a), self.cabling.far(a), Some(b), self.cabling.far(b)].into_iter().flatten() {
            self.set_link(end, false)?;
        }
        self.cabling.join(a, b);
        self.change_link(LinkChange::Speak, a)?;
        self.change_link(LinkChange::Up, a)
    }

    /// Earlier firmware takes the table of a switch, and then that of today takes it back. The counters stand outside the table and go on.
    fn reload(&mut self, switch: Switch) -> Result<(), Refusal> {
        let table = &mut self.tables[switch.index()];
        *table = Table::from_old(&table.to_old()?)?;
        Ok(())
    }
}

/// A switch whose ports are active, aggregatable, with short timeout and key 1, and speak once a second while nobody answers.
fn start_switch(ports: u32, last_octet: u8) -> Result<Table, Refusal> {
    let system = SystemId { priority: 1, address: [0, 0, 0, 0, 0, last_octet] };
    let settings = Settings {
        address: system.address,
        key: 1,
        port_priority: 1,
        activity: true,
        short_timeout: true,
        aggregation: true,
        default_partner: Block { state: PortState::TIMEOUT, ..Block::default() },
    };
    Table::start(ports, system, 0, &settings)
}

/// A default partner of that key that aggregates, is in sync and collects: a port carries on its word alone while nobody speaks.
fn taken_for_granted(key: u16) -> Block {
    let in_sync = PortState::SYNCHRONIZATION.with(PortState::COLLECTING);
    Block { key, state: PortState::TIMEOUT.with(PortState::AGGREGATION).with(in_sync), ..Block::default() }
}

fn state_of(record: &Record) -> State {
    match (record.receive, record.mux) {
        _ if !record.link_up => State::Down,
        _ if !record.full_duplex => State::LacpOff,
        (_, MuxState::Distributing) => State::Distributing,
        (ReceiveState::Expired | ReceiveState::Defaulted, _) => State::Unheard,
        (_, MuxState::Detached | MuxState::Waiting) => State::Waiting,
        (_, MuxState::Attached) => State::Attached,
        (_, MuxState::Collecting) => State::Collecting,
    }
}
