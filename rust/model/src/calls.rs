//! The calls of `rust/calls`, which are those of `include/myrkosti.h`: refusals in their order (R2.14 of docs/RULES.md), then the
//! steps of R4. Each answers its number (R2).

use crate::apart;
use crate::asks::{self, Asked, Fate};
use crate::breakage::{self, Breakage};
use crate::churn::Churn;
use crate::counters;
use crate::moves;
use crate::receive::displace;
use crate::record::{
    Form, Mux, Periodic, Port, Receive, Settings, Table, ASKED, BASE, CHURN, HEADER, OLDEST_AGE, OWN_BITS, PORTS,
    RECORD,
};
use crate::why::{self, Why};
use crate::wire::{self, Block, Frame, State, FRAME};
use ::calls::{Call, Counters, Outcome, Report, SettingsArguments};

/// The version of the interface that the model performs.
const VERSION: u32 = 0x0202;

/// Why a call was refused; the discriminants are the answer numbers.
#[derive(Clone, Copy, Debug, PartialEq, Eq)]
#[allow(missing_docs)]
pub enum Refusal {
    TableWrong = 1,
    NoSuchPort = 2,
    BufferShort = 3,
    ArgumentWrong = 4,
    LacpOff = 5,
    Foreign = 6,
    Unknown = 7,
    Illegal = 8,
    NotCollecting = 9,
    NothingToSend = 10,
    TooManySends = 11,
    Response = 12,
    NotDistributing = 13,
    Awaiting = 14,
}

/// A received frame that is accepted.
#[derive(Clone, Copy, Debug, PartialEq, Eq)]
pub enum Accepted {
    /// An LACPDU.
    Lacpdu,
    /// A Marker, whose Response is to be sent.
    Marker,
    /// A Response that was awaited.
    Response,
}

fn number<T>(result: Result<T, Refusal>) -> u32 {
    match result {
        Ok(_) => 0,
        Err(refusal) => refusal as u32,
    }
}

/// Performs a call on this table, with this outgoing buffer, or memory for a record or a moved table, and these counters, if it takes
/// them.
#[inline(always)] // so that whoever names the call, as bench-model does, has no dispatch
pub fn perform(call: &Call, table: &mut [u8], out: &mut [u8], counters: &mut Counters) -> Outcome {
    let mut outcome = Outcome::UNTOUCHED;
    outcome.answer = match *call {
        Call::Start { ports, system_priority, system, collector_max_delay, ref settings } => {
            let begun = begun(table, ports, &own(settings));
            number(begun.map(|ports| start(table, Table { system_priority, system, collector_max_delay, ports })))
        }
        Call::Receive { port, ref frame } => {
            let received = receive(table, port, frame, out);
            outcome.sent = if received == Ok(Accepted::Marker) || sent_wrongly(received) { FRAME as u32 } else { 0 };
            counters::received(counters, received);
            number(received)
        }
        Call::Tick => number(tick(table)),
        Call::Line { port, up, full } => number(line(table, port, (up, full))),
        Call::Settings { port, ref settings } => number(set(table, port, &own(settings))),
        Call::Fetch { port } => {
            let fetched = fetch(table, port, out);
            counters::fetched(counters, fetched);
            number(fetched)
        }
        Call::Ask { port, ticks } => number(ask(table, port, ticks, out)),
        Call::Report(asked) => return report(asked, table, out),
    };
    outcome
}

/// Performs a call that only reads this table, with this memory for a record or a moved table if it has one.
#[inline(always)]
pub fn report(report: Report, table: &[u8], lent: &mut [u8]) -> Outcome {
    let mut outcome = Outcome::UNTOUCHED;
    outcome.answer = match report {
        Report::TableSize { ports } => table_size(ports),
        Report::Port { port } => {
            let record = record_of(table, port);
            put_record(lent, &record.unwrap_or([0; RECORD]));
            number(record)
        }
        Report::Aggregator { aggregator } => {
            let ports = ports_of(table, aggregator);
            outcome.aggregator = ports.unwrap_or([0; 5]);
            number(ports)
        }
        Report::Due => {
            let ports = due(table);
            outcome.due = ports.unwrap_or(0);
            number(ports)
        }
        Report::Version => VERSION,
        Report::OldTableSize { ports } => old_table_size(ports),
        Report::Forward => number(moves::perform(Form::New, table, lent)),
        Report::Back => number(moves::perform(Form::Old, table, lent)),
        Report::Why { port } => {
            let why = why_of(table, port);
            outcome.why = why::numbers(why, outcome.why);
            number(why)
        }
        Report::Apart { first, second } => {
            let reasons = apart_of(table, first, second);
            outcome.apart = apart::number(reasons, outcome.apart);
            number(reasons)
        }
    };
    outcome
}

/// The octets of a table's memory; 0 for a count outside 1 to 32.
pub fn table_size(ports: u32) -> u32 {
    Form::New.size(ports).map_or(0, |size| size as u32)
}

/// The same of the old form.
pub fn old_table_size(ports: u32) -> u32 {
    if breakage::is(Breakage::OldSizeOfAnyCount) {
        return ports.wrapping_mul((BASE + ASKED) as u32).wrapping_add(HEADER as u32);
    }
    Form::Old.size(ports).map_or(0, |size| size as u32)
}

/// Tests 1 and 2.
fn open(memory: &[u8], n: u32) -> Result<Table, Refusal> {
    let table = Table::read(memory).ok_or(Refusal::TableWrong)?;
    if n == 0 || n as usize > table.ports.len() {
        return Err(Refusal::NoSuchPort);
    }
    Ok(table)
}

/// Test 3.
fn long_enough(out: &mut [u8]) -> Result<&mut [u8; FRAME], Refusal> {
    out.first_chunk_mut().ok_or(Refusal::BufferShort)
}

/// Test 4 of settings.
fn right_default(settings: &Settings) -> Result<(), Refusal> {
    let state = settings.default.state;
    if state.has(State::COLLECTING) == state.has(State::SYNCHRONIZATION) {
        Ok(())
    } else {
        Err(Refusal::ArgumentWrong)
    }
}

/// The settings that a call is given.
fn own(given: &SettingsArguments) -> Settings {
    let mut own_bits = State(0);
    own_bits.put(State::ACTIVITY, given.activity);
    own_bits.put(State::TIMEOUT, given.timeout);
    own_bits.put(State::AGGREGATION, given.aggregation);
    Settings {
        address: given.address,
        key: given.key,
        port_priority: given.port_priority,
        own_bits: own_bits.0,
        default: Block::read(&given.partner),
    }
}

/// The end of an accepted call on port `n` that changes something.
fn finish(n: u32, mut table: Table, memory: &mut [u8]) {
    let before = breakage::is(Breakage::MonitorsOfNamedPortAlone).then(|| table.clone());
    work(&mut table);
    let others = before.iter().flat_map(|before| &before.ports).zip(&mut table.ports).zip(1..);
    for ((before, port), _) in others.filter(|(_, other)| *other != n) {
        port.churn = before.churn;
    }
    table.write(memory);
}

/// What follows on a change: periodic machines, steps 3 to 6, Churn Detection machines, over all ports.
fn work(table: &mut Table) {
    for port in &mut table.ports {
        port.periodic_machine();
    }
    table.settle();
}

/// The ports with which a table begins in this memory.
fn begun(memory: &[u8], ports: u32, settings: &Settings) -> Result<Vec<Port>, Refusal> {
    if Form::New.size(ports) != Some(memory.len()) {
        return Err(Refusal::TableWrong);
    }
    right_default(settings)?;
    let mut begun = vec![begun_port(settings); ports as usize];
    let keeps = matches!(
        breakage::in_force(),
        Some(Breakage::StartKeepsCounts | Breakage::StartKeepsNumbers | Breakage::StartKeepsOutcome)
    );
    if let Some(old) = if keeps { Table::read(memory) } else { None } {
        begun.iter_mut().zip(old.ports).for_each(|(port, old)| keep(port, &old));
    }
    Ok(begun)
}

/// What the breakages of a start keep of the port that was in its memory.
fn keep(port: &mut Port, old: &Port) {
    match breakage::in_force() {
        Some(Breakage::StartKeepsCounts) => {
            (port.churn.actor.count, port.churn.partner.count) = (old.churn.actor.count, old.churn.partner.count);
        }
        Some(Breakage::StartKeepsNumbers) => port.asked.next = old.asked.next,
        Some(Breakage::StartKeepsOutcome) => (port.asked.fate, port.asked.timer) = (old.asked.fate, old.asked.timer),
        _ => {}
    }
}

/// Starts a table.
fn start(memory: &mut [u8], mut begun: Table) {
    begun.settle();
    begun.write(memory);
}

/// A port after INITIALIZE and PORT_DISABLED: link down, duplex full, NTT set, no send remembered.
fn begun_port(settings: &Settings) -> Port {
    let mut port = Port {
        receive: Receive::Initialize,
        periodic: Periodic::NoPeriodic,
        mux: Mux::Detached,
        selected: false,
        aggregator: 1,
        ntt: true,
        link: false,
        full_duplex: true,
        actor_state: State(settings.own_bits & OWN_BITS),
        current_while: 0,
        periodic_timer: 0,
        wait_while: 0,
        ages: [None; 3],
        address: settings.address,
        key: settings.key,
        port_priority: settings.port_priority,
        default: settings.default,
        partner: settings.default,
        churn: Churn::begun(),
        asked: Asked::begun(),
    };
    port.initialize();
    port
}

/// A frame came in on a port.
fn receive(memory: &mut [u8], n: u32, frame: &[u8], out: &mut [u8]) -> Result<Accepted, Refusal> {
    let mut table = open(memory, n)?;
    if breakage::is(Breakage::BufferTestedAfterFrame) {
        wire::read(frame)?;
    }
    let out = long_enough(out)?;
    let actor_of_n = table.actor(n);
    let port = &mut table.ports[n as usize - 1];
    match wire::read(frame)? {
        Frame::Lacpdu { .. } if !port.link || !port.full_duplex => Err(Refusal::LacpOff),
        Frame::Lacpdu { actor, partner } => {
            port.current(&actor_of_n, &actor, &partner);
            displace(&mut table, n, &actor);
            finish(n, table, memory);
            Ok(Accepted::Lacpdu)
        }
        Frame::Marker(_) if !port.mux.collects() => Err(Refusal::NotCollecting),
        Frame::Marker(octets) => {
            *out = wire::marker_response(&port.address, octets);
            Ok(Accepted::Marker)
        }
        Frame::Response(said) if table.answered(n, &said) => {
            if breakage::is(Breakage::AcceptedResponseRunsMachines) {
                work(&mut table);
            }
            table.write(memory);
            Ok(Accepted::Response)
        }
        Frame::Response(_) => Err(Refusal::Response),
    }
}

/// Where something is sent in answer to a Response: nowhere, but in a breakage.
fn sent_wrongly(received: Result<Accepted, Refusal>) -> bool {
    received == Ok(Accepted::Response) && breakage::is(Breakage::AcceptedResponseSends)
}

/// A tenth of a second has passed.
fn tick(memory: &mut [u8]) -> Result<(), Refusal> {
    let mut table = Table::read(memory).ok_or(Refusal::TableWrong)?;
    for port in &mut table.ports {
        port.ticked();
        port.receive_machine();
    }
    work(&mut table);
    late(&mut table);
    table.write(memory);
    Ok(())
}

/// What a tick does last: nothing, but in the breakages.
fn late(table: &mut Table) {
    if breakage::is(Breakage::MonitorsRunAtTicksAlone) {
        table.watch();
    }
    if breakage::is(Breakage::ChurnTimersFallLast) {
        table.ports.iter_mut().for_each(|port| port.churn.ticked());
    }
}

impl Port {
    /// Step 1 of a tick: timers that run, and ages, of which none comes to be 11.
    fn ticked(&mut self) {
        let stand = breakage::is(Breakage::UnusedTimersStand);
        if !stand || matches!(self.receive, Receive::Current | Receive::Expired) {
            self.current_while = self.current_while.saturating_sub(1);
        }
        if !stand || matches!(self.periodic, Periodic::FastPeriodic | Periodic::SlowPeriodic) {
            self.periodic_timer = self.periodic_timer.saturating_sub(1);
        }
        if !stand || self.mux == Mux::Waiting {
            self.wait_while = self.wait_while.saturating_sub(1);
        }
        if !breakage::is(Breakage::ChurnTimersFallLast) {
            self.churn.ticked();
        }
        self.asked.ticked();
        let oldest = if breakage::is(Breakage::AgeForgottenAtTen) { OLDEST_AGE - 1 } else { OLDEST_AGE };
        self.ages = self.ages.map(|age| age.map(|age| age + 1).filter(|age| *age <= oldest));
    }

    /// Whether the link is up, and whether the duplex is full.
    fn line(&self) -> (bool, bool) {
        (self.link, self.full_duplex)
    }

    /// The link falls at the duplex that was, and then link and duplex are these: the Receive machine sees both, and nothing between.
    fn relined(&mut self, new: (bool, bool)) {
        self.link = false;
        self.receive_machine();
        if breakage::is(Breakage::DuplexRestartsMonitors) {
            self.churn_machines();
        }
        (self.link, self.full_duplex) = new;
        self.receive_machine();
    }
}

/// The link of a port is up or down now, and its duplex full or half (request M-103): one event, and none where both are as they
/// were.
fn line(memory: &mut [u8], n: u32, new: (bool, bool)) -> Result<(), Refusal> {
    let mut table = open(memory, n)?;
    let at = n as usize - 1;
    let old = table.ports[at].line();
    if old == new {
        if breakage::is(Breakage::RepeatedLineCancels) {
            table.ports[at].asked.end(Fate::Cancelled);
            table.write(memory);
        }
        unchanged(table, memory, Breakage::RepeatedLineRunsMonitors);
        return Ok(());
    }
    table.ports[at].line_changes(old, new);
    if let Some(way) = by_way_of(old, new).filter(|way| *way != old && *way != new) {
        table.ports[at].relined(way);
        work(&mut table);
    }
    table.ports[at].relined(new);
    finish(n, table, memory);
    Ok(())
}

/// The end of an accepted call in which nothing changes: the memory stays as it is, but in that breakage.
fn unchanged(mut table: Table, memory: &mut [u8], runs: Breakage) {
    if breakage::is(runs) {
        table.watch();
        table.write(memory);
    }
}

/// What two calls would stop at on the way: nothing, but in the breakages.
fn by_way_of(old: (bool, bool), new: (bool, bool)) -> Option<(bool, bool)> {
    if breakage::is(Breakage::LineAsTwoCalls) {
        Some((old.0, new.1))
    } else if breakage::is(Breakage::LinkBeforeDuplex) {
        Some((new.0, old.1))
    } else {
        None
    }
}

/// A port has these settings from now on.
fn set(memory: &mut [u8], n: u32, new: &Settings) -> Result<(), Refusal> {
    let mut table = open(memory, n)?;
    right_default(new)?;
    let port = &mut table.ports[n as usize - 1];
    let old = port.settings();
    if old == *new {
        unchanged(table, memory, Breakage::RepeatedSettingsRunMonitors);
        return Ok(());
    }
    let aggregation = (old.own_bits ^ new.own_bits) & State::AGGREGATION != 0;
    if old.key != new.key || old.port_priority != new.port_priority || aggregation {
        port.selected = false;
    }
    port.put_settings(new);
    port.ntt = true;
    if breakage::is(Breakage::SettingsCancel) {
        port.asked.end(Fate::Cancelled);
    }
    if breakage::is(Breakage::DefaultAppliedAtOnce) && port.actor_state.has(State::DEFAULTED) {
        port.partner = new.default;
    }
    finish(n, table, memory);
    Ok(())
}

/// The next LACPDU of a port: changes only NTT and the ages of that port.
fn fetch(memory: &mut [u8], n: u32, out: &mut [u8]) -> Result<(), Refusal> {
    let mut table = open(memory, n)?;
    let out = long_enough(out)?;
    let actor = table.actor(n);
    let port = &mut table.ports[n as usize - 1];
    if !port.ntt || !port.link || !port.full_duplex {
        return Err(Refusal::NothingToSend);
    }
    let free = port.ages.iter().position(Option::is_none).ok_or(Refusal::TooManySends)?;
    *out = wire::lacpdu(&port.address, &actor, &port.partner, table.collector_max_delay);
    port.ages.copy_within(0..free, 1);
    port.ages[0] = Some(0);
    port.ntt = false;
    table.write(memory);
    Ok(())
}

/// A Marker on a port, whose Response is awaited for so many ticks: changes only what that port keeps of its Markers.
fn ask(memory: &mut [u8], n: u32, ticks: u32, out: &mut [u8]) -> Result<(), Refusal> {
    let mut table = open(memory, n)?;
    if breakage::is(Breakage::WaitTestedBeforeBuffer) {
        asks::waiting_time(ticks)?;
    }
    let out = long_enough(out)?;
    if breakage::is(Breakage::WaitTestedLast) {
        table.ports[n as usize - 1].may_ask()?;
    }
    let ticks = asks::waiting_time(ticks)?;
    let port = &mut table.ports[n as usize - 1];
    if let Err(refusal) = port.may_ask() {
        if breakage::is(Breakage::RefusedAskTakesNumber) {
            port.asked.take_number();
            table.write(memory);
        }
        return Err(refusal);
    }
    port.asked.ask(ticks);
    *out = marker_of(&table, n);
    if breakage::is(Breakage::AskRunsMachines) {
        work(&mut table);
    }
    table.write(memory);
    Ok(())
}

/// The Marker that was asked for last on port n.
fn marker_of(table: &Table, n: u32) -> [u8; FRAME] {
    let (mut source, mut said) = (table.ports[n as usize - 1].address, table.requested(n));
    match breakage::in_force() {
        Some(Breakage::MarkerFromSystemAddress) => source = table.system,
        Some(Breakage::MarkerNamesNextTransaction) => said.transaction = said.transaction.wrapping_add(1),
        Some(Breakage::MarkerNamesPartnersSystem) => said.system = table.ports[n as usize - 1].partner.system,
        _ => {}
    }
    wire::marker(&source, &said)
}

/// The record of a port, from its three places.
fn record_of(memory: &[u8], n: u32) -> Result<[u8; RECORD], Refusal> {
    let count = open(memory, n)?.ports.len();
    let before = n as usize - 1;
    let places = [
        (HEADER + BASE * before, BASE),
        (HEADER + BASE * count + CHURN * before, CHURN),
        (HEADER + (BASE + CHURN) * count + ASKED * before, ASKED),
    ];
    let octets = places.into_iter().flat_map(|(at, length)| &memory[at..at + length]);
    let mut record = [0; RECORD];
    for (place, octet) in record.iter_mut().zip(octets) {
        *place = *octet;
    }
    Ok(record)
}

/// Writes as much of a record as fits, and keeps what is behind it.
fn put_record(lent: &mut [u8], record: &[u8; RECORD]) {
    let fits = lent.len().min(RECORD);
    if fits < RECORD && breakage::is(Breakage::ShortRecordUnwritten) {
        return;
    }
    let (written, kept) = lent.split_at_mut(fits);
    written.copy_from_slice(&record[..fits]);
    if breakage::is(Breakage::ZerosBehindRecord) {
        kept.fill(0);
    }
}

/// The ports that hold an aggregator, are attached to it and distribute; how many distribute, and the lowest of them.
fn ports_of(memory: &[u8], aggregator: u32) -> Result<[u32; 5], Refusal> {
    let table = open(memory, aggregator)?;
    let [mut holding, mut attached, mut distributing, mut count, mut lowest] = [0; 5];
    for (n, port) in (1..).zip(&table.ports).filter(|(_, port)| u32::from(port.aggregator) == aggregator) {
        let bit = 1 << (n - 1);
        holding |= bit;
        if port.mux.attached() {
            attached |= bit;
        }
        if port.mux.distributes() {
            distributing |= bit;
            count += 1;
            if lowest == 0 {
                lowest = n;
            }
        }
    }
    Ok([holding, attached, distributing, count, lowest])
}

/// The ports that have something to send.
fn due(memory: &[u8]) -> Result<u32, Refusal> {
    let table = Table::read(memory).ok_or(Refusal::TableWrong)?;
    let ports = table.ports.iter().enumerate().filter(|(_, port)| port.may_send());
    Ok(ports.fold(0, |set, (place, _)| set | 1 << place))
}

/// Why a port carries or does not.
fn why_of(memory: &[u8], n: u32) -> Result<Why, Refusal> {
    if !(1..=PORTS).contains(&n) && breakage::is(Breakage::PortTestedBeforeTable) {
        return Err(Refusal::NoSuchPort);
    }
    Ok(open(memory, n)?.why(n))
}

/// Why two ports are apart.
fn apart_of(memory: &[u8], first: u32, second: u32) -> Result<u32, Refusal> {
    if matches!(open(memory, first), Err(Refusal::NoSuchPort)) && breakage::is(Breakage::FirstPortUntested) {
        return Ok(0);
    }
    let table = open(memory, first)?;
    if open(memory, second).is_err() && breakage::is(Breakage::SecondPortUntested) {
        return Ok(0);
    }
    open(memory, second)?;
    Ok(table.apart(first, second))
}

impl Port {
    /// An LACPDU is due, the link is up, LACP is on, and fewer than three sends are remembered.
    fn may_send(&self) -> bool {
        let up = self.link || breakage::is(Breakage::DueWithoutLink);
        let lacp_on = self.full_duplex || breakage::is(Breakage::DueAtHalfDuplex);
        let within_the_limit = self.ages.iter().flatten().count() < 3 || breakage::is(Breakage::DueBeyondThreeSends);
        self.ntt && up && lacp_on && within_the_limit
    }
}
