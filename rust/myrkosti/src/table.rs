//! Tables and their reports.

use crate::answer::{Answer, Refusal};
use crate::apart::{Apart, Reasons};
use crate::record::{Record, Settings, SystemId};
use crate::why::{Cause, Why};
use crate::{raw, FRAME, RECORD};
use calls::{Call, Counters, Outcome, Report, SettingsArguments};

/// A table of 1 to 32 ports: one Aggregation System, in the memory `M`.
///
/// `Table` alone owns its memory; [`TableRef`] works in memory that it was lent. The methods are the same. Ports and aggregators
/// are numbered from 1.
#[derive(Clone, Debug, PartialEq, Eq)]
pub struct Table<M = Box<[u8]>> {
    memory: M,
}

/// A table in lent memory.
///
/// ```
/// # use myrkosti::{Block, Refusal, Settings, SystemId, Table, TableRef};
/// # fn main() -> Result<(), Refusal> {
/// # let settings = Settings { address: [0; 6], key: 1, port_priority: 1, activity: true, short_timeout: true,
/// #     aggregation: true, default_partner: Block::default() };
/// let mut memory = [0; 89]; // Table::size(1)
/// TableRef::start_in(&mut memory[..], 1, SystemId::default(), 0, &settings)?;
/// let mut table = Table::from_memory(&mut memory[..]);
/// table.line(1, true, true)?;
/// assert!(table.port(1)?.link_up);
/// # Ok(())
/// # }
/// ```
pub type TableRef<'a> = Table<&'a mut [u8]>;

/// What came of a frame that was taken.
#[derive(Clone, Copy, Debug, PartialEq, Eq)]
pub enum Received<'a> {
    /// An LACPDU. Nothing is to be sent, and the outgoing buffer is as it came; other ports may have changed too.
    Lacpdu,
    /// A Marker. This Response, which stands at the beginning of the outgoing buffer, is to be sent on that port.
    Marker(&'a [u8]),
    /// The Response to the Marker that was asked for on that port. Nothing is to be sent, and the outgoing buffer is as it came.
    Response,
}

/// A set of ports.
#[derive(Clone, Copy, Debug, Default, PartialEq, Eq, Hash)]
pub struct PortSet(pub u32);

impl PortSet {
    /// Whether the port, numbered from 1, is in the set.
    pub fn contains(self, port: u32) -> bool {
        port.checked_sub(1).and_then(|bit| self.0.checked_shr(bit)).is_some_and(|rest| rest & 1 == 1)
    }

    /// The ports of the set, the lowest first.
    pub fn iter(self) -> impl Iterator<Item = u32> {
        (1..=u32::BITS).filter(move |port| self.contains(*port))
    }
}

/// The ports of an aggregator.
#[derive(Clone, Copy, Debug, Default, PartialEq, Eq, Hash)]
pub struct AggregatorReport {
    /// Those that hold it.
    pub holding: PortSet,
    /// Those of them that are attached.
    pub attached: PortSet,
    /// Those of them that distribute: only these carry traffic.
    pub distributing: PortSet,
    /// How many distribute.
    pub count: u32,
    /// The lowest port that distributes.
    pub lowest: Option<u32>,
}

impl Table {
    /// A table of that many ports, each with these settings. Links are down and duplexes full: tell it by [`Table::line`] of each
    /// port that is otherwise. `system` names this switch and must be its own; `collector_max_delay` counts tens of microseconds.
    ///
    /// # Errors
    /// [`Refusal::TableWrong`] for a count outside 1 to 32, [`Refusal::DefaultWrong`].
    pub fn start(
        ports: u32,
        system: SystemId,
        collector_max_delay: u16,
        settings: &Settings,
    ) -> Result<Table, Refusal> {
        let memory = vec![0; Table::size(ports).unwrap_or(0)].into_boxed_slice();
        Table::start_in(memory, ports, system, collector_max_delay, settings)
    }

    /// The octets that the memory of a table of that many ports has, no more and no less; none for a count outside 1 to 32.
    pub fn size(ports: u32) -> Option<usize> {
        octets(Report::TableSize { ports })
    }

    /// A table of the old form, of [`Table::old_size`] octets, moved into the form of today: what it holds is as it was, and so its
    /// trunks go on, and Markers that are awaited stay so. The monitors of churn begin afresh, with nothing counted, and have run once.
    ///
    /// ```
    /// # use myrkosti::{Block, Refusal, Settings, SystemId, Table};
    /// # fn main() -> Result<(), Refusal> {
    /// # let settings = Settings { address: [0; 6], key: 1, port_priority: 1, activity: true, short_timeout: true,
    /// #     aggregation: true, default_partner: Block::default() };
    /// # let table = Table::start(2, SystemId::default(), 0, &settings)?;
    /// let old = table.to_old()?; // to go back to earlier firmware
    /// assert_eq!(Some(old.len()), Table::old_size(2));
    /// let again = Table::from_old(&old)?; // for the firmware of today
    /// assert_eq!(again.to_old()?, old);
    /// # Ok(())
    /// # }
    /// ```
    ///
    /// # Errors
    /// [`Refusal::TableWrong`] for what is no table of the old form, one of today's form among that.
    pub fn from_old(old: &[u8]) -> Result<Table, Refusal> {
        Table::from_old_in(vec![0; room(old, Table::size)].into_boxed_slice(), old)
    }

    /// The octets that a table of that many ports has in the old form; none for a count outside 1 to 32.
    pub fn old_size(ports: u32) -> Option<usize> {
        octets(Report::OldTableSize { ports })
    }
}

/// The octet of a frame that names the Slow Protocol, and what it says of Markers and their Responses.
const SUBTYPE: usize = 14;
const MARKER_SUBTYPE: u8 = 2;

/// A size that the library gives.
fn octets(asked: Report) -> Option<usize> {
    /// No table is larger.
    const LARGEST: u32 = 32_768;
    let octets = raw::report(asked, &[], &mut []).answer;
    (1..=LARGEST).contains(&octets).then_some(octets as usize)
}

/// The octets that a move of this table needs, by its port count; none for what is no table, which is then refused.
fn room(table: &[u8], size: fn(u32) -> Option<usize>) -> usize {
    table.first().and_then(|ports| size(u32::from(*ports))).unwrap_or(0)
}

impl<M: AsRef<[u8]> + AsMut<[u8]>> Table<M> {
    /// Starts a table in this memory, of [`Table::size`] octets; what it held before does not matter. Else as [`Table::start`].
    ///
    /// # Errors
    /// [`Refusal::TableWrong`] for a count outside 1 to 32 or memory of another size, [`Refusal::DefaultWrong`].
    pub fn start_in(
        memory: M,
        ports: u32,
        system: SystemId,
        collector_max_delay: u16,
        settings: &Settings,
    ) -> Result<Table<M>, Refusal> {
        let mut table = Table { memory };
        table.restart(ports, system, collector_max_delay, settings)?;
        Ok(table)
    }

    /// Moves a table of the old form into this memory, of [`Table::size`] octets; what it held before does not matter. Else as
    /// [`Table::from_old`].
    ///
    /// # Errors
    /// As [`Table::from_old`], and [`Refusal::TableWrong`] for memory of another size.
    pub fn from_old_in(mut memory: M, old: &[u8]) -> Result<Table<M>, Refusal> {
        accepted(raw::report(Report::Forward, old, memory.as_mut()))?;
        Ok(Table { memory })
    }

    /// This table in the old form, which has no monitors of churn; all else is as it was.
    ///
    /// # Errors
    /// [`Refusal::TableWrong`].
    pub fn to_old(&self) -> Result<Vec<u8>, Refusal> {
        let mut old = vec![0; room(self.as_octets(), Table::old_size)];
        self.to_old_in(&mut old)?;
        Ok(old)
    }

    /// As [`Table::to_old`], into this memory, of [`Table::old_size`] octets; what it held before does not matter.
    ///
    /// # Errors
    /// [`Refusal::TableWrong`], also for memory of another size; then it holds what it held before.
    pub fn to_old_in(&self, old: &mut [u8]) -> Result<(), Refusal> {
        accepted(raw::report(Report::Back, self.as_octets(), old))?;
        Ok(())
    }

    /// Takes memory for a table as it is. Every call looks whether it is one.
    pub fn from_memory(memory: M) -> Table<M> {
        Table { memory }
    }

    /// Hands the memory back.
    pub fn into_memory(self) -> M {
        self.memory
    }

    /// The octets of the table.
    pub fn as_octets(&self) -> &[u8] {
        self.memory.as_ref()
    }

    /// The same table, for a part of the program that works in lent memory.
    pub fn lend(&mut self) -> TableRef<'_> {
        Table { memory: self.memory.as_mut() }
    }

    /// Begins anew in the same memory. As [`Table::start_in`]. What was sent before is forgotten: let a second pass before you
    /// tell of the first link that is up, or more LACPDUs could go than three a second. Markers that were awaited are forgotten too.
    ///
    /// # Errors
    /// As [`Table::start_in`]; then the table is as it was.
    pub fn restart(
        &mut self,
        ports: u32,
        system: SystemId,
        collector_max_delay: u16,
        settings: &Settings,
    ) -> Result<(), Refusal> {
        let (system_priority, system) = (system.priority, system.address);
        let settings = arguments(settings);
        self.change(&Call::Start { ports, system_priority, system, collector_max_delay, settings })
    }

    /// A frame came in on a port: hand over every frame to 01-80-C2-00-00-02, without FCS, as it came. The outgoing buffer has at
    /// least [`FRAME`] octets, whatever the frame is. `counters` are those of the port: the frame is counted, and the Response that
    /// goes out to a Marker.
    ///
    /// # Errors
    /// Refusals 1 to 3, 5 to 9 and 12. All but 1, 2, 3 and 6 are counted too.
    pub fn receive<'o>(
        &mut self,
        port: u32,
        frame: &[u8],
        out: &'o mut [u8],
        counters: &mut Counters,
    ) -> Result<Received<'o>, Refusal> {
        let sent = self.perform(&Call::Receive { port, frame: frame.into() }, out, counters)?.sent;
        let out: &'o [u8] = out;
        Ok(match (sent as usize, out.get(..FRAME)) {
            (FRAME, Some(response)) => Received::Marker(response),
            _ if frame.get(SUBTYPE) == Some(&MARKER_SUBTYPE) => Received::Response,
            _ => Received::Lacpdu,
        })
    }

    /// A tenth of a second has passed. Call it ten times a second, for all ports at once, and no sooner than 100 ms after the tick
    /// before: otherwise more LACPDUs could go than three a second.
    ///
    /// # Errors
    /// [`Refusal::TableWrong`].
    pub fn tick(&mut self) -> Result<(), Refusal> {
        self.change(&Call::Tick)
    }

    /// The link of a port is up or down now, and its duplex full or half: both as the driver reads them together. With both as they
    /// were nothing changes. At half duplex LACP is off, and a port that comes up so has nothing to send. A port whose link falls
    /// keeps its partner, whatever its duplex does in the same call; an up port that goes to half duplex forgets it. A Marker that an up
    /// port awaits is cancelled by any change.
    ///
    /// # Errors
    /// [`Refusal::TableWrong`], [`Refusal::NoSuchPort`].
    pub fn line(&mut self, port: u32, up: bool, full: bool) -> Result<(), Refusal> {
        self.change(&Call::Line { port, up, full })
    }

    /// A port has these settings from now on. The same again change nothing. Another key, port priority or Aggregation takes the
    /// port out of its trunk for at least two seconds. A new default block is used the next time that the partner is given up.
    ///
    /// # Errors
    /// [`Refusal::TableWrong`], [`Refusal::NoSuchPort`], [`Refusal::DefaultWrong`].
    pub fn settings(&mut self, port: u32, settings: &Settings) -> Result<(), Refusal> {
        self.change(&Call::Settings { port, settings: arguments(settings) })
    }

    /// The next LACPDU of a port, to be sent on it at once: the first [`FRAME`] octets of the outgoing buffer. Fetch on each port
    /// that [`Table::due`] gives. `counters` are those of the port: the LACPDU is counted.
    ///
    /// # Errors
    /// Refusals 1 to 3, [`Refusal::NothingToSend`], [`Refusal::TooManySends`]. None is counted.
    pub fn fetch<'o>(&mut self, port: u32, out: &'o mut [u8], counters: &mut Counters) -> Result<&'o [u8], Refusal> {
        self.perform(&Call::Fetch { port }, out, counters)?;
        let out: &'o [u8] = out;
        out.get(..FRAME).ok_or(Refusal::BufferShort)
    }

    /// A Marker for a port (43.5), to be sent on it at once, behind what waits there: the first [`FRAME`] octets of the outgoing buffer.
    /// First stop sending frames of the conversation on that port. The Marker's Response, handed to [`Table::receive`] on the same port, says
    /// that all has arrived which was sent before it. It is awaited for so many ticks, 1 to [`LONGEST_WAIT`](crate::LONGEST_WAIT): what came
    /// of it stands in the port's [`Record::asked`] until the next ask. A port awaits one Marker at a time.
    ///
    /// Ask no more often than 43B.2 allows, five Markers in any one second on a port: nothing here limits it.
    ///
    /// ```
    /// # use myrkosti::{AskOutcome, Block, Counters, PortState, Received, Refusal, Settings, SystemId, Table, FRAME};
    /// # fn main() -> Result<(), Refusal> {
    /// # let default_partner = Block { state: PortState(0x1C), ..Block::default() };
    /// # let settings = Settings { address: [0; 6], key: 1, port_priority: 1, activity: true, short_timeout: true,
    /// #     aggregation: true, default_partner };
    /// # let mut table = Table::start(1, SystemId::default(), 0, &settings)?;
    /// # table.line(1, true, false)?;
    /// # (0..20).try_for_each(|_| table.tick())?;
    /// let (mut out, mut counters) = ([0; FRAME], Counters::default());
    /// let marker = table.ask(1, 30, &mut out)?.to_vec(); // send it on port 1
    /// assert_eq!(table.port(1)?.asked.to_string(), "Marker 0 awaited, 30 ticks left");
    /// assert_eq!(table.ask(1, 30, &mut out), Err(Refusal::AlreadyAwaiting));
    ///
    /// let mut response = marker;
    /// response[16] = 2; // the far end sends it back as a Response
    /// assert_eq!(table.receive(1, &response, &mut out, &mut counters)?, Received::Response);
    /// assert_eq!(table.port(1)?.asked.outcome, AskOutcome::Answered);
    /// # Ok(())
    /// # }
    /// ```
    ///
    /// # Errors
    /// Refusals 1 to 3, [`Refusal::DefaultWrong`] for a waiting time out of range, [`Refusal::NotDistributing`],
    /// [`Refusal::AlreadyAwaiting`]. A refused ask uses no transaction.
    pub fn ask<'o>(&mut self, port: u32, ticks: u32, out: &'o mut [u8]) -> Result<&'o [u8], Refusal> {
        self.perform(&Call::Ask { port, ticks }, out, &mut Counters::default())?;
        let out: &'o [u8] = out;
        out.get(..FRAME).ok_or(Refusal::BufferShort)
    }

    /// The record of a port.
    ///
    /// # Errors
    /// [`Refusal::TableWrong`], [`Refusal::NoSuchPort`].
    pub fn port(&self, port: u32) -> Result<Record, Refusal> {
        let mut record = [0; RECORD];
        accepted(raw::report(Report::Port { port }, self.memory.as_ref(), &mut record))?;
        Record::from_octets(&record).ok_or(Refusal::TableWrong)
    }

    /// The ports of an aggregator.
    ///
    /// # Errors
    /// [`Refusal::TableWrong`], [`Refusal::NoSuchPort`].
    pub fn aggregator(&self, aggregator: u32) -> Result<AggregatorReport, Refusal> {
        let [holding, attached, distributing, count, lowest] =
            self.report(Report::Aggregator { aggregator })?.aggregator;
        Ok(AggregatorReport {
            holding: PortSet(holding),
            attached: PortSet(attached),
            distributing: PortSet(distributing),
            count,
            lowest: (lowest != 0).then_some(lowest),
        })
    }

    /// The ports that have something to send: those on which [`Table::fetch`], with an outgoing buffer that is long enough, is not
    /// refused. Ask once after every call that was not refused and may have changed something, and so after every tick, and fetch
    /// on these ports alone: that costs much less than a fetch on every port.
    ///
    /// # Errors
    /// [`Refusal::TableWrong`].
    pub fn due(&self) -> Result<PortSet, Refusal> {
        Ok(PortSet(self.report(Report::Due)?.due))
    }

    /// Why a port carries or does not: a sentence for the support desk, and what it is made of.
    ///
    /// # Errors
    /// [`Refusal::TableWrong`], [`Refusal::NoSuchPort`].
    pub fn why(&self, port: u32) -> Result<Why, Refusal> {
        let cause = Cause::from_numbers(self.report(Report::Why { port })?.why);
        Ok(Why { port, cause })
    }

    /// Why two ports are in no common group, or that they share one: a sentence for the support desk, and what it is made of. It is what
    /// the selection rule compares, whatever link, duplex and states are: of a port that hears nobody, or whose link is down, the partner is
    /// the one in its [`Record::partner`].
    ///
    /// # Errors
    /// [`Refusal::TableWrong`], [`Refusal::NoSuchPort`] for either.
    pub fn apart(&self, first: u32, second: u32) -> Result<Apart, Refusal> {
        let reasons = Reasons(self.report(Report::Apart { first, second })?.apart);
        Ok(Apart { first, second, reasons })
    }

    fn perform(&mut self, call: &Call, out: &mut [u8], counters: &mut Counters) -> Result<Outcome, Refusal> {
        accepted(raw::perform(call, self.memory.as_mut(), out, counters))
    }

    /// Performs a call that writes nothing but the table.
    fn change(&mut self, call: &Call) -> Result<(), Refusal> {
        self.perform(call, &mut [], &mut Counters::default())?;
        Ok(())
    }

    fn report(&self, report: Report) -> Result<Outcome, Refusal> {
        accepted(raw::report(report, self.memory.as_ref(), &mut []))
    }
}

fn accepted(outcome: Outcome) -> Result<Outcome, Refusal> {
    Answer::from_number(outcome.answer).result().map(|()| outcome)
}

fn arguments(settings: &Settings) -> SettingsArguments {
    SettingsArguments {
        address: settings.address,
        key: settings.key,
        port_priority: settings.port_priority,
        activity: settings.activity,
        timeout: settings.short_timeout,
        aggregation: settings.aggregation,
        partner: settings.default_partner.to_octets(),
    }
}

#[cfg(test)]
mod tests {
    use super::PortSet;

    #[test]
    fn sets() {
        let set = PortSet(1 | 1 << 31);
        assert_eq!(set.iter().collect::<Vec<_>>(), [1, 32]);
        assert!(![0, 2, 31, 33, 64, 65, u32::MAX].into_iter().any(|port| set.contains(port)));
    }
}
