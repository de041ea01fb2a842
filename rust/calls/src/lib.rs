//! The calls of `include/myrkosti.h` as values: what each is given, and what comes of it. No rule stands here.
//!
//! The library linked, the library over the bridge and the model each perform a [`Call`] on lent memory by one function `perform`,
//! which gives an [`Outcome`], and a [`Report`] on a table that is only read by one function `report`. So a further call is a variant
//! with its number and name here, and an arm there.

#![forbid(unsafe_code)]

mod counters;

pub use counters::Counters;

use std::borrow::Cow;

/// Octets of an information block.
pub const BLOCK: usize = 15;

/// A call with its arguments, except for the memory that is lent to it to be written.
#[derive(Clone, Debug, PartialEq, Eq)]
pub enum Call<'a> {
    /// Starts a table. Answers 0, 1 or 4.
    Start {
        /// Port count.
        ports: u32,
        /// System priority.
        system_priority: u16,
        /// System address.
        system: [u8; 6],
        /// CollectorMaxDelay.
        collector_max_delay: u16,
        /// The settings of every port.
        settings: SettingsArguments,
    },
    /// A frame came in on a port. Answers 0 to 3, 5 to 9 and 12.
    Receive {
        /// Port, from 1.
        port: u32,
        /// The frame.
        frame: Cow<'a, [u8]>,
    },
    /// A tenth of a second has passed. Answers 0 or 1.
    Tick,
    /// The link of a port is up or down now, and its duplex full or half. Answers 0, 1 or 2.
    Line {
        /// Port, from 1.
        port: u32,
        /// The link is up.
        up: bool,
        /// The duplex is full.
        full: bool,
    },
    /// A port has these settings from now on. Answers 0, 1, 2 or 4.
    Settings {
        /// Port, from 1.
        port: u32,
        /// Its settings.
        settings: SettingsArguments,
    },
    /// The next LACPDU of a port. Answers 0 to 3, 10 or 11.
    Fetch {
        /// Port, from 1.
        port: u32,
    },
    /// A Marker on a port, whose Response is awaited. Answers 0 to 4, 13 or 14.
    Ask {
        /// Port, from 1.
        port: u32,
        /// The ticks for which its Response is awaited.
        ticks: u32,
    },
    /// A call that only reads the table.
    Report(Report),
}

/// A call that only reads the table.
#[derive(Clone, Copy, Debug, PartialEq, Eq)]
pub enum Report {
    /// The octets of the memory of a table of that many ports, in place of an answer; 0 for a count outside 1 to 32. Looks at no table.
    TableSize {
        /// Port count.
        ports: u32,
    },
    /// The record of a port, as many of its octets as fit into the memory lent for it; zeros beside a refusal. Answers 0, 1 or 2.
    Port {
        /// Port, from 1.
        port: u32,
    },
    /// The ports of an aggregator, zeros beside a refusal. Answers 0, 1 or 2.
    Aggregator {
        /// Aggregator, from 1.
        aggregator: u32,
    },
    /// The ports on which a fetch would be answered 0, none beside a refusal. Answers 0 or 1.
    Due,
    /// The version of the interface, in place of an answer. Looks at no table.
    Version,
    /// The octets of the memory of a table of that many ports in the old form, else as [`Report::TableSize`].
    OldTableSize {
        /// Port count.
        ports: u32,
    },
    /// The table, of the old form, is written in the new form into the memory lent for that, if this has just the size. Answers 0 or 1.
    Forward,
    /// The table, of the new form, is written in the old form, else as [`Report::Forward`].
    Back,
    /// Why a port carries or does not: a cause, who holds it back, and ticks; zeros beside a refusal. Answers 0, 1 or 2.
    Why {
        /// Port, from 1.
        port: u32,
    },
    /// Why two ports are in no common group: a set of reasons, empty beside a refusal. Answers 0, 1 or 2.
    Apart {
        /// Port, from 1.
        first: u32,
        /// Another, or the same.
        second: u32,
    },
}

/// Settings as the calls take them.
#[derive(Clone, Copy, Debug, Default, PartialEq, Eq)]
pub struct SettingsArguments {
    /// Own address.
    pub address: [u8; 6],
    /// Key.
    pub key: u16,
    /// Port priority.
    pub port_priority: u16,
    /// Active.
    pub activity: bool,
    /// Short timeout.
    pub timeout: bool,
    /// Aggregatable.
    pub aggregation: bool,
    /// Default partner block.
    pub partner: [u8; BLOCK],
}

/// The names of the calls, each at its number.
pub const NAMES: [&str; 17] = [
    "table_size",
    "start",
    "receive",
    "tick",
    "line",
    "settings",
    "fetch",
    "port",
    "aggregator",
    "due",
    "version",
    "old_table_size",
    "forward",
    "back",
    "ask",
    "why",
    "apart",
];

impl Call<'_> {
    /// The call's number: its place in [`NAMES`], and what the bridge knows it by.
    pub fn number(&self) -> u8 {
        match self {
            Call::Report(Report::TableSize { .. }) => 0,
            Call::Start { .. } => 1,
            Call::Receive { .. } => 2,
            Call::Tick => 3,
            Call::Line { .. } => 4,
            Call::Settings { .. } => 5,
            Call::Fetch { .. } => 6,
            Call::Report(Report::Port { .. }) => 7,
            Call::Report(Report::Aggregator { .. }) => 8,
            Call::Report(Report::Due) => 9,
            Call::Report(Report::Version) => 10,
            Call::Report(Report::OldTableSize { .. }) => 11,
            Call::Report(Report::Forward) => 12,
            Call::Report(Report::Back) => 13,
            Call::Ask { .. } => 14,
            Call::Report(Report::Why { .. }) => 15,
            Call::Report(Report::Apart { .. }) => 16,
        }
    }
}

impl From<Report> for Call<'_> {
    fn from(report: Report) -> Self {
        Call::Report(report)
    }
}

/// What a call gives beside what it leaves in the lent memory.
#[derive(Clone, Copy, Debug, PartialEq, Eq)]
pub struct Outcome {
    /// The answer, or the size or version.
    pub answer: u32,
    /// `sent`, of a received frame.
    pub sent: u32,
    /// holding, attached, distributing, count, lowest, of an aggregator.
    pub aggregator: [u32; 5],
    /// `ports`, of what is due: bit 0 is port 1.
    pub due: u32,
    /// cause, holder, ticks, of why a port carries or does not.
    pub why: [u32; 3],
    /// `reasons`, of why two ports are apart.
    pub apart: u32,
}

impl Outcome {
    /// Nothing is written yet: 0xEE in each octet, so that one can see what a call writes.
    pub const UNTOUCHED: Outcome = {
        const UNTOUCHED: u8 = 0xEE;
        let number = u32::from_ne_bytes([UNTOUCHED; 4]);
        Outcome { answer: number, sent: number, aggregator: [number; 5], due: number, why: [number; 3], apart: number }
    };

    /// This answer, and zeros.
    pub const fn refused(answer: u32) -> Outcome {
        Outcome { answer, sent: 0, aggregator: [0; 5], due: 0, why: [0; 3], apart: 0 }
    }
}

/// A call and memory to lend to it.
#[derive(Clone, Debug, PartialEq, Eq)]
pub struct Request<'a> {
    /// The call.
    pub call: Call<'a>,
    /// The table.
    pub table: Vec<u8>,
    /// The outgoing buffer of receive, fetch and ask, the memory for a port's record, or that into which a table is moved; other calls have
    /// none.
    pub out: Vec<u8>,
    /// The counters of the port, for receive and fetch; other calls take none.
    pub counters: Counters,
}

/// What came of a request.
#[derive(Clone, Debug, PartialEq, Eq)]
pub struct Reply {
    /// What the call gave.
    pub outcome: Outcome,
    /// The table after the call.
    pub table: Vec<u8>,
    /// The buffer, the memory for a record or that of a moved table, after the call.
    pub out: Vec<u8>,
    /// The counters after the call: as they came with a call that takes none.
    pub counters: Counters,
}

impl Request<'_> {
    /// The reply of whoever performs calls by this function, which works on copies of the memory.
    pub fn performed_by(&self, perform: impl FnOnce(&Call, &mut [u8], &mut [u8], &mut Counters) -> Outcome) -> Reply {
        let (mut table, mut out, mut counters) = (self.table.clone(), self.out.clone(), self.counters);
        let outcome = perform(&self.call, &mut table, &mut out, &mut counters);
        Reply { outcome, table, out, counters }
    }
}
