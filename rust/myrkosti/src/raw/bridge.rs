//! The library in another process: `bridge/bridge.c` links the archive, of this machine or of another, which an emulator then runs. That
//! file describes the octets of requests and replies.

use super::{Call, Counters, Outcome, Reply, Report, Request, SettingsArguments, Unreachable, UNREACHABLE};
use std::env;
use std::ffi::OsString;
use std::io::{self, BufReader, Read, Write};
use std::process::{Child, ChildStdin, ChildStdout, Command, Stdio};
use std::sync::{Mutex, MutexGuard, PoisonError};

/// The most octets of requests that go in one batch; the bridge takes 16 MiB.
const BATCH: usize = 1 << 20;
/// The most octets that one request lends; the bridge has room for more than this of each kind.
const LENT: usize = 128 * 1024;

struct Bridge {
    requests: ChildStdin,
    replies: BufReader<ChildStdout>,
    child: Child,
}

/// One bridge serves the whole program. None before the first call and after a failure.
static BRIDGE: Mutex<Option<Bridge>> = Mutex::new(None);

fn path(name: &str, built_with: &str) -> OsString {
    env::var_os(name).unwrap_or_else(|| built_with.into())
}

impl Bridge {
    /// The program, under its emulator if it has one.
    fn command() -> Command {
        let emulator = path("MYRKOSTI_EMULATOR", env!("MYRKOSTI_EMULATOR"));
        let bridge = path("MYRKOSTI_BRIDGE", env!("MYRKOSTI_BRIDGE"));
        if emulator.is_empty() {
            return Command::new(bridge);
        }
        let mut command = Command::new(emulator);
        command.arg(bridge);
        command
    }

    fn start() -> io::Result<Bridge> {
        let mut child = Bridge::command().stdin(Stdio::piped()).stdout(Stdio::piped()).spawn()?;
        match (child.stdin.take(), child.stdout.take()) {
            (Some(requests), Some(replies)) => Ok(Bridge { requests, replies: BufReader::new(replies), child }),
            _ => Err(io::Error::other("the bridge has no pipes")),
        }
    }

    /// The bridge reads a batch to its end before it replies, so that neither side waits for the other.
    fn perform(&mut self, batch: &[u8], requests: &[Request]) -> io::Result<Vec<Reply>> {
        self.requests.write_all(&(batch.len() as u32).to_le_bytes())?;
        self.requests.write_all(batch)?;
        self.requests.flush()?;
        requests.iter().map(|request| self.reply(request)).collect()
    }

    fn reply(&mut self, request: &Request) -> io::Result<Reply> {
        let (answer, sent, aggregator, due) = (self.number()?, self.number()?, self.numbers()?, self.number()?);
        let (why, apart) = (self.numbers()?, self.number()?);
        let outcome = Outcome { answer, sent, aggregator, due, why, apart };
        let counters = Counters::from(self.numbers()?);
        Ok(Reply { outcome, table: self.octets(request.table.len())?, out: self.octets(request.out.len())?, counters })
    }

    fn numbers<const N: usize>(&mut self) -> io::Result<[u32; N]> {
        let mut numbers = [0; N];
        for number in &mut numbers {
            *number = self.number()?;
        }
        Ok(numbers)
    }

    fn number(&mut self) -> io::Result<u32> {
        let mut octets = [0; 4];
        self.replies.read_exact(&mut octets)?;
        Ok(u32::from_le_bytes(octets))
    }

    fn octets(&mut self, count: usize) -> io::Result<Vec<u8>> {
        let mut octets = vec![0; count];
        self.replies.read_exact(&mut octets)?;
        Ok(octets)
    }
}

impl Drop for Bridge {
    /// Ends the process, which may still wait for requests.
    fn drop(&mut self) {
        let _ = self.child.kill();
        let _ = self.child.wait();
    }
}

/// The arguments of a call, zero where it has none.
#[derive(Default)]
struct Arguments<'a> {
    call: u8,
    flags: u8,
    number: u32,
    system_priority: u16,
    collector_max_delay: u16,
    system: [u8; 6],
    settings: SettingsArguments,
    /// The ticks for which a Marker is awaited, or the second of two ports.
    other: u32,
    frame: &'a [u8],
}

fn arguments<'a>(call: &'a Call) -> Arguments<'a> {
    let none = Arguments { call: call.number(), ..Arguments::default() };
    match *call {
        Call::Start { ports, system_priority, system, collector_max_delay, settings } => Arguments {
            flags: own_bits(&settings),
            number: ports,
            system_priority,
            collector_max_delay,
            system,
            settings,
            ..none
        },
        Call::Receive { port, ref frame } => Arguments { number: port, frame: cut(frame), ..none },
        Call::Tick => none,
        Call::Line { port, up, full } => Arguments { flags: flags([up, full, false]), number: port, ..none },
        Call::Settings { port, settings } => Arguments { flags: own_bits(&settings), number: port, settings, ..none },
        Call::Fetch { port } => Arguments { number: port, ..none },
        Call::Ask { port, ticks } => Arguments { number: port, other: ticks, ..none },
        Call::Report(
            Report::TableSize { ports: number }
            | Report::OldTableSize { ports: number }
            | Report::Port { port: number }
            | Report::Aggregator { aggregator: number }
            | Report::Why { port: number },
        ) => Arguments { number, ..none },
        Call::Report(Report::Apart { first, second }) => Arguments { number: first, other: second, ..none },
        Call::Report(Report::Due | Report::Version | Report::Forward | Report::Back) => none,
    }
}

fn own_bits(settings: &SettingsArguments) -> u8 {
    flags([settings.activity, settings.timeout, settings.aggregation])
}

/// Bits 0, 1 and 2.
fn flags([first, second, third]: [bool; 3]) -> u8 {
    u8::from(first) | u8::from(second) << 1 | u8::from(third) << 2
}

fn encode(request: &Request, to: &mut Vec<u8>) {
    let arguments = arguments(&request.call);
    to.push(arguments.call);
    to.push(arguments.flags);
    to.extend(arguments.number.to_le_bytes());
    to.extend(arguments.system_priority.to_le_bytes());
    to.extend(arguments.collector_max_delay.to_le_bytes());
    to.extend(arguments.settings.key.to_le_bytes());
    to.extend(arguments.settings.port_priority.to_le_bytes());
    to.extend(arguments.system);
    to.extend(arguments.settings.address);
    to.extend(arguments.settings.partner);
    for lent in [&request.table, arguments.frame, &request.out] {
        to.extend((lent.len() as u32).to_le_bytes());
    }
    to.extend(arguments.other.to_le_bytes());
    for counter in request.counters.numbers() {
        to.extend(counter.to_le_bytes());
    }
    to.extend(&request.table);
    to.extend(arguments.frame);
    to.extend(&request.out);
}

fn bridge() -> MutexGuard<'static, Option<Bridge>> {
    BRIDGE.lock().unwrap_or_else(PoisonError::into_inner)
}

/// Performs one call on this table, with this outgoing buffer, or memory for a record or a moved table, and these counters, if it takes
/// them.
pub fn perform(call: &Call, table: &mut [u8], out: &mut [u8], counters: &mut Counters) -> Outcome {
    let Some(reply) = alone(call.clone(), table, out, *counters) else {
        return Outcome::refused(UNREACHABLE);
    };
    copy_back(table, &reply.table);
    copy_back(out, &reply.out);
    *counters = reply.counters;
    reply.outcome
}

/// Performs a call that only reads this table, with this memory for a record or a moved table if it has one.
pub fn report(report: Report, table: &[u8], lent: &mut [u8]) -> Outcome {
    let Some(reply) = alone(report.into(), table, lent, Counters::default()) else {
        return Outcome::refused(UNREACHABLE);
    };
    copy_back(lent, &reply.out);
    reply.outcome
}

/// One call on copies of what is lent. The bridge copies all of it, so long areas are cut: no table, and no part of a frame, a buffer
/// or memory for a record that the library looks at, is longer.
fn alone(call: Call, table: &[u8], out: &[u8], counters: Counters) -> Option<Reply> {
    exchange(&[Request { call, table: cut(table).into(), out: cut(out).into(), counters }]).ok()?.pop()
}

fn cut(octets: &[u8]) -> &[u8] {
    octets.get(..LENT).unwrap_or(octets)
}

fn copy_back(to: &mut [u8], from: &[u8]) {
    for (to, from) in to.iter_mut().zip(from) {
        *to = *from;
    }
}

pub(super) fn perform_all(requests: &[Request]) -> Result<Vec<Reply>, Unreachable> {
    if requests.iter().any(lends_too_much) {
        return Err(Unreachable("a request lends too much for the bridge".into()));
    }
    exchange(requests)
}

fn lends_too_much(request: &Request) -> bool {
    let frame = if let Call::Receive { frame, .. } = &request.call { frame.len() } else { 0 };
    request.table.len().max(frame).max(request.out.len()) > LENT
}

fn exchange(requests: &[Request]) -> Result<Vec<Reply>, Unreachable> {
    let mut bridge = bridge();
    let mut replies = Vec::with_capacity(requests.len());
    while replies.len() < requests.len() {
        let rest = requests.get(replies.len()..).unwrap_or_default();
        match perform_some(&mut bridge, rest) {
            Ok(some) => replies.extend(some),
            Err(error) => {
                *bridge = None;
                return Err(Unreachable(error.to_string()));
            }
        }
    }
    Ok(replies)
}

/// Performs as many requests as fit into a batch, at least one.
fn perform_some(bridge: &mut Option<Bridge>, requests: &[Request]) -> io::Result<Vec<Reply>> {
    let mut batch = Vec::new();
    let mut taken = 0;
    for request in requests {
        encode(request, &mut batch);
        taken += 1;
        if batch.len() > BATCH {
            break;
        }
    }
    let running = match bridge {
        Some(running) => running,
        None => bridge.insert(Bridge::start()?),
    };
    running.perform(&batch, requests.get(..taken).unwrap_or_default())
}
