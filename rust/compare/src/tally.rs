//! How many calls of each kind and each answer were compared.

use crate::scenario::Kind;
use crate::world::{self, BASE, HEADER, RECORD, REQUEST, REQUEST_AT};
use calls::{Call, Counters, Reply, Report, Request, NAMES};
use std::collections::BTreeMap;
use std::fmt;

/// Answers by the number of the call.
#[derive(Default)]
pub struct Tally {
    counts: BTreeMap<(u8, u32), u64>,
    receive: [u64; 6],
    periodic: [u64; 4],
    mux: [u64; 5],
    /// Accepted line calls, by the old and by the new values.
    lines: [[u64; 4]; 4],
    /// Reports of a port, done and refused, by the octets lent for the record.
    lent: [[u64; 4]; 2],
    /// Moves, forward and back, by what came of them.
    moves: [[u64; 5]; 2],
    /// Churn states entered: in tables that runs make or in any memory, by the actor's machine or the partner's.
    churn: [[[u64; 3]; 2]; 2],
    /// How often each counter moved, and how often it wrapped.
    counters: [[u64; 2]; 7],
    /// What came of Markers, in tables that runs make or in any memory.
    asked: [[u64; 4]; 2],
    /// How often the number of the next one wrapped.
    wrapped: u64,
    /// Responses, by how they fit what was asked for.
    responses: [u64; 7],
    /// Causes of why a port carries or not, in tables that runs make or in any memory.
    causes: [[u64; 2]; 11],
    /// Reasons why two ports are apart, in the order of their bits, and last that there was none, in either.
    reasons: [[u64; 2]; 11],
}

const LINES: [(&str, (bool, bool)); 4] = [
    ("up full", (true, true)),
    ("up half", (true, false)),
    ("down full", (false, true)),
    ("down half", (false, false)),
];

/// Octets lent for a record.
const LENT: [&str; 4] = ["0", "1 to 77", "78", "more"];
/// Why a move was refused, if it was: the table has the size of the form into which it was to go, or of neither form, or only a field
/// can be out of range; else the memory for the moved table has a wrong size.
const MOVES: [&str; 5] = ["done", "other form", "neither form", "out of range", "target size"];
const CHURN_STATES: [&str; 3] = ["NO_CHURN", "MONITOR", "CHURN"];
const ASKED: [&str; 4] = ["awaited", "answered", "timed out", "cancelled"];
/// How a Response fits what was asked for on its port: it is accepted; a bit of port, system or transaction is another; another port
/// awaits it; it fits, and the Marker has ended; or otherwise.
const RESPONSES: [&str; 7] =
    ["accepted", "port off", "system off", "number off", "other port", "too late", "otherwise"];

const CAUSES: [&str; 11] = [
    "no cause",
    "carries",
    "carries by default",
    "link down",
    "half duplex",
    "defaulted",
    "expired",
    "waits",
    "held back",
    "out of sync",
    "not collecting",
];
const REASONS: [&str; 11] = [
    "first individual",
    "first partner individual",
    "first looped",
    "second individual",
    "second partner individual",
    "second looped",
    "keys differ",
    "partner priorities differ",
    "partner systems differ",
    "partner keys differ",
    "share a group",
];

impl Tally {
    /// Counts a call that was compared, of a run of that kind.
    pub fn count(&mut self, kind: Kind, request: &Request, reply: &Reply) {
        let answer = match request.call {
            Call::Report(Report::TableSize { .. } | Report::OldTableSize { .. } | Report::Version) => 0,
            _ => reply.outcome.answer,
        };
        *self.counts.entry((request.call.number(), answer)).or_default() += 1;
        if let (Call::Line { port, up, full }, 0) = (&request.call, reply.outcome.answer) {
            let place = |line| LINES.iter().position(|(_, other)| *other == line).unwrap_or(0);
            self.lines[place(world::line_of(&request.table, *port))][place((*up, *full))] += 1;
        }
        if let Call::Report(Report::Port { .. }) = request.call {
            let column = [0, RECORD - 1, RECORD].iter().filter(|most| request.out.len() > **most).count();
            self.lent[usize::from(answer != 0)][column] += 1;
        }
        let [old, new] = world::sizes(&request.table);
        match request.call {
            Call::Report(Report::Forward) => raise(&mut self.moves[0], came_of_move(request, answer, old, new)),
            Call::Report(Report::Back) => raise(&mut self.moves[1], came_of_move(request, answer, new, old)),
            _ => {}
        }
        if answer == 0 {
            self.count_reasons(kind, request, reply);
        }
        self.count_counters(&request.counters, &reply.counters);
        if let (Call::Receive { port, frame }, 0 | 12) = (&request.call, answer) {
            self.count_response(&request.table, *port, frame, answer);
        }
        if reply.outcome.answer == 0 {
            self.count_states(&reply.table);
            if !matches!(request.call, Call::Start { .. }) {
                self.count_churn(kind, &request.table, &reply.table);
                self.count_asked(kind, &request.table, &reply.table);
            }
        }
    }

    fn count_reasons(&mut self, kind: Kind, request: &Request, reply: &Reply) {
        let memory = usize::from(kind == Kind::AnyMemory);
        match request.call {
            Call::Report(Report::Why { .. }) => {
                if let Some(count) = self.causes.get_mut(reply.outcome.why[0] as usize) {
                    count[memory] += 1;
                }
            }
            Call::Report(Report::Apart { first, second }) if first != second => {
                let (reasons, none) = (reply.outcome.apart, 1 << (REASONS.len() - 1));
                let found = if reasons == 0 { none } else { reasons };
                for (_, count) in self.reasons.iter_mut().enumerate().filter(|(bit, _)| found >> bit & 1 == 1) {
                    count[memory] += 1;
                }
            }
            _ => {}
        }
    }

    fn count_states(&mut self, table: &[u8]) {
        let ports = table.first().copied().map_or(0, usize::from);
        for record in table.get(HEADER..).unwrap_or_default().chunks_exact(BASE).take(ports) {
            raise(&mut self.receive, record[0]);
            raise(&mut self.periodic, record[1]);
            raise(&mut self.mux, record[2]);
        }
    }

    fn count_churn(&mut self, kind: Kind, before: &[u8], after: &[u8]) {
        let counts = &mut self.churn[usize::from(kind == Kind::AnyMemory)];
        for (before, after) in world::churn_states(before).zip(world::churn_states(after)) {
            for end in [0, 1].into_iter().filter(|end| before[*end] != after[*end]) {
                raise(&mut counts[end], after[end]);
            }
        }
    }

    fn count_asked(&mut self, kind: Kind, before: &[u8], after: &[u8]) {
        let counts = &mut self.asked[usize::from(kind == Kind::AnyMemory)];
        for ((old, old_next), (new, next)) in world::asked(before).zip(world::asked(after)) {
            if old != new {
                raise(counts, new.wrapping_sub(1));
            }
            self.wrapped += u64::from(old_next > next);
        }
    }

    fn count_response(&mut self, table: &[u8], port: u32, frame: &[u8], answer: u32) {
        let Some(said) = frame.get(REQUEST_AT..REQUEST_AT + REQUEST).filter(|_| frame[14] == 2 && frame[16] == 2)
        else {
            return;
        };
        let awaits = |port| matches!(world::asked_on(table, port), Some((1, _)));
        let awaited = matches!(world::asked_on(table, port), Some((2..=4, _)));
        let fits = |port| world::requested(table, port) == said;
        let place = match one_bit_off(&world::requested(table, port), said).filter(|_| awaits(port)) {
            _ if answer == 0 => 0,
            Some(0..2) => 1,
            Some(2..8) => 2,
            Some(_) => 3,
            None if (1..=world::ports_of(table) as u32).any(|other| awaits(other) && fits(other)) => 4,
            None if awaited && fits(port) => 5,
            None => 6,
        };
        self.responses[place] += 1;
    }

    fn count_counters(&mut self, before: &Counters, after: &Counters) {
        let numbers = before.numbers().into_iter().zip(after.numbers());
        for ([moved, wrapped], (before, after)) in self.counters.iter_mut().zip(numbers) {
            *moved += u64::from(before != after);
            *wrapped += u64::from(before > after);
        }
    }

    /// The least of how often a counter moved or wrapped.
    #[cfg(test)]
    pub fn least_counter(&self) -> u64 {
        self.counters.iter().flatten().copied().min().unwrap_or(0)
    }

    /// The least of what came of Markers, in either kind of memory.
    #[cfg(test)]
    pub fn least_asked(&self) -> u64 {
        self.asked.iter().flatten().copied().min().unwrap_or(0).min(self.wrapped)
    }

    /// The least of the ways in which a Response fits.
    #[cfg(test)]
    pub fn least_response(&self) -> u64 {
        self.responses.into_iter().min().unwrap_or(0)
    }

    /// The least of the causes: of each but the first in either kind of memory, and of none in memory that no run made.
    #[cfg(test)]
    pub fn least_cause(&self) -> u64 {
        self.causes[1..].iter().flatten().copied().min().unwrap_or(0).min(self.causes[0][1])
    }

    /// How often a table that a run made gave no cause.
    #[cfg(test)]
    pub fn no_cause_made(&self) -> u64 {
        self.causes[0][0]
    }

    /// The least of the reasons, and of there being none, in either kind of memory.
    #[cfg(test)]
    pub fn least_reason(&self) -> u64 {
        self.reasons.iter().flatten().copied().min().unwrap_or(0)
    }

    /// How often that call had that answer.
    #[cfg(test)]
    pub fn answered(&self, call: u8, answer: u32) -> u64 {
        self.counts.get(&(call, answer)).copied().unwrap_or(0)
    }

    /// The least of the churn states entered, by either machine, in either kind of memory.
    #[cfg(test)]
    pub fn least_churn(&self) -> u64 {
        self.churn.iter().flatten().flatten().copied().min().unwrap_or(0)
    }

    /// The least of the sixteen pairs of old and new link and duplex.
    #[cfg(test)]
    pub fn least_line(&self) -> u64 {
        self.lines.iter().flatten().copied().min().unwrap_or(0)
    }

    /// The least of the reports of a port, done and refused, by the octets lent.
    #[cfg(test)]
    pub fn least_lent(&self) -> u64 {
        self.lent.iter().flatten().copied().min().unwrap_or(0)
    }

    /// The least of what came of the moves in either direction.
    #[cfg(test)]
    pub fn least_move(&self) -> u64 {
        self.moves.iter().flatten().copied().min().unwrap_or(0)
    }

    /// All calls compared.
    pub fn total(&self) -> u64 {
        self.counts.values().sum()
    }
}

/// The place in [`MOVES`] of a move from the form of one size into that of the other.
fn came_of_move(request: &Request, answer: u32, from: usize, to: usize) -> u8 {
    match request.table.len() {
        _ if answer == 0 => 0,
        length if length == to => 1,
        length if length != from => 2,
        _ if request.out.len() == to => 3,
        _ => 4,
    }
}

/// The octet in which alone two differ, if they do in a single bit.
fn one_bit_off(one: &[u8], other: &[u8]) -> Option<usize> {
    let mut differing = one.iter().zip(other).map(|(one, other)| (one ^ other).count_ones()).enumerate();
    let first = differing.find(|(_, bits)| *bits > 0).filter(|(_, bits)| *bits == 1)?;
    differing.all(|(_, bits)| bits == 0).then_some(first.0)
}

fn raise(counts: &mut [u64], state: u8) {
    if let Some(count) = counts.get_mut(usize::from(state)) {
        *count += 1;
    }
}

/// A name, and columns.
fn row<T: fmt::Display, const N: usize>(f: &mut fmt::Formatter<'_>, name: &str, columns: [T; N]) -> fmt::Result {
    write!(f, "{name:<11}")?;
    for column in columns {
        write!(f, "{column:>14}")?;
    }
    writeln!(f)
}

/// A heading over two columns, and a line for each name.
fn list<const N: usize>(
    f: &mut fmt::Formatter<'_>,
    [heading, one, other]: [&str; 3],
    names: [&str; N],
    counts: [[u64; 2]; N],
) -> fmt::Result {
    writeln!(f, "{heading:<28}{one:>14}{other:>14}")?;
    for (name, [one, other]) in names.iter().zip(counts) {
        writeln!(f, "  {name:<26}{one:>14}{other:>14}")?;
    }
    Ok(())
}

impl fmt::Display for Tally {
    fn fmt(&self, f: &mut fmt::Formatter<'_>) -> fmt::Result {
        write!(f, "{:<15}", "answer")?;
        for answer in 0..=14 {
            write!(f, "{answer:>9}")?;
        }
        writeln!(f)?;
        for (call, name) in (0..).zip(NAMES) {
            write!(f, "{name:<15}")?;
            for answer in 0..=14 {
                match self.counts.get(&(call, answer)) {
                    Some(count) => write!(f, "{count:>9}")?,
                    None => write!(f, "{:>9}", "-")?,
                }
            }
            writeln!(f)?;
        }
        row(f, "line, from", LINES.map(|(name, _)| format!("to {name}")))?;
        for ((name, _), counts) in LINES.iter().zip(self.lines) {
            row(f, &format!("  {name}"), counts)?;
        }
        row(f, "port, lent", LENT)?;
        for (name, counts) in ["  done", "  refused"].iter().zip(self.lent) {
            row(f, name, counts)?;
        }
        row(f, "moves", MOVES)?;
        for (name, counts) in ["  forward", "  back"].iter().zip(self.moves) {
            row(f, name, counts)?;
        }
        for (name, counts) in ["churn, made", "churn, any"].iter().zip(self.churn) {
            row(f, name, CHURN_STATES.map(|state| format!("to {state}")))?;
            for (name, counts) in ["  actor", "  partner"].iter().zip(counts) {
                row(f, name, counts)?;
            }
        }
        row(f, "Markers", ASKED)?;
        for (name, counts) in ["  made", "  any"].iter().zip(self.asked) {
            row(f, name, counts)?;
        }
        writeln!(f, "  numbers that wrapped: {}", self.wrapped)?;
        row(f, "Responses", RESPONSES)?;
        row(f, "", self.responses)?;
        list(f, ["why", "made", "any"], CAUSES, self.causes)?;
        list(f, ["apart, of two", "made", "any"], REASONS, self.reasons)?;
        list(f, ["counters", "moved", "wrapped"], Counters::NAMES, self.counters)?;
        writeln!(f, "records after an answer 0, by receive state 0 to 5: {:?}", self.receive)?;
        writeln!(f, "  by periodic state 0 to 3: {:?}, by mux state 0 to 4: {:?}", self.periodic, self.mux)?;
        write!(f, "{} calls", self.total())
    }
}
