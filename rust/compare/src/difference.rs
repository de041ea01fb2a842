//! What differs between two replies, field by field.

use crate::memory::FIELDS;
use crate::world::{field, ports_of, sizes, ASKED, BASE, CHURN, HEADER};
use calls::{Call, Counters, Reply, Report, Request};
use std::fmt::Write;

/// What the memory is called into which a table is moved.
const MOVED: &str = "moved table";

fn hex(octets: &[u8]) -> String {
    octets.iter().fold(String::new(), |mut text, octet| {
        let _ = write!(text, "{octet:02X}");
        text
    })
}

fn line<T: PartialEq + std::fmt::Debug>(text: &mut String, what: &str, model: &T, library: &T) {
    if model != library {
        let _ = writeln!(text, "  {what}: model {model:?}, library {library:?}");
    }
}

/// The fields of a table, so called, that differ, with what they held before.
fn tables(text: &mut String, called: &str, before: &[u8], model: &[u8], library: &[u8]) {
    line(text, &format!("octets of the {called}"), &model.len(), &library.len());
    if model.get(..HEADER) != library.get(..HEADER) {
        let header = |table: &[u8]| hex(table.get(..HEADER).unwrap_or_default());
        let _ =
            writeln!(text, "  header: before {}, model {}, library {}", header(before), header(model), header(library));
    }
    if let Some(first) = model.iter().zip(library).position(|(model, library)| model != library) {
        let _ = writeln!(text, "  octet {first} of the {called} is the first that differs");
    }
    let ports = ports_of(model);
    for port in 0..ports {
        for (name, at, length, _) in FIELDS {
            let held = |table: &[u8]| field(table.len(), ports, port, at, length).map(|field| hex(&table[field]));
            let [before, model, library] = [before, model, library].map(|table| held(table).unwrap_or_default());
            if model != library {
                let port = port + 1;
                let _ = writeln!(text, "  port {port} {name}: before {before}, model {model}, library {library}");
            }
        }
    }
}

/// The octets of a table in lines: header, records, churn if it has that, Markers; and what is over.
fn lines(table: &[u8]) -> Vec<&[u8]> {
    let (ports, watched) = (ports_of(table), table.len() != sizes(table)[0]);
    let mut rest = table;
    let groups = [(HEADER, 1), (BASE, ports), (CHURN, if watched { ports } else { 0 }), (ASKED, ports)];
    let mut lines = Vec::new();
    for (octets, groups) in groups {
        for _ in 0..groups {
            let (line, behind) = rest.split_at(rest.len().min(octets));
            lines.push(line);
            rest = behind;
        }
    }
    lines.push(rest);
    lines.retain(|line| !line.is_empty());
    lines
}

/// The counters that differ, with what they held before.
fn counters(text: &mut String, before: &Counters, model: &Counters, library: &Counters) {
    let numbers = before.numbers().into_iter().zip(model.numbers()).zip(library.numbers());
    for (name, ((before, model), library)) in Counters::NAMES.iter().zip(numbers) {
        line(text, &format!("{name}, before {before}"), &model, &library);
    }
}

/// A description of a difference.
pub fn describe(request: &Request, model: &Reply, library: &Reply) -> String {
    let mut text = String::new();
    let _ = match &request.call {
        Call::Report(report) => writeln!(text, "call: {report:?}"),
        call => writeln!(text, "call: {call:?}"),
    };
    if let Call::Receive { frame, .. } = &request.call {
        let _ = writeln!(text, "frame ({} octets): {}", frame.len(), hex(frame));
    }
    let lent = match request.call {
        Call::Report(Report::Port { .. }) => "record",
        Call::Report(Report::Forward | Report::Back) => MOVED,
        _ => "outgoing buffer",
    };
    let _ = writeln!(text, "{lent}: {} octets lent", request.out.len());
    let _ = writeln!(text, "table before ({} octets):", request.table.len());
    for octets in lines(&request.table) {
        let _ = writeln!(text, "  {}", hex(octets));
    }
    text.push_str("differences:\n");
    line(&mut text, "answer", &model.outcome.answer, &library.outcome.answer);
    line(&mut text, "sent", &model.outcome.sent, &library.outcome.sent);
    line(
        &mut text,
        "holding, attached, distributing, count, lowest",
        &model.outcome.aggregator,
        &library.outcome.aggregator,
    );
    line(&mut text, "due, as a set", &model.outcome.due, &library.outcome.due);
    line(&mut text, "cause, holder, ticks", &model.outcome.why, &library.outcome.why);
    line(&mut text, "reasons, as a set", &model.outcome.apart, &library.outcome.apart);
    counters(&mut text, &request.counters, &model.counters, &library.counters);
    line(&mut text, lent, &hex(&model.out), &hex(&library.out));
    tables(&mut text, "table", &request.table, &model.table, &library.table);
    if lent == MOVED {
        tables(&mut text, MOVED, &request.out, &model.out, &library.out);
    }
    text
}
