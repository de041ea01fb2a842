//! The library, linked. The only module with unsafe code.

use super::{Call, Counters, Outcome, Reply, Report, Request, Unreachable};

mod library {
    use super::Counters;

    extern "C" {
        pub fn myrkosti_version() -> u32;
        pub fn myrkosti_table_size(ports: u32) -> u32;
        pub fn myrkosti_start(
            table: *mut u8,
            table_len: usize,
            ports: u32,
            system_priority: u16,
            system: *const u8,
            collector_max_delay: u16,
            address: *const u8,
            key: u16,
            port_priority: u16,
            activity: bool,
            timeout: bool,
            aggregation: bool,
            partner: *const u8,
        ) -> u32;
        pub fn myrkosti_receive(
            table: *mut u8,
            table_len: usize,
            port: u32,
            frame: *const u8,
            frame_len: usize,
            out: *mut u8,
            out_len: usize,
            sent: *mut u32,
            counters: *mut Counters,
        ) -> u32;
        pub fn myrkosti_tick(table: *mut u8, table_len: usize) -> u32;
        pub fn myrkosti_line(table: *mut u8, table_len: usize, port: u32, up: bool, full: bool) -> u32;
        pub fn myrkosti_settings(
            table: *mut u8,
            table_len: usize,
            port: u32,
            address: *const u8,
            key: u16,
            port_priority: u16,
            activity: bool,
            timeout: bool,
            aggregation: bool,
            partner: *const u8,
        ) -> u32;
        pub fn myrkosti_fetch(
            table: *mut u8,
            table_len: usize,
            port: u32,
            out: *mut u8,
            out_len: usize,
            counters: *mut Counters,
        ) -> u32;
        pub fn myrkosti_ask(
            table: *mut u8,
            table_len: usize,
            port: u32,
            ticks: u32,
            out: *mut u8,
            out_len: usize,
        ) -> u32;
        pub fn myrkosti_port(table: *const u8, table_len: usize, port: u32, record: *mut u8, record_len: usize) -> u32;
        pub fn myrkosti_aggregator(
            table: *const u8,
            table_len: usize,
            aggregator: u32,
            holding: *mut u32,
            attached: *mut u32,
            distributing: *mut u32,
            count: *mut u32,
            lowest: *mut u32,
        ) -> u32;
        pub fn myrkosti_due(table: *const u8, table_len: usize, ports: *mut u32) -> u32;
        pub fn myrkosti_old_table_size(ports: u32) -> u32;
        pub fn myrkosti_forward(old_table: *const u8, old_len: usize, new_table: *mut u8, new_len: usize) -> u32;
        pub fn myrkosti_back(new_table: *const u8, new_len: usize, old_table: *mut u8, old_len: usize) -> u32;
        pub fn myrkosti_why(
            table: *const u8,
            table_len: usize,
            port: u32,
            cause: *mut u32,
            holder: *mut u32,
            ticks: *mut u32,
        ) -> u32;
        pub fn myrkosti_apart(table: *const u8, table_len: usize, first: u32, second: u32, reasons: *mut u32) -> u32;
    }
}

/// Performs a call on this table, with this outgoing buffer, or memory for a record or a moved table, and these counters, if it takes
/// them.
#[inline]
pub fn perform(call: &Call, table: &mut [u8], out: &mut [u8], counters: &mut Counters) -> Outcome {
    let mut outcome = Outcome::UNTOUCHED;
    // SAFETY: `table` and `out` are writable and a frame readable for their whole lengths, and each array readable for the 6 or 15
    // octets that the header names; `sent` is one writable number, and `counters` are seven, laid out as in C. Exclusive borrows overlap
    // nothing. A slice without octets has a pointer that is not null, and none of it is read. A Rust bool is a C bool. The library keeps
    // no pointer after the call, and is defined for every content.
    outcome.answer = unsafe {
        match call {
            Call::Start { ports, system_priority, system, collector_max_delay, settings } => library::myrkosti_start(
                table.as_mut_ptr(),
                table.len(),
                *ports,
                *system_priority,
                system.as_ptr(),
                *collector_max_delay,
                settings.address.as_ptr(),
                settings.key,
                settings.port_priority,
                settings.activity,
                settings.timeout,
                settings.aggregation,
                settings.partner.as_ptr(),
            ),
            Call::Receive { port, frame } => library::myrkosti_receive(
                table.as_mut_ptr(),
                table.len(),
                *port,
                frame.as_ptr(),
                frame.len(),
                out.as_mut_ptr(),
                out.len(),
                &mut outcome.sent,
                counters,
            ),
            Call::Tick => library::myrkosti_tick(table.as_mut_ptr(), table.len()),
            Call::Line { port, up, full } => library::myrkosti_line(table.as_mut_ptr(), table.len(), *port, *up, *full),
            Call::Settings { port, settings } => library::myrkosti_settings(
                table.as_mut_ptr(),
                table.len(),
                *port,
                settings.address.as_ptr(),
                settings.key,
                settings.port_priority,
                settings.activity,
                settings.timeout,
                settings.aggregation,
                settings.partner.as_ptr(),
            ),
            Call::Fetch { port } => {
                library::myrkosti_fetch(table.as_mut_ptr(), table.len(), *port, out.as_mut_ptr(), out.len(), counters)
            }
            Call::Ask { port, ticks } => {
                library::myrkosti_ask(table.as_mut_ptr(), table.len(), *port, *ticks, out.as_mut_ptr(), out.len())
            }
            Call::Report(asked) => return report(*asked, table, out),
        }
    };
    outcome
}

/// Performs a call that only reads this table, with this memory for a record or a moved table if it has one.
#[inline]
pub fn report(report: Report, table: &[u8], lent: &mut [u8]) -> Outcome {
    let mut outcome = Outcome::UNTOUCHED;
    let [holding, attached, distributing, count, lowest] = &mut outcome.aggregator;
    let [cause, holder, ticks] = &mut outcome.why;
    // SAFETY: `table` is readable for its whole length and not written; `lent` is writable for its whole length, and the five numbers
    // of an aggregator, the three of why and the two sets are different writable ones. Exclusive borrows overlap nothing. A slice
    // without octets has a pointer that is not null, and none of it is read or written. The library keeps no pointer after the call,
    // and is defined for every content and number.
    outcome.answer = unsafe {
        match report {
            Report::TableSize { ports } => library::myrkosti_table_size(ports),
            Report::Port { port } => {
                library::myrkosti_port(table.as_ptr(), table.len(), port, lent.as_mut_ptr(), lent.len())
            }
            Report::Aggregator { aggregator } => library::myrkosti_aggregator(
                table.as_ptr(),
                table.len(),
                aggregator,
                holding,
                attached,
                distributing,
                count,
                lowest,
            ),
            Report::Due => library::myrkosti_due(table.as_ptr(), table.len(), &mut outcome.due),
            Report::Version => library::myrkosti_version(),
            Report::OldTableSize { ports } => library::myrkosti_old_table_size(ports),
            Report::Forward => library::myrkosti_forward(table.as_ptr(), table.len(), lent.as_mut_ptr(), lent.len()),
            Report::Back => library::myrkosti_back(table.as_ptr(), table.len(), lent.as_mut_ptr(), lent.len()),
            Report::Why { port } => library::myrkosti_why(table.as_ptr(), table.len(), port, cause, holder, ticks),
            Report::Apart { first, second } => {
                library::myrkosti_apart(table.as_ptr(), table.len(), first, second, &mut outcome.apart)
            }
        }
    };
    outcome
}

pub(super) fn perform_all(requests: &[Request]) -> Result<Vec<Reply>, Unreachable> {
    Ok(requests.iter().map(|request| request.performed_by(perform)).collect())
}
