//! The model behind the C interface of the library: the functions of `include/myrkosti.h` with `model_` for `myrkosti_`, so that one
//! C program measures both (`tests/bench/`). The deliberate errors of the model are left out of it.
//!
//! The caller does what `include/myrkosti.h` asks: memory that is lent is readable, and where it is written writable, for its whole
//! length, and the areas that are lent to one call do not overlap.

#![allow(unsafe_code)] // pointers of a C caller
#![allow(clippy::missing_safety_doc)] // one duty for all functions, above
#![allow(clippy::too_many_arguments)] // the signatures are those of the C interface

use calls::{Call, Counters, Report, SettingsArguments, BLOCK};
use model::{perform, report};
use std::slice::{from_raw_parts, from_raw_parts_mut};

/// The answer to a call that writes nothing but the table.
#[inline(always)]
unsafe fn change(call: &Call, table: *mut u8, table_len: usize) -> u32 {
    perform(call, from_raw_parts_mut(table, table_len), &mut [], &mut Counters::default()).answer
}

/// Starts a table.
#[no_mangle]
pub unsafe extern "C" fn model_start(
    table: *mut u8,
    table_len: usize,
    ports: u32,
    system_priority: u16,
    system: &[u8; 6],
    collector_max_delay: u16,
    address: &[u8; 6],
    key: u16,
    port_priority: u16,
    activity: bool,
    timeout: bool,
    aggregation: bool,
    partner: &[u8; BLOCK],
) -> u32 {
    let (system, address, partner) = (*system, *address, *partner);
    let settings = SettingsArguments { address, key, port_priority, activity, timeout, aggregation, partner };
    let start = Call::Start { ports, system_priority, system, collector_max_delay, settings };
    change(&start, table, table_len)
}

/// A frame came in on a port.
#[no_mangle]
pub unsafe extern "C" fn model_receive(
    table: *mut u8,
    table_len: usize,
    port: u32,
    frame: *const u8,
    frame_len: usize,
    out: *mut u8,
    out_len: usize,
    sent: &mut u32,
    counters: &mut Counters,
) -> u32 {
    let receive = Call::Receive { port, frame: from_raw_parts(frame, frame_len).into() };
    let (table, out) = (from_raw_parts_mut(table, table_len), from_raw_parts_mut(out, out_len));
    let outcome = perform(&receive, table, out, counters);
    *sent = outcome.sent;
    outcome.answer
}

/// A tenth of a second has passed.
#[no_mangle]
pub unsafe extern "C" fn model_tick(table: *mut u8, table_len: usize) -> u32 {
    change(&Call::Tick, table, table_len)
}

/// The link of a port is up or down now, and its duplex full or half.
#[no_mangle]
pub unsafe extern "C" fn model_line(table: *mut u8, table_len: usize, port: u32, up: bool, full: bool) -> u32 {
    change(&Call::Line { port, up, full }, table, table_len)
}

/// A port has these settings from now on.
#[no_mangle]
pub unsafe extern "C" fn model_settings(
    table: *mut u8,
    table_len: usize,
    port: u32,
    address: &[u8; 6],
    key: u16,
    port_priority: u16,
    activity: bool,
    timeout: bool,
    aggregation: bool,
    partner: &[u8; BLOCK],
) -> u32 {
    let (address, partner) = (*address, *partner);
    let settings = SettingsArguments { address, key, port_priority, activity, timeout, aggregation, partner };
    change(&Call::Settings { port, settings }, table, table_len)
}

/// The next LACPDU of a port.
#[no_mangle]
pub unsafe extern "C" fn model_fetch(
    table: *mut u8,
    table_len: usize,
    port: u32,
    out: *mut u8,
    out_len: usize,
    counters: &mut Counters,
) -> u32 {
    let (table, out) = (from_raw_parts_mut(table, table_len), from_raw_parts_mut(out, out_len));
    perform(&Call::Fetch { port }, table, out, counters).answer
}

/// A Marker on a port, whose Response is awaited.
#[no_mangle]
pub unsafe extern "C" fn model_ask(
    table: *mut u8,
    table_len: usize,
    port: u32,
    ticks: u32,
    out: *mut u8,
    out_len: usize,
) -> u32 {
    let (table, out) = (from_raw_parts_mut(table, table_len), from_raw_parts_mut(out, out_len));
    perform(&Call::Ask { port, ticks }, table, out, &mut Counters::default()).answer
}

/// The record of a port.
#[no_mangle]
pub unsafe extern "C" fn model_port(
    table: *const u8,
    table_len: usize,
    port: u32,
    record: *mut u8,
    record_len: usize,
) -> u32 {
    let record = from_raw_parts_mut(record, record_len);
    report(Report::Port { port }, from_raw_parts(table, table_len), record).answer
}

/// The ports of an aggregator.
#[no_mangle]
pub unsafe extern "C" fn model_aggregator(
    table: *const u8,
    table_len: usize,
    aggregator: u32,
    holding: &mut u32,
    attached: &mut u32,
    distributing: &mut u32,
    count: &mut u32,
    lowest: &mut u32,
) -> u32 {
    let outcome = report(Report::Aggregator { aggregator }, from_raw_parts(table, table_len), &mut []);
    [*holding, *attached, *distributing, *count, *lowest] = outcome.aggregator;
    outcome.answer
}

/// The ports that have something to send.
#[no_mangle]
pub unsafe extern "C" fn model_due(table: *const u8, table_len: usize, ports: &mut u32) -> u32 {
    let outcome = report(Report::Due, from_raw_parts(table, table_len), &mut []);
    *ports = outcome.due;
    outcome.answer
}

/// Why a port carries or does not.
#[no_mangle]
pub unsafe extern "C" fn model_why(
    table: *const u8,
    table_len: usize,
    port: u32,
    cause: &mut u32,
    holder: &mut u32,
    ticks: &mut u32,
) -> u32 {
    let outcome = report(Report::Why { port }, from_raw_parts(table, table_len), &mut []);
    [*cause, *holder, *ticks] = outcome.why;
    outcome.answer
}

/// Why two ports are apart.
#[no_mangle]
pub unsafe extern "C" fn model_apart(
    table: *const u8,
    table_len: usize,
    first: u32,
    second: u32,
    reasons: &mut u32,
) -> u32 {
    let outcome = report(Report::Apart { first, second }, from_raw_parts(table, table_len), &mut []);
    *reasons = outcome.apart;
    outcome.answer
}
