//! The counters of a port (30.7.3, request M-100): what a received frame and a fetch add to the record that is lent for them. They are no
//! part of the table.

use crate::breakage::{self, Breakage};
use crate::calls::{Accepted, Refusal};
use ::calls::Counters;

/// A counter, by its place in the record.
#[derive(Clone, Copy)]
enum Counter {
    LacpdusReceived,
    MarkersReceived,
    MarkerResponsesReceived,
    UnknownReceived,
    IllegalReceived,
    LacpdusSent,
    MarkerResponsesSent,
}

/// A frame came in with this answer; where it is a Marker that was accepted, its Response goes out.
pub fn received(counters: &mut Counters, answer: Result<Accepted, Refusal>) {
    let counted = miscounted(answer).unwrap_or_else(|| counted_as(answer));
    for counter in [counted, responded(answer)].into_iter().flatten() {
        count(counters, counter);
    }
}

/// A fetch had this answer.
pub fn fetched(counters: &mut Counters, answer: Result<(), Refusal>) {
    if answer.is_ok() || breakage::is(Breakage::RefusedFetchCounted) {
        count(counters, Counter::LacpdusSent);
    }
}

/// Where a received frame counts: an accepted one by its kind, a refused one by its answer, 1, 2, 3 and 6 nowhere.
fn counted_as(answer: Result<Accepted, Refusal>) -> Option<Counter> {
    match answer {
        Ok(Accepted::Lacpdu) | Err(Refusal::LacpOff) => Some(Counter::LacpdusReceived),
        Ok(Accepted::Marker) | Err(Refusal::NotCollecting) => Some(Counter::MarkersReceived),
        Ok(Accepted::Response) | Err(Refusal::Response) => Some(Counter::MarkerResponsesReceived),
        Err(Refusal::Unknown) => Some(Counter::UnknownReceived),
        Err(Refusal::Illegal) => Some(Counter::IllegalReceived),
        Err(_) => None,
    }
}

/// Where the Response counts, if one goes out.
fn responded(answer: Result<Accepted, Refusal>) -> Option<Counter> {
    let sent = match answer {
        Ok(Accepted::Marker) => !breakage::is(Breakage::SentResponseUncounted),
        Err(Refusal::NotCollecting) => breakage::is(Breakage::UnsentResponseCounted),
        _ => false,
    };
    sent.then_some(Counter::MarkerResponsesSent)
}

/// One more in that counter; no other moves.
fn count(counters: &mut Counters, counter: Counter) {
    let (mut numbers, place) = (counters.numbers(), counter as usize);
    numbers[place] = one_more(numbers[place]);
    if numbers[place] == 0 && breakage::is(Breakage::CounterCarries) {
        if let Some(next) = numbers.get_mut(place + 1) {
            *next = one_more(*next);
        }
    }
    *counters = numbers.into();
}

/// One more, of 32 bits.
fn one_more(number: u32) -> u32 {
    match breakage::in_force() {
        Some(Breakage::CounterSaturates) => number.saturating_add(1),
        Some(Breakage::CounterOfSixteenBits) => u32::from((number as u16).wrapping_add(1)),
        _ => number.wrapping_add(1),
    }
}

/// Where the breakages count a received frame; nothing if none of them is in force, or it says nothing of this answer.
fn miscounted(answer: Result<Accepted, Refusal>) -> Option<Option<Counter>> {
    if answer == Ok(Accepted::Response) && breakage::is(Breakage::AcceptedResponseUncounted) {
        return Some(None);
    }
    match (breakage::in_force()?, answer.err()?) {
        (Breakage::ResponseCountedAsMarker, Refusal::Response) => Some(Some(Counter::MarkersReceived)),
        (Breakage::RefusedMarkerUncounted, Refusal::NotCollecting) => Some(None),
        (Breakage::RefusedLacpduUncounted, Refusal::LacpOff) => Some(None),
        (Breakage::ForeignCountedAsUnknown, Refusal::Foreign) => Some(Some(Counter::UnknownReceived)),
        (Breakage::UnknownCountedAsIllegal, Refusal::Unknown) => Some(Some(Counter::IllegalReceived)),
        (Breakage::IllegalCountedAsUnknown, Refusal::Illegal) => Some(Some(Counter::UnknownReceived)),
        (Breakage::ShortBufferCounted, Refusal::BufferShort)
        | (Breakage::NoTableCounted, Refusal::TableWrong)
        | (Breakage::NoPortCounted, Refusal::NoSuchPort) => Some(Some(Counter::LacpdusReceived)),
        _ => None,
    }
}
