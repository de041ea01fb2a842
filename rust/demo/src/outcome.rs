//! What became of the trunk, in words, from the reports.

use crate::cabling::{all_ports, Port, Switch};
use crate::network::{Came, End, Look, State, Trunk};
use crate::story::{Churning, Marker, Said, Story};
use crate::timeline::seconds;
use myrkosti::{AskOutcome, Refusal};
use std::rc::Rc;

/// What became of the trunk from the event at this place to the next.
pub fn outcome(story: &Story, event: usize) -> String {
    let span = story.span(event);
    let before = story.events[event].tick.checked_sub(1).map(|last| &*story.looks[last]);
    let [a, b] = Switch::BOTH.map(|switch| carrying(span, before, switch));
    let mut sentences = vec![if a == b { format!("A and B: {a}.") } else { format!("A: {a}; B: {b}.") }];
    sentences.extend(standstill(span));
    sentences.extend(lost(story.ports, span));
    sentences.extend(markers(story, event));
    sentences.extend(churning(story, event));
    sentences.extend(displaced(story.ports, span, before));
    sentences.join(" ")
}

/// On which ports a switch carries in the end, and since when.
fn carrying(span: &[Rc<Look>], before: Option<&Look>, switch: Switch) -> String {
    let trunks = |look| trunks_words(look, switch);
    let last = span.last().map_or_else(String::new, |look| trunks(look));
    let settled = span.iter().rposition(|look| trunks(look) != last).map_or(0, |other| other + 1);
    match settled {
        0 if before.is_none_or(|before| trunks(before) == last) => format!("{last} all the while"),
        0 => format!("{last} at once"),
        later => format!("{last} after {}", ticks(later)),
    }
}

fn trunks_words(look: &Look, switch: Switch) -> String {
    let words = |trunk: &Trunk| format!("aggregator {} carries on {}", trunk.aggregator, ports_words(&trunk.ports));
    match look.trunks[switch.index()].as_slice() {
        [] => "no port carries".into(),
        trunks => trunks.iter().map(words).collect::<Vec<_>>().join(" and "),
    }
}

fn ports_words(ports: &[u32]) -> String {
    let numbers: Vec<String> = ports.iter().map(u32::to_string).collect();
    format!("port{} {}", plural(ports.len()), numbers.join(" "))
}

/// `1 tick`, `2 ticks`.
pub fn ticks(count: usize) -> String {
    format!("{count} tick{}", plural(count))
}

fn plural(count: usize) -> &'static str {
    match count {
        1 => "",
        _ => "s",
    }
}

fn standstill(span: &[Rc<Look>]) -> Option<String> {
    match Switch::BOTH.map(|switch| span.iter().filter(|look| look.width(switch) == 0).count()) {
        [0, 0] => None,
        [a, b] if a == b => Some(format!("No traffic for {}.", ticks(a))),
        [a, b] => Some(format!("A sends no traffic for {}, B for {}.", ticks(a), ticks(b))),
    }
}

fn lost(ports: u32, span: &[Rc<Look>]) -> Option<String> {
    let count = |port: Port| span.iter().filter(|look| look.port(port).state == State::Lost).count();
    let losing = all_ports(ports).map(|port| (port, count(port))).filter(|(_, count)| *count > 0);
    let words: Vec<String> = losing.map(|(port, count)| format!("{} on {port}", ticks(count))).collect();
    (!words.is_empty()).then(|| format!("Traffic sent and lost: {}.", words.join(", ")))
}

/// Whose link churns at the end of the span, at which end and since when, and whose did up to a tick of it.
fn churning(story: &Story, event: usize) -> Vec<String> {
    let from = story.events[event].tick;
    let to = from + story.span(event).len();
    let here = |one: &&Churning| one.ticks.start < to && one.ticks.end >= from;
    let mut told: Vec<(Told, Vec<String>)> = Vec::new();
    for churning in story.churning.iter().filter(here) {
        let over = Some(churning.ticks.end).filter(|over| *over < to);
        let alike = Told { end: churning.end, since: churning.ticks.start, over };
        match told.iter_mut().find(|(other, _)| *other == alike) {
            Some((_, ports)) => ports.push(churning.port.to_string()),
            None => told.push((alike, vec![churning.port.to_string()])),
        }
    }
    told.iter().map(|(told, ports)| churning_words(ports, told)).collect()
}

/// What came of Markers from the event to the next, and which are awaited then.
fn markers(story: &Story, event: usize) -> Vec<String> {
    let (from, span) = (story.events[event].tick, story.span(event));
    let to = story.events.get(event + 1).map_or(usize::MAX, |next| next.tick);
    let here = story.markers.iter().filter(|marker| (from..to).contains(&marker.tick));
    let ended_behind = |port| here.clone().any(|marker| marker.port == port && marker.tick >= from + span.len());
    let awaited = all_ports(story.ports).filter_map(|port| {
        let look = span.last()?.port(port);
        let transaction = look.transaction.filter(|_| look.asked == AskOutcome::Awaiting && !ended_behind(port))?;
        Some(format!("{port}: Marker {transaction} awaited."))
    });
    here.clone().map(|marker| marker_words(marker, from)).chain(awaited).collect()
}

/// What the switches say, from the event to the next, of ports that carry no longer or not yet, and of such that are together no longer:
/// tick by tick, once where both say the same.
pub fn said(story: &Story, event: usize) -> Vec<String> {
    let from = story.events[event].tick;
    let to = from + story.span(event).len();
    let here: Vec<&Said> = story.said.iter().filter(|said| (from..to).contains(&said.tick)).collect();
    here.chunk_by(|one, next| one.tick == next.tick).flat_map(|said| said_at(said, from)).collect()
}

/// The same of one tick.
fn said_at(said: &[&Said], from: usize) -> Vec<String> {
    let when = if said[0].tick == from { "at once".into() } else { format!("at {}", at(said[0].tick)) };
    let of = |switch| {
        let sentences = said.iter().filter(|said| said.switch == switch).map(|said| said.sentence.as_str());
        sentences.collect::<Vec<_>>().join(" ")
    };
    match Switch::BOTH.map(of) {
        [a, b] if a == b => vec![format!("A and B {when}: {a}")],
        [a, b] if b.is_empty() => vec![format!("A {when}: {a}")],
        [a, b] if a.is_empty() => vec![format!("B {when}: {b}")],
        [a, b] => vec![format!("A {when}: {a}"), format!("B {when}: {b}")],
    }
}

fn marker_words(Marker { port, tick, came }: &Marker, from: usize) -> String {
    let when = if *tick == from { "at once".into() } else { format!("at {}", at(*tick)) };
    match came {
        Came::Refused(Refusal::AlreadyAwaiting) => format!("{port}: no further Marker while one is awaited."),
        Came::Refused(_) => format!("{port}: no Marker, for it does not distribute."),
        Came::Ended(asked) => format!("{port}: {asked} {when}."),
    }
}

/// What is told of churn: of which end, since which tick and, if it is over, up to which.
#[derive(PartialEq, Eq)]
struct Told {
    end: End,
    since: usize,
    over: Option<usize>,
}

fn churning_words(ports: &[String], Told { end, since, over }: &Told) -> String {
    let end = match end {
        End::This => "this end",
        End::Far => "the far end",
    };
    let (who, since) = (ports.join(", "), at(*since));
    match over {
        Some(over) => format!("{who} churned from {since} to {}: {end} was out of sync.", at(*over)),
        None if ports.len() == 1 => format!("{who} churns since {since}: {end} is out of sync."),
        None => format!("{who} churn since {since}: {end} is out of sync."),
    }
}

/// `tick 600 (60 s)`.
fn at(tick: usize) -> String {
    format!("tick {tick} ({} s)", seconds(tick))
}

/// A port without link forgets its partner when another port hears that partner.
fn displaced(ports: u32, span: &[Rc<Look>], before: Option<&Look>) -> Vec<String> {
    let looks: Vec<&Look> = before.into_iter().chain(span.iter().map(|look| &**look)).collect();
    let steps = looks.windows(2);
    steps.flat_map(|step| all_ports(ports).filter_map(|port| displaced_in(port, step[0], step[1]))).collect()
}

fn displaced_in(port: Port, before: &Look, now: &Look) -> Option<String> {
    let known = before.port(port).partner?;
    if now.port(port).state != State::Down || now.port(port).partner.is_some() {
        return None;
    }
    let place = now.ports[port.switch.index()].iter().position(|other| other.partner == Some(known))?;
    let hears = Port { number: place as u32 + 1, ..port };
    Some(format!("{port} forgets its partner {}, which {hears} hears now.", port.opposite(known.1.into())))
}
