//! The story as text.

use crate::cabling::{all_ports, Port, Switch};
use crate::network::{End, State};
use crate::outcome::{outcome, said, ticks};
use crate::page::page;
use crate::story::Story;
use myrkosti::AskOutcome;

/// Characters of a line at most.
pub const LINE: usize = 100;
const LABEL: usize = 9;
/// Leaves room for the number of an event in the last column.
const COLUMNS: usize = LINE - LABEL - 4;
const INDENT: usize = 4;

/// The character and the meaning of each state.
pub const LEGEND: [(State, char, &str); 8] = [
    (State::Distributing, '#', "carries traffic (distributing)"),
    (State::Lost, '!', "sends traffic that is lost"),
    (State::Collecting, 'c', "takes traffic only (collecting)"),
    (State::Attached, 'a', "attached, waits for the far end"),
    (State::Waiting, 'w', "waits two seconds for others"),
    (State::Unheard, '?', "far end unheard (expired or defaulted)"),
    (State::LacpOff, 'h', "half duplex, no LACP"),
    (State::Down, '.', "link down"),
];

/// What the row under a port that churns shows.
const CHURN: &str = "t f b  the link churns: for a minute and more t this end, f the far end, b both are out of sync";

/// What the row under a port that was asked for Markers shows.
const ASKED: &str = "o + x /  the last Marker that was asked for: o awaited, + answered, x timed out, / cancelled";

/// The legend, the timeline, the events with what became of the trunk, and the pages of the trunks and of the ports.
pub fn text(story: &Story) -> String {
    let step = round_step(|step| story.looks.len().div_ceil(step) <= COLUMNS);
    let mut lines = introduction(story, step);
    lines.extend(markers(story, step));
    for port in all_ports(story.ports) {
        lines.extend((port == Port::b(1)).then(String::new));
        lines.push(row(&port.to_string(), story, step, |tick| character(story.looks[tick].port(port).state)));
        if story.churning.iter().any(|churning| churning.port == port) {
            let churns = |tick: usize| churning(End::BOTH.map(|end| story.looks[tick].port(port).churns(end)));
            lines.push(row(&format!("{port} churn"), story, step, churns));
        }
        let asked = |tick: usize| story.looks[tick].port(port).asked;
        if (0..story.looks.len()).any(|tick| asked(tick) != AskOutcome::None) {
            lines.push(row(&format!("{port} asked"), story, step, |tick| asked_character(asked(tick))));
        }
    }
    lines.push(String::new());
    for switch in Switch::BOTH {
        let digit = |tick: usize| char::from_digit(story.looks[tick].width(switch) as u32, 10).unwrap_or('+');
        lines.push(row(&format!("width {switch:?}"), story, step, digit));
    }
    lines.extend(axis(story.looks.len(), step));
    for (at, event) in story.events.iter().enumerate() {
        lines.push(String::new());
        let words = format!("tick {} ({} s): {}", event.tick, seconds(event.tick), event.words());
        lines.extend(paragraph(&format!("{:>2}", at + 1), &words));
        lines.extend(paragraph("", &outcome(story, at)));
        lines.extend(said(story, at).iter().flat_map(|said| paragraph("", said)));
    }
    for (switch, trunks) in Switch::BOTH.into_iter().zip(&story.trunks) {
        lines.extend(trunks.iter().flat_map(|trunk| trunk.lines(switch)));
    }
    for (switch, (ports, asked)) in Switch::BOTH.into_iter().zip(story.counters().iter().zip(story.asked())) {
        lines.extend(page(switch, ports, asked));
    }
    lines.iter().map(|line| format!("{}\n", line.trim_end())).collect()
}

/// The character of a state.
pub fn character(state: State) -> char {
    LEGEND.iter().find(|(one, _, _)| *one == state).map_or(' ', |(_, character, _)| *character)
}

/// The character of the ends that churn, this one and the far one.
fn churning(ends: [bool; 2]) -> char {
    match ends {
        [false, false] => ' ',
        [true, false] => 't',
        [false, true] => 'f',
        [true, true] => 'b',
    }
}

/// The character of what came of the last Marker.
fn asked_character(outcome: AskOutcome) -> char {
    match outcome {
        AskOutcome::None => ' ',
        AskOutcome::Awaiting => 'o',
        AskOutcome::Answered => '+',
        AskOutcome::TimedOut => 'x',
        AskOutcome::Cancelled => '/',
    }
}

/// The least of 1, 2, 5, 10, 20, 50 and so on that fits.
pub fn round_step(fits: impl Fn(usize) -> bool) -> usize {
    let mut steps = (0..).flat_map(|power| [1, 2, 5].map(|factor| factor * 10_usize.pow(power)));
    steps.find(|step| fits(*step)).unwrap_or(1)
}

/// Ticks of a tenth of a second as seconds: `5`, `0.5`.
pub fn seconds(ticks: usize) -> String {
    match (ticks / 10, ticks % 10) {
        (whole, 0) => whole.to_string(),
        (whole, tenths) => format!("{whole}.{tenths}"),
    }
}

/// Lines of at most `width` characters, broken between words.
pub fn wrap(text: &str, width: usize) -> Vec<String> {
    let (mut lines, mut line) = (Vec::new(), String::new());
    for word in text.split(' ').flat_map(|word| pieces(word, width)) {
        if !line.is_empty() && line.chars().count() + 1 + word.chars().count() > width {
            lines.push(std::mem::take(&mut line));
        }
        line.push_str(if line.is_empty() { "" } else { " " });
        line.push_str(&word);
    }
    lines.push(line);
    lines
}

/// A word that is longer than a line, in pieces.
fn pieces(word: &str, width: usize) -> Vec<String> {
    word.chars().collect::<Vec<_>>().chunks(width).map(|piece| piece.iter().collect()).collect()
}

fn introduction(story: &Story, step: usize) -> Vec<String> {
    let about = format!(
        "Two switches, A and B, of {} ports each. A tick is a tenth of a second. A column is {} and shows how a port \
         stands in the last of them; the numbers above are the events, told below. The width is the number of ports on which \
         the trunk carries traffic at that end.",
        story.ports,
        ticks(step)
    );
    let entry = |(_, character, words): &(_, char, &str)| format!("{character} {words:<43}");
    let legend = LEGEND.chunks(2).map(|pair| format!("    {}", pair.iter().map(entry).collect::<String>()));
    let churn = (!story.churning.is_empty()).then(|| format!("    {CHURN}"));
    let asked = story.looks.iter().any(|look| look.ports.iter().flatten().any(|port| port.transaction.is_some()));
    let asked = asked.then(|| format!("    {ASKED}"));
    let blank = || [String::new()];
    wrap(&about, LINE).into_iter().chain(blank()).chain(legend).chain(churn).chain(asked).chain(blank()).collect()
}

fn row(label: &str, story: &Story, step: usize, shown: impl Fn(usize) -> char) -> String {
    let last = story.looks.len() - 1;
    let columns = (0..=last).step_by(step).map(|first| shown((first + step - 1).min(last)));
    format!("{label:<LABEL$}{}", columns.collect::<String>())
}

/// The numbers of the events over their columns, in as many lines as keep them apart.
fn markers(story: &Story, step: usize) -> Vec<String> {
    let mut lanes = vec![format!("{:<LABEL$}", "events")];
    for (at, event) in story.events.iter().enumerate() {
        let column = LABEL + event.tick / step;
        let lane = lanes.iter().position(|lane| lane.len() == LABEL || lane.len() < column).unwrap_or(lanes.len());
        lanes.resize(lanes.len().max(lane + 1), String::new());
        lanes[lane] = format!("{:<column$}{}", lanes[lane], at + 1);
    }
    lanes
}

/// Seconds under every tenth column.
fn axis(ticks: usize, step: usize) -> [String; 2] {
    let mut marks = String::new();
    let mut numbers = "seconds".to_string();
    for column in (0..ticks.div_ceil(step)).step_by(10) {
        let at = LABEL + column;
        marks = format!("{marks:<at$}|");
        numbers = format!("{numbers:<at$}{}", seconds(column * step));
    }
    [marks, numbers]
}

/// Lines of a text, set in, the first with a head.
fn paragraph(head: &str, text: &str) -> Vec<String> {
    let heads = std::iter::once(head).chain(std::iter::repeat(""));
    wrap(text, LINE - INDENT).iter().zip(heads).map(|(line, head)| format!("{head:<INDENT$}{line}")).collect()
}
