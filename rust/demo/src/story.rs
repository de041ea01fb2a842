//! A script as it was played: what the reports showed in every tick, and the events.

use crate::cabling::{all_ports, Port, Switch};
use crate::network::{Came, End, Look, Network};
use crate::outcome::ticks;
use crate::script::{Command, LinkChange, Script, Setting};
use crate::trunk::TrunkPage;
use myrkosti::{Asked, Cause, Counters, Refusal};
use std::ops::Range;
use std::rc::Rc;

/// What is said of a table that was moved.
const RELOADED: &str = "moved into the old form and into the new again, churn counts begin at 0";

/// A script that was played.
pub struct Story {
    pub(crate) ports: u32,
    /// What the reports showed after tick n and the events that came with it, n from 0.
    pub(crate) looks: Vec<Rc<Look>>,
    /// How many LACPDUs A and B had sent by then.
    sent: Vec<[u64; 2]>,
    pub(crate) events: Vec<Event>,
    /// When links churned, in the order of the ports.
    pub(crate) churning: Vec<Churning>,
    /// What is told of Markers, in the order of time.
    pub(crate) markers: Vec<Marker>,
    /// What the switches said of ports that did not carry or were apart, in the order of time.
    pub(crate) said: Vec<Said>,
    /// The pages of the trunks of A and of B in the end.
    pub(crate) trunks: [Vec<TrunkPage>; 2],
    /// What the ports of A and of B had counted in the end.
    counters: [Vec<Counters>; 2],
    /// The Markers that had been asked for on them.
    asked: [Vec<Asked>; 2],
}

/// What is told of a Marker that a port was asked for.
pub struct Marker {
    pub port: Port,
    pub tick: usize,
    pub came: Came,
}

/// A sentence of a switch: why a port carries no longer or not yet, or why two are together no longer.
pub struct Said {
    pub switch: Switch,
    pub tick: usize,
    pub sentence: String,
}

/// A time during which a port's link churned at one end.
pub struct Churning {
    pub port: Port,
    pub end: End,
    /// The ticks in which the reports showed it.
    pub ticks: Range<usize>,
}

/// What happened between two ticks.
#[derive(Default)]
pub struct Event {
    /// After which tick.
    pub tick: usize,
    notes: Vec<String>,
    /// To what something happened, and what.
    acts: Vec<(String, String)>,
}

/// Plays a script.
///
/// # Errors
/// What the library refuses. It has no reason to, unless it cannot be reached.
pub fn play(script: &Script) -> Result<Story, Refusal> {
    let mut network = Network::start(script.ports)?;
    let mut story = Story::begun(script.ports);
    for command in &script.commands {
        if let Command::Tick(ticks) = command {
            for _ in 0..*ticks {
                story.keep(&network)?;
                network.tick()?;
                story.keep_markers(&mut network);
            }
        } else {
            network.perform(command)?;
            story.keep_markers(&mut network);
            story.event_now().add(command);
        }
    }
    if !matches!(script.commands.last(), Some(Command::Tick(_))) {
        story.keep(&network)?;
    }
    (story.counters, story.asked, story.trunks) = (network.counters(), network.asked()?, network.trunk_pages()?);
    for port in all_ports(script.ports) {
        End::BOTH.into_iter().for_each(|end| story.keep_churning(port, end));
        story.keep_whys(port);
    }
    story.said.sort_by_key(|said| said.tick);
    Ok(story)
}

impl Story {
    fn begun(ports: u32) -> Story {
        Story {
            ports,
            looks: Vec::new(),
            sent: Vec::new(),
            events: Vec::new(),
            churning: Vec::new(),
            markers: Vec::new(),
            said: Vec::new(),
            trunks: [Vec::new(), Vec::new()],
            counters: [Vec::new(), Vec::new()],
            asked: [Vec::new(), Vec::new()],
        }
    }

    /// The aggregators that the ports of A and of B held, in each tick.
    pub fn held(&self) -> Vec<[Vec<u32>; 2]> {
        let held = |look: &Look| look.ports.each_ref().map(|ports| ports.iter().map(|port| port.aggregator).collect());
        self.looks.iter().map(|look| held(look)).collect()
    }

    /// How many LACPDUs A and B had sent, in each tick.
    pub fn sent(&self) -> &[[u64; 2]] {
        &self.sent
    }

    /// What the ports of A and of B had counted in the end.
    pub fn counters(&self) -> &[Vec<Counters>; 2] {
        &self.counters
    }

    /// The Markers that had been asked for on the ports of A and of B in the end.
    pub fn asked(&self) -> &[Vec<Asked>; 2] {
        &self.asked
    }

    /// What the reports showed from the event at this place to the next.
    pub(crate) fn span(&self, event: usize) -> &[Rc<Look>] {
        let from = self.events[event].tick;
        let to = self.events.get(event + 1).map_or(self.looks.len(), |next| next.tick);
        &self.looks[from..to]
    }

    /// What the reports show now is what they show in this tick.
    fn keep(&mut self, network: &Network) -> Result<(), Refusal> {
        let look = network.look()?;
        self.keep_parted(network, &look)?;
        let same = self.looks.last().filter(|last| ***last == look).cloned();
        self.looks.push(same.unwrap_or_else(|| Rc::new(look)));
        self.sent.push(network.sent());
        Ok(())
    }

    /// What the network has to tell of Markers came with this tick.
    fn keep_markers(&mut self, network: &mut Network) {
        let tick = self.looks.len();
        self.markers.extend(network.tell().into_iter().map(|(port, came)| Marker { port, tick, came }));
    }

    /// Two ports that held one aggregator in the tick before, and now do not: the lowest of those that did and the lowest of each part that
    /// went.
    fn keep_parted(&mut self, network: &Network, look: &Look) -> Result<(), Refusal> {
        let (tick, Some(last)) = (self.looks.len(), self.looks.last().cloned()) else { return Ok(()) };
        for port in all_ports(self.ports) {
            let held = |number| last.port(Port { number, ..port }).aggregator;
            let holds = |number| look.port(Port { number, ..port }).aggregator;
            let mut before = (1..=self.ports).filter(|other| held(*other) == held(port.number));
            let Some(first) = before.next().filter(|first| holds(*first) != holds(port.number)) else { continue };
            if before.find(|other| holds(*other) == holds(port.number)) == Some(port.number) {
                let sentence = network.apart(Port { number: first, ..port }, port.number)?.to_string();
                self.said.push(Said { switch: port.switch, tick, sentence });
            }
        }
        Ok(())
    }

    /// What is told of a port: why it carries no longer, in the tick in which it stops; that it carries on its settings alone, when it
    /// begins to; and of each event for what it does not carry in the end, unless that was told already or its link never came up.
    fn keep_whys(&mut self, port: Port) {
        let why = |tick: usize| self.looks[tick].port(port).why;
        let mut said = Vec::new();
        let (mut told, mut before) = (None, Cause::LinkDown);
        for event in 0..self.events.len() {
            let from = self.events[event].tick;
            let to = from + self.span(event).len();
            for tick in from..to {
                let now = why(tick).cause;
                let stops = before.carries() && !now.carries();
                let alone = now == Cause::CarriesByDefault && before != now;
                if stops || alone {
                    said.push(tick);
                    told = Some(now.number());
                }
                told = told.filter(|_| !now.carries());
                before = now;
            }
            let was_up = told.is_some() || before != Cause::LinkDown;
            if !before.carries() && was_up && told != Some(before.number()) {
                let same = |tick: &usize| why(*tick).cause.number() == before.number();
                said.extend((from..to).rev().take_while(same).last());
                told = Some(before.number());
            }
        }
        let sentence = |tick| Said { switch: port.switch, tick, sentence: why(tick).to_string() };
        let said: Vec<Said> = said.into_iter().map(sentence).collect();
        self.said.extend(said);
    }

    /// Remembers when that end churned, which a report does not tell.
    fn keep_churning(&mut self, port: Port, end: End) {
        let churns: Vec<bool> = self.looks.iter().map(|look| look.port(port).churns(end)).collect();
        let mut from = 0;
        for run in churns.chunk_by(|one, next| one == next) {
            let ticks = from..from + run.len();
            from = ticks.end;
            self.churning.extend(run[0].then_some(Churning { port, end, ticks }));
        }
    }

    fn event_now(&mut self) -> &mut Event {
        let tick = self.looks.len();
        if self.events.last().is_none_or(|last| last.tick < tick) {
            self.events.push(Event { tick, ..Event::default() });
        }
        let last = self.events.len() - 1;
        &mut self.events[last]
    }
}

impl Event {
    fn add(&mut self, command: &Command) {
        let act = match command {
            Command::Tick(_) => return,
            Command::Note(text) => return self.notes.push(text.clone()),
            Command::Link(change, link) => (format!("link {link}"), change_words(*change).into()),
            Command::Deaf(port) => (port.to_string(), "deaf".into()),
            Command::Set(setting, port) => (port.to_string(), setting_words(*setting)),
            Command::Move(port, to) => (format!("cable of {port}"), format!("now ends at {}", port.opposite(*to))),
            Command::Ask(port, wait) => (port.to_string(), asked_words(*wait)),
            Command::Reload(switch) => (format!("table of {switch:?}"), RELOADED.into()),
        };
        self.acts.push(act);
    }

    /// The notes, and in brackets what was done; or only that.
    pub fn words(&self) -> String {
        let alike = self.acts.chunk_by(|(_, one), (_, next)| one == next);
        let done: Vec<String> = alike.map(done_alike).collect();
        match (self.notes.join(" "), done.join("; ")) {
            (notes, done) if notes.is_empty() => done,
            (notes, done) if done.is_empty() => notes,
            (notes, done) => format!("{notes} [{done}]"),
        }
    }
}

fn done_alike(acts: &[(String, String)]) -> String {
    let subjects: Vec<&str> = acts.iter().map(|(subject, _)| subject.as_str()).collect();
    format!("{} {}", subjects.join(", "), acts[0].1)
}

fn asked_words(wait: u32) -> String {
    format!("asked for a Marker, to be awaited for {}", ticks(wait as usize))
}

fn change_words(change: LinkChange) -> &'static str {
    match change {
        LinkChange::Up => "up",
        LinkChange::Down => "down",
        LinkChange::Silence => "silent",
        LinkChange::Speak => "no longer silent",
    }
}

fn setting_words(setting: Setting) -> String {
    match setting {
        Setting::FullDuplex(full) => format!("at {} duplex", if full { "full" } else { "half" }),
        Setting::Key(key) => format!("with key {key}"),
        Setting::ShortTimeout(short) => format!("with {} timeout", if short { "short" } else { "long" }),
        Setting::Active(active) => if active { "active" } else { "passive" }.into(),
        Setting::Aggregatable(true) => "set to join others".into(),
        Setting::Aggregatable(false) => "set to stay alone".into(),
        Setting::DefaultPartner(key) => format!("with a default partner of key {key}, in sync and collecting"),
    }
}
