//! The plain-text list of events: its commands, and how it is read.

use crate::cabling::{Cabling, Port, Switch};
use myrkosti::LONGEST_WAIT;
use std::ops::RangeInclusive;
use std::str::SplitWhitespace;

/// The story that the program tells by itself.
pub const BUILT_IN: &str = include_str!("../stories/story.txt");

/// Ports of each switch unless the script says otherwise.
const DEFAULT_PORTS: u32 = 4;
const PORTS: RangeInclusive<u32> = 1..=8;
const TICKS: RangeInclusive<u32> = 1..=100_000;
const KEYS: RangeInclusive<u32> = 0..=65_535;
const WAITS: RangeInclusive<u32> = 1..=LONGEST_WAIT;
const COMMANDS: &str =
    "switches, tick, up, down, silence, deaf, speak, half, full, key, default, alone, together, move, long, short, passive, active, \
     ask, reload or note";

/// A list of events that has been read.
#[derive(Clone, Debug, PartialEq, Eq)]
pub struct Script {
    pub(crate) ports: u32,
    pub(crate) commands: Vec<Command>,
}

/// One line of a script.
#[derive(Clone, Debug, PartialEq, Eq)]
pub enum Command {
    Tick(u32),
    /// A change of the link at that port of switch A.
    Link(LinkChange, u32),
    /// Frames to that port are lost.
    Deaf(Port),
    Set(Setting, Port),
    /// The cable of a port now ends at that port of the other switch.
    Move(Port, u32),
    /// A Marker is asked for on that port, and its Response awaited for so many ticks.
    Ask(Port, u32),
    /// The table of a switch goes into the old form and into the new again.
    Reload(Switch),
    Note(String),
}

/// What happens to a link, at both ends.
#[derive(Clone, Copy, Debug, PartialEq, Eq)]
pub enum LinkChange {
    Up,
    Down,
    Silence,
    Speak,
}

/// How a port is set from now on.
#[derive(Clone, Copy, Debug, PartialEq, Eq)]
pub enum Setting {
    FullDuplex(bool),
    Key(u16),
    ShortTimeout(bool),
    Active(bool),
    Aggregatable(bool),
    /// A partner of that key is taken for granted while none speaks.
    DefaultPartner(u16),
}

/// Reads a script.
///
/// # Errors
/// The number of the first wrong line, with what was expected and what was found.
pub fn parse(text: &str) -> Result<Script, String> {
    let mut reader = Reader { ports: None, commands: Vec::new(), cabling: Cabling::straight(*PORTS.end()) };
    for (line, text) in (1..).zip(text.trim_start_matches('\u{feff}').lines()) {
        let text = text.split('#').next().unwrap_or_default();
        reader.line(text).map_err(|wrong| format!("line {line}: {wrong}"))?;
    }
    Ok(Script { ports: reader.ports(), commands: reader.commands })
}

/// What has been read so far.
struct Reader {
    ports: Option<u32>,
    commands: Vec<Command>,
    cabling: Cabling,
}

impl Reader {
    fn ports(&self) -> u32 {
        self.ports.unwrap_or(DEFAULT_PORTS)
    }

    fn line(&mut self, text: &str) -> Result<(), String> {
        let mut words = text.split_whitespace();
        let Some(name) = words.next() else { return Ok(()) };
        let mut line = Line { name, words, ports: self.ports() };
        if name == "switches" {
            self.switches(&mut line)?;
        } else {
            let command = line.command()?;
            self.plug(name, &command)?;
            self.commands.push(command);
        }
        line.end()
    }

    fn switches(&mut self, line: &mut Line) -> Result<(), String> {
        if self.ports.is_some() || !self.commands.is_empty() {
            return Err("'switches' wants to be the first command, and only once".into());
        }
        self.ports = Some(line.number("a port count", PORTS)?);
        Ok(())
    }

    /// Follows the cables, for a link without one cannot change.
    fn plug(&mut self, name: &str, command: &Command) -> Result<(), String> {
        match command {
            Command::Link(_, link) if self.cabling.far(Port::a(*link)).is_none() => {
                return Err(format!("'{name}' wants a link with a cable, and port {link} of switch A has none now"));
            }
            Command::Deaf(port) if self.cabling.far(*port).is_none() => {
                return Err(format!("'{name}' wants a port with a cable, and {port} has none now"));
            }
            Command::Move(port, to) => {
                let (a, b) = port.cable_to(*to);
                self.cabling.join(a, b);
            }
            _ => {}
        }
        Ok(())
    }
}

/// A line whose words are taken one by one.
struct Line<'a> {
    name: &'a str,
    words: SplitWhitespace<'a>,
    ports: u32,
}

impl Line<'_> {
    fn command(&mut self) -> Result<Command, String> {
        Ok(match self.name {
            "tick" => Command::Tick(self.number("a number", TICKS)?),
            "up" => Command::Link(LinkChange::Up, self.link()?),
            "down" => Command::Link(LinkChange::Down, self.link()?),
            "silence" => Command::Link(LinkChange::Silence, self.link()?),
            "speak" => Command::Link(LinkChange::Speak, self.link()?),
            "deaf" => Command::Deaf(self.port()?),
            "half" | "full" => Command::Set(Setting::FullDuplex(self.name == "full"), self.port()?),
            "long" | "short" => Command::Set(Setting::ShortTimeout(self.name == "short"), self.port()?),
            "passive" | "active" => Command::Set(Setting::Active(self.name == "active"), self.port()?),
            "alone" | "together" => Command::Set(Setting::Aggregatable(self.name == "together"), self.port()?),
            "key" | "default" => {
                let (port, key) = (self.port()?, self.number("a key", KEYS)? as u16);
                let setting = if self.name == "key" { Setting::Key(key) } else { Setting::DefaultPartner(key) };
                Command::Set(setting, port)
            }
            "move" => Command::Move(self.port()?, self.number("a port of the other switch", 1..=self.ports)?),
            "ask" => Command::Ask(self.port()?, self.number("a waiting time", WAITS)?),
            "reload" => Command::Reload(self.switch()?),
            "note" => Command::Note(self.text()?),
            name => return Err(format!("expected {COMMANDS}, found '{name}'")),
        })
    }

    fn link(&mut self) -> Result<u32, String> {
        self.number("a link", 1..=self.ports)
    }

    fn switch(&mut self) -> Result<Switch, String> {
        match self.words.next() {
            Some("A") => Ok(Switch::A),
            Some("B") => Ok(Switch::B),
            found => Err(self.wants("a switch, A or B", found)),
        }
    }

    fn port(&mut self) -> Result<Port, String> {
        Ok(Port { switch: self.switch()?, number: self.number("a port", 1..=self.ports)? })
    }

    fn number(&mut self, what: &str, range: RangeInclusive<u32>) -> Result<u32, String> {
        let word = self.words.next();
        let number = word.and_then(|word| word.parse().ok()).filter(|number| range.contains(number));
        number.ok_or_else(|| self.wants(&format!("{what} from {} to {}", range.start(), range.end()), word))
    }

    fn text(&mut self) -> Result<String, String> {
        let words: Vec<&str> = self.words.by_ref().collect();
        let text = words.join(" ").replace(char::is_control, "");
        (!text.is_empty()).then_some(text).ok_or_else(|| self.wants("a text", None))
    }

    fn end(&mut self) -> Result<(), String> {
        self.words.next().map_or(Ok(()), |extra| Err(self.wants("nothing more", Some(extra))))
    }

    fn wants(&self, what: &str, found: Option<&str>) -> String {
        let found = found.map_or("nothing".into(), |word| format!("'{word}'"));
        format!("'{}' wants {what}, found {found}", self.name)
    }
}

#[cfg(test)]
mod tests {
    use super::*;

    fn message(text: &str) -> String {
        parse(text).unwrap_err()
    }

    #[test]
    fn every_command_is_read() {
        let text = "\u{feff}# all\r\nswitches 5\n\nup 1 # one\ndown 2\nsilence 3\nspeak 3\nhalf A 1\nfull B 5\nkey B 2 65535\n\
                    move A 4 5\ndeaf B 5\nlong A 1\nshort A 1\npassive B 1\nactive B 1\nreload B\nnote  all  is well # so far\nask B 5 600\n\
                    default A 3 7\nalone B 1\ntogether B 1\ntick 100000";
        let script = parse(text).unwrap();
        assert_eq!((script.ports, script.commands.len()), (5, 20));
        assert_eq!(script.commands[6], Command::Set(Setting::Key(65_535), Port::b(2)));
        assert_eq!(script.commands[7], Command::Move(Port::a(4), 5));
        assert_eq!(script.commands[8], Command::Deaf(Port::b(5)));
        assert_eq!(script.commands[13], Command::Reload(Switch::B));
        assert_eq!(script.commands[14], Command::Note("all is well".into()));
        assert_eq!(script.commands[15], Command::Ask(Port::b(5), 600));
        assert_eq!(script.commands[16], Command::Set(Setting::DefaultPartner(7), Port::a(3)));
        assert_eq!(script.commands[17], Command::Set(Setting::Aggregatable(false), Port::b(1)));
        assert_eq!(script.commands[18], Command::Set(Setting::Aggregatable(true), Port::b(1)));
        assert_eq!(parse("").unwrap(), Script { ports: 4, commands: vec![] });
        assert!(parse(BUILT_IN).is_ok() && parse(include_str!("../stories/silent-first-link.txt")).is_ok());
        assert!(parse(include_str!("../stories/never-settles.txt")).is_ok());
        assert!(parse(include_str!("../stories/new-firmware.txt")).is_ok());
        assert!(parse(include_str!("../stories/drained.txt")).is_ok());
        assert!(parse(include_str!("../stories/half-rate.txt")).is_ok());
    }

    #[test]
    fn wrong_words() {
        assert_eq!(message("# \n\ntick x"), "line 3: 'tick' wants a number from 1 to 100000, found 'x'");
        assert_eq!(message("tick"), "line 1: 'tick' wants a number from 1 to 100000, found nothing");
        assert_eq!(message("tick 0"), "line 1: 'tick' wants a number from 1 to 100000, found '0'");
        assert_eq!(message("tick 100001"), "line 1: 'tick' wants a number from 1 to 100000, found '100001'");
        assert_eq!(message("switches 9"), "line 1: 'switches' wants a port count from 1 to 8, found '9'");
        assert_eq!(message("half C 1"), "line 1: 'half' wants a switch, A or B, found 'C'");
        assert_eq!(message("long"), "line 1: 'long' wants a switch, A or B, found nothing");
        assert_eq!(message("passive B 5"), "line 1: 'passive' wants a port from 1 to 4, found '5'");
        assert_eq!(message("key A 1 -1"), "line 1: 'key' wants a key from 0 to 65535, found '-1'");
        assert_eq!(message("default B 2"), "line 1: 'default' wants a key from 0 to 65535, found nothing");
        assert_eq!(message("default 2 1"), "line 1: 'default' wants a switch, A or B, found '2'");
        assert_eq!(message("alone A 5"), "line 1: 'alone' wants a port from 1 to 4, found '5'");
        assert_eq!(message("together A 1 2"), "line 1: 'together' wants nothing more, found '2'");
        assert_eq!(message("move A 1"), "line 1: 'move' wants a port of the other switch from 1 to 4, found nothing");
        assert_eq!(message("reload"), "line 1: 'reload' wants a switch, A or B, found nothing");
        assert_eq!(message("reload A 1"), "line 1: 'reload' wants nothing more, found '1'");
        assert_eq!(message("ask 1 30"), "line 1: 'ask' wants a switch, A or B, found '1'");
        assert_eq!(message("ask A 5 30"), "line 1: 'ask' wants a port from 1 to 4, found '5'");
        assert_eq!(message("ask A 1"), "line 1: 'ask' wants a waiting time from 1 to 600, found nothing");
        assert_eq!(message("ask A 1 0"), "line 1: 'ask' wants a waiting time from 1 to 600, found '0'");
        assert_eq!(message("ask A 1 601"), "line 1: 'ask' wants a waiting time from 1 to 600, found '601'");
        assert_eq!(message("ask A 1 30 s"), "line 1: 'ask' wants nothing more, found 's'");
        assert_eq!(message("note # nothing"), "line 1: 'note' wants a text, found nothing");
        assert_eq!(message("up 1 2"), "line 1: 'up' wants nothing more, found '2'");
        assert_eq!(message("Tick 1"), format!("line 1: expected {COMMANDS}, found 'Tick'"));
        for name in ["up", "down", "silence", "speak"] {
            assert_eq!(message(&format!("{name} 5")), format!("line 1: '{name}' wants a link from 1 to 4, found '5'"));
        }
    }

    #[test]
    fn wrong_at_that_place() {
        let first = "'switches' wants to be the first command, and only once";
        assert_eq!(message("tick 1\nswitches 4"), format!("line 2: {first}"));
        assert_eq!(message("switches 4\nswitches 4"), format!("line 2: {first}"));
        let bare = "'up' wants a link with a cable, and port 2 of switch A has none now";
        assert_eq!(message("move A 1 2\nup 2"), format!("line 2: {bare}"));
        assert!(parse("move A 1 2\nmove A 2 1\nup 2").is_ok());
        assert_eq!(message("move A 1 2\ndeaf B 1"), "line 2: 'deaf' wants a port with a cable, and B1 has none now");
        assert!(parse("move A 1 2\ndeaf B 2").is_ok());
    }
}
