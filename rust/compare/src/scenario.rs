//! Runs: a kind, a world, a table, and which call comes next.

use crate::memory::{self, Next};
use crate::random::Random;
use crate::world::{self, World, FRAME, RECORD};
use calls::{Call, Counters, Reply, Report, Request};
use std::array;
use std::collections::VecDeque;

/// What a run is about.
#[derive(Clone, Copy, Debug, PartialEq, Eq)]
pub enum Kind {
    /// Neighbours that speak, are silent, move; link and duplex, settings.
    Realistic,
    /// Frames of every length and with changed octets.
    DamagedFrames,
    /// Arguments that are refused.
    Refusals,
    /// Any memory for a table.
    AnyMemory,
}

impl Kind {
    /// All kinds, and of a hundred runs how many.
    pub const ALL: [(u32, Kind); 4] =
        [(40, Kind::Realistic), (14, Kind::DamagedFrames), (12, Kind::Refusals), (34, Kind::AnyMemory)];
}

/// Something to do later.
#[derive(Clone, Copy, Debug)]
enum Plan {
    Tick,
    Hear(u32),
    /// The far end is in sync, and collects or does not; it says so.
    HearCollecting(u32, bool),
    /// The far end is out of sync, and says so.
    HearUnsettled(u32),
    /// The far end has another port number, and says so: our port waits anew.
    HearRenumbered(u32),
    /// The link alone: the duplex is as it was.
    Link(u32, bool),
    /// The duplex alone: the link is as it was.
    Duplex(u32, bool),
    Line(u32, bool, bool),
    Settings(u32),
    /// Which ports have something to send; fetches that follow are held against it.
    Due,
    Fetch(u32),
    /// A Marker on a port, to be awaited for so many ticks.
    Ask(u32, u32),
    /// The Response to the last Marker of a port comes in on a port: mostly the same.
    Respond(u32, u32),
    /// One that nearly fits comes in on that port.
    Misrespond(u32),
    /// The table goes into the old form, and from there forward again.
    Back,
    Forward,
    /// Why that port carries or does not.
    Why(u32),
    /// Why those two ports are apart.
    Apart(u32, u32),
}

/// A run.
pub struct Scenario {
    /// Its kind.
    pub kind: Kind,
    world: World,
    table: Vec<u8>,
    /// What a table was moved out of last, to be moved into again.
    spare: Vec<u8>,
    /// Those of each port, which no call but a receive or a fetch on it moves, also none that starts or moves a table.
    counters: Vec<Counters>,
    plans: VecDeque<Plan>,
    left: u32,
}

#[derive(Clone, Copy)]
enum Action {
    Tick,
    Ticks,
    Silence,
    Unsettled,
    Restless,
    LiveOn,
    Hear,
    HearAll,
    Handshake,
    Link,
    LinkFlap,
    AllUp,
    Duplex,
    Line,
    Settings,
    Fetch,
    FetchAll,
    FetchTooMuch,
    Marker,
    Response,
    Ask,
    Respond,
    Port,
    Aggregator,
    Due,
    Why,
    WhyAll,
    Apart,
    ApartAll,
    Join,
    Back,
    Forward,
    MoveCable,
    FarEnd,
    Restart,
    Refused,
    Damaged,
}

const REALISTIC: &[(u32, Action)] = &[
    (160, Action::Tick),
    (30, Action::Ticks),
    (2, Action::Silence),
    (1, Action::Unsettled),
    (1, Action::Restless),
    (12, Action::LiveOn),
    (200, Action::Hear),
    (30, Action::HearAll),
    (12, Action::Handshake),
    (24, Action::Link),
    (16, Action::LinkFlap),
    (10, Action::AllUp),
    (14, Action::Duplex),
    (14, Action::Line),
    (30, Action::Settings),
    (70, Action::Fetch),
    (16, Action::FetchAll),
    (8, Action::FetchTooMuch),
    (16, Action::Marker),
    (4, Action::Response),
    (44, Action::Ask),
    (6, Action::Respond),
    (16, Action::Port),
    (20, Action::Aggregator),
    (20, Action::Due),
    (30, Action::Why),
    (6, Action::WhyAll),
    (30, Action::Apart),
    (2, Action::ApartAll),
    (8, Action::Join),
    (8, Action::Back),
    (16, Action::MoveCable),
    (24, Action::FarEnd),
    (2, Action::Restart),
    (6, Action::Refused),
    (6, Action::Damaged),
];

/// Every call about as often, for memory that no run makes.
const BALANCED: &[(u32, Action)] = &[
    (20, Action::Tick),
    (2, Action::Ticks),
    (20, Action::Hear),
    (10, Action::Link),
    (4, Action::LinkFlap),
    (10, Action::Duplex),
    (20, Action::Line),
    (20, Action::Settings),
    (14, Action::Fetch),
    (2, Action::FetchTooMuch),
    (8, Action::Marker),
    (1, Action::Response),
    (14, Action::Ask),
    (14, Action::Respond),
    (6, Action::Port),
    (8, Action::Aggregator),
    (8, Action::Due),
    (20, Action::Why),
    (2, Action::WhyAll),
    (20, Action::Apart),
    (1, Action::ApartAll),
    (12, Action::Back),
    (2, Action::Forward),
    (1, Action::MoveCable),
    (2, Action::FarEnd),
    (1, Action::Restart),
    (1, Action::Refused),
    (1, Action::Damaged),
];

impl Scenario {
    /// A run, at its start.
    pub fn begin(random: &mut Random) -> Scenario {
        let kind = random.weighted(&Kind::ALL);
        let left = match kind {
            Kind::Realistic => random.between(100, 900),
            Kind::DamagedFrames => random.between(50, 400),
            Kind::Refusals => random.between(50, 400),
            Kind::AnyMemory => random.between(100, 600),
        };
        let world = World::new(random);
        let counters = vec![Counters::default(); world.count as usize];
        Scenario { kind, world, table: Vec::new(), spare: Vec::new(), counters, plans: VecDeque::new(), left }
    }

    /// The next call, and none when the run is over.
    pub fn next(&mut self, random: &mut Random) -> Option<Request<'static>> {
        self.left = self.left.checked_sub(1)?;
        if self.table.is_empty() {
            self.table = vec![0xA5; model::table_size(self.world.count) as usize];
            self.table.fill_with(|| random.octet());
            if random.percent(80) {
                self.all_up();
            }
            let call = self.world.start(random);
            return Some(self.request(random, call));
        }
        if self.kind == Kind::AnyMemory && random.percent(25) {
            self.change_memory(random);
        }
        let call = match (self.plans.pop_front(), self.kind) {
            (Some(plan), _) => self.planned(random, plan),
            (None, Kind::DamagedFrames) if random.percent(70) => self.damaged(random),
            (None, Kind::Refusals) if random.percent(70) => return Some(self.refused(random)),
            (None, _) => return Some(self.act(random)),
        };
        Some(self.request(random, call))
    }

    /// The table becomes another. One that was to go forward still is, whatever became of it.
    fn change_memory(&mut self, random: &mut Random) {
        let next = memory::change(random, &mut self.table, self.world.count);
        if !matches!(self.plans.front(), Some(Plan::Forward)) {
            self.plans.clear();
            match next {
                Next::Any => {}
                Next::Tick => self.plans.push_back(Plan::Tick),
                Next::Whys => self.plans.extend((1..=self.world.count).map(Plan::Why)),
            }
        }
    }

    /// Takes note of what came of the last call: a run goes on in the table that a move made. Memory that is no table is soon given up.
    pub fn after(&mut self, random: &mut Random, request: &Request, reply: &Reply) {
        if let Some(counters) = counting(&request.call).and_then(|place| self.counters.get_mut(place)) {
            *counters = reply.counters;
        }
        match (&request.call, reply.outcome.answer) {
            (Call::Report(moved @ (Report::Back | Report::Forward)), 0) => {
                self.spare = std::mem::replace(&mut self.table, reply.out.clone());
                if *moved == Report::Back {
                    self.move_on(random);
                }
            }
            (_, 1) if random.percent(40) => {
                self.table.clear();
                self.plans.clear();
            }
            _ if !self.table.is_empty() && reply.table.len() == self.table.len() => {
                self.table.clone_from(&reply.table);
            }
            _ => {}
        }
    }

    /// A table of the old form can only go forward; seldom another call comes first, and is refused.
    fn move_on(&mut self, random: &mut Random) {
        self.plans.push_front(Plan::Forward);
        if random.percent(10) {
            let port = self.world.port(random);
            let asked = [Plan::Ask(port, 1), Plan::Respond(port, port), Plan::Why(port), Plan::Apart(port, 1)];
            let refused = [Plan::Tick, Plan::Hear(port), Plan::Link(port, true), Plan::Settings(port), Plan::Due];
            let refused = [&refused[..], &asked].concat();
            self.plans.push_front(random.of(&refused));
        }
    }

    /// The call on the present table, with an outgoing buffer, or memory for a record or a moved table, and counters, if it takes them.
    fn request(&self, random: &mut Random, call: Call<'static>) -> Request<'static> {
        let mut table = self.table.clone();
        let [old, new] = world::sizes(&table);
        let length = match call {
            Call::Receive { .. } | Call::Fetch { .. } | Call::Ask { .. } => FRAME + random.of(&[0, 0, 0, 1, 7, 60]),
            Call::Report(Report::Port { .. }) => {
                let any = random.place(91);
                random.of(&[0, 1, RECORD - 1, RECORD, RECORD, RECORD, RECORD + 1, any, any, any, 10 * any])
            }
            Call::Report(Report::Forward) => self.target(random, new),
            Call::Report(Report::Back) => self.target(random, old),
            _ => 0,
        };
        let mut out = vec![random.octet(); length];
        if self.spare.len() == length && random.flag() {
            out.clone_from(&self.spare);
        }
        let moves = matches!(call, Call::Report(Report::Forward | Report::Back));
        if moves && self.kind == Kind::AnyMemory && random.percent(30) {
            memory::damage(random, &mut table, self.world.count);
        }
        let counters = self.lent_counters(random, &call);
        Request { call, table, out, counters }
    }

    /// The counters of the port of a call that counts, as they stand; sometimes others, many of them about to carry, from which that port
    /// then goes on.
    fn lent_counters(&self, random: &mut Random, call: &Call) -> Counters {
        match counting(call).map(|place| self.counters.get(place)) {
            None => Counters::default(),
            Some(Some(counters)) if random.percent(80) => *counters,
            Some(_) => Counters::from(array::from_fn(|_| memory::any_count(random))),
        }
    }

    /// Octets for a moved table: mostly those that it needs; else nearly so many, those of its present form, those of another count, or any.
    fn target(&self, random: &mut Random, needed: usize) -> usize {
        if self.kind == Kind::Realistic || random.percent(75) {
            return needed;
        }
        let count = random.between(1, 32);
        let other = random.of(&[model::table_size(count), model::old_table_size(count)]) as usize;
        let any = random.place(2400);
        random.of(&[0, 1, needed - 1, needed - 1, needed + 1, needed + 1, self.table.len(), other, any])
    }

    fn all_up(&mut self) {
        self.plans.extend((1..=self.world.count).map(|port| Plan::Link(port, true)));
        self.plans.extend((1..=self.world.count).map(Plan::Hear));
    }

    fn planned(&mut self, random: &mut Random, plan: Plan) -> Call<'static> {
        match plan {
            Plan::Tick => Call::Tick,
            Plan::Hear(port) => Call::Receive { port, frame: self.world.lacpdu(random, &self.table, port).into() },
            Plan::HearCollecting(port, collecting) => {
                self.world.set_collecting(port, collecting);
                Call::Receive { port, frame: self.world.lacpdu(random, &self.table, port).into() }
            }
            Plan::HearUnsettled(port) => {
                self.world.unsettle(port);
                Call::Receive { port, frame: self.world.lacpdu(random, &self.table, port).into() }
            }
            Plan::HearRenumbered(port) => {
                self.world.renumber(port);
                Call::Receive { port, frame: self.world.lacpdu(random, &self.table, port).into() }
            }
            Plan::Link(port, up) => Call::Line { port, up, full: world::line_of(&self.table, port).1 },
            Plan::Duplex(port, full) => Call::Line { port, up: world::line_of(&self.table, port).0, full },
            Plan::Line(port, up, full) => Call::Line { port, up, full },
            Plan::Settings(port) => {
                Call::Settings { port, settings: self.world.next_settings(random, &self.table, port) }
            }
            Plan::Due => Report::Due.into(),
            Plan::Fetch(port) => Call::Fetch { port },
            Plan::Ask(port, ticks) => Call::Ask { port, ticks },
            Plan::Respond(asking, port) => {
                let said = world::requested(&self.table, asking);
                Call::Receive { port, frame: world::response(random, &said).into() }
            }
            Plan::Misrespond(port) => {
                let said = world::nearly(random, world::requested(&self.table, port));
                Call::Receive { port, frame: world::response(random, &said).into() }
            }
            Plan::Back => Report::Back.into(),
            Plan::Forward => Report::Forward.into(),
            Plan::Why(port) => Report::Why { port }.into(),
            Plan::Apart(first, second) => Report::Apart { first, second }.into(),
        }
    }

    /// Fetches as a driver does: first it asks what is due.
    fn fetch(&mut self, ports: impl IntoIterator<Item = u32>) {
        self.plans.push_back(Plan::Due);
        self.plans.extend(ports.into_iter().map(Plan::Fetch));
    }

    fn ticks(&mut self, count: u32) {
        self.plans.extend((0..count).map(|_| Plan::Tick));
    }

    /// A link does not settle for about the time after which it churns, because of what is heard every so many ticks; then it settles,
    /// or something else ends it, or nothing.
    fn never_settle(&mut self, random: &mut Random, port: u32, often: u32, heard: Plan) {
        let before = self.plans.len();
        self.plans.push_back(Plan::Link(port, true));
        let mut ticks = random.of(&[560, 580, 599, 600, 601, 640]);
        while ticks > 0 {
            self.plans.push_back(heard);
            let some = random.between(1, often).min(ticks);
            self.ticks(some);
            ticks -= some;
        }
        match random.below(7) {
            0 => self.plans.push_back(Plan::HearCollecting(port, true)),
            1 => self.plans.push_back(Plan::Link(port, false)),
            2 => self.plans.push_back(Plan::Duplex(port, false)),
            3 => self.plans.push_back(Plan::Settings(port)),
            4 => self.plans.push_back(Plan::Back),
            _ => {}
        }
        self.ticks(random.of(&[1, 20, 21]));
        self.left += (self.plans.len() - before) as u32;
    }

    /// A Marker is asked for, mostly on a port that distributes. Then its Response comes, or too late, or the link falls first, or a
    /// Response that does not fit; or something that ends nothing, and then its Response. Often enough it comes once more.
    fn ask(&mut self, random: &mut Random, port: u32) {
        let distributing = world::distributing(&self.table);
        let port = if distributing.is_empty() || random.percent(10) { port } else { random.of(&distributing) };
        if distributing.is_empty() && random.percent(80) {
            self.plans.extend([Plan::Line(port, true, true), Plan::HearCollecting(port, true)]);
            self.ticks(20);
            self.plans.push_back(Plan::HearCollecting(port, true));
        }
        let other = self.world.port(random);
        let ticks = random.weighted(&[(6, 1), (6, 2), (6, 3), (6, 7), (4, 12), (4, 40), (2, 600), (1, 0), (1, 601)]);
        let respond = Plan::Respond(port, port);
        self.plans.push_back(Plan::Ask(port, ticks));
        match random.below(14) {
            0..=2 => self.ticks(random.below(ticks.min(40))),
            3..=5 => {
                self.left += ticks;
                self.ticks(ticks.saturating_sub(1));
                self.plans.extend(random.percent(20).then_some(respond));
                self.ticks(1);
            }
            6..=7 => {
                self.ticks(random.below(ticks.min(3)));
                let full = random.flag();
                let falls = [Plan::Link(port, false), Plan::Duplex(port, false), Plan::Line(port, false, full)];
                self.plans.push_back(random.of(&falls));
            }
            8..=9 => self.plans.extend((0..random.between(1, 3)).map(|_| Plan::Misrespond(port))),
            10 => self.plans.extend([Plan::Respond(port, other), Plan::Respond(other, port)]),
            11 => self.plans.push_back(Plan::Ask(port, random.of(&[1, ticks, 600, 601]))),
            12 => self.plans.extend([Plan::HearCollecting(port, false), Plan::Ask(port, ticks)]),
            _ => {
                let (up, full) = world::line_of(&self.table, port);
                let nothing = [Plan::Line(port, up, full), Plan::Settings(port), Plan::Link(other, false), Plan::Back];
                self.plans.push_back(random.of(&nothing));
            }
        }
        self.plans.push_back(respond);
        self.plans.extend(random.percent(30).then_some(respond));
        self.plans.push_back(Plan::Line(port, true, true));
    }

    /// One port after the other joins its group while others wait: so some are held back. Why each carries or does not is asked on the way.
    fn join(&mut self, random: &mut Random) {
        let before = self.plans.len();
        for port in 1..=self.world.count.min(6) {
            self.plans.extend([Plan::Line(port, true, true), Plan::HearRenumbered(port)]);
            self.ticks(random.of(&[0, 1, 4, 8, 12]));
            self.plans.push_back(Plan::Why(self.world.port(random)));
        }
        for _ in 0..random.between(1, 3) {
            self.ticks(random.of(&[1, 5, 8, 20]));
            self.plans.extend((1..=self.world.count).map(Plan::Why));
        }
        self.left += (self.plans.len() - before) as u32;
    }

    /// A number of a port: mostly of one that there is.
    fn any_port(&self, random: &mut Random) -> u32 {
        if random.percent(6) {
            self.no_port(random)
        } else {
            self.world.port(random)
        }
    }

    /// A number that is of no port.
    fn no_port(&self, random: &mut Random) -> u32 {
        let (count, port) = (self.world.count, self.world.port(random));
        random.weighted(&[(3, 0), (3, count + 1), (1, 33), (1, u32::MAX), (1, 256 + port), (1, 65_536 + port)])
    }

    fn hear_all(&mut self) {
        self.plans.extend((1..=self.world.count).map(Plan::Hear));
    }

    /// Chooses until there is a call to make.
    fn act(&mut self, random: &mut Random) -> Request<'static> {
        let port = self.world.port(random);
        let actions = if self.kind == Kind::AnyMemory { BALANCED } else { REALISTIC };
        match random.weighted(actions) {
            Action::Tick => self.ticks(1),
            Action::Ticks => self.ticks(random.between(1, 25)),
            Action::Silence => {
                let ticks = random.between(1, 1000);
                self.left += ticks;
                self.ticks(ticks);
            }
            Action::Unsettled => self.never_settle(random, port, 29, Plan::HearUnsettled(port)),
            Action::Restless => self.never_settle(random, port, 19, Plan::HearRenumbered(port)),
            Action::LiveOn => {
                for _ in 0..random.between(1, 6) {
                    self.ticks(random.between(1, 12));
                    self.hear_all();
                }
            }
            Action::Hear => self.plans.push_back(Plan::Hear(port)),
            Action::HearAll => self.hear_all(),
            Action::Handshake => {
                self.plans.push_back(Plan::Link(port, true));
                self.plans.push_back(Plan::HearCollecting(port, false));
                self.ticks(random.of(&[0, 1, 19, 20, 21]));
                for collecting in [false, true, false] {
                    self.plans.push_back(Plan::HearCollecting(port, collecting));
                    self.fetch([port]);
                }
            }
            Action::Link => self.plans.push_back(Plan::Link(port, random.percent(60))),
            Action::LinkFlap => {
                self.plans.push_back(Plan::Link(port, false));
                self.ticks(random.of(&[0, 0, 1, 5, 15]));
                self.plans.push_back(Plan::Link(port, true));
            }
            Action::AllUp => self.all_up(),
            Action::Duplex => {
                self.plans.push_back(Plan::Duplex(port, random.percent(50)));
                self.ticks(random.of(&[0, 1, 5, 15]));
                if random.percent(60) {
                    self.plans.push_back(Plan::Duplex(port, true));
                }
            }
            Action::Line => {
                self.plans.push_back(Plan::Line(port, random.flag(), random.flag()));
                if random.percent(60) {
                    self.fetch([port]);
                    self.ticks(random.of(&[0, 1, 5, 20]));
                    self.plans.push_back(Plan::Line(port, random.percent(80), random.percent(80)));
                }
            }
            Action::Settings => self.plans.push_back(Plan::Settings(port)),
            Action::Fetch => self.fetch([port]),
            Action::FetchAll => self.fetch(1..=self.world.count),
            Action::FetchTooMuch => {
                for _ in 0..random.between(3, 8) {
                    self.plans.push_back(Plan::Settings(port));
                    self.fetch([port]);
                    self.ticks(random.of(&[0, 0, 0, 1, 4, 10, 11]));
                }
            }
            Action::Marker => {
                let frame = world::marker(random, 1);
                return self.request(random, Call::Receive { port, frame: frame.into() });
            }
            Action::Response => {
                let frame = world::marker(random, 2);
                return self.request(random, Call::Receive { port, frame: frame.into() });
            }
            Action::Ask => self.ask(random, port),
            Action::Respond if random.flag() => self.plans.push_back(Plan::Misrespond(port)),
            Action::Respond => self.plans.push_back(Plan::Respond(port, port)),
            Action::Port => return self.request(random, Report::Port { port }.into()),
            Action::Aggregator => return self.request(random, Report::Aggregator { aggregator: port }.into()),
            Action::Due => return self.request(random, Report::Due.into()),
            Action::Why => self.plans.push_back(Plan::Why(self.any_port(random))),
            Action::WhyAll => self.plans.extend((1..=self.world.count).map(Plan::Why)),
            Action::Apart => self.plans.push_back(Plan::Apart(self.any_port(random), self.any_port(random))),
            Action::ApartAll => self.plans.extend((1..=self.world.count).map(|other| Plan::Apart(port, other))),
            Action::Join => self.join(random),
            Action::Back => self.plans.push_back(Plan::Back),
            Action::Forward => self.plans.push_back(Plan::Forward),
            Action::MoveCable => self.world.move_cable(random),
            Action::FarEnd => self.world.change_far_end(random),
            Action::Restart => {
                let call = self.world.start(random);
                return self.request(random, call);
            }
            Action::Refused => return self.refused(random),
            Action::Damaged => {
                let call = self.damaged(random);
                return self.request(random, call);
            }
        }
        let plan = self.plans.pop_front().unwrap_or(Plan::Tick);
        let call = self.planned(random, plan);
        self.request(random, call)
    }

    /// A frame of any length from 0 to 200, or with an octet or a few changed.
    fn damaged(&mut self, random: &mut Random) -> Call<'static> {
        let port = self.world.port(random);
        let mut frame = match random.below(4) {
            0 => world::marker(random, 1),
            1 if random.flag() => world::marker(random, 2),
            1 => world::response(random, &world::requested(&self.table, port)),
            _ => self.world.lacpdu(random, &self.table, port),
        };
        if random.percent(50) {
            let length =
                if random.percent(50) { random.of(&[13, 14, 15, 18, 123, 124, 125]) } else { random.below(201) };
            frame.resize_with(length as usize, || random.octet());
        }
        if random.percent(70) && !frame.is_empty() {
            for _ in 0..random.of(&[1, 1, 1, 2, 5]) {
                let tested = random.of(&[0, 5, 12, 13, 14, 14, 14, 15, 16, 16, 17, 17, 36, 37, 56, 57, 72, 73]);
                let at = if random.percent(50) { tested } else { random.place(frame.len()) };
                let octet = if random.percent(60) { random.below(22) as u8 } else { random.octet() };
                if let Some(place) = frame.get_mut(at) {
                    *place = octet;
                }
            }
        }
        Call::Receive { port, frame: frame.into() }
    }

    /// A call with a port that there is not, a short buffer, a wrong default, a table of another size, or several of these.
    fn refused(&mut self, random: &mut Random) -> Request<'static> {
        let count = self.world.count;
        let mut port = self.world.port(random);
        if random.percent(40) {
            port = self.no_port(random);
        }
        let mut settings = self.world.next_settings(random, &self.table, port);
        if random.percent(60) {
            settings.partner[14] ^= random.of(&[0x08, 0x10, 0x18]);
        }
        let call = match random.below(19) {
            0 if random.percent(10) => Report::Version.into(),
            0 => sizes(random).into(),
            1 => match self.world.start(random) {
                Call::Start { system_priority, system, collector_max_delay, .. } => {
                    let ports = random.weighted(&[(4, count), (1, 0), (1, 33), (1, count + 1), (1, 256 + count)]);
                    Call::Start { ports, system_priority, system, collector_max_delay, settings }
                }
                call => call,
            },
            2 => Call::Tick,
            3 => Call::Line { port, up: random.flag(), full: random.flag() },
            4 => Call::Settings { port, settings },
            5 => Call::Fetch { port },
            6 => Report::Port { port }.into(),
            7 => Report::Aggregator { aggregator: port }.into(),
            8 => Report::Due.into(),
            9..=10 => Report::Back.into(),
            11 => Report::Forward.into(),
            12..=13 => {
                let any = random.bits() as u32;
                Call::Ask { port, ticks: random.of(&[0, 1, 30, 600, 601, 0x1_0001, u32::MAX, any]) }
            }
            14..=15 => Report::Why { port }.into(),
            16..=17 => {
                let other = self.any_port(random);
                let (first, second) = random.of(&[(port, other), (other, port), (port, port)]);
                Report::Apart { first, second }.into()
            }
            _ if random.flag() => Call::Receive { port, frame: self.world.lacpdu(random, &self.table, port).into() },
            _ => match self.damaged(random) {
                Call::Receive { frame, .. } => Call::Receive { port, frame },
                call => call,
            },
        };
        let mut request = self.request(random, call);
        if random.percent(40) {
            request.out.truncate(random.of(&[0, 1, 14, 60, 122, 123, 124]));
        }
        if random.percent(20) {
            let size = request.table.len();
            let other = model::table_size(random.between(1, 32)) as usize;
            let [old, new] = world::sizes(&request.table);
            let length = random.of(&[0, 1, 10, 11, 12, size.saturating_sub(1), size + 1, other, other, old, old, new]);
            request.table.resize(length, 0);
        }
        request
    }
}

/// The place of the counters that a call takes among those of the ports; none if it takes none.
fn counting(call: &Call) -> Option<usize> {
    match call {
        Call::Receive { port, .. } | Call::Fetch { port } => Some((*port as usize).wrapping_sub(1)),
        _ => None,
    }
}

/// The size of a table of any count, in either form.
fn sizes(random: &mut Random) -> Report {
    let ports = if random.percent(80) { random.below(40) } else { random.bits() as u32 };
    if random.flag() {
        Report::TableSize { ports }
    } else {
        Report::OldTableSize { ports }
    }
}
