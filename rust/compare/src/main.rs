//! Drives the library and the model side by side through random calls and compares every octet that is lent (table, outgoing buffer,
//! record, moved table), the answer, `sent`, the five numbers of an aggregator, the set of what is due, the three numbers of why a port
//! carries or not, the set of reasons why two are apart, and the counters. A fetch that comes after the library said what is due must also
//! be answered accordingly, and what it says of why and apart must go with the octets of the table.
//!
//! The model goes first, and the library then performs the same calls in batches, each on the octets that stood before it. As long
//! as no difference was found these are the library's own octets, and at the first difference the comparison ends.

mod difference;
mod due;
mod memory;
mod random;
mod reasons;
mod scenario;
mod tally;
mod world;

use calls::{Reply, Request};
use due::Said;
use model::breakage::{self, Breakage};
use myrkosti::raw::{self, Unreachable};
use random::Random;
use reasons::Reasons;
use scenario::{Kind, Scenario};
use std::process::ExitCode;
use std::time::{Duration, Instant, SystemTime, UNIX_EPOCH};
use tally::Tally;

/// Calls that go to the library at once.
const BATCH: usize = 200;
/// How long a breakage may go on uncaught.
const PATIENCE: Duration = Duration::from_secs(30);

const USAGE: &str = "\
usage: compare [--seed N] [--calls N] [--seconds N] [--break NAME] [--breakages]
  --seed N      begin from this seed (otherwise from the clock)
  --calls N     stop after so many calls (otherwise 200000, unless --seconds is given)
  --seconds N   stop after so many seconds
  --break NAME  make this error in the model
  --breakages   make each error in turn until it is caught";

/// When to stop.
#[derive(Clone, Copy)]
struct Limit {
    calls: u64,
    time: Duration,
}

/// A call that came out differently.
struct Difference {
    run: u64,
    kind: Kind,
    step: u64,
    calls: u64,
    text: String,
}

/// A call that the model performed and the library has yet to.
struct Pending {
    run: u64,
    kind: Kind,
    step: u64,
    reply: Reply,
}

struct Comparison {
    tally: Tally,
    said: Said,
    reasons: Reasons,
    runs: [u64; Kind::ALL.len()],
    requests: Vec<Request<'static>>,
    pending: Vec<Pending>,
}

impl Comparison {
    fn new() -> Comparison {
        Comparison {
            tally: Tally::default(),
            said: Said::default(),
            reasons: Reasons::default(),
            runs: [0; Kind::ALL.len()],
            requests: Vec::new(),
            pending: Vec::new(),
        }
    }

    /// Runs until the limit or the first difference.
    fn run(&mut self, seed: u64, limit: Limit) -> Result<Option<Difference>, Unreachable> {
        let begun = Instant::now();
        let mut seeds = Random::new(seed);
        let mut calls = 0;
        for run in 0.. {
            let mut random = Random::new(seeds.bits());
            let mut scenario = Scenario::begin(&mut random);
            let place = Kind::ALL.iter().position(|(_, kind)| *kind == scenario.kind).unwrap_or(0);
            self.runs[place] += 1;
            let mut step = 0;
            while let Some(request) = scenario.next(&mut random) {
                let reply = request.performed_by(model::perform);
                scenario.after(&mut random, &request, &reply);
                self.requests.push(request);
                self.pending.push(Pending { run, kind: scenario.kind, step, reply });
                step += 1;
                calls += 1;
                let over = calls >= limit.calls;
                if over || self.pending.len() >= BATCH {
                    if let Some(difference) = self.catch_up()? {
                        return Ok(Some(difference));
                    }
                }
                if over || begun.elapsed() >= limit.time {
                    return self.catch_up();
                }
            }
        }
        Ok(None)
    }

    /// The library performs what the model has performed.
    fn catch_up(&mut self) -> Result<Option<Difference>, Unreachable> {
        let replies = raw::perform_all(&self.requests)?;
        for ((request, pending), library) in self.requests.drain(..).zip(self.pending.drain(..)).zip(replies) {
            self.tally.count(pending.kind, &request, &library);
            let wrong = self.said.hold(&request, &library);
            let wrong = wrong.or_else(|| self.reasons.hold(pending.kind, &request, &library));
            if pending.reply != library || wrong.is_some() {
                return Ok(Some(Difference {
                    run: pending.run,
                    kind: pending.kind,
                    step: pending.step,
                    calls: self.tally.total(),
                    text: difference::describe(&request, &pending.reply, &library) + &wrong.unwrap_or_default(),
                }));
            }
        }
        Ok(None)
    }
}

/// Compares once; true if there was no difference.
fn compare(seed: u64, limit: Limit) -> Result<bool, Unreachable> {
    let begun = Instant::now();
    let mut comparison = Comparison::new();
    let difference = comparison.run(seed, limit)?;
    let seconds = begun.elapsed().as_secs_f64();
    println!("{}", comparison.tally);
    println!("{}", comparison.said);
    println!("{}", comparison.reasons);
    for ((_, kind), runs) in Kind::ALL.iter().zip(comparison.runs) {
        println!("{runs} runs {kind:?}");
    }
    println!("{seconds:.1} s, {:.0} calls a second", comparison.tally.total() as f64 / seconds);
    if let Some(Difference { run, kind, step, calls, text }) = &difference {
        println!("DIFFERENCE: seed {seed}, run {run} ({kind:?}), step {step}, call {calls}\n{text}");
    } else {
        println!("no difference (seed {seed})");
    }
    Ok(difference.is_none())
}

/// Makes each error in turn; true if all were caught.
fn breakages(seed: u64) -> Result<bool, Unreachable> {
    let mut all = true;
    for (name, breakage) in Breakage::ALL {
        breakage::set(Some(breakage));
        let caught = Comparison::new().run(seed, Limit { calls: u64::MAX, time: PATIENCE });
        breakage::set(None);
        let caught = caught?;
        match &caught {
            Some(Difference { calls, kind, .. }) => println!("{name:<37} caught after {calls:>7} calls ({kind:?})"),
            None => println!("{name:<37} NOT CAUGHT in {} s", PATIENCE.as_secs()),
        }
        all &= caught.is_some();
    }
    Ok(all)
}

struct Options {
    seed: u64,
    calls: Option<u64>,
    seconds: Option<u64>,
    breakage: Option<Breakage>,
    breakages: bool,
}

fn options() -> Option<Options> {
    let clock = SystemTime::now().duration_since(UNIX_EPOCH).map_or(1, |since| since.as_nanos() as u64);
    let mut options = Options { seed: clock, calls: None, seconds: None, breakage: None, breakages: false };
    let mut words = std::env::args().skip(1);
    while let Some(word) = words.next() {
        match word.as_str() {
            "--seed" => options.seed = words.next()?.parse().ok()?,
            "--calls" => options.calls = Some(words.next()?.parse().ok()?),
            "--seconds" => options.seconds = Some(words.next()?.parse().ok()?),
            "--break" => options.breakage = Some(Breakage::named(&words.next()?)?),
            "--breakages" => options.breakages = true,
            _ => return None,
        }
    }
    Some(options)
}

fn main() -> ExitCode {
    let Some(options) = options() else {
        eprintln!("{USAGE}");
        eprintln!("names:{}", Breakage::ALL.iter().map(|(name, _)| format!(" {name}")).collect::<String>());
        return ExitCode::from(2);
    };
    println!("seed {}", options.seed);
    let limit = Limit {
        calls: options.calls.unwrap_or(if options.seconds.is_some() { u64::MAX } else { 200_000 }),
        time: options.seconds.map_or(Duration::MAX, Duration::from_secs),
    };
    breakage::set(options.breakage);
    let outcome = if options.breakages { breakages(options.seed) } else { compare(options.seed, limit) };
    match outcome {
        Ok(true) => ExitCode::SUCCESS,
        Ok(false) => ExitCode::FAILURE,
        Err(unreachable) => {
            eprintln!("{unreachable}");
            ExitCode::from(2)
        }
    }
}

#[cfg(test)]
mod tests {
    use super::*;
    use calls::{Call, Counters, Report, SettingsArguments};
    use std::slice::from_ref;

    #[test]
    fn library_and_model_agree() {
        let mut comparison = Comparison::new();
        let difference = comparison.run(1, Limit { calls: 40_000, time: Duration::MAX });
        assert!(difference.unwrap().is_none());
        assert!(comparison.tally.least_line() > 0, "{}", comparison.tally);
        assert!(comparison.tally.least_lent() > 0, "{}", comparison.tally);
        assert!(comparison.tally.least_churn() > 0, "{}", comparison.tally);
        assert!(comparison.tally.least_move() > 0, "{}", comparison.tally);
        assert!(comparison.tally.least_counter() > 0, "{}", comparison.tally);
        assert!(comparison.tally.least_asked() > 0, "{}", comparison.tally);
        assert!(comparison.tally.least_response() > 0, "{}", comparison.tally);
        assert!(comparison.tally.least_cause() > 0 && comparison.tally.least_reason() > 0, "{}", comparison.tally);
        assert_eq!(comparison.tally.no_cause_made(), 0, "{}", comparison.tally);
        let asked = Call::Ask { port: 1, ticks: 1 }.number();
        assert!([0, 1, 2, 3, 4, 13, 14].iter().all(|answer| comparison.tally.answered(asked, *answer) > 0));
        for report in [Report::Why { port: 1 }, Report::Apart { first: 1, second: 1 }] {
            let call = Call::from(report).number();
            assert!([0, 1, 2].iter().all(|answer| comparison.tally.answered(call, *answer) > 0));
        }
        assert!(comparison.said.sent.min(comparison.said.refused) > 100, "{}", comparison.said);
        let Reasons { whys, together, apart } = comparison.reasons;
        assert!(whys.min(together).min(apart) > 100, "{}", comparison.reasons);
    }

    /// A table that library and model hold alike.
    struct Both(Vec<u8>);

    impl Both {
        /// One port.
        fn start(settings: SettingsArguments) -> Both {
            let mut both = Both(vec![0xA5; model::table_size(1) as usize]);
            let start = Call::Start {
                ports: 1,
                system_priority: 1,
                system: [0, 0, 0, 0, 0, 9],
                collector_max_delay: 0,
                settings,
            };
            assert_eq!(both.call(start), 0);
            both
        }

        /// Both perform the call, with the same reply; its answer.
        fn call(&mut self, call: Call) -> u32 {
            let reply = self.reply(call);
            self.0 = reply.table;
            reply.outcome.answer
        }

        /// What both reply, on copies of the table, with an outgoing buffer.
        fn reply(&self, call: Call) -> Reply {
            self.reply_into(call, vec![0; world::FRAME])
        }

        /// What both reply, on copies of the table, with that lent to be written.
        fn reply_into(&self, call: Call, out: Vec<u8>) -> Reply {
            self.reply_counting(call, out, Counters::default())
        }

        /// The same with these counters lent too.
        fn reply_counting(&self, call: Call, out: Vec<u8>, counters: Counters) -> Reply {
            let request = Request { call, table: self.0.clone(), out, counters };
            let reply = request.performed_by(model::perform);
            assert_eq!(raw::perform_all(from_ref(&request)).unwrap(), from_ref(&reply));
            reply
        }

        /// A fetch, which is answered 0 exactly if the port is in the set of what is due.
        fn fetch(&mut self) -> u32 {
            let due = self.reply(Report::Due.into());
            let fetched = self.call(Call::Fetch { port: 1 });
            assert_eq!((due.outcome.answer, due.outcome.due), (0, u32::from(fetched == 0)));
            fetched
        }

        fn ticks(&mut self, count: u32) {
            for _ in 0..count {
                assert_eq!(self.call(Call::Tick), 0);
            }
        }

        /// A move into memory of so many octets: the table that it makes, or none if it is refused, when all is as it was.
        fn moved(&self, to: Report, octets: usize) -> Option<Both> {
            let reply = self.reply_into(to.into(), vec![0xA5; octets]);
            assert_eq!(reply.table, self.0);
            match reply.outcome.answer {
                0 => Some(Both(reply.out)),
                answer => {
                    assert_eq!((answer, reply.out), (1, vec![0xA5; octets]));
                    None
                }
            }
        }

        fn back(&self) -> Option<Both> {
            self.moved(Report::Back, world::sizes(&self.0)[0])
        }

        fn forward(&self) -> Option<Both> {
            self.moved(Report::Forward, world::sizes(&self.0)[1])
        }

        /// The port has this link and duplex; it distributes where it is up, and did where it is down.
        fn carrying((up, full): (bool, bool)) -> Both {
            let partner = [0, 1, 0, 0, 0, 0, 0, 7, 0, 1, 0, 1, 0, 1, 0x3C];
            let mut both = Both::start(SettingsArguments { aggregation: true, partner, ..settings(0) });
            assert_eq!(both.call(Call::Line { port: 1, up: true, full: full || !up }), 0);
            if full || !up {
                let actor = [0, 1, 0, 0, 0, 0, 0, 5, 0, 1, 0, 1, 0, 1, 0x3D];
                let frame = world::frame(1, &actor, &world::says_of_itself(&both.0, 1));
                assert_eq!(both.call(Call::Receive { port: 1, frame: frame.into() }), 0);
            }
            both.ticks(20);
            assert_eq!(both.0[world::HEADER + 2], 4);
            assert_eq!(both.call(Call::Line { port: 1, up, full }), 0);
            both
        }

        /// Another own address, so that an LACPDU is due; then a fetch.
        fn fetch_anew(&mut self, address: u8) -> u32 {
            assert_eq!(self.call(Call::Settings { port: 1, settings: settings(address) }), 0);
            self.fetch()
        }

        fn ages(&self) -> &[u8] {
            &self.0[world::HEADER + 14..][..3]
        }

        fn churn(&self) -> &[u8] {
            &self.0[world::HEADER + world::BASE..][..world::CHURN]
        }

        /// What is kept of the port's Marker: outcome, timer, number of the next.
        fn asked(&self) -> (u8, u16, u32) {
            let [outcome, t1, t0, n3, n2, n1, n0] = self.0[world::HEADER + world::ASKED_AT..] else {
                panic!("one port");
            };
            (outcome, u16::from_be_bytes([t1, t0]), u32::from_be_bytes([n3, n2, n1, n0]))
        }

        fn put_asked(&mut self, (outcome, timer, next): (u8, u16, u32)) {
            let group = [&[outcome][..], &timer.to_be_bytes(), &next.to_be_bytes()].concat();
            self.0[world::HEADER + world::ASKED_AT..].copy_from_slice(&group);
        }

        /// The answer to the Response to the last Marker, with these bits of what it says changed.
        fn respond(&mut self, changed: [u8; world::REQUEST]) -> u32 {
            let mut said = world::requested(&self.0, 1);
            said.iter_mut().zip(changed).for_each(|(octet, changed)| *octet ^= changed);
            self.call(Call::Receive { port: 1, frame: world::response(&mut Random::new(1), &said).into() })
        }

        /// The table without its churn.
        fn unwatched(&self) -> Vec<u8> {
            [&self.0[..world::HEADER + world::BASE], &self.0[world::HEADER + world::ASKED_AT..]].concat()
        }
    }

    fn settings(address: u8) -> SettingsArguments {
        SettingsArguments { address: [2, 0, 0, 0, 0, address], activity: true, ..SettingsArguments::default() }
    }

    #[test]
    fn a_fourth_lacpdu_goes_once_eleven_ticks_came_after_the_first() {
        let mut both = Both::start(settings(0));
        assert_eq!(both.call(Call::Line { port: 1, up: true, full: true }), 0);
        for address in 1..=3 {
            assert_eq!(both.fetch_anew(address), 0);
        }
        for age in 0..=10 {
            assert_eq!(both.ages(), [age; 3]);
            assert_eq!(both.fetch_anew(age), 11);
            assert_eq!(both.call(Call::Tick), 0);
        }
        assert_eq!(both.ages(), [255; 3]);
        assert_eq!(both.fetch_anew(11), 0);
        assert_eq!(both.ages(), [0, 255, 255]);
    }

    #[test]
    fn a_stored_age_is_at_most_ten() {
        let mut both = Both::start(settings(0));
        for (place, age) in (14..17).flat_map(|place| (0..=255).map(move |age| (place, age))) {
            let kept = both.0.clone();
            both.0[world::HEADER + place] = age;
            let wrong = u32::from((11..=254).contains(&age));
            assert_eq!(both.call(Report::Port { port: 1 }.into()), wrong);
            assert_eq!(both.call(Report::Due.into()), wrong);
            both.0 = kept;
        }
    }

    #[test]
    fn every_change_of_link_and_duplex() {
        let lines = [(true, true), (true, false), (false, true), (false, false)];
        for (old, (up, full)) in lines.into_iter().flat_map(|old| lines.map(|new| (old, new))) {
            let mut both = Both::carrying(old);
            let before = both.0.clone();
            for _ in 0..2 {
                assert_eq!(both.call(Call::Line { port: 1, up, full }), 0);
                assert_eq!(world::line_of(&both.0, 1), (up, full));
                assert_eq!(both.0 == before, old == (up, full));
            }
            let fetched = both.fetch();
            assert!(fetched == 10 || up && full);
            both.ticks(31);
        }
    }

    #[test]
    fn a_link_that_never_settles_churns_at_the_six_hundredth_tick() {
        let mut both = Both::start(settings(0));
        assert_eq!(both.call(Call::Line { port: 1, up: true, full: true }), 0);
        assert_eq!(both.churn(), [1, 1, 2, 88, 2, 88, 0, 0, 0, 0, 0, 0, 0, 0]);
        both.ticks(599);
        assert_eq!(both.churn(), [0, 1, 0, 0, 0, 1, 0, 0, 0, 0, 0, 0, 0, 0]);
        both.ticks(1);
        assert_eq!(both.churn(), [0, 2, 0, 0, 0, 0, 0, 0, 0, 0, 0, 0, 0, 1]);
        both.ticks(700);
        assert_eq!(both.churn(), [0, 2, 0, 0, 0, 0, 0, 0, 0, 0, 0, 0, 0, 1]);
        assert_eq!(both.call(Call::Line { port: 1, up: false, full: true }), 0);
        both.ticks(700);
        assert_eq!(both.churn(), [1, 1, 2, 88, 2, 88, 0, 0, 0, 0, 0, 0, 0, 1]);
    }

    /// A table in which the port's link is up or down, either end in sync or not, and the machines stand in these states with this
    /// timer and count.
    fn watched(bits: u8, states: [u8; 2], timer: u16, count: u32) -> Both {
        let mut both = Both::start(settings(0));
        let bit = |at: u8| bits >> at & 1;
        both.0[world::HEADER + 6] = bit(0);
        both.0[world::HEADER + 8] = 0x41 | bit(1) << 3;
        both.0[world::HEADER + 56] = bit(2) << 3;
        let ([t1, t0], [a, b, c, d]) = (timer.to_be_bytes(), count.to_be_bytes());
        let churn = [states[0], states[1], t1, t0, t1, t0, a, b, c, d, a, b, c, d];
        both.0[world::HEADER + world::BASE..][..world::CHURN].copy_from_slice(&churn);
        both
    }

    #[test]
    fn every_state_of_both_monitors_in_any_memory() {
        let states = (0..=3).flat_map(|actor| (0..=3).map(move |partner| [actor, partner]));
        for (states, timer) in states.flat_map(|states| [0, 1, 17, 600, 601].map(|timer| (states, timer))) {
            for (bits, count) in (0..8).flat_map(|bits| [0, 0xFFFF, u32::MAX].map(|count| (bits, count))) {
                let both = watched(bits, states, timer, count);
                let wrong = u32::from(states.iter().any(|state| *state > 2) || timer > 600);
                let same = Call::Line { port: 1, up: bits & 1 == 1, full: true };
                for call in [same, Call::Settings { port: 1, settings: settings(0) }, Report::Port { port: 1 }.into()] {
                    let reply = both.reply(call);
                    assert_eq!((reply.outcome.answer, reply.table), (wrong, both.0.clone()));
                }
                let other = Call::Settings { port: 1, settings: settings(1) };
                for call in [Call::Tick, other, Call::Line { port: 1, up: bits & 1 == 0, full: true }] {
                    assert_eq!(both.reply(call).outcome.answer, wrong);
                }
            }
        }
    }

    #[test]
    fn a_move_wants_a_target_of_just_its_size() {
        let new = Both::carrying((true, true));
        let old = new.back().unwrap();
        for octets in 0..=300 {
            assert_eq!(new.moved(Report::Back, octets).is_some(), octets == 75);
            assert_eq!(old.moved(Report::Forward, octets).is_some(), octets == 89);
            assert!(new.moved(Report::Forward, octets).is_none() && old.moved(Report::Back, octets).is_none());
        }
        for octets in [0, 1, 68, 75, 82, 89] {
            assert!(Both(Vec::new()).moved(Report::Forward, octets).is_none());
            assert!(Both(vec![0; octets]).moved(Report::Back, 11).is_none());
        }
    }

    #[test]
    fn a_move_takes_what_is_in_range() {
        let sound = Both::carrying((true, true));
        for (at, octet) in (0..world::RECORD).flat_map(|at| [0, 1, 2, 3, 6, 11, 21, 254, 255].map(|octet| (at, octet)))
        {
            let mut new = Both(sound.0.clone());
            new.0[world::HEADER + at] = octet;
            let mut old = sound.back().unwrap();
            let kept = world::field(old.0.len(), 1, 0, at, 1);
            if let Some(place) = kept.clone() {
                old.0[place].fill(octet);
            }
            let in_range = new.reply(Report::Due.into()).outcome.answer == 0;
            assert_eq!(new.back().map(|moved| moved.0), in_range.then_some(old.0.clone()), "octet {at} is {octet}");
            assert_eq!(old.forward().is_some(), in_range || kept.is_none(), "octet {at} is {octet}");
        }
    }

    #[test]
    fn monitors_begin_afresh_and_run_once_in_a_move() {
        for (states, bits) in
            [[0, 0], [1, 1], [2, 2]].into_iter().flat_map(|states| (0..8).map(move |bits| (states, bits)))
        {
            let new = watched(bits, states, 17, 0x0102_0304);
            let old = new.back().unwrap();
            let again = old.forward().unwrap();
            assert_eq!((&old.0, again.back().unwrap().0), (&new.unwatched(), old.0.clone()));
            let settled = |sync: u8| bits & 1 == 1 && bits >> sync & 1 == 1;
            let [actor, partner] = [1, 2].map(|sync| if settled(sync) { (0, [0, 0]) } else { (1, [2, 88]) });
            let churn = [&[actor.0, partner.0][..], &actor.1, &partner.1, &[0; 8]].concat();
            assert_eq!((&again.unwatched(), again.churn()), (&old.0, &churn[..]));
            assert_eq!(old.reply(Call::Tick).outcome.answer, 1);
        }
    }

    /// The answer to a call, and what it adds to each counter, in the order of the record, whatever they hold.
    fn added(both: &Both, call: &Call, out: usize) -> (u32, [u32; 7]) {
        let begun = [0, 0xFFFF, u32::MAX].map(|begun| {
            let reply = both.reply_counting(call.clone(), vec![0; out], [begun; 7].into());
            (reply.outcome.answer, reply.counters.numbers().map(|number| number.wrapping_sub(begun)))
        });
        assert!(begun.iter().all(|added| *added == begun[0]), "{begun:?}");
        begun[0]
    }

    #[test]
    fn every_answer_counts_where_it_should() {
        let lines = [(true, true), (true, false), (false, true), (false, false)];
        let mut random = Random::new(1);
        for both in lines.map(Both::carrying) {
            let (lacp_on, collects) = (world::line_of(&both.0, 1) == (true, true), both.0[world::HEADER + 2] >= 3);
            let lacpdu = world::frame(1, &[1; world::BLOCK], &[1; world::BLOCK]);
            let [marker, response] = [1, 2].map(|kind| world::marker(&mut random, kind));
            let with = |at: usize, octet| [&lacpdu[..at], &[octet], &lacpdu[at + 1..]].concat();
            for (frame, counted) in [
                (lacpdu.clone(), if lacp_on { (0, [1, 0, 0, 0, 0, 0, 0]) } else { (5, [1, 0, 0, 0, 0, 0, 0]) }),
                (marker, if collects { (0, [0, 1, 0, 0, 0, 0, 1]) } else { (9, [0, 1, 0, 0, 0, 0, 0]) }),
                (response, (12, [0, 0, 1, 0, 0, 0, 0])),
                (with(14, 3), (7, [0, 0, 0, 1, 0, 0, 0])),
                (with(13, 0), (7, [0, 0, 0, 1, 0, 0, 0])),
                (with(14, 0), (8, [0, 0, 0, 0, 1, 0, 0])),
                (with(17, 0), (8, [0, 0, 0, 0, 1, 0, 0])),
                (with(5, 3), (6, [0; 7])),
            ] {
                let receive = |port| Call::Receive { port, frame: frame.clone().into() };
                assert_eq!(added(&both, &receive(1), world::FRAME), counted);
                assert_eq!(added(&both, &receive(2), world::FRAME), (2, [0; 7]));
                assert_eq!(added(&both, &receive(1), world::FRAME - 1), (3, [0; 7]));
                assert_eq!(added(&both.back().unwrap(), &receive(1), world::FRAME), (1, [0; 7]));
            }
        }
    }

    #[test]
    fn a_fetch_counts_if_it_is_answered_0() {
        let mut both = Both::start(settings(0));
        let fetch = Call::Fetch { port: 1 };
        assert_eq!(added(&both, &fetch, world::FRAME), (10, [0; 7]));
        assert_eq!(both.call(Call::Line { port: 1, up: true, full: true }), 0);
        assert_eq!(added(&both, &fetch, world::FRAME), (0, [0, 0, 0, 0, 0, 1, 0]));
        assert_eq!(added(&both, &fetch, world::FRAME - 1), (3, [0; 7]));
        assert_eq!(added(&both, &Call::Fetch { port: 2 }, world::FRAME), (2, [0; 7]));
        assert_eq!(added(&both.back().unwrap(), &fetch, world::FRAME), (1, [0; 7]));
        assert_eq!([1, 2, 3, 4].map(|address| both.fetch_anew(address)), [0, 0, 0, 11]);
        assert_eq!(added(&both, &fetch, world::FRAME), (11, [0; 7]));
    }

    #[test]
    fn every_waiting_time() {
        let both = Both::carrying((true, true));
        for ticks in (0..=1300).chain([0xFFFF, 0x1_0000, 0x1_0001, 0x1_0258, 0x8000_0001, u32::MAX]) {
            let reply = both.reply(Call::Ask { port: 1, ticks });
            assert_eq!(reply.outcome.answer, if (1..=600).contains(&ticks) { 0 } else { 4 }, "{ticks}");
            let (outcome, timer, next) = Both(reply.table).asked();
            assert!(reply.outcome.answer == 4 || (outcome, u32::from(timer), next) == (1, ticks, 1));
        }
    }

    #[test]
    fn a_marker_times_out_at_its_last_tick() {
        for ticks in [1, 2, 30, 600] {
            let mut both = Both::carrying((true, true));
            for number in 0..3 {
                assert_eq!(both.call(Call::Ask { port: 1, ticks }), 0);
                both.ticks(ticks - 1);
                assert_eq!(both.asked(), (1, 1, number + 1));
                assert_eq!(Both(both.0.clone()).respond([0; 12]), 0);
                both.ticks(1);
                assert_eq!((both.asked(), both.respond([0; 12])), ((3, 0, number + 1), 12));
            }
        }
    }

    #[test]
    fn every_bit_of_what_was_asked_for() {
        let mut both = Both::carrying((true, true));
        both.put_asked((0, 0, 0x89AB_CDEF));
        assert_eq!(both.call(Call::Ask { port: 1, ticks: 30 }), 0);
        for (at, bit) in (0..world::REQUEST).flat_map(|at| (0..8).map(move |bit| (at, 1 << bit))) {
            let mut changed = [0; world::REQUEST];
            changed[at] = bit;
            assert_eq!((both.respond(changed), both.asked()), (12, (1, 30, 0x89AB_CDF0)));
        }
        assert_eq!((both.respond([0; 12]), both.asked()), (0, (2, 0, 0x89AB_CDF0)));
        assert_eq!((both.respond([0; 12]), both.asked()), (12, (2, 0, 0x89AB_CDF0)));
    }

    #[test]
    fn every_change_of_link_and_duplex_while_a_marker_is_awaited() {
        let lines = [(true, true), (true, false), (false, true), (false, false)];
        for (old, (up, full)) in lines.into_iter().flat_map(|old| lines.map(|new| (old, new))) {
            let carrying = Both::carrying(old);
            for (outcome, timer) in (0..=4).flat_map(|outcome| [0, 1, 600].map(|timer| (outcome, timer))) {
                let mut both = Both(carrying.0.clone());
                both.put_asked((outcome, timer, 7));
                assert_eq!(both.call(Call::Line { port: 1, up, full }), 0);
                let falls = outcome == 1 && old.0 && old != (up, full);
                assert_eq!(both.asked(), if falls { (4, 0, 7) } else { (outcome, timer, 7) });
            }
        }
    }

    #[test]
    fn every_group_of_markers_in_any_memory() {
        let reports = [Report::Back, Report::Due, Report::Port { port: 1 }].map(Call::from);
        let carrying = Both::carrying((true, true));
        for (outcome, timer) in (0..=6).flat_map(|outcome| [0, 1, 2, 255, 256, 600, 601].map(|timer| (outcome, timer)))
        {
            for next in [0, 1, 0xFFFF, 0x00FF_FFFF, u32::MAX] {
                let mut both = Both(carrying.0.clone());
                both.put_asked((outcome, timer, next));
                let wrong = u32::from(outcome > 4 || timer > 600);
                let expect = |call: Call, right: u32, after: (u8, u16, u32)| {
                    let reply = both.reply_into(call, vec![0xA5; 200]);
                    let right = if wrong == 1 { 1 } else { right };
                    assert_eq!(reply.outcome.answer, right, "{outcome} {timer} {next}");
                    let kept = (outcome, timer, next);
                    assert_eq!(Both(reply.table).asked(), if right == 0 { after } else { kept });
                };
                let fallen = timer.saturating_sub(1);
                let ticked = if outcome == 1 && fallen == 0 { (3, 0, next) } else { (outcome, fallen, next) };
                expect(Call::Tick, 0, ticked);
                let asked = (1, 5, next.wrapping_add(1));
                expect(Call::Ask { port: 1, ticks: 5 }, if outcome == 1 { 14 } else { 0 }, asked);
                expect(Call::Ask { port: 1, ticks: 0 }, 4, asked);
                for call in &reports {
                    assert_eq!(both.reply_into(call.clone(), vec![0xA5; 75]).outcome.answer, wrong);
                }
                let answered = if outcome == 1 { 0 } else { 12 };
                assert_eq!(both.respond([0; 12]), if wrong == 1 { 1 } else { answered });
                assert!(wrong == 1 || answered == 12 || both.asked() == (2, 0, next));
            }
        }
    }

    #[test]
    fn a_move_keeps_what_was_asked_for() {
        for outcome in 0..=4 {
            let mut both = Both::carrying((true, true));
            both.put_asked((outcome, 600, 0x0102_0304));
            let old = both.back().unwrap();
            assert_eq!(old.0[world::HEADER + world::BASE..], [outcome, 2, 88, 1, 2, 3, 4]);
            assert_eq!(old.forward().unwrap().asked(), (outcome, 600, 0x0102_0304));
            assert_eq!(old.reply(Call::Ask { port: 1, ticks: 1 }).outcome.answer, 1);
        }
    }

    #[test]
    fn every_pair_of_states_and_bits_has_a_cause_alike() {
        let carrying = Both::carrying((true, true));
        for (receive, mux) in (0..=5).flat_map(|receive| (0..=4).map(move |mux| (receive, mux))) {
            for (line, timer) in (0..4).flat_map(|line| [0, 1, 20].map(|timer| (line, timer))) {
                let mut both = Both(carrying.0.clone());
                let record = &mut both.0[world::HEADER..];
                (record[0], record[2], record[6], record[7], record[13]) = (receive, mux, line & 1, line >> 1, timer);
                for state in [0x00, 0x08, 0x10, 0x18, 0x20, 0x3F] {
                    both.0[world::HEADER + 56] = state;
                    let reply = both.reply(Report::Why { port: 1 }.into());
                    assert_eq!((reply.outcome.answer, &reply.table), (0, &both.0));
                    assert_eq!((1..=2).contains(&reply.outcome.why[0]), mux == 4);
                }
            }
        }
    }

    #[test]
    fn every_bit_that_the_rule_compares_is_a_reason_alike() {
        let mut both = Both(vec![0xA5; model::table_size(2) as usize]);
        let partner = [0, 1, 0, 0, 0, 0, 0, 5, 0, 1, 0, 1, 0, 1, 0x04];
        let start = Call::Start {
            ports: 2,
            system_priority: 1,
            system: [0, 0, 0, 0, 0, 9],
            collector_max_delay: 0,
            settings: SettingsArguments { aggregation: true, partner, ..settings(0) },
        };
        assert_eq!(both.call(start), 0);
        let apart = |both: &Both, first, second| both.reply(Report::Apart { first, second }.into()).outcome.apart;
        assert_eq!(apart(&both, 1, 2), 0);
        // octets of the record: own state and key, the partner's system, key and state, and all others
        for (at, bit) in (8..world::BASE).flat_map(|at| (0..8).map(move |bit| (at, 1 << bit))) {
            let mut changed = Both(both.0.clone());
            changed.0[world::HEADER + world::BASE + at] ^= bit;
            let expected = match (at, bit) {
                (8, 4) => [0x08, 0x01],
                (23..=24, _) => [0x40; 2],
                (42..=43, _) => [0x80; 2],
                (44..=49, _) => [0x100; 2],
                (50..=51, _) => [0x200; 2],
                (56, 4) => [0x10, 0x02],
                _ => [0; 2],
            };
            if changed.reply(Report::Due.into()).outcome.answer == 0 {
                assert_eq!([apart(&changed, 1, 2), apart(&changed, 2, 1)], expected, "octet {at}, bit {bit}");
                assert_eq!([apart(&changed, 1, 1), apart(&changed, 2, 2)], [0; 2]);
            }
        }
        both.0[world::HEADER + world::BASE + 49] = 9;
        assert_eq!([apart(&both, 1, 2), apart(&both, 2, 1)], [0x120, 0x104]);
        both.0[world::HEADER + world::BASE + 43] = 2;
        assert_eq!([apart(&both, 1, 2), apart(&both, 2, 1)], [0x180; 2]);
    }

    #[test]
    fn every_breakage_is_caught() {
        assert!(breakages(1).unwrap());
    }
}
