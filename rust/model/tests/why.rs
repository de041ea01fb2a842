//! Why a port carries or does not, and why two ports are apart.

mod common;

use calls::{Outcome, Report};
use common::{any_call, far, numbers, set, Bench, Set, OURS};
use model::apart;
use model::record::{Mux, Port, Receive};
use model::wire::{Block, State};

/// cause, holder, ticks.
fn why(t: &Bench, n: u32) -> [u32; 3] {
    let outcome = t.report(Report::Why { port: n });
    assert_eq!(outcome, Outcome { answer: 0, why: outcome.why, ..Outcome::UNTOUCHED });
    outcome.why
}

fn cause(t: &Bench, n: u32) -> u32 {
    let [cause, holder, ticks] = why(t, n);
    assert_eq!((holder, ticks), (0, 0));
    cause
}

fn reasons(t: &Bench, p: u32, q: u32) -> u32 {
    let outcome = t.report(Report::Apart { first: p, second: q });
    assert_eq!(outcome, Outcome { answer: 0, apart: outcome.apart, ..Outcome::UNTOUCHED });
    outcome.apart
}

#[test]
fn a_port_that_comes_to_carry_and_stops() {
    let mut t = Bench::start(2, 7, 0);
    assert_eq!(cause(&t, 1), 3);
    t.line(1, true, false);
    assert_eq!(cause(&t, 1), 4);
    t.duplex(1, true);
    assert_eq!(cause(&t, 1), 6);
    t.ticks(30);
    assert_eq!(cause(&t, 1), 5);
    t.rx(1, far(5, 1, 0x3F));
    assert_eq!(why(&t, 1), [7, 0, 20]);
    t.ticks(19);
    assert_eq!(why(&t, 1), [7, 0, 1]);
    t.ticks(1);
    assert_eq!(cause(&t, 1), 1);
    for (state, stopped) in [(0x37, 9), (0x2F, 10), (0x27, 9), (0x3F, 1)] {
        t.rx(1, far(5, 1, state));
        assert_eq!(cause(&t, 1), stopped);
    }
    t.ticks(30);
    assert_eq!((cause(&t, 1), t.port(1).mux), (6, Mux::Attached));
    t.ticks(30);
    assert_eq!((cause(&t, 1), t.port(1).mux), (5, Mux::Waiting));
    t.link(1, false);
    assert_eq!(cause(&t, 1), 3);
}

#[test]
fn a_partner_that_is_the_default_is_no_partner() {
    let mut t = Bench::start(2, 7, 0x1C);
    t.link(1, true);
    t.line(2, true, false);
    t.ticks(50);
    assert_eq!([1, 2].map(|n| t.port(n).receive), [Receive::Defaulted, Receive::LacpDisabled]);
    assert_eq!([cause(&t, 1), cause(&t, 2)], [2, 2]);
    t.rx(1, far(5, 1, 0x3F));
    t.ticks(20);
    assert_eq!(cause(&t, 1), 1);
}

/// Four ports that wait for aggregator 1, with these timers; the partner of each is heard, in sync and collects.
fn waiting(timers: [u8; 4]) -> Bench {
    let mut t = Bench::start(4, 7, 0);
    for n in 1..=4 {
        t.link(n, true);
        t.rx(n, far(5, n as u16, 0x3F));
    }
    (1..).zip(timers).for_each(|(n, timer)| t.poke(n, |p| p.wait_while = timer));
    assert_eq!((t.held(), t.port(4).mux), (vec![1; 4], Mux::Waiting));
    t
}

#[test]
fn who_holds_back() {
    let t = waiting([0, 7, 12, 12]);
    assert_eq!([1, 2, 3, 4].map(|n| why(&t, n)), [[8, 3, 12], [7, 0, 7], [7, 0, 12], [7, 0, 12]]);
    assert_eq!(why(&waiting([0, 0, 0, 1]), 2), [8, 4, 1]);
    let mut t = waiting([20, 0, 0, 3]);
    assert_eq!(why(&t, 2), [8, 1, 20]);
    t.poke(1, |p| p.mux = Mux::Attached);
    assert_eq!(why(&t, 2), [8, 4, 3]);
    t.poke(4, |p| p.aggregator = 4);
    assert_eq!(why(&t, 2), [0; 3]);
    t.poke(3, |p| (p.wait_while, p.link) = (5, false));
    assert_eq!((why(&t, 2), cause(&t, 3)), ([8, 3, 5], 3));
}

#[test]
fn the_first_that_applies() {
    let mut t = waiting([0, 0, 0, 9]);
    let change = |t: &mut Bench, change: fn(&mut Port), expected: [u32; 3]| {
        t.poke(1, change);
        assert_eq!(why(t, 1), expected);
    };
    change(&mut t, |p| p.partner.state.put(State::SYNCHRONIZATION | State::COLLECTING, false), [8, 4, 9]);
    change(&mut t, |p| p.wait_while = 2, [7, 0, 2]);
    change(&mut t, |p| p.receive = Receive::Expired, [6, 0, 0]);
    change(&mut t, |p| p.receive = Receive::Defaulted, [5, 0, 0]);
    change(&mut t, |p| p.full_duplex = false, [4, 0, 0]);
    change(&mut t, |p| p.link = false, [3, 0, 0]);
    change(&mut t, |p| p.mux = Mux::Distributing, [2, 0, 0]);
    change(&mut t, |p| p.receive = Receive::LacpDisabled, [2, 0, 0]);
    for receive in [Receive::Initialize, Receive::PortDisabled, Receive::Expired, Receive::Current] {
        t.poke(1, |p| p.receive = receive);
        assert_eq!(why(&t, 1), [1, 0, 0]);
    }
    t.poke(1, |p| (p.link, p.full_duplex, p.mux, p.wait_while) = (true, true, Mux::Collecting, 20));
    assert_eq!(why(&t, 1), [9, 0, 0]);
    t.poke(1, |p| p.partner.state.put(State::SYNCHRONIZATION, true));
    assert_eq!(why(&t, 1), [10, 0, 0]);
    t.poke(1, |p| p.partner.state.put(State::COLLECTING, true));
    assert_eq!(why(&t, 1), [0, 0, 0]);
}

/// Two ports of three that share a group.
fn together() -> Bench {
    let mut t = Bench::start(3, 7, 0);
    for n in 1..=3 {
        t.link(n, true);
        t.rx(n, far(5, n as u16, 0x3F));
    }
    assert_eq!([(1, 2), (2, 3), (3, 3)].map(|(p, q)| reasons(&t, p, q)), [0; 3]);
    t
}

#[test]
fn each_reason_for_itself() {
    type Change = fn(&mut Port);
    let changes: [(Change, u32); 7] = [
        (|p| p.actor_state.put(State::AGGREGATION, false), apart::INDIVIDUAL),
        (|p| p.partner.state.put(State::AGGREGATION, false), apart::PARTNER_INDIVIDUAL),
        (|p| p.partner.system = OURS, apart::LOOPED | apart::PARTNER_SYSTEMS_DIFFER),
        (|p| p.key = 0x0101, apart::KEYS_DIFFER),
        (|p| p.partner.system_priority = 0x0101, apart::PARTNER_PRIORITIES_DIFFER),
        (|p| p.partner.system[0] = 1, apart::PARTNER_SYSTEMS_DIFFER),
        (|p| p.partner.key = 0x0101, apart::PARTNER_KEYS_DIFFER),
    ];
    let as_second = |reasons: u32| reasons & !7 | (reasons & 7) << apart::SECOND;
    for (change, reason) in changes {
        let mut t = together();
        t.poke(2, change);
        assert_eq!((reasons(&t, 2, 3), reasons(&t, 3, 2)), (reason, as_second(reason)));
        assert_eq!((reasons(&t, 1, 3), reasons(&t, 2, 2)), (0, 0));
        // and so beside all the others
        for (other, beside) in changes {
            let mut t = together();
            t.poke(2, |p| p.partner.system_priority = 1);
            t.poke(3, other);
            t.poke(1, change);
            let found = reasons(&t, 1, 3);
            let kept = reason & 7 | as_second(beside & 7);
            assert_eq!(found & 0x3F, kept, "{reason:x} {beside:x}");
        }
    }
    let mut t = together();
    let all = Block { system_priority: 2, key: 7, state: State(0), ..far(6, 9, 0) };
    t.rx(1, all);
    assert_eq!(t.settings(1, Set { key: 9, ..set(3, 0) }), 0);
    assert_eq!((reasons(&t, 1, 2), reasons(&t, 2, 1)), (0x3C3, 0x3D8));
}

#[test]
fn what_the_rule_does_not_read_is_no_reason() {
    let mut t = together();
    t.poke(2, |p| {
        (p.link, p.full_duplex, p.receive, p.mux) = (false, false, Receive::Initialize, Mux::Detached);
        (p.port_priority, p.partner.port_priority, p.partner.port) = (9, 9, 9);
        p.partner.state = State(State::AGGREGATION);
        p.default = far(6, 6, 0);
        p.aggregator = 2;
    });
    assert_eq!((reasons(&t, 1, 2), reasons(&t, 2, 1)), (0, 0));
    t.poke(2, |p| p.partner = p.default);
    assert_eq!(reasons(&t, 1, 2), 0x110);
}

#[test]
fn refusals() {
    let t = together();
    let refused = |t: &Bench, report, answer| {
        let untouched = Outcome::UNTOUCHED;
        let expected = match report {
            Report::Why { .. } => Outcome { answer, why: [0; 3], ..untouched },
            _ => Outcome { answer, apart: 0, ..untouched },
        };
        assert_eq!(t.report(report), expected);
    };
    for n in [0, 4, 33, 257, 65_537, u32::MAX] {
        refused(&t, Report::Why { port: n }, 2);
        for (first, second) in [(n, 1), (1, n), (n, n)] {
            refused(&t, Report::Apart { first, second }, 2);
        }
    }
    for memory in [Vec::new(), t.memory[1..].to_vec(), vec![0xFF; t.memory.len()]] {
        let t = Bench { memory };
        for n in [0, 1, 33] {
            refused(&t, Report::Why { port: n }, 1);
            refused(&t, Report::Apart { first: n, second: 1 }, 1);
            refused(&t, Report::Apart { first: 1, second: n }, 1);
        }
    }
}

/// Along any calls every port has a cause, which is 1 or 2 exactly if it distributes, and two ports are apart exactly if they hold
/// different aggregators.
#[test]
fn along_any_calls() {
    let mut below = numbers();
    let mut causes = [0; 11];
    let mut t = Bench::start(3, 7, 0);
    for _ in 0..2_000 {
        any_call(&mut t, &mut below);
        let quiet = [0, 0, 1, 5, 8, 12, 20, 40][below(8) as usize];
        t.ticks(quiet);
        for n in 1..=3 {
            let [cause, holder, ticks] = why(&t, n);
            causes[cause as usize] += 1;
            assert_eq!((1..=2).contains(&cause), t.port(n as usize).mux.distributes());
            assert_eq!(((1..=3).contains(&holder), (1..=20).contains(&ticks)), (cause == 8, cause == 7 || cause == 8));
            let held = t.held();
            for m in 1..=3 {
                assert_eq!(reasons(&t, n, m) == 0, held[n as usize - 1] == held[m as usize - 1]);
            }
        }
    }
    assert!(causes[0] == 0 && causes[1..].iter().all(|count| *count > 0), "{causes:?}");
}
