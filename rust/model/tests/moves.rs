//! Moves of a table from one form into the other (request M-106).

mod common;

use calls::Report::{self, Back, Forward};
use calls::{Call, Outcome};
use common::{any_call, far, numbers, Bench};
use model::churn::{Churn, ChurnState, Monitor};
use model::record::Port;
use std::ops::Range;

/// The octets of a table of three ports in the old form and in the new, and where the churn of the new stands.
const OLD: usize = 11 + 64 * 3;
const NEW: usize = 11 + 78 * 3;
const CHURN: Range<usize> = 11 + 57 * 3..11 + 71 * 3;
const SETTLED: Monitor = Monitor { state: ChurnState::NoChurn, timer: 0, count: 0 };
const WATCHED: Monitor = Monitor { state: ChurnState::Monitor, timer: 600, count: 0 };

/// The answer to a move, and what so many octets, 0xEE before it, hold after it.
fn into(move_to: Report, source: &[u8], octets: usize) -> (u32, Vec<u8>) {
    let mut target = vec![0xEE; octets];
    let outcome = model::report(move_to, source, &mut target);
    assert_eq!(outcome, Outcome { answer: outcome.answer, ..Outcome::UNTOUCHED });
    (outcome.answer, target)
}

/// The octets of a table with the port count of this one, in the old form and in the new.
fn sizes(table: &[u8]) -> [usize; 2] {
    [64, 78].map(|record| 11 + record * usize::from(table[0]))
}

fn back(t: &Bench) -> Vec<u8> {
    let (answer, old) = into(Back, &t.memory, sizes(&t.memory)[0]);
    assert_eq!(answer, 0);
    old
}

fn forward(old: &[u8]) -> Bench {
    let (answer, memory) = into(Forward, old, sizes(old)[1]);
    assert_eq!(answer, 0);
    Bench { memory }
}

/// A table of three ports without its churn.
fn base(t: &Bench) -> Vec<u8> {
    [&t.memory[..CHURN.start], &t.memory[CHURN.end..]].concat()
}

/// Three ports: the first carries, the second has churned for a minute, the third has no link.
fn three() -> Bench {
    let mut t = Bench::start(3, 5, 0);
    t.link(1, true);
    t.link(2, true);
    for _ in 0..61 {
        t.rx(1, far(5, 1, 0x3D));
        t.ticks(10);
    }
    assert_eq!(t.port(2).churn.partner, Monitor { state: ChurnState::Churn, timer: 0, count: 1 });
    t
}

#[test]
fn sizes_of_the_old_form() {
    assert_eq!((0..34).map(model::old_table_size).filter(|size| *size == 0).count(), 2);
    assert_eq!((model::old_table_size(1), model::old_table_size(32), model::old_table_size(u32::MAX)), (75, 2059, 0));
}

#[test]
fn there_and_back_again() {
    let t = three();
    let old = back(&t);
    assert_eq!(old, base(&t));
    let again = forward(&old);
    assert_eq!(base(&again), old);
    assert_eq!(back(&again), old);
}

#[test]
fn monitors_begin_afresh_and_run_once() {
    let churn = |actor, partner| Churn { actor, partner };
    let churns = |t: &Bench| [1, 2, 3].map(|n| t.port(n).churn);
    let moved = forward(&back(&three()));
    let begun = [churn(SETTLED, SETTLED), churn(SETTLED, WATCHED), churn(WATCHED, WATCHED)];
    assert_eq!(churns(&moved), begun);
    let mut later = Bench { memory: moved.memory };
    later.ticks(599);
    assert_eq!(later.port(2).churn.partner, Monitor { timer: 1, ..WATCHED });
    later.ticks(1);
    assert_eq!(later.port(2).churn.partner, Monitor { state: ChurnState::Churn, timer: 0, count: 1 });
}

#[test]
fn a_call_on_one_port_finds_no_monitor_of_another_that_has_yet_to_run() {
    let mut t = forward(&back(&three()));
    let before = t.port(1).churn;
    t.link(3, true);
    assert_eq!(t.port(1).churn, before);
}

#[test]
fn another_size_is_refused() {
    let t = three();
    let old = back(&t);
    for octets in 0..=400 {
        let lent = |answer| (answer, vec![0xEE; octets]);
        assert!(octets == OLD || into(Back, &t.memory, octets) == lent(1), "{octets}");
        assert!(octets == NEW || into(Forward, &old, octets) == lent(1), "{octets}");
        assert_eq!((into(Forward, &t.memory, octets), into(Back, &old, octets)), (lent(1), lent(1)));
        let source: Vec<u8> = t.memory.iter().copied().chain([0; 200]).take(octets).collect();
        assert!(octets == NEW || into(Back, &source, OLD) == (1, vec![0xEE; OLD]), "{octets}");
        let source: Vec<u8> = old.iter().copied().chain([0; 400]).take(octets).collect();
        assert!(octets == OLD || into(Forward, &source, NEW) == (1, vec![0xEE; NEW]), "{octets}");
    }
}

#[test]
fn a_source_out_of_range_is_refused() {
    let t = three();
    let places = (0..t.memory.len()).flat_map(|at| [0, 1, 2, 3, 6, 11, 21, 34, 254, 255].map(|octet| (at, octet)));
    for (at, octet) in places.filter(|(at, _)| *at > 0) {
        let mut new = Bench { memory: t.memory.clone() };
        new.memory[at] = octet;
        let answer = new.report(Report::Due).answer;
        assert_eq!(into(Back, &new.memory, OLD).0, answer, "octet {at} is {octet}");
        if !CHURN.contains(&at) {
            assert_eq!(into(Forward, &base(&new), NEW).0, answer, "octet {at} is {octet}");
        }
    }
    for count in [0, 1, 2, 4, 33, 255] {
        let with = |source: &[u8]| [&[count][..], &source[1..]].concat();
        for octets in [11, 75, 89, 139, OLD, NEW, 267] {
            assert_eq!(into(Back, &with(&t.memory), octets).0, 1);
            assert_eq!(into(Forward, &with(&back(&t)), octets).0, 1);
        }
    }
}

#[test]
fn a_table_of_the_old_form_is_refused_by_every_other_call() {
    let mut t = Bench { memory: back(&three()) };
    let kept = t.memory.clone();
    let line = Call::Line { port: 1, up: true, full: true };
    for call in [Call::Tick, line, Call::Fetch { port: 1 }, Report::Due.into(), Report::Port { port: 1 }.into()] {
        assert_eq!((t.call(&call), &t.memory), (1, &kept));
    }
}

#[test]
fn a_moved_table_goes_on_as_if_it_had_not_been() {
    let (mut t, mut moved) = (Bench::start(3, 7, 0), Bench::start(3, 7, 0));
    let (mut one, mut same) = (numbers(), numbers());
    let mut differed = 0;
    for step in 0..20_000 {
        if step % 17 == 0 {
            moved = forward(&back(&moved));
        }
        assert_eq!(any_call(&mut t, &mut one), any_call(&mut moved, &mut same));
        assert_eq!((base(&t), t.report(Report::Due)), (base(&moved), moved.report(Report::Due)));
        let churn = |port: &Port| port.churn;
        differed += u32::from(!t.table().ports.iter().map(churn).eq(moved.table().ports.iter().map(churn)));
    }
    assert!(differed > 0);
}
