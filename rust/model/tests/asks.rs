//! Markers that a port is asked for (43.5, request M-102): what becomes of them, and whose Response counts.

mod common;

use calls::Report::{self, Back, Forward};
use calls::{Call, Counters, Outcome};
use common::{any_call, far, lacpdu, marker, numbers, response_to, set, Bench, Set, ADDRESS, OURS};
use model::asks::{Asked, Fate};
use model::record::{Mux, RECORD};
use model::wire::{self, FRAME};

/// Three ports: the first and the second distribute, the third has no link.
fn three() -> Bench {
    let mut t = Bench::start(3, 5, 0);
    for n in [1, 2] {
        t.link(n, true);
        t.rx(n, far(5, n as u16, 0x3D));
    }
    t.ticks(20);
    assert_eq!([1, 2, 3].map(|n| t.port(n).mux), [Mux::Distributing, Mux::Distributing, Mux::Attached]);
    t
}

/// The Marker that a port is asked for, which must not be refused.
fn asked(t: &mut Bench, n: u32, ticks: u32) -> [u8; FRAME] {
    let (answer, marker) = t.ask(n, ticks);
    assert_eq!(answer, 0);
    marker
}

/// The transaction that a Marker names.
fn transaction(marker: &[u8]) -> u32 {
    u32::from_be_bytes([marker[26], marker[27], marker[28], marker[29]])
}

fn fates(t: &Bench) -> [Fate; 3] {
    [1, 2, 3].map(|n| t.port(n).asked.fate)
}

fn of(fate: Fate, timer: u16, next: u32) -> Asked {
    Asked { fate, timer, next }
}

/// The port is asked and nothing else changes in the table; what is kept of its Marker then.
fn nothing_else(before: &Bench, after: &Bench, n: usize) -> Asked {
    let mut table = before.table();
    table.ports[n - 1].asked = after.port(n).asked;
    assert_eq!(table, after.table());
    after.port(n).asked
}

#[test]
fn a_marker_as_laid_out() {
    let mut t = three();
    t.poke(2, |p| p.asked.next = 0x0102_0304);
    let mut out = [0xEE; FRAME + 2];
    assert_eq!(t.perform(&Call::Ask { port: 2, ticks: 30 }, &mut out), Outcome { answer: 0, ..Outcome::UNTOUCHED });
    let mut expected = vec![0x01, 0x80, 0xC2, 0, 0, 2];
    expected.extend(ADDRESS);
    expected.extend([0x88, 0x09, 2, 1, 1, 16, 0, 2]);
    expected.extend(OURS);
    expected.extend([1, 2, 3, 4]);
    expected.extend([0; 94]);
    expected.extend([0xEE; 2]);
    assert_eq!(out[..], expected);
}

#[test]
fn an_answered_marker() {
    let mut t = three();
    let before = Bench { memory: t.memory.clone() };
    let marker = asked(&mut t, 1, 30);
    assert_eq!(nothing_else(&before, &t, 1), of(Fate::Awaiting, 30, 1));
    t.ticks(3);
    let before = Bench { memory: t.memory.clone() };
    let (mut out, mut counters) = ([0xEE; FRAME], Counters::default());
    let response = response_to(&marker);
    let receive = Call::Receive { port: 1, frame: response.into() };
    let outcome = t.counting(&receive, &mut out, &mut counters);
    assert_eq!((outcome, out), (Outcome { answer: 0, sent: 0, ..Outcome::UNTOUCHED }, [0xEE; FRAME]));
    assert_eq!(counters, Counters { marker_responses_received: 1, ..Counters::default() });
    assert_eq!(nothing_else(&before, &t, 1), of(Fate::Answered, 0, 1));
    t.ticks(50);
    assert_eq!(t.port(1).asked, of(Fate::Answered, 0, 1));
}

#[test]
fn a_marker_times_out_at_the_last_tick_of_its_waiting_time() {
    for ticks in [1, 2, 17, 255, 256, 599, 600] {
        let mut t = three();
        let marker = asked(&mut t, 1, ticks);
        for left in (1..=ticks).rev() {
            assert_eq!(t.port(1).asked, of(Fate::Awaiting, left as u16, 1));
            assert_eq!(Bench { memory: t.memory.clone() }.hand(1, &response_to(&marker)), 0);
            t.ticks(1);
        }
        assert_eq!(t.port(1).asked, of(Fate::TimedOut, 0, 1));
        assert_eq!(t.hand(1, &response_to(&marker)), 12);
        t.ticks(10);
        assert_eq!(t.port(1).asked, of(Fate::TimedOut, 0, 1));
    }
}

#[test]
fn a_link_that_falls_cancels() {
    for (up, full) in [(false, true), (false, false), (true, false)] {
        let mut t = three();
        let markers = [1, 2].map(|n| asked(&mut t, n, 30));
        t.ticks(4);
        t.line(1, up, full);
        assert_eq!([1, 2].map(|n| t.port(n).asked), [of(Fate::Cancelled, 0, 1), of(Fate::Awaiting, 26, 1)]);
        t.line(1, true, true);
        assert_eq!([1, 2].map(|n| t.hand(n, &response_to(&markers[n as usize - 1]))), [12, 0]);
        assert_eq!(fates(&t), [Fate::Cancelled, Fate::Answered, Fate::None]);
        t.line(2, false, true);
        assert_eq!(fates(&t), [Fate::Cancelled, Fate::Answered, Fate::None]);
    }
}

#[test]
fn a_duplex_that_changes_on_an_up_port_cancels_either_way() {
    let mut t = Bench::start(1, 4, 0x1C);
    t.line(1, true, false);
    t.ticks(20);
    // at half duplex a port may carry by its default block
    assert_eq!((t.port(1).mux, t.port(1).full_duplex), (Mux::Distributing, false));
    let marker = asked(&mut t, 1, 30);
    t.line(1, true, false);
    assert_eq!(t.port(1).asked, of(Fate::Awaiting, 30, 1));
    t.line(1, true, true);
    assert_eq!((t.port(1).asked, t.hand(1, &response_to(&marker))), (of(Fate::Cancelled, 0, 1), 12));
}

#[test]
fn link_and_duplex_as_they_were_cancel_nothing() {
    let mut t = three();
    let marker = asked(&mut t, 1, 30);
    let kept = t.memory.clone();
    t.line(1, true, true);
    assert_eq!((t.memory == kept, t.hand(1, &response_to(&marker))), (true, 0));
}

#[test]
fn a_second_copy_is_refused() {
    let mut t = three();
    let marker = asked(&mut t, 1, 30);
    assert_eq!(t.hand(1, &response_to(&marker)), 0);
    let kept = t.memory.clone();
    let (mut out, mut counters) = ([0xEE; FRAME], Counters::default());
    let receive = Call::Receive { port: 1, frame: response_to(&marker).into() };
    let outcome = t.counting(&receive, &mut out, &mut counters);
    assert_eq!((outcome.answer, outcome.sent, out, &t.memory), (12, 0, [0xEE; FRAME], &kept));
    assert_eq!(counters, Counters { marker_responses_received: 1, ..Counters::default() });
    asked(&mut t, 1, 30);
    assert_eq!((t.hand(1, &response_to(&marker)), t.port(1).asked), (12, of(Fate::Awaiting, 30, 2)));
}

#[test]
fn every_bit_of_what_was_asked_for_counts_and_no_other() {
    let mut t = three();
    t.poke(1, |p| p.asked.next = 0x0102_0304);
    let marker = asked(&mut t, 1, 30);
    let response = response_to(&marker);
    for (at, bit) in (0..FRAME).flat_map(|at| (0..8).map(move |bit| (at, 1 << bit))) {
        let mut changed = response.clone();
        changed[at] ^= bit;
        let answer = match at {
            0..=5 => 6,
            12..=13 => 7,
            14 if (3..=10).contains(&(2 ^ bit)) => 7,
            14 | 16 | 17 => 8,
            18..=29 => 12,
            _ => 0,
        };
        let mut other = Bench { memory: t.memory.clone() };
        assert_eq!(other.hand(1, &changed), answer, "bit {bit} of octet {at}");
        assert_eq!(other.port(1).asked.fate == Fate::Answered, answer == 0);
        assert!(answer == 0 || other.memory == t.memory);
    }
    assert_eq!(t.hand(1, &[&response[..], &[0x77; 60]].concat()), 0);
}

#[test]
fn a_response_counts_on_the_asking_port_alone() {
    let mut t = three();
    let markers = [1, 2].map(|n| response_to(&asked(&mut t, n, 30)));
    let kept = t.memory.clone();
    assert_eq!([t.hand(2, &markers[0]), t.hand(3, &markers[0]), t.hand(1, &markers[1])], [12; 3]);
    assert_eq!(t.memory, kept);
    assert_eq!([t.hand(1, &markers[0]), t.hand(2, &markers[1])], [0; 2]);
}

#[test]
fn a_response_that_nobody_awaits() {
    let mut t = three();
    let marker = asked(&mut Bench { memory: t.memory.clone() }, 1, 30);
    let kept = t.memory.clone();
    for n in [1, 2, 3] {
        assert_eq!((t.hand(n, &response_to(&marker)), &t.memory), (12, &kept));
    }
}

#[test]
fn refusals_that_come_before_a_response_is_read() {
    let mut t = three();
    let response = response_to(&asked(&mut t, 1, 30));
    let kept = t.memory.clone();
    let short = Call::Receive { port: 1, frame: response[..].into() };
    assert_eq!(t.perform(&short, &mut [0xEE; FRAME - 1]).answer, 3);
    assert_eq!((t.hand(4, &response), t.hand(1, &response[..123])), (2, 8));
    assert_eq!(t.memory, kept);
    t.memory.pop();
    assert_eq!(t.hand(1, &response), 1);
}

#[test]
fn numbers_go_up_by_one_for_each_port() {
    let mut t = three();
    let next = |t: &mut Bench, n| {
        let marker = asked(t, n, 30);
        assert_eq!(t.hand(n, &response_to(&marker)), 0);
        transaction(&marker)
    };
    assert_eq!([1, 1, 2, 1, 2].map(|n| next(&mut t, n)), [0, 1, 0, 2, 1]);
    for (number, after) in [(0xFF, 0x100), (0xFFFF, 0x1_0000), (0x00FF_FFFF, 0x0100_0000), (u32::MAX, 0)] {
        t.poke(1, |p| p.asked.next = number);
        assert_eq!((next(&mut t, 1), t.port(1).asked.next), (number, after));
        assert_eq!(t.record(1, RECORD).1[74..], after.to_be_bytes());
    }
    assert_eq!([1, 2].map(|n| next(&mut t, n)), [0, 2]);
}

/// What is kept of a port's Marker is told by its number too: the one that is awaited wraps with it.
#[test]
fn the_marker_before_the_first_is_the_highest() {
    let mut t = three();
    t.poke(1, |p| p.asked.next = u32::MAX);
    let marker = asked(&mut t, 1, 30);
    assert_eq!((transaction(&marker), t.port(1).asked), (u32::MAX, of(Fate::Awaiting, 30, 0)));
    assert_eq!(t.hand(1, &response_to(&marker)), 0);
}

#[test]
fn refusals_in_their_order() {
    let mut t = three();
    asked(&mut t, 1, 30);
    let collecting = {
        let mut other = Bench { memory: t.memory.clone() };
        other.rx(1, far(5, 1, 0x0D));
        assert_eq!((other.port(1).mux, other.port(1).asked.fate), (Mux::Collecting, Fate::Awaiting));
        other
    };
    let answer = |t: &Bench, n: u32, octets: usize, ticks: u32| {
        let (mut other, mut out) = (Bench { memory: t.memory.clone() }, vec![0xEE; octets]);
        let answer = other.perform(&Call::Ask { port: n, ticks }, &mut out).answer;
        assert!(answer == 0 || (&other.memory, out) == (&t.memory, vec![0xEE; octets]), "answer {answer}");
        answer
    };
    let mut no_table = Bench { memory: t.memory.clone() };
    no_table.memory[11] = 6;
    for (n, octets, ticks) in [(0, 0, 0), (1, 0, 0), (1, FRAME, 0), (1, FRAME, 30), (2, FRAME, 30)] {
        assert_eq!(answer(&no_table, n, octets, ticks), 1);
    }
    for n in [0, 4, 33, 257, u32::MAX] {
        assert_eq!([answer(&t, n, 0, 0), answer(&t, n, FRAME, 30)], [2; 2]);
    }
    for octets in [0, 1, FRAME - 1] {
        assert_eq!([1, 2, 3].map(|n| answer(&t, n, octets, 0)), [3; 3]);
        assert_eq!([1, 2, 3].map(|n| answer(&t, n, octets, 30)), [3; 3]);
    }
    for ticks in [0, 601, 602, 0xFFFF, 0x1_0000, 0x1_0001, 0x1_0258, u32::MAX] {
        assert_eq!([1, 2, 3].map(|n| answer(&t, n, FRAME, ticks)), [4; 3]);
        assert_eq!(answer(&collecting, 1, FRAME, ticks), 4);
    }
    for ticks in [1, 30, 600] {
        assert_eq!([1, 2, 3].map(|n| answer(&t, n, FRAME, ticks)), [14, 0, 13]);
        assert_eq!(answer(&collecting, 1, FRAME + 1, ticks), 13);
    }
}

#[test]
fn a_refused_ask_uses_no_number() {
    let mut t = three();
    asked(&mut t, 1, 5);
    for (n, ticks) in [(1, 0), (1, 601), (1, 30), (3, 30), (4, 30)] {
        assert_ne!(t.ask(n, ticks).0, 0);
    }
    t.ticks(5);
    assert_eq!((fates(&t)[0], transaction(&asked(&mut t, 1, 5))), (Fate::TimedOut, 1));
    assert_eq!([2, 3].map(|n| t.port(n).asked), [Asked::begun(); 2]);
}

#[test]
fn only_a_port_that_distributes_is_asked() {
    for mux in [Mux::Detached, Mux::Waiting, Mux::Attached, Mux::Collecting, Mux::Distributing] {
        let mut t = three();
        // link, duplex and Selected do not matter
        t.poke(1, |p| (p.mux, p.link, p.full_duplex, p.selected) = (mux, false, false, false));
        assert_eq!(t.ask(1, 30).0, if mux == Mux::Distributing { 0 } else { 13 });
    }
}

#[test]
fn no_other_end() {
    let mut t = three();
    let markers = [1, 2].map(|n| asked(&mut t, n, 40));
    let other = Set { key: 7, address: [2; 6], ..set(5, 0x1C) };
    t.rx(1, far(5, 1, 0x0D));
    assert_eq!(t.port(1).mux, Mux::Collecting);
    t.rx(1, far(6, 1, 0x05));
    assert_eq!((t.settings(1, other), t.port(1).mux), (0, Mux::Waiting));
    t.link(3, true);
    t.rx(3, far(5, 3, 0x3D));
    t.hand(1, &marker(1));
    t.hand(1, &lacpdu());
    t.fetch(1);
    t.ticks(35);
    assert_eq!([1, 2].map(|n| t.port(n).asked), [of(Fate::Awaiting, 5, 1); 2]);
    t.line(2, false, true);
    assert_eq!(t.port(1).asked, of(Fate::Awaiting, 5, 1));
    // the Marker that was asked for names the system, not the port's address
    assert_eq!((t.hand(1, &response_to(&markers[0])), t.port(1).asked), (0, of(Fate::Answered, 0, 1)));
}

#[test]
fn a_start_forgets() {
    let mut t = three();
    let marker = asked(&mut t, 1, 30);
    assert_eq!((t.restart(3, set(5, 0x10)), t.restart(2, set(5, 0))), (4, 1));
    assert_eq!(t.port(1).asked, of(Fate::Awaiting, 30, 1));
    assert_eq!(t.restart(3, set(5, 0)), 0);
    assert_eq!([1, 2, 3].map(|n| t.port(n).asked), [Asked::begun(); 3]);
    assert_eq!(t.hand(1, &response_to(&marker)), 12);
    // numbers begin at 0 again, so that the old Response fits the new Marker
    t.link(1, true);
    t.rx(1, far(5, 1, 0x3D));
    t.ticks(20);
    asked(&mut t, 1, 30);
    assert_eq!(t.hand(1, &response_to(&marker)), 0);
}

/// The table in the old form and in the new again; in the old form its Markers stand behind its records.
fn moved(t: &Bench) -> Bench {
    let mut old = vec![0xEE; model::old_table_size(3) as usize];
    assert_eq!(model::report(Back, &t.memory, &mut old).answer, 0);
    assert_eq!(old[11 + 57 * 3..], t.memory[11 + 71 * 3..]);
    let mut memory = vec![0xEE; model::table_size(3) as usize];
    assert_eq!(model::report(Forward, &old, &mut memory).answer, 0);
    Bench { memory }
}

#[test]
fn a_moved_table_keeps_its_markers() {
    let mut t = three();
    t.poke(2, |p| p.asked.next = u32::MAX);
    let markers = [1, 2].map(|n| asked(&mut t, n, 30));
    t.ticks(10);
    assert_eq!(t.hand(2, &response_to(&markers[1])), 0);
    let mut again = moved(&t);
    assert_eq!([1, 2, 3].map(|n| again.port(n).asked), [1, 2, 3].map(|n| t.port(n).asked));
    assert_eq!((again.hand(2, &response_to(&markers[1])), again.hand(1, &response_to(&markers[0]))), (12, 0));
    let mut again = moved(&t);
    again.ticks(19);
    assert_eq!(again.port(1).asked, of(Fate::Awaiting, 1, 1));
    again.ticks(1);
    assert_eq!(again.port(1).asked, of(Fate::TimedOut, 0, 1));
}

/// A table from before there were Markers becomes one of today by as many zeros behind it as they take.
#[test]
fn zeros_are_what_a_start_sets() {
    let t = Bench::start(3, 5, 0);
    assert_eq!(t.memory[11 + 71 * 3..], [0; 7 * 3]);
}

#[test]
fn a_group_as_laid_out() {
    let mut t = Bench::start(2, 5, 0);
    t.poke(2, |p| p.asked = of(Fate::Cancelled, 0x0102, 0x0304_0506));
    let octets = [4, 1, 2, 3, 4, 5, 6];
    assert_eq!((&t.memory[11 + 71 * 2..11 + 71 * 2 + 7], &t.memory[11 + 71 * 2 + 7..]), (&[0; 7][..], &octets[..]));
    assert_eq!(t.record(2, 78), (0, t.octets(2)));
    assert_eq!((RECORD, &t.octets(2)[71..]), (78, &octets[..]));
}

#[test]
fn markers_are_ranged() {
    let t = Bench::start(2, 5, 0);
    let answer = |at: usize, octets: &[u8]| {
        let mut other = Bench { memory: t.memory.clone() };
        other.memory[at..at + octets.len()].copy_from_slice(octets);
        let answers = [other.record(1, RECORD).0, other.report(Report::Due).answer, other.call(&Call::Tick)];
        assert!(answers == [0; 3] || answers == [1; 3]);
        answers[0]
    };
    for group in [11 + 71 * 2, 11 + 71 * 2 + 7] {
        (0..=255).for_each(|fate| assert_eq!(answer(group, &[fate]), u32::from(fate > 4)));
        for ticks in [0, 1, 255, 256, 599, 600, 601, 767, 768, 0x8000, 0xFFFF] {
            assert_eq!(answer(group + 1, &u16::to_be_bytes(ticks)), u32::from(ticks > 600), "{ticks}");
        }
        for number in [0, 1, 0xFFFF, 0x8000_0000, u32::MAX] {
            assert_eq!(answer(group + 3, &u32::to_be_bytes(number)), 0);
        }
    }
}

#[test]
fn on_memory_that_no_run_makes() {
    // awaited with its timer at 0: the next tick ends it, and a Response before that counts
    let mut t = three();
    let marker = asked(&mut t, 1, 30);
    t.poke(1, |p| p.asked.timer = 0);
    assert_eq!(Bench { memory: t.memory.clone() }.hand(1, &response_to(&marker)), 0);
    t.ticks(1);
    assert_eq!(t.port(1).asked, of(Fate::TimedOut, 0, 1));
    // a timer where nothing is awaited falls, and ends nothing
    for fate in [Fate::None, Fate::Answered, Fate::TimedOut, Fate::Cancelled] {
        t.poke(1, |p| p.asked = of(fate, 2, 7));
        t.ticks(1);
        assert_eq!(t.port(1).asked, of(fate, 1, 7));
        t.ticks(1);
        assert_eq!(t.port(1).asked, of(fate, 0, 7));
        t.poke(1, |p| p.asked.timer = 2);
        t.line(1, false, true);
        assert_eq!(t.port(1).asked, of(fate, 2, 7));
        t.line(1, true, true);
    }
    // awaited on a port without link: its link and duplex may change, and a Response counts
    t.poke(3, |p| p.asked = of(Fate::Awaiting, 9, 1));
    t.line(3, false, false);
    t.line(3, true, false);
    assert_eq!(t.port(3).asked, of(Fate::Awaiting, 9, 1));
    t.line(3, true, true);
    assert_eq!(t.port(3).asked, of(Fate::Cancelled, 0, 1));
}

/// A port that distributes, if its link is up, is asked for a Marker, or hears a Response to its last: on that port or another.
fn any_marker(t: &mut Bench, below: &mut impl FnMut(u64) -> u64) {
    let n = 1 + below(3) as u32;
    if below(2) == 0 {
        t.poke(n as usize, |p| p.mux = if p.link { Mux::Distributing } else { p.mux });
        t.ask(n, below(14) as u32);
    } else {
        let marker = wire::marker(&[0; 6], &t.table().requested(n));
        t.hand(if below(4) == 0 { 1 + below(3) as u32 } else { n }, &response_to(&marker));
    }
}

/// An awaited Marker comes to one of its ends no later than the last tick of its waiting time, through moves too, unless a start comes
/// first.
#[test]
fn no_marker_is_awaited_for_longer() {
    let (mut t, mut below) = (three(), numbers());
    // of each port, the number after that of the Marker which is awaited, and the ticks that are left to it
    let (mut awaited, mut ended) = ([None; 3], [0; 5]);
    for step in 0..60_000 {
        let (ticked, started) = match step % 17 {
            0 => {
                t = moved(&t);
                (false, false)
            }
            1..=5 => {
                any_marker(&mut t, &mut below);
                (false, false)
            }
            _ => any_call(&mut t, &mut below),
        };
        for (awaited, port) in awaited.iter_mut().zip(t.table().ports) {
            let Asked { fate, timer, next } = port.asked;
            let left =
                awaited.filter(|(number, _)| *number == next && !started).map(|(_, left)| left - u16::from(ticked));
            if fate == Fate::Awaiting {
                assert!(timer > 0 && port.link && left.is_none_or(|left| left == timer));
            } else {
                assert!(timer == 0);
            }
            ended[fate as usize] += u32::from(left.is_some());
            *awaited = (fate == Fate::Awaiting).then_some((next, timer));
        }
    }
    assert!(ended[0] == 0 && ended[1..].iter().all(|count| *count > 100), "{ended:?}");
}
