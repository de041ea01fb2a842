//! The cases of document 01.

mod common;

use calls::{Call, Outcome, Report};
use common::{far, lacpdu, marker, set, Bench, ADDRESS, DELAY};
use model::record::{Mux, Receive, RECORD};
use model::wire::FRAME;

#[test]
fn state_octets() {
    let mut t = Bench::start(1, 7, 0);
    assert_eq!(t.port(1).actor_state.0 & 0x3F, 0x07);
    t.link(1, true);
    t.rx(1, far(5, 1, 0x3F));
    t.ticks(20);
    assert_eq!(t.port(1).actor_state.0, 0x3F);
    assert_eq!(t.settings(1, set(5, 0)), 0);
    assert_eq!(t.port(1).actor_state.0, 0x3D);
}

#[test]
fn after_start_and_after_link_up() {
    let mut t = Bench::start(1, 5, 0);
    assert_eq!(t.port(1).actor_state.0, 0x45);
    t.link(1, true);
    assert_eq!(t.port(1).actor_state.0, 0xC5);
}

#[test]
fn alone_attaches_at_the_twentieth_tick() {
    let mut t = Bench::start(1, 5, 0);
    t.ticks(19);
    assert_eq!(t.port(1).mux, Mux::Waiting);
    t.ticks(1);
    assert_eq!(t.port(1).mux, Mux::Attached);
}

#[test]
fn four_waits_for_six() {
    let mut t = Bench::start(6, 7, 0);
    t.link(4, true);
    t.link(6, true);
    t.rx(4, far(5, 4, 0x07));
    t.ticks(5);
    t.rx(6, far(5, 6, 0x07));
    t.ticks(19);
    assert_eq!((t.port(4).mux, t.port(6).mux), (Mux::Waiting, Mux::Waiting));
    t.ticks(1);
    assert_eq!((t.port(4).mux, t.port(6).mux), (Mux::Attached, Mux::Attached));
    assert_eq!((t.port(4).aggregator, t.port(6).aggregator), (4, 4));
}

#[test]
fn two_learns_the_group_of_three_and_five() {
    let mut t = Bench::start(5, 5, 0);
    (1..=5).for_each(|n| t.link(n, true));
    t.rx(3, far(5, 3, 0x3D));
    t.rx(5, far(5, 5, 0x3D));
    t.ticks(20);
    assert_eq!(t.held(), [1, 2, 3, 4, 3]);
    t.rx(2, far(5, 2, 0x3D));
    assert_eq!(t.held(), [1, 2, 2, 4, 2]);
    for n in [2, 3, 5] {
        assert_eq!((t.port(n).mux, t.port(n).wait_while), (Mux::Waiting, 20));
    }
}

#[test]
fn two_goes_over_to_three_and_five() {
    let mut t = Bench::start(5, 5, 0);
    (1..=5).for_each(|n| t.link(n, true));
    t.rx(2, far(6, 2, 0x3D));
    t.rx(4, far(6, 4, 0x3D));
    t.rx(3, far(5, 3, 0x3D));
    t.rx(5, far(5, 5, 0x3D));
    t.ticks(20);
    assert_eq!(t.held(), [1, 2, 3, 2, 3]);
    t.rx(2, far(5, 2, 0x3D));
    assert_eq!(t.held(), [1, 2, 2, 4, 2]);
    (2..=5).for_each(|n| assert_eq!(t.port(n).mux, Mux::Waiting));
}

#[test]
fn long_timeout_and_silence() {
    let mut t = Bench::start(1, 5, 0);
    t.link(1, true);
    t.rx(1, far(5, 1, 0x3D));
    t.ticks(899);
    assert_eq!(t.port(1).receive, Receive::Current);
    t.ticks(1);
    assert_eq!(t.port(1).receive, Receive::Expired);
    t.ticks(29);
    assert_eq!(t.port(1).receive, Receive::Expired);
    t.ticks(1);
    assert_eq!(t.port(1).receive, Receive::Defaulted);
}

#[test]
fn lengths_and_subtypes() {
    let mut t = Bench::start(1, 5, 0);
    t.link(1, true);
    let mut frame = lacpdu();
    let mut longer = frame.to_vec();
    longer.push(0xAA);
    assert_eq!(t.hand(1, &frame[..123]), 8);
    assert_eq!(t.hand(1, &frame), 0);
    assert_eq!(t.hand(1, &longer), 0);
    for (subtype, answer) in [(0, 8), (3, 7), (10, 7), (11, 8)] {
        frame[14] = subtype;
        assert_eq!(t.hand(1, &frame), answer);
    }
}

#[test]
fn passive_sender() {
    let mut t = Bench::start(1, 5, 0);
    t.link(1, true);
    let mut partner = t.table().actor(1);
    partner.state.0 &= !1;
    t.rx_both(1, far(5, 1, 0x3C), partner);
    assert_eq!(t.port(1).partner.state.0, 0x34);
    partner.state.0 |= 1;
    t.rx_both(1, far(5, 1, 0x3C), partner);
    assert_eq!(t.port(1).partner.state.0, 0x3C);
    partner.key = 2;
    t.rx_both(1, far(5, 1, 0x3C), partner);
    assert_eq!(t.port(1).partner.state.0, 0x34);
}

#[test]
fn unproved_cases() {
    let mut t = Bench::start(32, 5, 0);
    t.link(1, true);
    let mut frame = lacpdu();
    frame[15] = 7;
    frame[16] = 9;
    assert_eq!(t.hand(1, &frame), 0);
    assert_eq!(t.hand(1, &frame[..13]), 6);
    for n in [0, 33, u32::MAX] {
        assert_eq!(t.hand(n, &frame), 2);
        assert_eq!(t.record(n, RECORD), (2, vec![0; RECORD]));
    }
    assert_eq!(t.record(32, RECORD), (0, t.octets(32)));
}

#[test]
fn an_lacpdu_as_laid_out() {
    let mut t = Bench::start(2, 7, 0);
    t.link(2, true);
    t.rx(2, far(5, 6, 0x3F));
    let mut out = [0xEE; FRAME + 2];
    assert_eq!(t.perform(&Call::Fetch { port: 2 }, &mut out).answer, 0);
    let mut expected = vec![0x01, 0x80, 0xC2, 0, 0, 2];
    expected.extend(ADDRESS);
    expected.extend([0x88, 0x09, 1, 1, 1, 20]);
    expected.extend([0, 1, 0, 0, 0, 0, 0, 9, 0, 1, 0, 1, 0, 2, 0x07, 0, 0, 0, 2, 20]);
    expected.extend([0, 1, 0, 0, 0, 0, 0, 5, 0, 1, 0, 1, 0, 6, 0x3F, 0, 0, 0, 3, 16]);
    expected.extend(DELAY.to_be_bytes());
    expected.extend([0; 64]);
    expected.extend([0xEE; 2]);
    assert_eq!(out[..], expected);
}

#[test]
fn a_response_as_laid_out() {
    let mut t = Bench::start(1, 7, 0);
    t.link(1, true);
    t.rx(1, far(5, 6, 0x3F));
    t.ticks(20);
    let (mut out, before) = ([0xEE; FRAME + 2], t.memory.clone());
    let outcome = t.perform(&Call::Receive { port: 1, frame: marker(1)[..].into() }, &mut out);
    assert_eq!(outcome.answer, 0);
    let mut expected = vec![0x01, 0x80, 0xC2, 0, 0, 2];
    expected.extend(ADDRESS);
    expected.extend([0x88, 0x09, 2, 1, 2, 16]);
    expected.extend([0x77; 12]);
    expected.extend([0; 94]);
    expected.extend([0xEE; 2]);
    assert_eq!((out[..].to_vec(), outcome.sent, &t.memory), (expected, 124, &before));
}

#[test]
fn version() {
    assert_eq!(Bench { memory: Vec::new() }.report(Report::Version), Outcome { answer: 0x0202, ..Outcome::UNTOUCHED });
}

#[test]
fn sizes() {
    assert_eq!((0..34).map(model::table_size).filter(|size| *size == 0).count(), 2);
    assert_eq!((model::table_size(1), model::table_size(32), model::table_size(u32::MAX)), (89, 2507, 0));
}
