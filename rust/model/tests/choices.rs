//! Where the papers leave a choice or hide a trap: a telling test for each.

mod common;

use calls::{Call, Outcome, Report, SettingsArguments};
use common::{far, lacpdu, marker, set, Bench, Set};
use model::record::{Mux, Periodic, Port, Receive, RECORD};
use model::wire::{Block, State, FRAME};

fn distributing(bits: u8) -> Bench {
    let mut t = Bench::start(2, bits, 0);
    t.link(1, true);
    t.rx(1, far(5, 1, 0x3F));
    t.ticks(20);
    t.rx(1, far(5, 1, 0x3F));
    assert_eq!(t.port(1).mux, Mux::Distributing);
    t
}

#[test]
fn no_periodic_and_ntt() {
    let mut t = Bench::start(1, 4, 0x04);
    assert!(t.port(1).ntt);
    t.link(1, true);
    let p = t.port(1);
    assert_eq!((p.receive, p.periodic, p.ntt), (Receive::Expired, Periodic::NoPeriodic, false));
    assert_eq!(t.fetch(1), 10);
    let mut t = Bench::start(1, 5, 0);
    assert!(t.port(1).ntt);
    t.link(1, true);
    assert_eq!(t.fetch(1), 0);
}

#[test]
fn expired_stays_when_the_link_falls() {
    let mut t = Bench::start(2, 5, 0);
    t.link(1, true);
    t.link(1, false);
    assert_eq!((t.port(1).receive, t.port(1).actor_state.0), (Receive::PortDisabled, 0xC5));
    t.link(2, true);
    t.rx(2, Block::default());
    assert_eq!(t.port(1).actor_state.0, 0x45);
}

#[test]
fn synchronization_of_the_default_block() {
    let mut t = Bench::start(1, 5, 0x05);
    t.link(1, true);
    t.ticks(30);
    let p = t.port(1);
    assert_eq!((p.receive, p.partner.state.0, p.mux), (Receive::Defaulted, 0x05, Mux::Attached));
    let mut t = Bench::start(1, 5, 0x3D);
    t.link(1, true);
    t.ticks(29);
    assert_eq!(t.port(1).mux, Mux::Attached);
    t.ticks(1);
    assert_eq!(t.port(1).mux, Mux::Distributing);
}

#[test]
fn start_clears_synchronization() {
    let mut t = Bench::start(1, 5, 0x3D);
    assert_eq!(t.port(1).partner.state.0, 0x35);
    t.ticks(20);
    assert_eq!(t.port(1).mux, Mux::Attached);
}

#[test]
fn down_ports_attach_and_count() {
    let mut t = Bench::start(2, 5, 0x04);
    t.ticks(20);
    for n in [1, 2] {
        let p = t.port(n);
        assert_eq!((p.mux, p.aggregator, p.actor_state.0), (Mux::Attached, 1, 0x4D));
    }
    let mut t = Bench::start(2, 7, 0);
    for n in [1, 2] {
        t.link(n, true);
        t.rx(n, far(5, n as u16, 0x3F));
    }
    t.ticks(20);
    t.link(1, false);
    assert_eq!(t.held(), [1, 1]);
    assert_eq!(t.port(2).mux, Mux::Distributing);
}

#[test]
fn same_partner_no_new_wait() {
    let mut t = distributing(5);
    t.link(1, false);
    assert_eq!((t.port(1).mux, t.port(1).actor_state.0), (Mux::Attached, 0x0D));
    t.link(1, true);
    assert_eq!((t.port(1).receive, t.port(1).actor_state.0), (Receive::Expired, 0x8D));
    t.rx(1, far(5, 1, 0x3F));
    assert_eq!((t.port(1).mux, t.port(1).wait_while), (Mux::Distributing, 0));
}

#[test]
fn where_update_selected_looks() {
    for change in 0..6 {
        let mut t = distributing(5);
        let mut actor = far(5, 1, 0x3F);
        match change {
            0 => actor.port = 2,
            1 => actor.port_priority = 2,
            2 => actor.system[0] = 1,
            3 => actor.system_priority = 2,
            4 => actor.key = 2,
            _ => actor.state.0 = 0x3B,
        }
        t.rx(1, actor);
        let p = t.port(1);
        assert_eq!((p.mux, p.wait_while, p.aggregator), (Mux::Waiting, 20, 1));
    }
    let mut t = distributing(5);
    t.rx(1, far(5, 1, 0x3C));
    assert_eq!(t.port(1).mux, Mux::Distributing);
}

#[test]
fn update_ntt_compares_four_bits() {
    for (bit, ntt) in
        [(0x10, false), (0x20, false), (0x80, false), (0x02, true), (0x01, true), (0x08, true), (0x04, true)]
    {
        let mut t = distributing(7);
        t.rx(1, far(5, 1, 0x3B));
        t.poke(1, |p| p.ntt = false);
        let mut partner = t.table().actor(1);
        partner.state.0 ^= bit;
        assert_eq!(t.rx_both(1, far(5, 1, 0x3B), partner), 0);
        assert_eq!(t.port(1).ntt, ntt, "{bit:02X}");
    }
}

#[test]
fn synchronization_recorded() {
    let mut t = Bench::start(1, 5, 0);
    t.link(1, true);
    t.rx_both(1, far(5, 1, 0x39), far(7, 7, 0));
    assert_eq!(t.port(1).partner.state.0, 0x39);
    let mut t = Bench::start(1, 5, 0);
    t.link(1, true);
    let mut partner = t.table().actor(1);
    partner.key = 4;
    t.rx_both(1, far(5, 1, 0x3D), partner);
    t.ticks(20);
    assert_eq!((t.port(1).partner.state.0, t.port(1).mux), (0x35, Mux::Attached));
}

#[test]
fn running_timer_stays() {
    let mut t = Bench::start(1, 5, 0);
    t.link(1, true);
    t.rx(1, far(5, 1, 0x3F));
    t.settings(1, set(7, 0));
    t.ticks(899);
    assert_eq!(t.port(1).receive, Receive::Current);
    t.ticks(1);
    assert_eq!(t.port(1).receive, Receive::Expired);
}

/// Long timeout; learned and default partner are the same; silence up to tick 930.
fn silent(bits: u8, learned: u8, default: u8) -> Bench {
    let mut t = Bench::start_with(1, Set { default: far(5, 1, default), ..set(bits, 0) });
    t.link(1, true);
    t.rx(1, far(5, 1, learned));
    t.ticks(929);
    t.poke(1, |p| p.ntt = false);
    t.ticks(1);
    assert_eq!(t.port(1).receive, Receive::Defaulted);
    t
}

#[test]
fn timer_before_timeout() {
    let p = silent(5, 0x3D, 0x05).port(1);
    assert_eq!((p.ntt, p.periodic, p.periodic_timer), (true, Periodic::SlowPeriodic, 300));
    assert_eq!(p.mux, Mux::Attached);
    let p = silent(4, 0x3D, 0x04).port(1);
    assert_eq!((p.ntt, p.periodic, p.periodic_timer), (false, Periodic::NoPeriodic, 0));
}

#[test]
fn periodic_details() {
    let mut t = Bench::start(1, 5, 0);
    t.link(1, true);
    assert_eq!((t.port(1).periodic, t.port(1).periodic_timer), (Periodic::FastPeriodic, 10));
    t.poke(1, |p| p.ntt = false);
    let partner = t.table().actor(1);
    t.poke(1, |p| p.partner = far(5, 1, 0x07));
    t.rx_both(1, far(5, 1, 0x05), partner);
    assert_eq!((t.port(1).periodic, t.port(1).periodic_timer, t.port(1).ntt), (Periodic::SlowPeriodic, 300, false));
    t.ticks(900);
    let p = t.port(1);
    assert_eq!((p.receive, p.periodic, p.periodic_timer, p.ntt), (Receive::Expired, Periodic::FastPeriodic, 10, true));
    let mut t = distributing(7);
    t.ticks(3);
    let before = t.port(1).periodic_timer;
    t.rx(1, far(5, 1, 0x3F));
    assert_eq!(t.port(1).periodic_timer, before);
}

#[test]
fn half_duplex_clears_ntt_for_good() {
    let mut t = Bench::start(1, 5, 0);
    t.duplex(1, false);
    assert!(!t.port(1).ntt);
    t.duplex(1, true);
    t.link(1, true);
    for _ in 0..10 {
        assert_eq!(t.fetch(1), 10);
        t.ticks(1);
    }
    assert_eq!(t.fetch(1), 0);
    let mut t = distributing(5);
    t.duplex(1, false);
    let p = t.port(1);
    assert_eq!((p.receive, p.mux, p.wait_while, p.ntt), (Receive::LacpDisabled, Mux::Waiting, 20, false));
    t.ticks(3);
    t.duplex(1, true);
    let p = t.port(1);
    assert_eq!((p.receive, p.mux, p.wait_while), (Receive::Expired, Mux::Waiting, 17));
    assert_eq!(t.fetch(1), 10);
    t.ticks(10);
    assert_eq!(t.fetch(1), 0);
}

#[test]
fn up_at_half_duplex_never_speaks() {
    let mut t = Bench::start(1, 5, 0x3C);
    assert!(t.port(1).ntt);
    t.line(1, true, false);
    let p = t.port(1);
    assert_eq!((p.receive, p.actor_state.0, p.ntt), (Receive::LacpDisabled, 0x45, false));
    for _ in 0..40 {
        assert_eq!(t.fetch(1), 10);
        t.ticks(1);
    }
    assert_eq!(t.port(1).mux, Mux::Distributing);
    let mut t = distributing(5);
    t.link(1, false);
    t.line(1, true, false);
    let p = t.port(1);
    assert_eq!((p.receive, p.mux, p.wait_while, p.ntt), (Receive::LacpDisabled, Mux::Waiting, 20, false));
}

#[test]
fn down_and_half_at_once_keeps_the_partner() {
    let mut t = distributing(5);
    let (memory, kept) = (t.memory.clone(), t.port(1).partner.system);
    t.line(1, false, false);
    let p = t.port(1);
    assert_eq!((p.receive, p.mux, p.selected, p.ntt), (Receive::PortDisabled, Mux::Attached, true, false));
    assert_eq!((p.partner.system, p.actor_state.0), (kept, 0x0D));
    t.line(1, true, true);
    let p = t.port(1);
    assert_eq!((p.receive, p.mux, p.partner.system, p.ntt), (Receive::Expired, Mux::Attached, kept, false));
    t.memory = memory;
    t.duplex(1, false);
    t.link(1, false);
    let p = t.port(1);
    assert_eq!((p.receive, p.mux, p.partner.system), (Receive::PortDisabled, Mux::Waiting, [0; 6]));
}

#[test]
fn down_and_full_at_once_after_half_duplex() {
    for (default, mux, ntt) in [(0x3C, Mux::Distributing, true), (0x04, Mux::Attached, false)] {
        let mut t = Bench::start(1, 5, default);
        t.line(1, true, false);
        t.ticks(20);
        assert_eq!((t.port(1).mux, t.port(1).ntt), (mux, false));
        t.line(1, false, true);
        let p = t.port(1);
        assert_eq!((p.receive, p.mux, p.ntt), (Receive::PortDisabled, Mux::Attached, ntt));
        t.line(1, true, true);
        assert_eq!(t.fetch(1), if ntt { 0 } else { 10 });
    }
}

#[test]
fn no_order_of_two_calls_does_what_one_call_does() {
    let (up_full, up_half, down_full, down_half) = ((true, true), (true, false), (false, true), (false, false));
    for (old, new, duplex_first, link_first) in [
        (down_full, up_half, true, true),
        (up_full, down_half, false, true),
        (up_half, down_full, false, false),
        (down_half, up_full, true, false),
    ] {
        let mut begun = Bench::start(1, 5, 0x3C);
        begun.line(1, true, old != up_half);
        if old != up_half {
            begun.rx(1, far(5, 1, 0x3D));
        }
        begun.ticks(20);
        assert_eq!(begun.port(1).mux, Mux::Distributing);
        begun.line(1, old.0, old.1);
        let by_way_of = |(up, full)| {
            let mut t = Bench { memory: begun.memory.clone() };
            t.line(1, up, full);
            t.line(1, new.0, new.1);
            t.memory
        };
        let once = by_way_of(new);
        assert_eq!((by_way_of((old.0, new.1)) == once, by_way_of((new.0, old.1)) == once), (duplex_first, link_first));
    }
}

#[test]
fn a_down_port_changes_its_duplex() {
    let mut t = distributing(5);
    t.link(1, false);
    let fallen = t.port(1);
    t.duplex(1, false);
    let half = Port { full_duplex: false, ntt: false, ..fallen.clone() };
    assert_eq!(t.port(1), half);
    t.duplex(1, true);
    assert_eq!(t.port(1), Port { full_duplex: true, ..half });
}

#[test]
fn duplex_change_on_an_up_port() {
    let mut t = Bench::start(1, 5, 0x3C);
    t.duplex(1, false);
    t.link(1, true);
    t.ticks(20);
    assert_eq!(t.port(1).mux, Mux::Distributing);
    t.duplex(1, true);
    let p = t.port(1);
    assert_eq!((p.mux, p.receive, p.partner.state.has(State::AGGREGATION)), (Mux::Attached, Receive::Expired, false));
    t.ticks(30);
    let p = t.port(1);
    assert_eq!((p.mux, p.wait_while, p.partner.state.0), (Mux::Waiting, 20, 0x3C));
}

#[test]
fn ready_after_the_receive_machines() {
    let group = far(5, 1, 0x04);
    let mut t = Bench::start_with(2, Set { default: group, ..set(5, 0) });
    t.link(1, true);
    t.link(2, true);
    t.rx(1, group);
    t.rx(2, far(6, 2, 0x05));
    t.ticks(19);
    t.poke(1, |p| (p.mux, p.wait_while) = (Mux::Waiting, 1));
    t.poke(2, |p| (p.receive, p.current_while) = (Receive::Expired, 1));
    t.ticks(1);
    assert_eq!((t.port(1).mux, t.port(1).wait_while), (Mux::Waiting, 0));
    assert_eq!((t.port(2).mux, t.port(2).wait_while), (Mux::Waiting, 20));
    t.ticks(19);
    assert_eq!(t.port(1).mux, Mux::Waiting);
    t.ticks(1);
    assert_eq!((t.port(1).mux, t.port(2).mux), (Mux::Attached, Mux::Attached));
}

#[test]
fn ready_without_a_tick() {
    let mut t = Bench::start(6, 5, 0);
    t.link(4, true);
    t.link(6, true);
    t.rx(4, far(5, 4, 0x05));
    t.ticks(4);
    t.rx(6, far(5, 6, 0x05));
    t.ticks(16);
    assert_eq!((t.port(4).wait_while, t.port(6).wait_while), (0, 4));
    assert_eq!(t.port(4).mux, Mux::Waiting);
    t.rx(6, far(6, 6, 0x05));
    assert_eq!((t.port(4).mux, t.port(6).mux), (Mux::Attached, Mux::Waiting));
}

#[test]
fn passing_states_are_in_range() {
    let mut t = Bench::start(1, 5, 0);
    t.poke(1, |p| (p.periodic, p.receive) = (Periodic::PeriodicTx, Receive::Initialize));
    assert_eq!(t.record(1, 2), (0, vec![0, 3]));
    t.poke(1, |p| (p.link, p.ntt) = (true, false));
    t.ticks(1);
    let p = t.port(1);
    assert_eq!((p.receive, p.periodic, p.ntt), (Receive::Expired, Periodic::FastPeriodic, false));
}

#[test]
fn ages_are_ranged() {
    let mut t = Bench::start(1, 5, 0);
    for at in [14, 15, 16] {
        for (age, answer) in [(0, 0), (9, 0), (10, 0), (11, 1), (12, 1), (254, 1), (255, 0)] {
            t.memory[11 + at] = age;
            assert_eq!(t.record(1, RECORD).0, answer, "{age} in octet {at}");
        }
    }
    for (at, first_wrong) in [(0, 6), (1, 4), (2, 5), (3, 2), (4, 2), (5, 2), (6, 2), (7, 2), (13, 21)] {
        let kept = t.memory[11 + at];
        t.memory[11 + at] = first_wrong;
        assert_eq!(t.call(&Call::Tick), 1, "octet {at}");
        t.memory[11 + at] = kept;
    }
    for (at, highest) in [(9, 900_u16), (11, 300)] {
        t.memory[11 + at..13 + at].copy_from_slice(&(highest + 1).to_be_bytes());
        assert_eq!(t.call(&Call::Tick), 1, "octet {at}");
        t.memory[11 + at..13 + at].copy_from_slice(&highest.to_be_bytes());
    }
    assert_eq!(t.call(&Call::Tick), 0);
}

#[test]
fn inconsistent_tables() {
    let mut t = Bench::start(1, 5, 0);
    t.poke(1, |p| {
        (p.mux, p.receive, p.selected) = (Mux::Distributing, Receive::Current, false);
        (p.default.state, p.ntt) = (State(0x10), false);
    });
    let before = t.memory.clone();
    assert_eq!(t.hand(1, &lacpdu()), 5);
    assert_eq!(t.hand(1, &marker(1)), 0);
    assert_eq!(t.fetch(1), 10);
    t.line(1, false, true);
    assert_eq!(t.memory, before);
    assert_eq!(t.settings(1, Set { default: t.port(1).default, ..set(5, 0) }), 4);
    t.poke(1, |p| (p.link, p.current_while, p.selected) = (true, 0, true));
    t.ticks(1);
    assert_eq!((t.port(1).receive, t.port(1).mux), (Receive::Expired, Mux::Attached));
}

#[test]
fn selected_and_detached_goes_to_waiting() {
    let mut t = Bench::start(1, 5, 0);
    t.poke(1, |p| (p.mux, p.selected, p.wait_while) = (Mux::Detached, true, 0));
    t.ticks(1);
    assert_eq!((t.port(1).mux, t.port(1).wait_while), (Mux::Waiting, 20));
}

#[test]
fn displaced() {
    let mut t = Bench::start(3, 5, 0x07);
    t.ticks(20);
    t.link(1, true);
    let before = t.memory.clone();
    assert_eq!(t.rx_both(2, Block::default(), Block::default()), 5);
    assert_eq!(t.memory, before);
    t.rx_both(1, Block { system_priority: 77, ..Block::default() }, Block::default());
    for n in [2, 3] {
        assert_eq!((t.port(n).mux, t.port(n).wait_while), (Mux::Waiting, 20));
    }
    let mut t = Bench::start(3, 5, 0x07);
    t.ticks(20);
    t.link(1, true);
    t.rx(1, Block { port: 1, state: State(0x07), ..Block::default() });
    assert_eq!((t.port(1).mux, t.port(2).mux, t.port(3).mux), (Mux::Waiting, Mux::Attached, Mux::Attached));
}

#[test]
fn loopback_and_zeros() {
    let mut t = Bench { memory: vec![0; model::table_size(2) as usize] };
    for default_state in [0, 0x04] {
        let mut settings = SettingsArguments { activity: true, timeout: true, aggregation: true, ..Default::default() };
        settings.partner[14] = default_state;
        let start = Call::Start { ports: 2, system_priority: 0, system: [0; 6], collector_max_delay: 0, settings };
        assert_eq!(t.call(&start), 0);
        assert_eq!(t.held(), [1, 2]);
    }
    assert_eq!(Bench::start(3, 5, 0x04).held(), [1, 1, 1]);
    let mut t = Bench::start(2, 5, 0);
    for n in [1, 2] {
        t.link(n, true);
        t.rx(n, far(9, 3 - n as u16, 0x3D));
    }
    assert_eq!(t.held(), [1, 2]);
    let mut actor = far(9, 1, 0x3D);
    actor.system_priority = 2;
    t.rx(1, actor);
    t.rx(2, actor);
    assert_eq!(t.held(), [1, 1]);
}

#[test]
fn settings() {
    for (changed, wait) in [
        (Set { key: 2, ..set(5, 0) }, true),
        (Set { priority: 2, ..set(5, 0) }, true),
        (set(1, 0), true),
        (Set { address: [0; 6], ..set(5, 0) }, false),
        (set(4, 0), false),
        (set(7, 0), false),
        (set(5, 0x18), false),
    ] {
        let mut t = distributing(5);
        t.poke(1, |p| p.ntt = false);
        assert_eq!(t.settings(1, changed), 0);
        assert!(t.port(1).ntt);
        assert_eq!(t.port(1).mux == Mux::Waiting, wait);
        let before = t.memory.clone();
        assert_eq!(t.settings(1, changed), 0);
        assert_eq!(t.memory, before);
    }
    let mut t = Bench::start(1, 5, 0x05);
    t.link(1, true);
    t.ticks(30);
    t.poke(1, |p| p.ntt = false);
    assert_eq!(t.settings(1, set(5, 0x3D)), 0);
    assert!(t.port(1).ntt);
    t.ticks(400);
    assert_eq!((t.port(1).partner.state.0, t.port(1).mux), (0x05, Mux::Attached));
    t.link(1, false);
    t.link(1, true);
    t.ticks(30);
    assert_eq!((t.port(1).partner.state.0, t.port(1).mux), (0x3D, Mux::Distributing));
}

#[test]
fn unused_timers_hold_zero() {
    let mut t = Bench::start(1, 5, 0);
    t.link(1, true);
    t.rx(1, far(5, 1, 0x3D));
    t.ticks(13);
    t.link(1, false);
    let p = t.port(1);
    assert_eq!((p.current_while, p.periodic_timer, p.mux, p.wait_while), (0, 0, Mux::Waiting, 7));
}

#[test]
fn frame_tests() {
    let mut t = Bench::start(1, 5, 0);
    let frame = lacpdu();
    for length in [0, 5, 6, 13] {
        assert_eq!(t.hand(1, &frame[..length]), 6);
    }
    assert_eq!(t.hand(1, &frame[..14]), 8);
    assert_eq!(t.hand(1, &frame[..123]), 8);
    assert_eq!(t.hand(1, &frame), 5);
    let with = |changes: &[(usize, u8)]| {
        let mut changed = frame;
        changes.iter().for_each(|(at, octet)| changed[*at] = *octet);
        changed
    };
    assert_eq!(t.hand(1, &with(&[(5, 3)])[..14]), 6);
    assert_eq!(t.hand(1, &with(&[(12, 0)])[..14]), 7);
    for (subtype, answer) in [(0, 8), (3, 7), (10, 7), (11, 8), (255, 8)] {
        for length in [15, 18, 60, 124] {
            assert_eq!(t.hand(1, &with(&[(14, subtype)])[..length]), answer);
        }
    }
    for at in [17, 37, 57] {
        assert_eq!(t.hand(1, &with(&[(at, 19)])), 8);
    }
    for at in [15, 16, 36, 56, 72, 73, 123] {
        assert_eq!(t.hand(1, &with(&[(at, 19)])), 5);
    }
    for (kind, answer) in [(0, 8), (1, 9), (2, 12), (3, 8)] {
        assert_eq!(t.hand(1, &marker(kind)), answer);
        assert_eq!(t.hand(1, &marker(kind)[..123]), 8);
        let mut wrong = marker(kind);
        wrong[17] = 15;
        assert_eq!(t.hand(1, &wrong), 8);
    }
}

#[test]
fn order_of_refusals() {
    let mut t = Bench::start(1, 5, 0);
    let mut out = [0xFF; 123];
    let receive = |port| Call::Receive { port, frame: [0; 5][..].into() };
    let said = |outcome: Outcome| (outcome.answer, outcome.sent);
    assert_eq!(said(t.perform(&receive(1), &mut out)), (3, 0));
    assert_eq!(said(t.perform(&receive(0), &mut out)), (2, 0));
    t.memory.push(0);
    assert_eq!(said(t.perform(&receive(0), &mut out)), (1, 0));
    assert_eq!(t.perform(&Call::Fetch { port: 0 }, &mut out).answer, 1);
    t.memory.pop();
    assert_eq!(t.perform(&Call::Fetch { port: 0 }, &mut out).answer, 2);
    assert_eq!(t.perform(&Call::Fetch { port: 1 }, &mut out).answer, 3);
    assert_eq!((t.settings(2, set(5, 0x10)), t.settings(1, set(5, 0x10))), (2, 4));
    assert_eq!((t.restart(33, set(5, 0x08)), t.restart(1, set(5, 0x08))), (1, 4));
    assert_eq!(out, [0xFF; 123]);
}

#[test]
fn marker_on_an_lacp_off_port() {
    let mut t = Bench::start(1, 5, 0x3C);
    t.duplex(1, false);
    t.link(1, true);
    t.ticks(20);
    assert_eq!((t.port(1).mux, t.port(1).actor_state.0), (Mux::Distributing, 0x7D));
    assert_eq!(t.hand(1, &marker(1)), 0);
    t.link(1, false);
    assert_eq!(t.hand(1, &marker(1)), 9);
}

#[test]
fn three_sends_bar_a_fourth() {
    let mut t = distributing(5);
    for key in [2, 3, 4, 5] {
        assert_eq!(t.settings(1, Set { key, ..set(5, 0) }), 0);
        assert_eq!(t.fetch(1), if key < 5 { 0 } else { 11 });
    }
    t.poke(1, |p| p.ntt = false);
    assert_eq!(t.fetch(1), 10);
    t.link(1, false);
    t.link(1, true);
    t.ticks(10);
    t.poke(1, |p| p.ntt = true);
    assert_eq!(t.fetch(1), 11);
    t.ticks(1);
    assert_eq!(t.fetch(1), 0);
}

#[test]
fn a_fourth_send_waits_for_eleven_ticks_after_the_first() {
    let mut t = Bench::start(1, 5, 0);
    t.link(1, true);
    assert_eq!(t.fetch(1), 0);
    t.ticks(1);
    for changed in [set(7, 0), set(5, 0)] {
        assert_eq!((t.fetch(1), t.settings(1, changed)), (10, 0));
        assert_eq!(t.fetch(1), 0);
        t.ticks(1);
    }
    assert_eq!(t.port(1).ages, [Some(1), Some(2), Some(3)]);
    assert_eq!(t.settings(1, Set { address: [0; 6], ..set(5, 0) }), 0);
    for after_the_first in 3..=10 {
        assert_eq!(t.port(1).ages[2], Some(after_the_first));
        assert_eq!(t.fetch(1), 11);
        t.ticks(1);
    }
    assert_eq!(t.port(1).ages, [Some(9), Some(10), None]);
    assert_eq!(t.fetch(1), 0);
    assert_eq!(t.settings(1, set(5, 0)), 0);
    assert_eq!(t.fetch(1), 11);
    t.ticks(1);
    assert_eq!(t.port(1).ages, [Some(1), Some(10), None]);
    assert_eq!(t.fetch(1), 0);
}

#[test]
fn distributing_sets_no_ntt() {
    let mut t = distributing(5);
    t.rx(1, far(5, 1, 0x0D));
    assert_eq!(t.port(1).mux, Mux::Collecting);
    t.poke(1, |p| p.ntt = false);
    t.rx(1, far(5, 1, 0x1D));
    assert_eq!((t.port(1).mux, t.port(1).ntt), (Mux::Distributing, false));
    t.rx(1, far(5, 1, 0x0D));
    assert_eq!((t.port(1).mux, t.port(1).ntt), (Mux::Collecting, true));
}

#[test]
fn memory_size_is_exact() {
    let t = Bench::start(2, 5, 0);
    for length in (0..t.memory.len()).chain([t.memory.len() + 1]) {
        let mut other = Bench { memory: t.memory.clone() };
        other.memory.resize(length, 0);
        assert_eq!(other.call(&Call::Tick), 1);
        assert_eq!(other.record(1, RECORD), (1, vec![0; RECORD]));
    }
}

#[test]
fn a_record_goes_as_far_as_it_fits() {
    let mut t = Bench::start(2, 5, 0x1D);
    t.link(2, true);
    let mut no_table = Bench { memory: t.memory.clone() };
    no_table.memory[0] = 3;
    for lent in 0..=90 {
        let holds = |octets: &[u8]| {
            let mut holds = vec![0xEE; lent];
            holds.iter_mut().zip(octets).for_each(|(to, from)| *to = *from);
            holds
        };
        assert_eq!(t.record(2, lent), (0, holds(&t.octets(2))));
        assert_eq!(t.record(3, lent), (2, holds(&[0; RECORD])));
        assert_eq!(no_table.record(2, lent), (1, holds(&[0; RECORD])));
    }
}

#[test]
fn aggregator_report() {
    let report = |t: &Bench, n| {
        let outcome = t.report(Report::Aggregator { aggregator: n });
        (outcome.answer, outcome.aggregator)
    };
    let mut t = Bench::start(32, 7, 0x04);
    assert_eq!(report(&t, 1), (0, [u32::MAX, 0, 0, 0, 0]));
    assert_eq!(report(&t, 2), (0, [0; 5]));
    assert_eq!(report(&t, 33), (2, [0; 5]));
    for n in [31, 32] {
        t.link(n, true);
        t.rx(n, far(5, n as u16, 0x3F));
    }
    t.ticks(20);
    assert_eq!(report(&t, 31), (0, [3 << 30, 3 << 30, 3 << 30, 2, 31]));
    t.link(31, false);
    assert_eq!(report(&t, 31), (0, [3 << 30, 3 << 30, 1 << 31, 1, 32]));
    let mut memory = t.memory.clone();
    memory[0] = 31;
    t.memory = memory;
    assert_eq!(report(&t, 31), (1, [0; 5]));
}

#[test]
fn due_is_what_a_fetch_would_send() {
    let mut t = Bench::start(3, 5, 0);
    assert!((1..=3).all(|n| t.port(n).ntt));
    assert_eq!(t.due(), 0);
    for n in [1, 3] {
        t.link(n, true);
    }
    assert_eq!(t.due(), 0b101);
    assert_eq!((t.fetch(1), t.due()), (0, 0b100));
    t.duplex(3, false);
    assert_eq!(t.due(), 0);
    t.poke(3, |p| p.ntt = true);
    assert_eq!((t.due(), t.fetch(3)), (0, 10));
    for key in [2, 3, 4] {
        assert_eq!(t.settings(1, Set { key, ..set(5, 0) }), 0);
        assert_eq!((t.due(), t.fetch(1)), if key < 4 { (1, 0) } else { (0, 11) });
    }
    t.ticks(10);
    assert_eq!((t.due(), t.fetch(1)), (0, 11));
    t.ticks(1);
    assert_eq!((t.due(), t.fetch(1), t.due()), (1, 0, 0));
}

#[test]
fn due_counts_sends_wherever_they_stand() {
    let mut t = Bench::start(32, 5, 0);
    t.link(32, true);
    for ages in 0..8_u8 {
        t.poke(32, |p| p.ages = [1, 2, 4].map(|bit| (ages & bit != 0).then_some(bit)));
        assert_eq!(t.due(), u32::from(ages != 7) << 31);
    }
}

#[test]
fn nothing_is_due_beside_a_refusal() {
    let mut t = Bench::start(2, 5, 0);
    t.link(1, true);
    assert_eq!(t.due(), 1);
    let refused = |memory: Vec<u8>| {
        let outcome = Bench { memory }.report(Report::Due);
        assert_eq!((outcome.answer, outcome.due), (1, 0));
    };
    for length in (0..t.memory.len()).chain([t.memory.len() + 1]) {
        let mut memory = t.memory.clone();
        memory.resize(length, 0);
        refused(memory);
    }
    let mut memory = t.memory.clone();
    memory[11 + 57 + 14] = 11;
    refused(memory);
}

#[test]
fn the_lent_blocks_stay() {
    let mut t = Bench::start(1, 5, 0x1D);
    t.link(1, true);
    assert_eq!((t.port(1).default.state.0, t.port(1).partner.state.0), (0x1D, 0x17));
    let mut out = [0; FRAME];
    assert_eq!(t.perform(&Call::Fetch { port: 1 }, &mut out).answer, 0);
    assert_eq!(out[52], 0x17);
}
