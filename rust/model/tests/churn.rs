//! Churn detection (43.4.17, request M-105): links that never settle, and a telling test for each place where a machine goes wrong
//! easily.

mod common;

use calls::{Call, Report};
use common::{any_call, far, lacpdu, marker, numbers, set, Bench, Set};
use model::churn::{Churn, ChurnState, Monitor};
use model::record::{Mux, Port, Receive, RECORD};
use model::wire::State;
use ChurnState::{Churn as CHURN, Monitor as MONITOR, NoChurn as NO_CHURN};

fn monitor(state: ChurnState, timer: u16, count: u32) -> Monitor {
    Monitor { state, timer, count }
}

/// One port whose link is up.
fn up(bits: u8, default_state: u8) -> Bench {
    let mut t = Bench::start(1, bits, default_state);
    t.link(1, true);
    t
}

/// So many ticks, in every tenth of which the partner at port 1 is heard in that state, which is not in sync.
fn hearing(t: &mut Bench, ticks: u32, state: u8) {
    for _ in 0..ticks / 10 {
        t.rx(1, far(5, 1, state));
        t.ticks(10);
    }
}

/// The partner's machine is in CHURN for the first time, the actor's came to rest long ago.
fn churning() -> Bench {
    let mut t = up(5, 0);
    t.ticks(600);
    assert_eq!(t.port(1).churn, Churn { actor: monitor(NO_CHURN, 0, 0), partner: monitor(CHURN, 0, 1) });
    t
}

#[test]
fn a_partner_never_in_sync_churns_at_the_six_hundredth_tick() {
    let nobody = |t: &mut Bench, ticks| t.ticks(ticks);
    let out_of_sync = |t: &mut Bench, ticks| hearing(t, ticks, 0x07);
    for live_on in [nobody as fn(&mut Bench, u32), out_of_sync] {
        let mut t = up(5, 0);
        live_on(&mut t, 10);
        t.ticks(9);
        let both = t.port(1).churn;
        assert_eq!((both.actor, both.partner), (monitor(MONITOR, 581, 0), monitor(MONITOR, 581, 0)));
        t.ticks(1);
        assert_eq!((t.port(1).mux, t.port(1).churn.actor), (Mux::Attached, monitor(NO_CHURN, 0, 0)));
        live_on(&mut t, 570);
        t.ticks(9);
        assert_eq!(t.port(1).churn.partner, monitor(MONITOR, 1, 0));
        t.ticks(1);
        assert_eq!(t.port(1).churn.partner, monitor(CHURN, 0, 1));
        live_on(&mut t, 700);
        assert_eq!(t.port(1).churn, Churn { actor: monitor(NO_CHURN, 0, 0), partner: monitor(CHURN, 0, 1) });
    }
}

#[test]
fn the_monitor_begins_when_the_link_comes_up() {
    let mut t = Bench::start(1, 5, 0);
    let begun = monitor(MONITOR, 600, 0);
    assert_eq!(t.port(1).churn, Churn { actor: begun, partner: begun });
    t.ticks(1000);
    assert!(t.port(1).actor_state.has(State::SYNCHRONIZATION));
    assert_eq!(t.port(1).churn, Churn { actor: begun, partner: begun });
    t.link(1, true);
    assert_eq!(t.port(1).churn, Churn { actor: monitor(NO_CHURN, 0, 0), partner: begun });
    t.ticks(599);
    assert_eq!(t.port(1).churn.partner, monitor(MONITOR, 1, 0));
    t.ticks(1);
    assert_eq!(t.port(1).churn.partner, monitor(CHURN, 0, 1));
}

#[test]
fn the_link_falls_in_churn() {
    let mut t = churning();
    t.link(1, false);
    let fallen = Churn { actor: monitor(MONITOR, 600, 0), partner: monitor(MONITOR, 600, 1) };
    assert_eq!(t.port(1).churn, fallen);
    t.ticks(700);
    assert_eq!(t.port(1).churn, fallen);
    t.link(1, true);
    assert_eq!(t.port(1).churn, Churn { actor: monitor(NO_CHURN, 0, 0), ..fallen });
    t.ticks(599);
    assert_eq!(t.port(1).churn.partner, monitor(MONITOR, 1, 1));
    t.ticks(1);
    assert_eq!(t.port(1).churn.partner, monitor(CHURN, 0, 2));
}

#[test]
fn the_partner_in_sync_at_the_very_tick_of_expiry() {
    for (default_state, partner) in [(0x3F, monitor(NO_CHURN, 0, 0)), (0x07, monitor(CHURN, 0, 1))] {
        let mut t = Bench::start_with(1, Set { default: far(5, 1, default_state), ..set(7, 0) });
        t.link(1, true);
        hearing(&mut t, 540, 0x07);
        t.rx(1, far(5, 1, 0x07));
        t.ticks(59);
        assert_eq!((t.port(1).receive, t.port(1).churn.partner), (Receive::Expired, monitor(MONITOR, 1, 0)));
        t.ticks(1);
        assert_eq!((t.port(1).receive, t.port(1).churn.partner), (Receive::Defaulted, partner));
    }
}

#[test]
fn the_actor_in_sync_at_the_very_tick_of_expiry() {
    for restless in [580, 590] {
        let mut t = up(5, 0);
        for tenth in 0..=restless / 10 {
            t.rx(1, far(5, 1 + tenth as u16 % 2, 0x07));
            t.ticks(if tenth < restless / 10 { 10 } else { 599 - restless });
        }
        assert_eq!((t.port(1).mux, t.port(1).churn.actor), (Mux::Waiting, monitor(MONITOR, 1, 0)));
        t.ticks(1);
        if restless == 580 {
            assert_eq!((t.port(1).mux, t.port(1).churn.actor), (Mux::Attached, monitor(NO_CHURN, 0, 0)));
        } else {
            assert_eq!((t.port(1).mux, t.port(1).churn.actor), (Mux::Waiting, monitor(CHURN, 0, 1)));
            t.ticks(10);
            assert_eq!((t.port(1).mux, t.port(1).churn.actor), (Mux::Attached, monitor(NO_CHURN, 0, 1)));
        }
    }
}

#[test]
fn synchronization_ends_churn_and_its_loss_begins_a_monitor() {
    let mut t = churning();
    t.rx(1, far(5, 1, 0x0D));
    assert_eq!(t.port(1).churn, Churn { actor: monitor(MONITOR, 600, 0), partner: monitor(NO_CHURN, 0, 1) });
    t.ticks(20);
    assert_eq!(t.port(1).churn.actor, monitor(NO_CHURN, 0, 0));
    t.rx(1, far(5, 1, 0x05));
    assert_eq!(t.port(1).churn, Churn { actor: monitor(NO_CHURN, 0, 0), partner: monitor(MONITOR, 600, 1) });
    t.ticks(3);
    t.rx(1, far(5, 1, 0x05));
    assert_eq!(t.port(1).churn.partner, monitor(MONITOR, 597, 1));
    t.rx(1, far(5, 1, 0x0D));
    assert_eq!(t.port(1).churn.partner, monitor(NO_CHURN, 0, 1));
}

#[test]
fn half_duplex_is_not_disabled() {
    let mut t = Bench::start(1, 5, 0);
    t.line(1, true, false);
    assert_eq!(t.port(1).receive, Receive::LacpDisabled);
    t.ticks(600);
    assert_eq!(t.port(1).churn, Churn { actor: monitor(NO_CHURN, 0, 0), partner: monitor(CHURN, 0, 1) });
    t.line(1, false, false);
    assert_eq!(t.port(1).churn.partner, monitor(MONITOR, 600, 1));
    let mut t = Bench::start(1, 5, 0x3C);
    t.line(1, true, false);
    assert_eq!(t.port(1).churn, Churn { actor: monitor(MONITOR, 600, 0), partner: monitor(NO_CHURN, 0, 0) });
}

#[test]
fn a_change_of_duplex_restarts_nothing() {
    let mut t = up(5, 0);
    t.ticks(100);
    for (full, timer) in [(false, 500), (true, 400), (false, 300)] {
        t.duplex(1, full);
        assert_eq!(t.port(1).churn.partner, monitor(MONITOR, timer, 0));
        t.ticks(100);
    }
    t.ticks(200);
    for full in [true, false, true] {
        assert_eq!(t.port(1).churn.partner, monitor(CHURN, 0, 1));
        t.duplex(1, full);
    }
    let mut t = up(5, 0);
    t.rx(1, far(5, 1, 0x3D));
    t.ticks(50);
    t.duplex(1, false);
    let began_to_wait = Churn { actor: monitor(MONITOR, 600, 0), partner: monitor(MONITOR, 600, 0) };
    assert_eq!((t.port(1).mux, t.port(1).churn), (Mux::Waiting, began_to_wait));
}

#[test]
fn a_bystander_is_watched_in_the_same_call() {
    let mut t = Bench::start(2, 5, 0);
    for n in [1, 2] {
        t.link(n, true);
    }
    t.rx(2, far(5, 2, 0x3D));
    t.ticks(50);
    assert_eq!((t.held(), t.port(2).churn.actor), (vec![1, 2], monitor(NO_CHURN, 0, 0)));
    t.rx(1, far(5, 1, 0x3D));
    assert_eq!((t.held(), t.port(2).churn.actor), (vec![1, 1], monitor(MONITOR, 600, 0)));
    assert_eq!(t.port(2).churn.partner, monitor(NO_CHURN, 0, 0));
}

#[test]
fn a_displaced_port_keeps_its_counts() {
    let mut t = Bench::start(2, 5, 0);
    for n in [1, 2] {
        t.link(n, true);
    }
    t.rx(1, far(5, 1, 0x05));
    t.ticks(600);
    t.link(1, false);
    let fallen = Churn { actor: monitor(MONITOR, 600, 0), partner: monitor(MONITOR, 600, 1) };
    assert_eq!((t.port(1).partner.port, t.port(1).churn), (1, fallen));
    t.rx(2, far(5, 1, 0x05));
    assert_eq!((t.port(1).partner.port, t.port(1).churn), (0, fallen));
}

#[test]
fn a_start_forgets_counts() {
    let mut t = churning();
    assert_eq!(t.restart(1, set(5, 0)), 0);
    assert_eq!(t.port(1).churn, Churn { actor: monitor(MONITOR, 600, 0), partner: monitor(MONITOR, 600, 0) });
    assert_eq!(t.memory, Bench::start(1, 5, 0).memory);
}

#[test]
fn counts_have_32_bits() {
    for (count, after) in [(0xFF, 0x100), (0xFFFF, 0x1_0000), (0x1234_5678, 0x1234_5679), (u32::MAX, 0)] {
        let mut t = up(5, 0);
        let about_to = monitor(MONITOR, 1, count);
        t.poke(1, |p| p.churn = Churn { actor: about_to, partner: about_to });
        t.ticks(1);
        assert_eq!(t.port(1).churn, Churn { actor: monitor(CHURN, 0, after), partner: monitor(CHURN, 0, after) });
        assert_eq!(t.record(1, RECORD).1[63..71], [after.to_be_bytes(), after.to_be_bytes()].concat());
    }
}

/// What a machine comes to, in words of the figure: from where it stands, with the link up or down, in sync or not.
fn comes_to(before: Monitor, link: bool, in_sync: bool) -> Monitor {
    match (link, before.state, in_sync, before.timer) {
        (false, _, _, _) => monitor(MONITOR, 600, before.count),
        (true, NO_CHURN, true, _) => before,
        (true, NO_CHURN, false, _) => monitor(MONITOR, 600, before.count),
        (true, MONITOR | CHURN, true, _) => monitor(NO_CHURN, 0, before.count),
        (true, MONITOR, false, 0) => monitor(CHURN, 0, before.count + 1),
        (true, MONITOR | CHURN, false, _) => before,
    }
}

/// One port of a table at rest, its link up or down, attached or waiting, its partner in sync or not, with any churn.
fn any_memory(mut each: impl FnMut(&mut Bench, &Port)) {
    let choices = |bits: u8| [1, 2, 4].map(|bit| bits & bit != 0);
    let monitors = [NO_CHURN, MONITOR, CHURN]
        .into_iter()
        .flat_map(|state| [(0, 0), (1, 7), (17, 65_535), (600, 1)].map(|(timer, count)| monitor(state, timer, count)));
    for (link, attached, partner_in_sync) in (0..8).map(choices).map(|[one, two, three]| (one, two, three)) {
        for (actor, partner) in monitors.clone().flat_map(|one| monitors.clone().map(move |other| (one, other))) {
            let mut t = Bench::start(1, 5, if partner_in_sync { 0x3C } else { 0 });
            t.line(1, link, false);
            if attached {
                t.ticks(20);
            }
            t.poke(1, |p| {
                p.partner.state.put(State::SYNCHRONIZATION, partner_in_sync && link);
                p.churn = Churn { actor, partner };
            });
            let port = t.port(1);
            assert_eq!(port.actor_state.has(State::SYNCHRONIZATION), attached);
            each(&mut t, &port);
        }
    }
}

#[test]
fn every_step_of_both_machines() {
    any_memory(|t, before| {
        let ends = |p: &Port| [p.actor_state, p.partner.state].map(|state| state.has(State::SYNCHRONIZATION));
        let come_to = |churn: Churn, p: &Port| {
            let [ours, theirs] = ends(p);
            Churn { actor: comes_to(churn.actor, p.link, ours), partner: comes_to(churn.partner, p.link, theirs) }
        };
        let kept = t.memory.clone();
        assert_eq!(t.settings(1, Set { address: [0; 6], default: before.default, ..set(5, 0) }), 0);
        assert_eq!((ends(&t.port(1)), t.port(1).churn), (ends(before), come_to(before.churn, before)));
        t.memory = kept;
        t.ticks(1);
        let fallen = |one: Monitor| Monitor { timer: one.timer.saturating_sub(1), ..one };
        let ticked = Churn { actor: fallen(before.churn.actor), partner: fallen(before.churn.partner) };
        assert_eq!(t.port(1).churn, come_to(ticked, &t.port(1)));
    });
}

#[test]
fn churn_follows_from_ticks_starts_link_and_synchronization_alone() {
    let mut below = numbers();
    let (mut t, mut counted) = (Bench::start(3, 7, 0), [0, 0]);
    for round in 0..24 {
        let (calls, ticks_between) = [(200, 0), (80, 4), (2, 620), (40, 16)][round % 4];
        for step in 0..calls * (ticks_between + 1) {
            let before = t.table();
            let (ticked, started) = match step % (ticks_between + 1) {
                0 if round % 4 == 3 => {
                    t.rx_both(1, far(5, step as u16 % 2, 0x0F), far(9, 1, 0));
                    (false, false)
                }
                0 => any_call(&mut t, &mut below),
                _ => (t.call(&Call::Tick) == 0, false),
            };
            for (old, new) in before.ports.iter().zip(t.table().ports) {
                let follows = |one: Monitor, state: State| {
                    let one = if started { monitor(MONITOR, 600, 0) } else { one };
                    let one = if ticked { Monitor { timer: one.timer.saturating_sub(1), ..one } } else { one };
                    comes_to(one, new.link, state.has(State::SYNCHRONIZATION))
                };
                let actor = follows(old.churn.actor, new.actor_state);
                let partner = follows(old.churn.partner, new.partner.state);
                assert_eq!(new.churn, Churn { actor, partner });
                counted[0] += u32::from(actor.count > old.churn.actor.count);
                counted[1] += u32::from(partner.count > old.churn.partner.count);
            }
        }
    }
    assert!(counted[0].min(counted[1]) > 0, "{counted:?}");
}

#[test]
fn where_nothing_changes_the_machines_stand_still() {
    any_memory(|t, before| {
        let kept = t.memory.clone();
        t.line(1, before.link, before.full_duplex);
        assert_eq!(t.settings(1, Set { default: before.default, ..set(5, 0) }), 0);
        assert_eq!(t.hand(1, &lacpdu()), 5);
        t.hand(1, &marker(1));
        assert_eq!((t.fetch(1), t.record(1, RECORD).0), (10, 0));
        assert_eq!((t.report(Report::Aggregator { aggregator: 1 }).answer, t.due()), (0, 0));
        assert_eq!((t.restart(2, set(5, 0)), t.settings(1, set(5, 0x10))), (1, 4));
        assert_eq!(t.memory, kept);
    });
    let mut t = up(5, 0);
    let odd = Churn { actor: monitor(NO_CHURN, 17, 3), partner: monitor(CHURN, 17, 3) };
    t.poke(1, |p| p.churn = odd);
    assert_eq!((t.fetch(1), t.port(1).churn), (0, odd));
}

#[test]
fn churn_is_ranged() {
    let t = Bench::start(2, 5, 0);
    let answer = |at: usize, octets: &[u8]| {
        let mut other = Bench { memory: t.memory.clone() };
        other.memory[at..at + octets.len()].copy_from_slice(octets);
        let answers = [other.record(1, RECORD).0, other.report(Report::Due).answer, other.call(&Call::Tick)];
        assert!(answers == [0; 3] || answers == [1; 3]);
        answers[0]
    };
    for group in [11 + 57 * 2, 11 + 57 * 2 + 14] {
        for at in [0, 1] {
            (0..=255).for_each(|state| assert_eq!(answer(group + at, &[state]), u32::from(state > 2)));
        }
        for at in [2, 4] {
            for ticks in [0, 1, 255, 256, 599, 600, 601, 767, 768, 0x8000, 0xFFFF] {
                assert_eq!(answer(group + at, &u16::to_be_bytes(ticks)), u32::from(ticks > 600), "{ticks}");
            }
        }
        for at in [6, 10] {
            for count in [0, 1, 0xFFFF, 0x8000_0000, u32::MAX] {
                assert_eq!(answer(group + at, &u32::to_be_bytes(count)), 0);
            }
        }
    }
}

#[test]
fn a_group_as_laid_out() {
    let mut t = Bench::start(2, 5, 0);
    let churn = Churn { actor: monitor(CHURN, 0x0102, 0x0304_0506), partner: monitor(NO_CHURN, 0x0203, 0x0708_090A) };
    t.poke(2, |p| p.churn = churn);
    let octets = [2, 0, 1, 2, 2, 3, 3, 4, 5, 6, 7, 8, 9, 10];
    assert_eq!((t.memory.len(), &t.memory[11 + 57 * 2 + 14..][..14]), (11 + 78 * 2, &octets[..]));
    let (answer, record) = t.record(2, RECORD);
    assert_eq!((answer, &record[..57], &record[57..71]), (0, &t.memory[11 + 57..][..57], &octets[..]));
}

#[test]
fn a_table_without_monitors_is_no_table() {
    let mut t = Bench::start(2, 5, 0);
    t.memory.drain(11 + 57 * 2..11 + 71 * 2);
    assert_eq!((t.call(&Call::Tick), t.record(1, RECORD)), (1, (1, vec![0; RECORD])));
}
