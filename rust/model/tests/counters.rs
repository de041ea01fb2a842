//! The counters of a port (30.7.3, request M-100), and a telling test for each place where a frame counts wrongly easily.

mod common;

use calls::{Call, Counters};
use common::{any_call, far, lacpdu, marker, numbers, set, Bench};
use model::calls::Refusal;
use model::record::Mux;
use model::wire::{self, Frame, FRAME};

/// What a call adds to each counter, in the order of the record.
type Added = [u32; 7];

const LACPDU: Added = [1, 0, 0, 0, 0, 0, 0];
const MARKER: Added = [0, 1, 0, 0, 0, 0, 0];
const RESPONSE: Added = [0, 0, 1, 0, 0, 0, 0];
const UNKNOWN: Added = [0, 0, 0, 1, 0, 0, 0];
const ILLEGAL: Added = [0, 0, 0, 0, 1, 0, 0];
const LACPDU_SENT: Added = [0, 0, 0, 0, 0, 1, 0];
const MARKER_ANSWERED: Added = [0, 1, 0, 0, 0, 0, 1];
const NOTHING: Added = [0; 7];

/// What stands after a call on these counters that adds so much, each modulo 2^32.
fn sum(before: [u32; 7], added: Added) -> Counters {
    let mut after = before;
    after.iter_mut().zip(added).for_each(|(number, added)| *number = number.wrapping_add(added));
    after.into()
}

/// The answer to a call, with a buffer of so many octets, which adds this to whatever the counters hold. A refused one changes nothing
/// else.
fn adds(t: &mut Bench, call: &Call, octets: usize, added: Added) -> u32 {
    let begun = t.memory.clone();
    let mut answers = Vec::new();
    for before in [[0; 7], [u32::MAX; 7], [0, u32::MAX, 1, 0xFFFF, 0x00FF_FFFF, u32::MAX - 1, 7]] {
        let (mut out, mut counters) = (vec![0xEE; octets], Counters::from(before));
        t.memory.clone_from(&begun);
        let outcome = t.counting(call, &mut out, &mut counters);
        assert_eq!(counters, sum(before, added), "answer {}", outcome.answer);
        assert!(outcome.answer == 0 || (&t.memory, out) == (&begun, vec![0xEE; octets]));
        answers.push(outcome.answer);
    }
    assert!(answers.iter().all(|answer| *answer == answers[0]), "{answers:?}");
    answers[0]
}

fn receive(port: u32, frame: &[u8]) -> Call<'_> {
    Call::Receive { port, frame: frame.into() }
}

/// The answer to a frame on that port, which adds this.
fn frame_adds(t: &mut Bench, port: u32, frame: &[u8], added: Added) -> u32 {
    adds(t, &receive(port, frame), FRAME, added)
}

/// Three ports: the first distributes, the second waits, the third has no link.
fn three() -> Bench {
    let mut t = Bench::start(3, 7, 0);
    t.link(1, true);
    t.rx(1, far(5, 1, 0x3F));
    t.ticks(20);
    t.link(2, true);
    t.rx(2, far(6, 1, 0x3F));
    assert_eq!([1, 2, 3].map(|n| t.port(n).mux), [Mux::Distributing, Mux::Waiting, Mux::Attached]);
    t
}

#[test]
fn a_marker_where_the_port_collects_and_one_where_it_waits() {
    let mut t = three();
    let mut counters = Counters::default();
    for (port, answer) in [(1, 0), (2, 9)] {
        assert_eq!(t.counting(&receive(port, &marker(1)), &mut [0; FRAME], &mut counters).answer, answer);
    }
    assert_eq!(counters, Counters { markers_received: 2, marker_responses_sent: 1, ..Counters::default() });
}

#[test]
fn an_accepted_frame_counts_by_its_kind() {
    let mut t = three();
    assert_eq!(frame_adds(&mut t, 1, &lacpdu(), LACPDU), 0);
    assert_eq!(frame_adds(&mut t, 1, &marker(1), MARKER_ANSWERED), 0);
}

#[test]
fn a_refused_frame_counts_by_its_answer() {
    let mut t = three();
    let mut other_type = lacpdu();
    other_type[13] = 0x08;
    let of_subtype = |subtype| {
        let mut frame = lacpdu();
        frame[14] = subtype;
        frame
    };
    for port in [1, 2, 3] {
        assert_eq!(frame_adds(&mut t, port, &marker(2), RESPONSE), 12);
        for frame in [&of_subtype(3)[..], &of_subtype(10), &other_type, &other_type[..14]] {
            assert_eq!(frame_adds(&mut t, port, frame, UNKNOWN), 7);
        }
        for frame in [&of_subtype(0)[..], &of_subtype(11), &lacpdu()[..123], &lacpdu()[..14], &marker(3)] {
            assert_eq!(frame_adds(&mut t, port, frame, ILLEGAL), 8);
        }
    }
    assert_eq!(frame_adds(&mut t, 2, &marker(1), MARKER), 9);
    assert_eq!(frame_adds(&mut t, 3, &marker(1), MARKER), 9);
    assert_eq!(frame_adds(&mut t, 3, &lacpdu(), LACPDU), 5);
    t.duplex(1, false);
    assert_eq!(frame_adds(&mut t, 1, &lacpdu(), LACPDU), 5);
}

#[test]
fn one_two_three_and_six_count_nowhere() {
    let mut t = three();
    let mut unknown = lacpdu();
    unknown[14] = 3;
    let frames = [&lacpdu()[..], &marker(1), &marker(2), &unknown, &lacpdu()[..123]];
    for frame in frames {
        for port in [0, 4, u32::MAX] {
            assert_eq!(frame_adds(&mut t, port, frame, NOTHING), 2);
        }
        for octets in [0, FRAME - 1] {
            assert_eq!(adds(&mut t, &receive(1, frame), octets, NOTHING), 3);
        }
        let mut no_table = Bench { memory: t.memory[1..].to_vec() };
        assert_eq!(frame_adds(&mut no_table, 1, frame, NOTHING), 1);
        // of type 88-09, but to another address: 30.7.3 would count it, the request does not
        let elsewhere = [&[0x02][..], &frame[1..]].concat();
        assert_eq!(frame_adds(&mut t, 1, &elsewhere, NOTHING), 6);
        assert_eq!(frame_adds(&mut t, 1, &frame[..13], NOTHING), 6);
    }
}

#[test]
fn a_fetch_counts_if_it_is_answered_0() {
    let mut t = Bench::start(2, 7, 0);
    let fetch = Call::Fetch { port: 1 };
    assert_eq!(adds(&mut t, &fetch, FRAME, NOTHING), 10);
    t.link(1, true);
    for key in 2..5 {
        assert_eq!(t.settings(1, common::Set { key, ..set(7, 0) }), 0);
        assert_eq!(adds(&mut t, &fetch, FRAME - 1, NOTHING), 3);
        assert_eq!(adds(&mut t, &Call::Fetch { port: 3 }, FRAME, NOTHING), 2);
        assert_eq!(adds(&mut t, &fetch, FRAME, LACPDU_SENT), 0);
        assert_eq!(adds(&mut t, &fetch, FRAME, NOTHING), 10);
    }
    assert_eq!(t.settings(1, set(7, 0)), 0);
    assert_eq!(adds(&mut t, &fetch, FRAME, NOTHING), 11);
    t.memory.pop();
    assert_eq!(adds(&mut t, &fetch, FRAME, NOTHING), 1);
}

#[test]
fn nothing_else_moves_them() {
    let (mut t, mut below) = (three(), numbers());
    let calls = [
        Call::Tick,
        Call::Line { port: 1, up: false, full: true },
        Call::Line { port: 1, up: true, full: true },
        calls::Report::Due.into(),
        calls::Report::Port { port: 1 }.into(),
        calls::Report::Back.into(),
        calls::Report::Version.into(),
    ];
    for call in (0..100).map(|_| &calls[below(calls.len() as u64) as usize]) {
        let mut counters = Counters::from([1, 2, 3, 4, 5, 6, u32::MAX]);
        t.counting(call, &mut [0; FRAME], &mut counters);
        assert_eq!(counters, Counters::from([1, 2, 3, 4, 5, 6, u32::MAX]));
    }
}

/// A frame at random: of either kind or of none, whole or cut.
fn any_frame(below: &mut impl FnMut(u64) -> u64) -> Vec<u8> {
    let mut frame = [lacpdu(), marker(1), marker(2), marker(3)][below(4) as usize].to_vec();
    match below(6) {
        0 => frame[14] = below(12) as u8,
        1 => frame[13] = below(256) as u8,
        2 => frame[5] = below(4) as u8,
        3 => frame.truncate(below(125) as usize),
        _ => {}
    }
    frame
}

/// What is counted is what came (30.7.3): of which kind a frame is, and not what the port makes of it.
#[test]
fn a_frame_counts_as_what_it_is() {
    let (mut t, mut below) = (three(), numbers());
    for step in 0..5000 {
        let (port, frame) = (1 + below(3) as u32, any_frame(&mut below));
        let came = match wire::read(&frame) {
            Ok(Frame::Lacpdu { .. }) => LACPDU,
            Ok(Frame::Marker(_)) => MARKER,
            Ok(Frame::Response(_)) => RESPONSE,
            Err(Refusal::Unknown) => UNKNOWN,
            Err(Refusal::Illegal) => ILLEGAL,
            Err(_) => NOTHING,
        };
        let mut counters = Counters::default();
        t.counting(&receive(port, &frame), &mut [0; FRAME], &mut counters);
        assert_eq!(counters.numbers()[..5], came[..5]);
        if step % 10 == 0 {
            any_call(&mut t, &mut below);
        }
    }
}

/// From zeros on, and from other numbers, through starts too: the five together are the receive calls on that port that were not
/// answered 1, 2, 3 or 6.
#[test]
fn the_five_received_add_up() {
    for begun in [0, u32::MAX - 100] {
        let (mut t, mut below) = (three(), numbers());
        let mut ports = [Counters::from([begun; 7]); 4];
        let (mut heard, mut answered, mut sent) = ([0_u32; 4], [0_u32; 4], [0_u32; 4]);
        for _ in 0..10_000 {
            let port = below(4) as u32;
            let place = port as usize;
            let mut out = vec![0; FRAME - usize::from(below(20) == 0)];
            match below(100) {
                0 => t = three(),
                1..=4 => drop(any_call(&mut t, &mut below)),
                5..=30 => {
                    let outcome = t.counting(&Call::Fetch { port }, &mut out, &mut ports[place]);
                    sent[place] += u32::from(outcome.answer == 0);
                }
                _ => {
                    let frame = any_frame(&mut below);
                    let outcome = t.counting(&receive(port, &frame), &mut out, &mut ports[place]);
                    heard[place] += u32::from(![1, 2, 3, 6].contains(&outcome.answer));
                    answered[place] += u32::from(outcome.sent > 0);
                }
            }
        }
        assert!(
            heard[1..].iter().all(|heard| *heard > 500) && sent[1] > 10 && answered[1] > 10,
            "{sent:?} {answered:?}"
        );
        for (place, port) in ports.iter().enumerate() {
            let [lacpdus, markers, responses, unknown, illegal, lacpdus_sent, responses_sent] =
                port.numbers().map(|number| number.wrapping_sub(begun));
            assert_eq!(lacpdus + markers + responses + unknown + illegal, heard[place]);
            assert_eq!((lacpdus_sent, responses_sent), (sent[place], answered[place]));
        }
    }
}
