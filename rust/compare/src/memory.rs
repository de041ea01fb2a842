//! Any memory for a table.

use crate::random::Random;
use crate::world::{self, ASKED, ASKED_AT, BASE, CHURN, HEADER, OLD_RECORD, RECORD};

/// The fields of a record by name, place and length; and what each may hold, if that is less than its octets can.
pub const FIELDS: [(&str, usize, usize, Option<u32>); 35] = [
    ("receive state", 0, 1, Some(5)),
    ("periodic state", 1, 1, Some(3)),
    ("mux state", 2, 1, Some(4)),
    ("Selected", 3, 1, Some(1)),
    ("aggregator held", 4, 1, Some(0)),
    ("NTT", 5, 1, Some(1)),
    ("link", 6, 1, Some(1)),
    ("duplex", 7, 1, Some(1)),
    ("actor state", 8, 1, None),
    ("current-while timer", 9, 2, Some(900)),
    ("periodic timer", 11, 2, Some(300)),
    ("wait timer", 13, 1, Some(20)),
    ("ages of sends", 14, 3, Some(10)),
    ("own address", 17, 6, None),
    ("key", 23, 2, None),
    ("port priority", 25, 2, None),
    ("default system priority", 27, 2, None),
    ("default system", 29, 6, None),
    ("default key", 35, 2, None),
    ("default port priority and port", 37, 4, None),
    ("default state", 41, 1, None),
    ("partner system priority", 42, 2, None),
    ("partner system", 44, 6, None),
    ("partner key", 50, 2, None),
    ("partner port priority and port", 52, 4, None),
    ("partner state", 56, 1, None),
    ("actor's churn state", 57, 1, Some(2)),
    ("partner's churn state", 58, 1, Some(2)),
    ("actor's churn timer", 59, 2, Some(600)),
    ("partner's churn timer", 61, 2, Some(600)),
    ("actor's churn count", 63, 4, None),
    ("partner's churn count", 67, 4, None),
    ("outcome of the last Marker", 71, 1, Some(4)),
    ("timer of the last Marker", 72, 2, Some(600)),
    ("number of the next Marker", 74, 4, None),
];

/// The octets of a field of a port, from 0, in a table of that many ports, if it has such.
fn field(table: &mut [u8], count: u32, port: u32, at: usize, length: usize) -> Option<&mut [u8]> {
    let place = world::field(table.len(), count as usize, port as usize, at, length)?;
    table.get_mut(place)
}

/// What should come after a change.
#[derive(Clone, Copy, Debug, PartialEq, Eq)]
pub enum Next {
    /// Anything.
    Any,
    /// A tick.
    Tick,
    /// Why each port carries or does not.
    Whys,
}

/// Changes the table, mostly so that it stays in range.
pub fn change(random: &mut Random, table: &mut Vec<u8>, count: u32) -> Next {
    match random.below(100) {
        0..=11 => change_octets(random, table),
        12..=14 => exceed_field(random, table, count),
        15..=56 => {
            for _ in 0..random.between(1, 6) {
                change_field(random, table, count);
            }
        }
        57..=62 => {
            wait_all(random, table, count);
            return Next::Whys;
        }
        63..=69 => monitor_all(random, table, count),
        70..=75 => ask_all(random, table, count),
        76..=87 => {
            for port in 0..count {
                for field in 0..FIELDS.len() {
                    put_field(random, table, count, port, field);
                }
            }
        }
        88..=91 => table.fill_with(|| random.octet()),
        92..=94 => {
            let groups = some_groups(random, count);
            let length = table.len().saturating_sub(random.of(&[1, 1, 11, ASKED, BASE, RECORD, groups, groups]));
            table.truncate(length);
        }
        95..=96 => {
            let groups = some_groups(random, count);
            table.resize(table.len() + random.of(&[1, 2, ASKED, BASE, RECORD, 1000, groups, groups]), 0);
        }
        97 => {
            if let Some(first) = table.first_mut() {
                *first = random.of(&[0, 33, 255, *first ^ 1, first.wrapping_add(1)]);
            }
        }
        _ => {
            let length = random.below(2400) as usize;
            table.clear();
            table.resize_with(length, || random.octet());
            if let (Some(first), true) = (table.first_mut(), random.flag()) {
                *first = (length.saturating_sub(HEADER) / random.of(&[OLD_RECORD, RECORD])) as u8;
            }
        }
    }
    if random.percent(40) {
        Next::Tick
    } else {
        Next::Any
    }
}

/// Changes the table so that it seldom stays in range.
pub fn damage(random: &mut Random, table: &mut [u8], count: u32) {
    if random.flag() {
        exceed_field(random, table, count);
    } else {
        change_octets(random, table);
    }
}

/// One to five octets anywhere, small values more often.
fn change_octets(random: &mut Random, table: &mut [u8]) {
    for _ in 0..random.between(1, 5) {
        let at = random.place(table.len());
        let octet = match random.below(5) {
            0..=2 => random.below(7) as u8,
            3 => random.octet(),
            _ => random.bit(),
        };
        if let Some(place) = table.get_mut(at) {
            *place = if random.flag() { octet } else { *place ^ octet };
        }
    }
}

/// A field of a port, one above its range: so one of the ages becomes 11.
fn exceed_field(random: &mut Random, table: &mut [u8], count: u32) {
    let (_, at, length, Some(highest)) = FIELDS[ranged(random)] else {
        return;
    };
    let (at, length, highest) = match at {
        4 => (at, length, count),
        14 => (at + random.place(3), 1, highest),
        _ => (at, length, highest),
    };
    if let Some(place) = field(table, count, random.below(count), at, length) {
        place.copy_from_slice(&(highest + 1).to_be_bytes()[4 - length..]);
    }
}

/// The octets of the churn of all ports, of their Markers, or of both.
fn some_groups(random: &mut Random, count: u32) -> usize {
    random.of(&[CHURN, ASKED, CHURN + ASKED]) * count as usize
}

/// The place of a field that may hold less than its octets can.
fn ranged(random: &mut Random) -> usize {
    loop {
        let field = random.place(FIELDS.len());
        if FIELDS[field].3.is_some() {
            return field;
        }
    }
}

/// A field of a port, in range.
fn change_field(random: &mut Random, table: &mut [u8], count: u32) {
    let port = random.below(count);
    let field = if random.percent(60) { ranged(random) } else { random.place(FIELDS.len()) };
    put_field(random, table, count, port, field);
}

/// Every port is watched at both ends, and a watch ends soon; all else stays. So what counts churn is tried on tables that runs make.
fn monitor_all(random: &mut Random, table: &mut [u8], count: u32) {
    for (port, end) in (0..count).flat_map(|port| [(port, 0), (port, 1)]) {
        let mut put = |at: usize, octets: &[u8]| put(table, count, port, at, octets);
        put(BASE + end, &[1]);
        put(BASE + 2 + 2 * end, &u16::to_be_bytes(random.of(&[0, 1, 1, 2, 5, 20, 600])));
        put(BASE + 6 + 4 * end, &any_count(random).to_be_bytes());
    }
}

/// Every port distributes or does not, and awaits a Marker whose waiting time ends soon, or has awaited one; many a number is about to
/// carry.
fn ask_all(random: &mut Random, table: &mut [u8], count: u32) {
    for port in 0..count {
        let mut put = |at: usize, octets: &[u8]| put(table, count, port, at, octets);
        put(2, &[random.of(&[3, 4, 4, 4])]);
        put(ASKED_AT, &[random.of(&[0, 1, 1, 1, 2, 3, 4])]);
        put(ASKED_AT + 1, &u16::to_be_bytes(random.of(&[0, 0, 1, 1, 2, 5, 600])));
        put(ASKED_AT + 3, &any_count(random).to_be_bytes());
    }
}

/// Every port waits for one of few aggregators or does not, with a timer of few values, so that several have the most ticks left; most hear
/// their partner.
fn wait_all(random: &mut Random, table: &mut [u8], count: u32) {
    let timers = random.of(&[[0, 0, 7, 12], [0, 0, 0, 20], [0, 1, 20, 20]]);
    for port in 0..count {
        let mut put = |at: usize, octets: &[u8]| put(table, count, port, at, octets);
        put(0, &[random.of(&[5, 5, 5, 5, 2, 4])]);
        put(2, &[random.of(&[1, 1, 1, 1, 2, 3])]);
        put(4, &[random.between(1, count.min(2)) as u8]);
        put(6, &[u8::from(random.percent(90)), u8::from(random.percent(90))]);
        put(13, &[random.of(&timers)]);
    }
}

/// A field of a port holds these octets, if the table has such a field.
fn put(table: &mut [u8], count: u32, port: u32, at: usize, octets: &[u8]) {
    if let Some(place) = field(table, count, port, at, octets.len()) {
        place.copy_from_slice(octets);
    }
}

/// A count of 32 bits, often one that carries.
pub fn any_count(random: &mut Random) -> u32 {
    let any = random.bits() as u32;
    random.of(&[0, 1, 0xFF, 0xFFFF, 0x00FF_FFFF, u32::MAX, u32::MAX, any])
}

fn put_field(random: &mut Random, table: &mut [u8], count: u32, port: u32, place: usize) {
    let (_, at, length, highest) = FIELDS[place];
    let Some(place) = field(table, count, port, at, length) else {
        return;
    };
    match (at, highest) {
        (4, _) => place[0] = random.between(1, count) as u8,
        (14, _) => place.fill_with(|| random.of(&[255, 0, 1, 2, 3, 4, 9, 10, 10, 255])),
        (_, Some(highest)) => {
            let any = random.below(highest + 1);
            let number = random.of(&[any, any, 0, 1.min(highest), highest]);
            place.copy_from_slice(&number.to_be_bytes()[4 - length..]);
        }
        (8 | 41 | 56, None) => place[0] = random.octet(),
        (63 | 67 | 74, None) => place.copy_from_slice(&any_count(random).to_be_bytes()),
        (_, None) => {
            place.fill(0);
            place[random.of(&[0, length - 1, length - 1])] = random.of(&[0, 1, 1, 5, 6, 9]);
        }
    }
}
