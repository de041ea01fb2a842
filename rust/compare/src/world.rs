//! A small universe: our ports, cables, and the far ends that speak over them.

use crate::random::Random;
use calls::{Call, SettingsArguments};
use std::ops::Range;

/// Octets of an information block.
pub const BLOCK: usize = 15;
/// Octets before the first record of a table.
pub const HEADER: usize = 11;
/// Octets of a record up to its partner, which stand together in a table.
pub const BASE: usize = 57;
/// Octets of a record's churn. In a table these groups stand behind the last port's `BASE`.
pub const CHURN: usize = 14;
/// Octets of what a record keeps of its port's Markers. In a table these groups stand behind all else.
pub const ASKED: usize = 7;
/// Octets of a record, as a report gives it.
pub const RECORD: usize = BASE + CHURN + ASKED;
/// The same in a table of the old form, which has no churn.
pub const OLD_RECORD: usize = BASE + ASKED;
/// Octets of a sent frame.
pub const FRAME: usize = 124;

/// Where the group of a port's Markers stands in its record.
pub const ASKED_AT: usize = BASE + CHURN;
/// Octets of what a Marker and its Response say, and where they stand in the frame.
pub const REQUEST: usize = 12;
/// See [`REQUEST`].
pub const REQUEST_AT: usize = 18;
/// The Mux state in which a port is asked for Markers.
const DISTRIBUTING: u8 = 4;

const AGGREGATION: u8 = 0x04;
const SYNCHRONIZATION: u8 = 0x08;
const COLLECTING: u8 = 0x10;

/// A port of another system.
#[derive(Clone, Copy)]
struct FarEnd {
    /// What it says of itself.
    actor: [u8; BLOCK],
    /// What it once heard of us.
    heard: [u8; BLOCK],
}

/// Who there is and how the cables run.
pub struct World {
    /// Our ports.
    pub count: u32,
    system_priority: u16,
    system: [u8; 6],
    collector_max_delay: u16,
    /// The lowest and the highest key.
    keys: (u16, u16),
    far_ends: Vec<FarEnd>,
    /// The far end at each of our ports.
    cables: Vec<usize>,
}

/// An address of few values, so that they meet often; seldom any.
fn small_address(random: &mut Random) -> [u8; 6] {
    let mut address = [0; 6];
    if random.percent(10) {
        address.fill_with(|| random.octet());
    }
    address[random.of(&[0, 5, 5, 5])] = random.of(&[0, 1, 5, 6, 9]);
    address
}

fn block(priority: u16, system: [u8; 6], key: u16, port_priority: u16, port: u16, state: u8) -> [u8; BLOCK] {
    let mut block = [0; BLOCK];
    block[0..2].copy_from_slice(&priority.to_be_bytes());
    block[2..8].copy_from_slice(&system);
    block[8..10].copy_from_slice(&key.to_be_bytes());
    block[10..12].copy_from_slice(&port_priority.to_be_bytes());
    block[12..14].copy_from_slice(&port.to_be_bytes());
    block[14] = state;
    block
}

/// Where a field of the record of a port, both from 0, stands in a table of so many octets and ports; none if they end before it, or
/// the table is of the old form and the field one of churn.
pub fn field(octets: usize, ports: usize, port: usize, at: usize, length: usize) -> Option<Range<usize>> {
    let old = octets == HEADER + OLD_RECORD * ports;
    let start = match at {
        0..BASE => HEADER + BASE * port + at,
        ASKED_AT.. if old => HEADER + BASE * ports + ASKED * port + at - ASKED_AT,
        ASKED_AT.. => HEADER + ASKED_AT * ports + ASKED * port + at - ASKED_AT,
        _ if old => return None,
        _ => HEADER + BASE * ports + CHURN * port + at - BASE,
    };
    Some(start..start + length).filter(|field| field.end <= octets)
}

/// The ports that a table says it has.
pub fn ports_of(table: &[u8]) -> usize {
    table.first().copied().map_or(0, usize::from)
}

/// The octets of a table with the port count of this one: in the old form, without churn, and in the new.
pub fn sizes(table: &[u8]) -> [usize; 2] {
    [OLD_RECORD, RECORD].map(|record| HEADER + record * ports_of(table))
}

/// A part of the record of a port, if there is such a port.
fn part_of(table: &[u8], port: u32, at: usize, length: usize) -> Option<&[u8]> {
    let port = (port as usize).checked_sub(1)?;
    field(table.len(), ports_of(table), port, at, length).and_then(|field| table.get(field))
}

/// The record of a port up to its partner, if there is such a port.
fn base_of(table: &[u8], port: u32) -> Option<&[u8]> {
    part_of(table, port, 0, BASE)
}

/// Whether the link of a port is up and its duplex full, as the table has it; both where there is no such port.
pub fn line_of(table: &[u8], port: u32) -> (bool, bool) {
    base_of(table, port).map_or((true, true), |record| (record[6] == 1, record[7] == 1))
}

/// Whether a port distributes, as the table has it; not where there is no such port.
pub fn distributes(table: &[u8], port: u32) -> bool {
    base_of(table, port).is_some_and(|record| record[2] == DISTRIBUTING)
}

/// The aggregator that a port holds, if there is such a port.
pub fn held_by(table: &[u8], port: u32) -> Option<u8> {
    base_of(table, port).map(|record| record[4])
}

/// The states of both Churn Detection machines of each port of a table, the actor's first.
pub fn churn_states(table: &[u8]) -> impl Iterator<Item = [u8; 2]> + '_ {
    ports_from_1(table).filter_map(|port| part_of(table, port, BASE, CHURN)).map(|group| [group[0], group[1]])
}

/// What came of the Marker that was asked for last on each port of a table, and the number of the next.
pub fn asked(table: &[u8]) -> impl Iterator<Item = (u8, u32)> + '_ {
    ports_from_1(table).filter_map(|port| asked_on(table, port))
}

/// The same of one port, if there is such a port.
pub fn asked_on(table: &[u8], port: u32) -> Option<(u8, u32)> {
    let group = part_of(table, port, ASKED_AT, ASKED)?;
    Some((group[0], u32::from_be_bytes([group[3], group[4], group[5], group[6]])))
}

fn ports_from_1(table: &[u8]) -> impl Iterator<Item = u32> {
    1..=ports_of(table) as u32
}

/// The ports that distribute, as the table has it.
pub fn distributing(table: &[u8]) -> Vec<u32> {
    ports_from_1(table).filter(|port| distributes(table, *port)).collect()
}

/// What the Marker says that was asked for last on a port, as the table has it; zeros where there is no such port.
pub fn requested(table: &[u8], port: u32) -> [u8; REQUEST] {
    let mut said = [0; REQUEST];
    if let (Some(header), Some((_, next))) = (table.get(..HEADER), asked_on(table, port)) {
        said[0..2].copy_from_slice(&(port as u16).to_be_bytes());
        said[2..8].copy_from_slice(&header[3..9]);
        said[8..12].copy_from_slice(&next.wrapping_sub(1).to_be_bytes());
    }
    said
}

/// The actor block of a port, as the table has it; zeros where there is no such port.
pub fn says_of_itself(table: &[u8], port: u32) -> [u8; BLOCK] {
    let (Some(header), Some(record)) = (table.get(..HEADER), base_of(table, port)) else {
        return [0; BLOCK];
    };
    let mut block = [0; BLOCK];
    block[0..8].copy_from_slice(&header[1..9]);
    block[8..12].copy_from_slice(&record[23..27]);
    block[12..14].copy_from_slice(&(port as u16).to_be_bytes());
    block[14] = record[8];
    block
}

impl World {
    /// A world of its own.
    pub fn new(random: &mut Random) -> World {
        let count = random.weighted(&[(6, (1, 1)), (70, (2, 6)), (16, (7, 12)), (4, (13, 31)), (4, (32, 32))]);
        let count = random.between(count.0, count.1);
        let system = small_address(random);
        let system_priority = random.of(&[0, 1, 1, 1, 0x8000]);
        let lowest_key = random.of(&[0, 1, 1, 1, 0x00FF, 0xFFFC]);
        let keys = (lowest_key, lowest_key + random.of(&[0, 0, 1, 2]));
        let neighbours: Vec<(u16, [u8; 6])> = (0..random.between(1, 3))
            .map(|_| {
                let itself = random.percent(12);
                let priority = random.of(&[1, 1, 1, system_priority]);
                (priority, if itself { system } else { small_address(random) })
            })
            .collect();
        let usual = random.of(&[0x3F, 0x3F, 0x3D, 0x3D, 0x07, 0x05, 0x3C, 0x04]);
        let far_ends = (1..=count + 2)
            .map(|port| {
                let (priority, system) = random.of(&neighbours);
                let state = if random.percent(80) { usual } else { random.octet() };
                let key = random.between(u32::from(keys.0), u32::from(keys.1)) as u16;
                let actor = block(priority, system, key, random.of(&[1, 1, 2]), port as u16, state);
                FarEnd { actor, heard: [0; BLOCK] }
            })
            .collect();
        let cables = (0..count as usize).collect();
        let collector_max_delay = random.of(&[0, 1, 0xFFFF, 0x1234]);
        World { count, system_priority, system, collector_max_delay, keys, far_ends, cables }
    }

    /// A default block whose Collecting and Synchronization are equal: nobody, or what a far end might say.
    fn default_block(&self, random: &mut Random) -> [u8; BLOCK] {
        let mut block = if random.percent(50) { [0; BLOCK] } else { random.of(&self.far_ends).actor };
        block[14] = random.of(&[0x00, 0x00, 0x02, 0x04, 0x05, 0x07, 0x3C, 0x3D, 0x3F, 0x1B, 0x9C]);
        block
    }

    fn key(&self, random: &mut Random) -> u16 {
        random.between(u32::from(self.keys.0), u32::from(self.keys.1)) as u16
    }

    /// Settings at random from this world.
    pub fn settings(&self, random: &mut Random) -> SettingsArguments {
        SettingsArguments {
            address: [2, 0, 0, 0, 0, random.of(&[1, 1, 2])],
            key: self.key(random),
            port_priority: random.of(&[1, 1, 1, 2]),
            activity: random.percent(75),
            timeout: random.flag(),
            aggregation: random.percent(85),
            partner: self.default_block(random),
        }
    }

    /// The settings of a port, one of them changed or none.
    pub fn next_settings(&self, random: &mut Random, table: &[u8], port: u32) -> SettingsArguments {
        let Some(record) = base_of(table, port) else {
            return self.settings(random);
        };
        let number = |at: usize| u16::from_be_bytes([record[at], record[at + 1]]);
        let mut settings = SettingsArguments {
            address: [0; 6],
            key: number(23),
            port_priority: number(25),
            activity: record[8] & 1 != 0,
            timeout: record[8] & 2 != 0,
            aggregation: record[8] & 4 != 0,
            partner: [0; BLOCK],
        };
        settings.address.copy_from_slice(&record[17..23]);
        settings.partner.copy_from_slice(&record[27..42]);
        match random.below(10) {
            0 => settings.address[random.place(6)] ^= random.bit(),
            1 => settings.key = self.key(random),
            2 => settings.port_priority ^= random.of(&[1, 2, 0x100]),
            3 => settings.activity ^= true,
            4 => settings.timeout ^= true,
            5 => settings.aggregation ^= true,
            6 => settings.partner = self.default_block(random),
            7 => settings.partner[random.place(14)] ^= random.bit(),
            8 => settings = self.settings(random),
            _ => {}
        }
        settings
    }

    /// The start of a table of this world.
    pub fn start(&self, random: &mut Random) -> Call<'static> {
        Call::Start {
            ports: self.count,
            system_priority: self.system_priority,
            system: self.system,
            collector_max_delay: self.collector_max_delay,
            settings: self.settings(random),
        }
    }

    /// One of our ports.
    pub fn port(&self, random: &mut Random) -> u32 {
        random.between(1, self.count)
    }

    /// Two of our ports change their cables, or one gets another.
    pub fn move_cable(&mut self, random: &mut Random) {
        let a = random.place(self.cables.len());
        if random.flag() {
            let b = random.place(self.cables.len());
            self.cables.swap(a, b);
        } else {
            self.cables[a] = random.place(self.far_ends.len());
        }
    }

    /// A far end changes what it says of itself.
    pub fn change_far_end(&mut self, random: &mut Random) {
        let other = random.of(&self.far_ends).actor;
        let at = random.place(self.far_ends.len());
        let actor = &mut self.far_ends[at].actor;
        match random.below(8) {
            0 => actor[8..10].copy_from_slice(&other[8..10]),
            1 => actor[0..8].copy_from_slice(&other[0..8]),
            2 => actor[12..14].copy_from_slice(&other[12..14]),
            3 => actor[random.place(14)] ^= random.bit(),
            4 => actor[14] ^= AGGREGATION,
            5 => actor[14] ^= SYNCHRONIZATION,
            6 => actor[14] ^= COLLECTING,
            _ => actor[14] ^= random.bit(),
        }
    }

    fn far_end(&mut self, port: u32) -> &mut FarEnd {
        let cable = self.cables[(port as usize).saturating_sub(1) % self.cables.len()];
        &mut self.far_ends[cable]
    }

    /// The far end at our port is in sync, and collects or does not.
    pub fn set_collecting(&mut self, port: u32, collecting: bool) {
        let state = &mut self.far_end(port).actor[14];
        *state |= SYNCHRONIZATION | COLLECTING;
        if !collecting {
            *state &= !COLLECTING;
        }
    }

    /// The far end at our port is out of sync.
    pub fn unsettle(&mut self, port: u32) {
        self.far_end(port).actor[14] &= !SYNCHRONIZATION;
    }

    /// The far end at our port has another port number, of two.
    pub fn renumber(&mut self, port: u32) {
        self.far_end(port).actor[13] ^= 1;
    }

    /// What the far end at our port says now: mostly what it is and what we say, sometimes stale, sometimes wrong.
    pub fn lacpdu(&mut self, random: &mut Random, table: &[u8], port: u32) -> Vec<u8> {
        let far_end = self.far_end(port);
        let mut actor = far_end.actor;
        let mut partner = says_of_itself(table, port);
        match random.below(20) {
            0..=1 => partner = far_end.heard,
            2 => partner[random.place(14)] ^= random.bit(),
            3 => partner[14] ^= random.bit(),
            4 => actor[14] ^= random.bit(),
            _ => far_end.heard = partner,
        }
        frame(1, &actor, &partner)
    }
}

/// An LACPDU with these blocks.
pub fn frame(version: u8, actor: &[u8; BLOCK], partner: &[u8; BLOCK]) -> Vec<u8> {
    let mut frame = vec![0x01, 0x80, 0xC2, 0, 0, 2, 2, 0, 0, 0, 0, 5, 0x88, 0x09, 1, version, 1, 20];
    frame.extend(actor);
    frame.extend([0, 0, 0, 2, 20]);
    frame.extend(partner);
    frame.extend([0, 0, 0, 3, 16]);
    frame.resize(FRAME, 0);
    frame
}

/// A Marker (kind 1) or Marker Response (2), with its padding not always zero.
pub fn marker(random: &mut Random, kind: u8) -> Vec<u8> {
    let mut frame = vec![0x01, 0x80, 0xC2, 0, 0, 2, 2, 0, 0, 0, 0, 5, 0x88, 0x09, 2, 1, kind, 16];
    let padded = random.flag();
    frame.resize_with(FRAME, || if padded { random.octet() } else { 0 });
    frame[REQUEST_AT..][..REQUEST].fill_with(|| random.octet());
    frame
}

/// The Response that says this.
pub fn response(random: &mut Random, said: &[u8; REQUEST]) -> Vec<u8> {
    let mut frame = marker(random, 2);
    frame[REQUEST_AT..][..REQUEST].copy_from_slice(said);
    frame
}

/// What a Response says that nearly fits: a bit of port, system or transaction is another, or the transaction is one of those beside it.
pub fn nearly(random: &mut Random, mut said: [u8; REQUEST]) -> [u8; REQUEST] {
    let [.., t3, t2, t1, t0] = said;
    let transaction = u32::from_be_bytes([t3, t2, t1, t0]);
    match random.below(5) {
        0 => said[random.place(2)] ^= random.bit(),
        1 => said[2 + random.place(6)] ^= random.bit(),
        2..=3 => said[8 + random.place(4)] ^= random.bit(),
        _ => {
            let other = random.of(&[transaction.wrapping_sub(1), transaction.wrapping_add(1)]);
            said[8..].copy_from_slice(&other.to_be_bytes());
        }
    }
    said
}
