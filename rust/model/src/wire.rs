//! Octets on the wire: the information block, the state octet, LACPDUs (43.4.2) and Marker PDUs (43.5.3).

use crate::breakage::{self, Breakage};
use crate::calls::Refusal;

/// Octets of every frame that is sent, without FCS, and the fewest of a received LACPDU or Marker.
pub const FRAME: usize = 124;
/// Octets of an information block.
pub const BLOCK: usize = 15;
/// Octets of what a Marker says, and where they stand.
const REQUEST: usize = 12;
const REQUEST_AT: usize = 18;

const SLOW_PROTOCOLS_MULTICAST: [u8; 6] = [0x01, 0x80, 0xC2, 0x00, 0x00, 0x02];
const SLOW_PROTOCOLS_TYPE: [u8; 2] = [0x88, 0x09];
const LACP_SUBTYPE: u8 = 1;
const MARKER_SUBTYPE: u8 = 2;
const VERSION: u8 = 1;
const ACTOR_TLV: [u8; 2] = [1, 20];
const PARTNER_TLV: [u8; 2] = [2, 20];
const COLLECTOR_TLV: [u8; 2] = [3, 16];
const MARKER_TYPE: u8 = 1;
const RESPONSE_TYPE: u8 = 2;
const MARKER_LENGTH: u8 = 16;

/// The state octet of an information block (43.4.2.2).
#[derive(Clone, Copy, Debug, Default, PartialEq, Eq)]
pub struct State(pub u8);

impl State {
    /// LACP_Activity: active.
    pub const ACTIVITY: u8 = 0x01;
    /// LACP_Timeout: short.
    pub const TIMEOUT: u8 = 0x02;
    /// Aggregation: aggregatable.
    pub const AGGREGATION: u8 = 0x04;
    /// Synchronization.
    pub const SYNCHRONIZATION: u8 = 0x08;
    /// Collecting.
    pub const COLLECTING: u8 = 0x10;
    /// Distributing.
    pub const DISTRIBUTING: u8 = 0x20;
    /// Defaulted.
    pub const DEFAULTED: u8 = 0x40;
    /// Expired.
    pub const EXPIRED: u8 = 0x80;

    /// Whether that bit is set.
    pub fn has(self, bit: u8) -> bool {
        self.0 & bit != 0
    }

    /// Sets or clears that bit.
    pub fn put(&mut self, bit: u8, value: bool) {
        if value {
            self.0 |= bit;
        } else {
            self.0 &= !bit;
        }
    }
}

/// An information block: what a frame says of its actor or its partner, and what a record keeps of a partner.
#[derive(Clone, Copy, Debug, Default, PartialEq, Eq)]
pub struct Block {
    /// System priority.
    pub system_priority: u16,
    /// System address.
    pub system: [u8; 6],
    /// Operational key.
    pub key: u16,
    /// Port priority.
    pub port_priority: u16,
    /// Port number.
    pub port: u16,
    /// State octet.
    pub state: State,
}

impl Block {
    /// The block that these octets are.
    pub fn read(octets: &[u8; BLOCK]) -> Block {
        let [y1, y0, a, b, c, d, e, f, k1, k0, q1, q0, n1, n0, state] = *octets;
        Block {
            system_priority: u16::from_be_bytes([y1, y0]),
            system: [a, b, c, d, e, f],
            key: u16::from_be_bytes([k1, k0]),
            port_priority: u16::from_be_bytes([q1, q0]),
            port: u16::from_be_bytes([n1, n0]),
            state: State(state),
        }
    }

    /// The octets of this block.
    pub fn octets(&self) -> [u8; BLOCK] {
        let [y1, y0] = self.system_priority.to_be_bytes();
        let [a, b, c, d, e, f] = self.system;
        let [k1, k0] = self.key.to_be_bytes();
        let [q1, q0] = self.port_priority.to_be_bytes();
        let [n1, n0] = self.port.to_be_bytes();
        [y1, y0, a, b, c, d, e, f, k1, k0, q1, q0, n1, n0, self.state.0]
    }

    /// Whether the five numbers (port, port priority, system, system priority, key) agree.
    pub fn same_numbers(&self, other: &Block) -> bool {
        Block { state: State(0), ..*self } == Block { state: State(0), ..*other }
    }

    /// Whether the five numbers and these bits of the state agree.
    pub fn agrees(&self, other: &Block, bits: u8) -> bool {
        self.same_numbers(other) && (self.state.0 ^ other.state.0) & bits == 0
    }
}

/// A frame that is for this part.
#[derive(Clone, Copy, Debug, PartialEq, Eq)]
pub enum Frame<'a> {
    /// A well-formed LACPDU.
    Lacpdu {
        /// What the sender says of itself.
        actor: Block,
        /// What the sender says of us.
        partner: Block,
    },
    /// A well-formed Marker; its octets from 18 on.
    Marker(&'a [u8]),
    /// A well-formed Marker Response: what it says.
    Response(Request),
}

/// What a Marker and its Response say: who asked for it, and for which of the Markers (43.5.3.2).
#[derive(Clone, Copy, Debug, PartialEq, Eq)]
pub struct Request {
    /// Requester_Port.
    pub port: u16,
    /// Requester_System.
    pub system: [u8; 6],
    /// Requester_Transaction_ID.
    pub transaction: u32,
}

impl Request {
    /// What these octets say.
    fn read(octets: &[u8; REQUEST]) -> Request {
        let [n1, n0, a, b, c, d, e, f, t3, t2, t1, t0] = *octets;
        Request {
            port: u16::from_be_bytes([n1, n0]),
            system: [a, b, c, d, e, f],
            transaction: u32::from_be_bytes([t3, t2, t1, t0]),
        }
    }

    /// The octets that say this.
    fn octets(&self) -> [u8; REQUEST] {
        let [n1, n0] = self.port.to_be_bytes();
        let [a, b, c, d, e, f] = self.system;
        let [t3, t2, t1, t0] = self.transaction.to_be_bytes();
        [n1, n0, a, b, c, d, e, f, t3, t2, t1, t0]
    }
}

fn block_at(frame: &[u8; FRAME], at: usize) -> Block {
    let mut octets = [0; BLOCK];
    octets.copy_from_slice(&frame[at..at + BLOCK]);
    Block::read(&octets)
}

/// What a received frame is: refusals 6, 7, 8 in this order.
pub fn read(frame: &[u8]) -> Result<Frame<'_>, Refusal> {
    let Some((header, rest)) = frame.split_first_chunk::<14>() else {
        return Err(Refusal::Foreign);
    };
    if header[..6] != SLOW_PROTOCOLS_MULTICAST {
        return Err(Refusal::Foreign);
    }
    if header[12..] != SLOW_PROTOCOLS_TYPE {
        return Err(Refusal::Unknown);
    }
    match rest.first() {
        Some(&LACP_SUBTYPE) => read_lacpdu(frame.first_chunk().ok_or(Refusal::Illegal)?),
        Some(&MARKER_SUBTYPE) => read_marker(frame.first_chunk().ok_or(Refusal::Illegal)?),
        Some(3..=10) => Err(Refusal::Unknown),
        _ => Err(Refusal::Illegal),
    }
}

/// Tests the three lengths only: version, types, reserved octets and terminator are not tested (43.4.12).
fn read_lacpdu(frame: &[u8; FRAME]) -> Result<Frame<'_>, Refusal> {
    if [frame[17], frame[37], frame[57]] != [ACTOR_TLV[1], PARTNER_TLV[1], COLLECTOR_TLV[1]] {
        return Err(Refusal::Illegal);
    }
    Ok(Frame::Lacpdu { actor: block_at(frame, 18), partner: block_at(frame, 38) })
}

fn read_marker(frame: &[u8; FRAME]) -> Result<Frame<'_>, Refusal> {
    match (frame[16], frame[17]) {
        (MARKER_TYPE, MARKER_LENGTH) => Ok(Frame::Marker(&frame[REQUEST_AT..])),
        (RESPONSE_TYPE, MARKER_LENGTH) => {
            let mut said = [0; REQUEST];
            said.copy_from_slice(&frame[REQUEST_AT..REQUEST_AT + REQUEST]);
            Ok(Frame::Response(Request::read(&said)))
        }
        _ => Err(Refusal::Illegal),
    }
}

fn slow_protocols_frame(source: &[u8; 6], subtype: u8) -> [u8; FRAME] {
    let mut frame = [0; FRAME];
    frame[0..6].copy_from_slice(&SLOW_PROTOCOLS_MULTICAST);
    frame[6..12].copy_from_slice(source);
    frame[12..14].copy_from_slice(&SLOW_PROTOCOLS_TYPE);
    frame[14] = subtype;
    frame[15] = VERSION;
    frame
}

/// The LACPDU with these two blocks (43.4.2.2).
pub fn lacpdu(source: &[u8; 6], actor: &Block, partner: &Block, collector_max_delay: u16) -> [u8; FRAME] {
    let mut frame = slow_protocols_frame(source, LACP_SUBTYPE);
    frame[16..18].copy_from_slice(&ACTOR_TLV);
    frame[18..33].copy_from_slice(&actor.octets());
    frame[36..38].copy_from_slice(&PARTNER_TLV);
    frame[38..53].copy_from_slice(&partner.octets());
    frame[56..58].copy_from_slice(&COLLECTOR_TLV);
    frame[58..60].copy_from_slice(&collector_max_delay.to_be_bytes());
    frame
}

/// The Marker that says this.
pub fn marker(source: &[u8; 6], said: &Request) -> [u8; FRAME] {
    let mut frame = slow_protocols_frame(source, MARKER_SUBTYPE);
    frame[16] = MARKER_TYPE;
    frame[17] = MARKER_LENGTH;
    frame[REQUEST_AT..REQUEST_AT + REQUEST].copy_from_slice(&said.octets());
    frame
}

/// The Response to a Marker whose octets from 18 on are given: it copies 18 to 29 and has zeros after them.
pub fn marker_response(source: &[u8; 6], marker: &[u8]) -> [u8; FRAME] {
    let copied = if breakage::is(Breakage::ResponseRepeatsPadding) { FRAME - REQUEST_AT } else { REQUEST };
    let mut frame = slow_protocols_frame(source, MARKER_SUBTYPE);
    frame[16] = RESPONSE_TYPE;
    frame[17] = MARKER_LENGTH;
    for (to, from) in frame[REQUEST_AT..].iter_mut().zip(marker).take(copied) {
        *to = *from;
    }
    frame
}
