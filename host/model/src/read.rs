//! Reading a packet: its header, the walk over its chunks, the checks 2, 3, 5 and 6, and the fields of each chunk.

use crate::checksum;
use crate::record::{PACKET_LEAST, PACKET_MOST};

/// Type of a chunk: RFC 9260 section 3.3.1.
pub const DATA: u8 = 0;
/// Type of a chunk: RFC 9260 section 3.3.2.
pub const INIT: u8 = 1;
/// Type of a chunk: RFC 9260 section 3.3.3.
pub const INIT_ACK: u8 = 2;
/// Type of a chunk: RFC 9260 section 3.3.4.
pub const SACK: u8 = 3;
/// Type of a chunk: RFC 9260 section 3.3.5.
pub const HEARTBEAT: u8 = 4;
/// Type of a chunk: RFC 9260 section 3.3.6.
pub const HEARTBEAT_ACK: u8 = 5;
/// Type of a chunk: RFC 9260 section 3.3.7.
pub const ABORT: u8 = 6;
/// Type of a chunk: RFC 9260 section 3.3.8.
pub const SHUTDOWN: u8 = 7;
/// Type of a chunk: RFC 9260 section 3.3.9.
pub const SHUTDOWN_ACK: u8 = 8;
/// Type of a chunk: RFC 9260 section 3.3.10.
pub const ERROR: u8 = 9;
/// Type of a chunk: RFC 9260 section 3.3.11.
pub const COOKIE_ECHO: u8 = 10;
/// Type of a chunk: RFC 9260 section 3.3.12.
pub const COOKIE_ACK: u8 = 11;
/// Type of a chunk: RFC 9260 section 3.3.13.
pub const SHUTDOWN_COMPLETE: u8 = 14;

/// Type of a parameter.
pub const STATE_COOKIE: u16 = 7;
/// Type of a parameter.
pub const HOST_NAME: u16 = 11;

/// The 16 bits that stand there.
pub fn be16(b: &[u8], at: usize) -> u16 {
    u16::from_be_bytes([b[at], b[at + 1]])
}

/// The 32 bits that stand there.
pub fn be32(b: &[u8], at: usize) -> u32 {
    u32::from_be_bytes([b[at], b[at + 1], b[at + 2], b[at + 3]])
}

/// With the padding to a multiple of 4.
pub fn padded(n: usize) -> usize {
    (n + 3) / 4 * 4
}

/// The common header.
pub struct Header {
    /// The port that the packet came from.
    pub source: u16,
    /// The port that it goes to.
    pub destination: u16,
    /// The tag that it shows.
    pub tag: u32,
}

/// A packet's header.
pub fn header(packet: &[u8]) -> Header {
    Header { source: be16(packet, 0), destination: be16(packet, 2), tag: be32(packet, 4) }
}

/// A chunk: where it begins in the packet, and its bytes without the padding.
#[derive(Clone, Copy)]
pub struct Seen<'a> {
    /// Where it begins in the packet.
    pub at: usize,
    /// The whole chunk.
    pub bytes: &'a [u8],
}

impl<'a> Seen<'a> {
    /// Its type.
    pub fn kind(self) -> u8 {
        self.bytes[0]
    }

    /// What stands behind type, flags and length.
    pub fn value(self) -> &'a [u8] {
        &self.bytes[4..]
    }
}

/// The chunks of a packet whose lengths passed check 5.
pub fn walk(packet: &[u8]) -> impl Iterator<Item = Seen<'_>> {
    let mut at = 12;
    std::iter::from_fn(move || {
        if at >= packet.len() {
            return None;
        }
        let length = usize::from(be16(packet, at + 2));
        let seen = Seen { at, bytes: &packet[at..at + length] };
        at += padded(length);
        Some(seen)
    })
}

/// Type and length of each chunk of a packet whose lengths may be ill: one under 4 counts as 4, one past the packet is the last.
pub fn heads(packet: &[u8]) -> impl Iterator<Item = (u8, usize)> + '_ {
    let mut at = 12;
    std::iter::from_fn(move || {
        if at >= packet.len() {
            return None;
        }
        let head = (packet[at], usize::from(be16(packet, at + 2)));
        at += padded(head.1.max(4));
        Some(head)
    })
}

/// Whether there is an ABORT among the chunks.
pub fn has_abort(packet: &[u8]) -> bool {
    heads(packet).any(|h| h.0 == ABORT)
}

// ---- The checks of a whole packet

/// 2 and 3.
pub fn check_whole(packet: &[u8]) -> u8 {
    if packet.len() < PACKET_LEAST || packet.len() > PACKET_MOST || packet.len() % 4 != 0 {
        return 2;
    }
    if !checksum::is_sealed(packet) {
        return 3;
    }
    0
}

/// "length under the chunk's least (DATA 16)": fixed fields only.
fn least(kind: u8) -> usize {
    match kind {
        DATA | SACK => 16,
        INIT | INIT_ACK => 20,
        SHUTDOWN => 8,
        _ => 4,
    }
}

/// "Parameters of INIT and INIT ACK fill the chunk to its length exactly, the last one's padding excluded"; T-02: "Read both ways", so
/// the last one ends the chunk, or its padding does, and no byte within that padding.
fn is_filled_by_parameters(chunk: &[u8]) -> bool {
    let mut at = 20;
    while at < chunk.len() {
        if chunk.len() - at < 4 {
            return false;
        }
        let length = usize::from(be16(chunk, at + 2));
        if length < 4 || length > chunk.len() - at {
            return false;
        }
        if at + length == chunk.len() {
            return true;
        }
        at += padded(length);
    }
    at == chunk.len()
}

fn is_filled(chunk: &[u8]) -> bool {
    match chunk[0] {
        INIT | INIT_ACK => is_filled_by_parameters(chunk),
        SACK => chunk.len() == 16 + 4 * (usize::from(be16(chunk, 12)) + usize::from(be16(chunk, 14))),
        _ => true,
    }
}

/// 5, then 6, over every chunk of the packet.
pub fn check_shape(packet: &[u8]) -> u8 {
    let mut at = 12;
    let mut count = 0;
    let mut alone = false;
    while at < packet.len() {
        let kind = packet[at];
        let length = usize::from(be16(packet, at + 2));
        if length < least(kind) || length > packet.len() - at || !is_filled(&packet[at..at + length]) {
            return 5;
        }
        alone |= matches!(kind, INIT | INIT_ACK | SHUTDOWN_COMPLETE);
        count += 1;
        at += padded(length);
    }
    if alone && count > 1 {
        return 6;
    }
    0
}

// ---- Unknown chunks and parameters, by their two high bits: 00 stop, 01 stop and report, 10 skip, 11 skip and report

/// Whether what follows is unread.
pub fn stops(high: u8) -> bool {
    high & 2 == 0
}

/// Whether the peer is told.
pub fn reports(high: u8) -> bool {
    high & 1 == 1
}

// ---- Fields

/// A DATA chunk.
pub struct Data<'a> {
    /// It begins a message.
    pub begin: bool,
    /// It ends a message.
    pub end: bool,
    /// It is out of its stream's order.
    pub unordered: bool,
    /// Its TSN.
    pub tsn: u32,
    /// Its stream.
    pub stream: u16,
    /// Its number in its stream.
    pub ssn: u16,
    /// The number that goes with it.
    pub ppid: u32,
    /// Its payload.
    pub payload: &'a [u8],
}

/// The fields of a DATA chunk.
pub fn data(c: Seen<'_>) -> Data<'_> {
    let b = c.bytes;
    Data {
        unordered: b[1] & 4 != 0,
        begin: b[1] & 2 != 0,
        end: b[1] & 1 != 0,
        tsn: be32(b, 4),
        stream: be16(b, 8),
        ssn: be16(b, 10),
        ppid: be32(b, 12),
        payload: &b[16..],
    }
}

/// INIT and INIT ACK; `outs` and `ins` are the streams that its sender wants to send on, and takes at most.
#[derive(Clone, Copy)]
pub struct Init {
    /// Its sender's tag.
    pub tag: u32,
    /// Its sender's window.
    pub window: u32,
    /// The streams to send on.
    pub outs: u16,
    /// The streams taken at most.
    pub ins: u16,
    /// Its sender's first TSN.
    pub tsn: u32,
}

/// The fields of an INIT or an INIT ACK.
pub fn init(c: Seen<'_>) -> Init {
    let b = c.bytes;
    Init { tag: be32(b, 4), window: be32(b, 8), outs: be16(b, 12), ins: be16(b, 14), tsn: be32(b, 16) }
}

/// The parameters of an INIT or INIT ACK: type, and the whole parameter without its padding.
pub fn parameters(c: Seen<'_>) -> impl Iterator<Item = (u16, &[u8])> {
    let b = c.bytes;
    let mut at = 20;
    std::iter::from_fn(move || {
        if at >= b.len() {
            return None;
        }
        let length = usize::from(be16(b, at + 2));
        let parameter = &b[at..at + length];
        at += padded(length);
        Some((be16(parameter, 0), parameter))
    })
}

fn is_known_parameter(kind: u16) -> bool {
    matches!(kind, 1 | 5 | 6 | 7 | 8 | 9 | 11 | 12 | 0x8000)
}

/// "00", "01": "do not process any further parameters in this chunk" (section 3.2.1). Known ones never stop.
pub fn is_stop(kind: u16) -> bool {
    !is_known_parameter(kind) && stops((kind >> 14) as u8)
}

/// The cookie, wherever it stands: whatever stops, a COOKIE ECHO is sent (section 3.2.1).
pub fn cookie(c: Seen<'_>) -> Option<&[u8]> {
    parameters(c).find(|p| p.0 == STATE_COOKIE).map(|p| p.1)
}

/// The first Host Name, found ahead of the first unknown parameter that stops.
pub fn host_name(c: Seen<'_>) -> Option<&[u8]> {
    parameters(c).take_while(|p| !is_stop(p.0)).find(|p| p.0 == HOST_NAME).map(|p| p.1)
}

/// The unknown parameters that are to be reported; one that stops is the last.
pub fn reported_parameters(c: Seen<'_>) -> Vec<&[u8]> {
    let mut found = Vec::new();
    for (kind, bytes) in parameters(c) {
        if !is_known_parameter(kind) && reports((kind >> 14) as u8) {
            found.push(bytes);
        }
        if is_stop(kind) {
            break;
        }
    }
    found
}

/// A SACK chunk; its duplicates are not looked at.
pub struct SackRead {
    /// All up to this TSN have come.
    pub point: u32,
    /// The window offered.
    pub window: u32,
    /// Gap blocks: start and end.
    pub blocks: Vec<(u16, u16)>,
}

/// The fields of a SACK.
pub fn sack(c: Seen<'_>) -> SackRead {
    let b = c.bytes;
    let count = usize::from(be16(b, 12));
    let blocks = (0..count).map(|i| (be16(b, 16 + 4 * i), be16(b, 18 + 4 * i))).collect();
    SackRead { point: be32(b, 4), window: be32(b, 8), blocks }
}

/// Whether an ERROR has cause 3; the walk over its causes ends at the first that is ill-formed.
pub fn is_stale(c: Seen<'_>) -> bool {
    let mut rest = c.value();
    while rest.len() >= 4 {
        let length = usize::from(be16(rest, 2));
        if length < 4 || length > rest.len() {
            return false;
        }
        if be16(rest, 0) == 3 {
            return true;
        }
        rest = &rest[padded(length).min(rest.len())..];
    }
    false
}
