//! What the host reads of a packet by itself: fields of the header, and chunks by their types. Whether it is well formed is the core's to say.

use std::net::SocketAddr;
use std::time::Instant;

/// Type of a chunk: RFC 9260 section 3.3.1.
pub const DATA: u8 = 0;
/// Type of a chunk: RFC 9260 section 3.3.2.
pub const INIT: u8 = 1;
/// Type of a chunk: RFC 9260 section 3.3.3.
pub const INIT_ACK: u8 = 2;
/// Type of a chunk: RFC 9260 section 3.3.6.
pub const HEARTBEAT_ACK: u8 = 5;
/// Type of a chunk: RFC 9260 section 3.3.7.
pub const ABORT: u8 = 6;
/// Type of a chunk: RFC 9260 section 3.3.9.
pub const SHUTDOWN_ACK: u8 = 8;
/// Type of a chunk: RFC 9260 section 3.3.10.
pub const ERROR: u8 = 9;
/// Type of a chunk: RFC 9260 section 3.3.11.
pub const COOKIE_ECHO: u8 = 10;
/// Type of a chunk: RFC 9260 section 3.3.12.
pub const COOKIE_ACK: u8 = 11;
/// Type of a chunk: RFC 9260 section 3.3.13.
pub const SHUTDOWN_COMPLETE: u8 = 14;

/// Of an ABORT's or a SHUTDOWN COMPLETE's flags: the tag is the one of the packet that it answers.
pub const T: u8 = 1;

/// A packet on its way out.
#[derive(Clone, Debug, PartialEq, Eq)]
pub struct Datagram {
    /// Where it goes.
    pub to: SocketAddr,
    /// The SCTP packet, which is all that the UDP datagram has.
    pub packet: Vec<u8>,
}

/// A packet that has come.
#[derive(Clone, Copy, Debug)]
pub struct Incoming<'a> {
    /// The SCTP packet.
    pub packet: &'a [u8],
    /// Where it came from.
    pub from: SocketAddr,
    /// When it came.
    pub at: Instant,
}

/// The bytes before the first chunk.
pub const HEADER: usize = 12;

/// The port that it came from.
pub fn source_port(packet: &[u8]) -> Option<u16> {
    half(packet.get(0..2)?)
}

/// The port that it goes to.
pub fn destination_port(packet: &[u8]) -> Option<u16> {
    half(packet.get(2..4)?)
}

/// The tag that it shows.
pub fn tag(packet: &[u8]) -> Option<u32> {
    match packet.get(4..8)? {
        [a, b, c, d] => Some(u32::from_be_bytes([*a, *b, *c, *d])),
        _ => None,
    }
}

/// The type of the first chunk.
pub fn first_chunk(packet: &[u8]) -> Option<u8> {
    packet.get(HEADER).copied()
}

/// The flags of the first chunk; none where there is no chunk.
pub fn flags_of_first(packet: &[u8]) -> u8 {
    packet.get(HEADER + 1).copied().unwrap_or(0)
}

/// The chunk that begins at this byte of a packet, without its padding.
pub fn chunk_at(packet: &[u8], at: usize) -> &[u8] {
    let rest = packet.get(at..).unwrap_or_default();
    match rest {
        [_, _, high, low, ..] => {
            let length = usize::from(u16::from_be_bytes([*high, *low]));
            rest.get(..length).unwrap_or(rest)
        }
        _ => rest,
    }
}

/// Every chunk from the first on.
pub fn chunks(packet: &[u8]) -> impl Iterator<Item = &[u8]> {
    let mut at = HEADER;
    std::iter::from_fn(move || {
        let chunk = chunk_at(packet, at);
        at += (chunk.len() + 3) & !3;
        (chunk.len() >= 4).then_some(chunk)
    })
}

fn half(bytes: &[u8]) -> Option<u16> {
    match bytes {
        [high, low] => Some(u16::from_be_bytes([*high, *low])),
        _ => None,
    }
}

#[cfg(test)]
mod tests {
    use super::*;

    const PACKET: [u8; 24] = [0x13, 0x88, 0x13, 0x89, 1, 2, 3, 4, 0, 0, 0, 0, COOKIE_ECHO, 0, 0, 7, 1, 2, 3, 0, DATA, 3, 0, 4];

    #[test]
    fn the_header_has_ports_and_a_tag() {
        assert_eq!((source_port(&PACKET), destination_port(&PACKET)), (Some(5000), Some(5001)));
        assert_eq!((tag(&PACKET), first_chunk(&PACKET)), (Some(0x0102_0304), Some(COOKIE_ECHO)));
        assert_eq!((source_port(&[1]), destination_port(&[1, 2, 3]), tag(&PACKET[..7]), first_chunk(&PACKET[..12])), (None, None, None, None));
    }

    #[test]
    fn a_chunk_is_cut_by_its_own_length() {
        assert_eq!(chunk_at(&PACKET, HEADER), &PACKET[12..19]);
        assert_eq!(chunk_at(&PACKET, 500), &[] as &[u8]);
        assert_eq!(chunk_at(&[1, 2, 255, 255], 0), &[1, 2, 255, 255]);
    }

    #[test]
    fn chunks_follow_each_other_behind_their_padding() {
        assert_eq!(chunks(&PACKET).collect::<Vec<_>>(), [&PACKET[12..19], &PACKET[20..]]);
        assert_eq!(chunks(&PACKET[..12]).count(), 0);
        // A length of less than a chunk's header ends the walk.
        assert_eq!(chunks(&[&PACKET[..12], &[0, 0, 0, 0, 0, 0, 0, 4]].concat()).count(), 0);
    }
}
