//! The reply that ended a shutdown, kept while the peer may not have it. The core reads no SHUTDOWN ACK in CLOSED, so a lost SHUTDOWN COMPLETE is the host's to
//! repair: asked the same again, it sends the same bytes again (RFC 9260 section 8.4, rule 5). A lost COOKIE ACK is the core's (section 5.2.4 D).

use crate::packet::{first_chunk, source_port, tag, Incoming, SHUTDOWN_ACK};
use std::net::IpAddr;

#[derive(Debug, Default)]
pub struct LastWord {
    closing: Option<Farewell>,
}

/// The SHUTDOWN COMPLETE that ended an association, and how late packets of it are known.
#[derive(Debug)]
pub struct Farewell {
    pub peer: IpAddr,
    pub peer_port: u16,
    pub my_tag: u32,
    pub reply: Vec<u8>,
}

impl Farewell {
    /// Whether a whole packet that came after the end is of this association: held up on its way, or the peer's who waits for the last word.
    pub fn is_late(&self, incoming: Incoming) -> bool {
        let is_of_peer = incoming.from.ip() == self.peer && source_port(incoming.packet) == Some(self.peer_port);
        is_of_peer && tag(incoming.packet) == Some(self.my_tag)
    }

    /// What answers a late packet. An ABORT would make a failure of an end that was clean.
    pub fn to_late(&self, incoming: Incoming) -> Option<&[u8]> {
        let is_shutdown_ack = first_chunk(incoming.packet) == Some(SHUTDOWN_ACK);
        (is_shutdown_ack && self.is_late(incoming)).then_some(self.reply.as_slice())
    }
}

impl LastWord {
    pub fn closed(&mut self, farewell: Farewell) {
        self.closing = Some(farewell);
    }

    pub fn forget(&mut self) {
        *self = LastWord::default();
    }

    pub fn farewell(&self) -> Option<&Farewell> {
        self.closing.as_ref()
    }

    /// What is left to say when nothing else of the association is kept.
    pub fn into_farewell(self) -> Option<Farewell> {
        self.closing
    }
}

#[cfg(test)]
mod tests {
    use super::*;
    use crate::packet::HEADER;
    use std::net::SocketAddr;
    use std::time::Instant;

    fn shutdown_ack(tag: u32) -> Vec<u8> {
        let mut packet = vec![0x13, 0x89, 0x13, 0x89];
        packet.extend_from_slice(&tag.to_be_bytes());
        packet.extend_from_slice(&[0, 0, 0, 0, SHUTDOWN_ACK, 0, 0, 4]);
        packet
    }

    fn from(last: u8, packet: &[u8]) -> Incoming<'_> {
        Incoming { packet, from: SocketAddr::from(([10, 0, 0, last], 9899)), at: Instant::now() }
    }

    #[test]
    fn a_late_shutdown_ack_to_our_tag_gets_the_last_word() {
        let farewell = Farewell { peer: IpAddr::from([10, 0, 0, 1]), peer_port: 5001, my_tag: 5, reply: b"complete".to_vec() };
        assert_eq!(farewell.to_late(from(1, &shutdown_ack(5))), Some(&b"complete"[..]));
        assert_eq!(farewell.to_late(from(1, &shutdown_ack(6))), None);
        assert_eq!(farewell.to_late(from(2, &shutdown_ack(5))), None);
        assert_eq!(farewell.to_late(from(1, &[0; 4])), None);
        let mut data = shutdown_ack(5);
        data[HEADER] = 0;
        assert!(farewell.is_late(from(1, &data)));
        assert_eq!(farewell.to_late(from(1, &data)), None);
        assert!(!farewell.is_late(from(1, &shutdown_ack(6))));
        let elsewhere = Farewell { peer_port: 5000, ..farewell };
        assert!(!elsewhere.is_late(from(1, &shutdown_ack(5))));
    }

    #[test]
    fn what_was_said_last_is_kept_until_it_is_forgotten() {
        let mut word = LastWord::default();
        assert!(word.farewell().is_none());
        word.closed(Farewell { peer: IpAddr::from([10, 0, 0, 1]), peer_port: 5001, my_tag: 5, reply: b"complete".to_vec() });
        assert_eq!(word.farewell().map(|farewell| farewell.my_tag), Some(5));
        word.forget();
        assert!(word.into_farewell().is_none());
    }
}
