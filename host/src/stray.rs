//! Packets out of the blue (RFC 9260 section 8.4): well formed, to our port, and of no association that we know. Whoever sends one learns that there is none.

use crate::checksum;
use crate::packet::{chunks, ABORT, COOKIE_ACK, COOKIE_ECHO, ERROR, INIT, INIT_ACK, SHUTDOWN_ACK, SHUTDOWN_COMPLETE, T};
use std::net::{IpAddr, SocketAddr};
use std::time::{Duration, Instant};

const STALE_COOKIE: [u8; 2] = [0, 3];

/// Not more than one is answered in so long, whoever sends them.
pub const ANSWER_EVERY: Duration = Duration::from_millis(100);

#[derive(Debug, Default)]
pub struct Strays {
    answered: Option<Instant>,
}

impl Strays {
    /// What answers a packet that passed all the checks but those of port and tag.
    pub fn answer(&mut self, packet: &[u8], from: SocketAddr, now: Instant) -> Option<[u8; 16]> {
        if !is_unicast(from.ip()) || self.answered.map_or(false, |last| now.saturating_duration_since(last) < ANSWER_EVERY) {
            return None;
        }
        let answer = reflected(packet, kind_of_answer(packet)?)?;
        self.answered = Some(now);
        Some(answer)
    }
}

/// Rules 2 to 8. An INIT ACK gets no answer either: nobody waits for one, since an INIT leaves nothing behind.
fn kind_of_answer(packet: &[u8]) -> Option<u8> {
    let has = |wanted: &dyn Fn(&[u8]) -> bool| chunks(packet).any(wanted);
    let is_stale_cookie = |chunk: &[u8]| chunk.first() == Some(&ERROR) && chunk.get(4..6) == Some(&STALE_COOKIE[..]);
    if has(&|chunk| matches!(chunk.first(), Some(&ABORT | &INIT | &COOKIE_ECHO))) {
        None
    } else if has(&|chunk| chunk.first() == Some(&SHUTDOWN_ACK)) {
        Some(SHUTDOWN_COMPLETE)
    } else if has(&|chunk| matches!(chunk.first(), Some(&SHUTDOWN_COMPLETE | &COOKIE_ACK | &INIT_ACK)) || is_stale_cookie(chunk)) {
        None
    } else {
        Some(ABORT)
    }
}

/// A packet of one empty chunk, back to the port that it came from with the tag that it came with.
fn reflected(packet: &[u8], kind: u8) -> Option<[u8; 16]> {
    let mut answer = [0; 16];
    answer[0..2].copy_from_slice(packet.get(2..4)?);
    answer[2..4].copy_from_slice(packet.get(0..2)?);
    answer[4..8].copy_from_slice(packet.get(4..8)?);
    answer[12..16].copy_from_slice(&[kind, T, 0, 4]);
    checksum::seal(&mut answer);
    Some(answer)
}

fn is_unicast(address: IpAddr) -> bool {
    let is_broadcast = address == IpAddr::V4(std::net::Ipv4Addr::BROADCAST);
    !(is_broadcast || address.is_multicast() || address.is_unspecified())
}

#[cfg(test)]
mod tests {
    use super::*;

    const TAG: [u8; 4] = [1, 2, 3, 4];

    fn packet(chunks: &[&[u8]]) -> Vec<u8> {
        let mut packet = vec![0x13, 0x88, 0x13, 0x89];
        packet.extend_from_slice(&TAG);
        packet.extend_from_slice(&[0; 4]);
        for chunk in chunks {
            packet.extend_from_slice(chunk);
            packet.resize((packet.len() + 3) & !3, 0);
        }
        packet
    }

    fn peer() -> SocketAddr {
        SocketAddr::from(([10, 0, 0, 9], 9899))
    }

    fn kind(chunks: &[&[u8]]) -> Option<u8> {
        Strays::default().answer(&packet(chunks), peer(), Instant::now()).map(|answer| answer[12])
    }

    #[test]
    fn the_tag_comes_back_and_the_ports_change_places() {
        let answer = Strays::default().answer(&packet(&[&[0, 3, 0, 4]]), peer(), Instant::now()).unwrap();
        assert_eq!(answer[..4], [0x13, 0x89, 0x13, 0x88]);
        assert_eq!(answer[4..8], TAG);
        assert_eq!(answer[12..], [ABORT, T, 0, 4]);
    }

    #[test]
    fn what_ends_an_association_or_opens_one_is_not_answered() {
        let bare = |kind: u8| [kind, 0, 0, 4];
        for silent in [ABORT, INIT, INIT_ACK, COOKIE_ECHO, COOKIE_ACK, SHUTDOWN_COMPLETE] {
            assert_eq!(kind(&[&bare(silent)]), None, "{}", silent);
            assert_eq!(kind(&[&[3, 0, 0, 5, 1], &bare(silent)]), None, "{}", silent);
        }
        for loud in [0, 3, 4, 5, 7, ERROR, 200] {
            assert_eq!(kind(&[&bare(loud)]), Some(ABORT), "{}", loud);
        }
        assert_eq!(kind(&[&[ERROR, 0, 0, 12, 0, 3, 0, 8, 0, 0, 0, 1]]), None);
        assert_eq!(kind(&[&[ERROR, 0, 0, 12, 0, 1, 0, 8, 0, 0, 0, 1]]), Some(ABORT));
        assert_eq!(kind(&[&bare(SHUTDOWN_ACK)]), Some(SHUTDOWN_COMPLETE));
        assert_eq!(kind(&[&bare(SHUTDOWN_ACK), &bare(ABORT)]), None);
    }

    #[test]
    fn one_is_answered_in_100_ms() {
        let now = Instant::now();
        let mut strays = Strays::default();
        let data = packet(&[&[0, 3, 0, 4]]);
        assert!(strays.answer(&data, peer(), now).is_some());
        assert!(strays.answer(&data, peer(), now + ANSWER_EVERY - Duration::from_millis(1)).is_none());
        assert!(strays.answer(&packet(&[&[ABORT, 0, 0, 4]]), peer(), now + ANSWER_EVERY).is_none());
        assert!(strays.answer(&data, peer(), now + ANSWER_EVERY).is_some());
    }

    #[test]
    fn an_address_of_many_is_not_answered() {
        let data = packet(&[&[0, 3, 0, 4]]);
        for many in [[255, 255, 255, 255], [224, 0, 0, 1], [0, 0, 0, 0]] {
            assert_eq!(Strays::default().answer(&data, SocketAddr::from((many, 9899)), Instant::now()), None);
        }
    }
}
