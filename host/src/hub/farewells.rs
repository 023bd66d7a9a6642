//! What answers late packets of associations that were shut down, when nothing else is left of them: for a while, and for so many.

use crate::last_word::Farewell;
use crate::outbox::Outbox;
use crate::packet::{tag, Incoming};
use std::collections::{HashMap, VecDeque};
use std::time::{Duration, Instant};

/// A peer's T2 has asked several times by then, and a packet is hardly on its way for longer.
const KEPT_FOR: Duration = Duration::from_secs(60);
const KEPT_MOST: usize = 256;

#[derive(Debug, Default)]
pub struct Farewells {
    by_tag: HashMap<u32, Farewell>,
    oldest: VecDeque<(u32, Instant)>,
}

impl Farewells {
    pub fn keep(&mut self, farewell: Farewell, now: Instant) {
        let is_old = |kept: &(u32, Instant)| now.saturating_duration_since(kept.1) >= KEPT_FOR;
        while self.oldest.len() >= KEPT_MOST || self.oldest.front().map_or(false, is_old) {
            if let Some((tag, _)) = self.oldest.pop_front() {
                self.by_tag.remove(&tag);
            }
        }
        self.oldest.push_back((farewell.my_tag, now));
        self.by_tag.insert(farewell.my_tag, farewell);
    }

    /// Whether a packet came late to an association that was shut down; it then gets the last word again, if it asks for it.
    pub fn answer(&self, incoming: Incoming, outbox: &mut Outbox) -> bool {
        let by_tag = tag(incoming.packet).and_then(|tag| self.by_tag.get(&tag));
        let farewell = match by_tag.filter(|farewell| farewell.is_late(incoming)) {
            Some(farewell) => farewell,
            None => return false,
        };
        if let Some(word) = farewell.to_late(incoming) {
            outbox.counts.last_words += 1;
            outbox.send(incoming.from, word.to_vec());
        }
        true
    }
}

#[cfg(test)]
mod tests {
    use super::*;
    use crate::packet::SHUTDOWN_ACK;
    use std::net::{IpAddr, SocketAddr};

    fn farewell(my_tag: u32) -> Farewell {
        Farewell { peer: IpAddr::from([10, 0, 0, 1]), peer_port: 5000, my_tag, reply: vec![7; 16] }
    }

    /// Whether a SHUTDOWN ACK with this tag counts as late, and what it gets.
    fn answered(farewells: &Farewells, tag: u32) -> (bool, Option<Vec<u8>>) {
        let mut packet = vec![0x13, 0x88, 0x13, 0x89];
        packet.extend_from_slice(&tag.to_be_bytes());
        packet.extend_from_slice(&[0, 0, 0, 0, SHUTDOWN_ACK, 0, 0, 4]);
        let mut outbox = Outbox::default();
        let incoming = Incoming { packet: &packet, from: SocketAddr::from(([10, 0, 0, 1], 9899)), at: Instant::now() };
        (farewells.answer(incoming, &mut outbox), outbox.pop().map(|datagram| datagram.packet))
    }

    #[test]
    fn each_is_known_by_its_tag() {
        let now = Instant::now();
        let mut farewells = Farewells::default();
        farewells.keep(farewell(5), now);
        farewells.keep(farewell(6), now);
        assert_eq!(answered(&farewells, 5), (true, Some(vec![7; 16])));
        assert_eq!(answered(&farewells, 6), (true, Some(vec![7; 16])));
        assert_eq!(answered(&farewells, 7), (false, None));
    }

    #[test]
    fn they_are_kept_for_a_while_and_for_so_many() {
        let now = Instant::now();
        let mut farewells = Farewells::default();
        farewells.keep(farewell(0), now);
        farewells.keep(farewell(1), now + KEPT_FOR - Duration::from_millis(1));
        assert!(answered(&farewells, 0).0);
        farewells.keep(farewell(2), now + KEPT_FOR);
        assert!(!answered(&farewells, 0).0 && answered(&farewells, 1).0);
        for tag in 3..3 + KEPT_MOST as u32 {
            farewells.keep(farewell(tag), now + KEPT_FOR);
        }
        assert_eq!((farewells.by_tag.len(), farewells.oldest.len()), (KEPT_MOST, KEPT_MOST));
        assert!(!answered(&farewells, 2).0 && answered(&farewells, 3).0);
    }
}
