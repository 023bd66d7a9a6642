//! Which round trips are measured (RFC 9260 section 6.3.1): one at a time, of a chunk sent once (Karn's rule, C5).

use crate::calls::Transmitted;
use std::time::{Duration, Instant};

#[derive(Debug, Default)]
pub struct RoundTrip {
    measured: Option<(u32, Instant)>,
}

impl RoundTrip {
    /// A packet of DATA went out. One that was sent again at or before the measured chunk spoils the measurement: the chunk itself was sent
    /// again, or its acknowledgement had to wait for one that was.
    pub fn sent(&mut self, packet: &Transmitted, now: Instant) {
        if packet.resent {
            if self.measured.map_or(false, |(tsn, _)| is_at_or_before(packet.first, tsn)) {
                self.measured = None;
            }
        } else if self.measured.is_none() {
            self.measured = Some((packet.last, now));
        }
    }

    /// T3 expired: everything outstanding is sent again.
    pub fn spoil(&mut self) {
        self.measured = None;
    }

    /// The peer has all up to this TSN: the round trip, if the measured chunk is among it.
    pub fn acknowledged(&mut self, acked: u32, now: Instant) -> Option<Duration> {
        let (tsn, sent) = self.measured?;
        if !is_at_or_before(tsn, acked) {
            return None;
        }
        self.measured = None;
        Some(now.saturating_duration_since(sent))
    }
}

/// On the circle of 2^32, where both are near each other.
fn is_at_or_before(a: u32, b: u32) -> bool {
    b.wrapping_sub(a) < 1 << 31
}

#[cfg(test)]
mod tests {
    use super::*;

    fn packet(first: u32, last: u32, resent: bool) -> Transmitted {
        Transmitted { length: 100, resent, first, last }
    }

    #[test]
    fn a_chunk_sent_once_is_measured_across_the_wrap() {
        let now = Instant::now();
        let later = now + Duration::from_millis(30);
        let mut trip = RoundTrip::default();
        trip.sent(&packet(u32::MAX, 0, false), now);
        trip.sent(&packet(1, 2, false), now + Duration::from_millis(10));
        assert_eq!(trip.acknowledged(u32::MAX, later), None);
        assert_eq!(trip.acknowledged(0, later), Some(Duration::from_millis(30)));
        assert_eq!(trip.acknowledged(2, later), None);
    }

    #[test]
    fn a_chunk_sent_again_is_not() {
        let now = Instant::now();
        let mut trip = RoundTrip::default();
        trip.sent(&packet(10, 12, false), now);
        trip.sent(&packet(11, 11, true), now);
        assert_eq!(trip.acknowledged(12, now), None);
        trip.sent(&packet(13, 13, false), now);
        trip.spoil();
        assert_eq!(trip.acknowledged(13, now), None);
    }

    #[test]
    fn one_sent_again_behind_it_does_not_spoil_it() {
        let now = Instant::now();
        let mut trip = RoundTrip::default();
        trip.sent(&packet(10, 12, false), now);
        trip.sent(&packet(13, 14, true), now);
        assert_eq!(trip.acknowledged(12, now), Some(Duration::ZERO));
    }
}
