//! When a SACK is due (RFC 9260 section 6.2): with every second packet that brought DATA, else 200 ms after one, and at once for the first DATA of an
//! association (section 5.1), where something is missing or came twice, where the sender asks for it, or where a window that was nearly shut has opened again.

use crate::calls::AREA;
use std::time::{Duration, Instant};

pub const DELAY: Duration = Duration::from_millis(200);
const PACKETS: u32 = 2;
/// A window that grew by so much is told to the peer without its asking.
const GROWTH: u32 = (AREA / 2) as u32;

#[derive(Debug)]
pub struct DelayedSack {
    /// No SACK has gone out in this association.
    is_first: bool,
    packets: u32,
    due: Option<Instant>,
    offered: u32,
}

impl Default for DelayedSack {
    fn default() -> DelayedSack {
        DelayedSack { is_first: true, packets: 0, due: None, offered: AREA as u32 }
    }
}

impl DelayedSack {
    /// A packet with DATA came.
    pub fn data_came(&mut self, at_once: bool, now: Instant) {
        self.packets += 1;
        if at_once || self.is_first || self.packets >= PACKETS {
            self.due = Some(now);
        } else {
            self.due = self.due.or_else(|| Some(now + DELAY));
        }
    }

    /// Messages were taken, and a SACK would now offer this window.
    pub fn window_is(&mut self, window: u32, now: Instant) {
        if window >= self.offered.saturating_add(GROWTH) {
            self.due = Some(now);
        }
    }

    pub fn is_due(&self, now: Instant) -> bool {
        self.due.map_or(false, |due| due <= now)
    }

    /// A SACK went out that offers this window.
    pub fn sent(&mut self, window: u32) {
        *self = DelayedSack { is_first: false, packets: 0, due: None, offered: window };
    }

    /// None can go out now.
    pub fn drop_due(&mut self) {
        self.packets = 0;
        self.due = None;
    }

    pub fn next(&self) -> Option<Instant> {
        self.due
    }
}

#[cfg(test)]
mod tests {
    use super::*;

    /// One that has acknowledged the first DATA.
    fn begun() -> DelayedSack {
        let mut sack = DelayedSack::default();
        sack.sent(AREA as u32);
        sack
    }

    #[test]
    fn the_first_data_of_all_waits_for_nothing() {
        let now = Instant::now();
        let mut sack = DelayedSack::default();
        assert_eq!(sack.next(), None);
        sack.data_came(false, now);
        assert!(sack.is_due(now));
        sack.drop_due();
        assert_eq!(sack.next(), None);
    }

    #[test]
    fn the_first_packet_waits_and_the_second_does_not() {
        let now = Instant::now();
        let mut sack = begun();
        sack.data_came(false, now);
        assert!(!sack.is_due(now));
        assert!(sack.is_due(now + DELAY));
        sack.data_came(false, now + Duration::from_millis(50));
        assert!(sack.is_due(now + Duration::from_millis(50)));
    }

    #[test]
    fn a_sack_that_was_sent_ends_the_count() {
        let now = Instant::now();
        let mut sack = begun();
        sack.data_came(false, now);
        sack.sent(AREA as u32);
        assert_eq!(sack.next(), None);
        sack.data_came(false, now);
        assert!(!sack.is_due(now));
    }

    #[test]
    fn a_gap_or_a_duplicate_waits_for_nothing() {
        let now = Instant::now();
        let mut sack = begun();
        sack.data_came(true, now);
        assert!(sack.is_due(now));
    }

    #[test]
    fn a_window_that_opened_is_told() {
        let now = Instant::now();
        let mut sack = begun();
        sack.window_is(AREA as u32, now);
        assert_eq!(sack.next(), None);
        sack.sent(1024);
        sack.window_is(1024 + GROWTH - 1, now);
        assert_eq!(sack.next(), None);
        sack.window_is(1024 + GROWTH, now);
        assert!(sack.is_due(now));
    }
}
