//! Heartbeats (RFC 9260 section 8.3): when one goes out, which answer is its own, and when the peer counts as gone.

use crate::calls::Standing;
use crate::random::Seeded;
use std::time::{Duration, Instant};

/// RFC 9260 section 16: HB.interval.
pub const INTERVAL: Duration = Duration::from_secs(30);
/// RFC 9260 section 16: Association.Max.Retrans.
pub const UNANSWERED_MOST: u32 = 10;
/// RFC 9260 section 16: RTO.Max, past which an RTO is not doubled.
const RTO_MOST: Duration = Duration::from_secs(60);

#[derive(Debug)]
pub struct Heartbeat {
    interval: Duration,
    most: u32,
    chance: Seeded,
    due: Option<Instant>,
    awaited: Option<([u8; 8], Instant)>,
    unanswered: u32,
}

impl Heartbeat {
    /// At this interval, up to so many without an answer.
    pub fn every(interval: Duration, most: u32, seed: u64) -> Heartbeat {
        Heartbeat { interval, most, chance: Seeded::new(seed), due: None, awaited: None, unanswered: 0 }
    }

    /// Runs where heartbeats can be sent, and starts where it did not run.
    pub fn follow(&mut self, standing: &Standing, now: Instant) {
        if !standing.state.is_carrying() {
            self.due = None;
            self.awaited = None;
            self.unanswered = 0;
        } else if self.due.is_none() {
            self.postpone(standing, now);
        }
    }

    /// Something else went out that shows whether the peer is there: DATA for the first time.
    pub fn postpone(&mut self, standing: &Standing, now: Instant) {
        let rto = self.doubled(standing.rto);
        let jitter = rto.mul_f64(self.chance.below(1001) as f64 / 1000.0);
        self.due = Some(now + self.interval + rto / 2 + jitter);
    }

    pub fn is_due(&self, now: Instant) -> bool {
        self.due.map_or(false, |due| due <= now)
    }

    /// Whether so many heartbeats went unanswered that another is not worth sending.
    pub fn is_in_vain(&self) -> bool {
        self.unanswered > self.most
    }

    pub fn is_awaited(&self) -> bool {
        self.awaited.is_some()
    }

    pub fn sent(&mut self, value: [u8; 8], standing: &Standing, now: Instant) {
        self.unanswered += 1;
        self.asked(value, standing, now);
    }

    /// One went out beside DATA that was sent again, whose expiries are counted by themselves.
    pub fn asked(&mut self, value: [u8; 8], standing: &Standing, now: Instant) {
        self.awaited = Some((value, now));
        self.postpone(standing, now);
    }

    /// Something was acknowledged: the peer is there.
    pub fn heard(&mut self) {
        self.unanswered = 0;
    }

    /// A HEARTBEAT ACK brought this value back: the round trip, if it answers the last heartbeat.
    pub fn answered(&mut self, value: &[u8], now: Instant) -> Option<Duration> {
        let (awaited, sent) = self.awaited?;
        if value != awaited {
            return None;
        }
        self.awaited = None;
        self.heard();
        Some(now.saturating_duration_since(sent))
    }

    pub fn next(&self) -> Option<Instant> {
        self.due
    }

    /// The RTO, twice as long for each heartbeat before the last that had no answer.
    fn doubled(&self, rto: Duration) -> Duration {
        let times = self.unanswered.saturating_sub(1).min(6);
        (rto * (1 << times)).min(RTO_MOST.max(rto))
    }
}

#[cfg(test)]
mod tests {
    use super::*;
    use crate::calls::State;

    const RTO: Duration = Duration::from_secs(1);

    fn standing(state: State) -> Standing {
        Standing { state, rto: RTO, my_tag: 1, streams_out: 8, acked: 0, next_tsn: 1, has_gap: false, window: 65_536, peer_window: 65_536 }
    }

    fn every(interval: Duration) -> Heartbeat {
        Heartbeat::every(interval, UNANSWERED_MOST, 5)
    }

    #[test]
    fn it_beats_when_idle_and_waits_while_data_goes_out() {
        let start = Instant::now();
        let up = standing(State::Established);
        let mut heart = every(Duration::from_secs(2));
        heart.follow(&up, start);
        let due = heart.next();
        heart.follow(&up, start + Duration::from_secs(1));
        assert_eq!(heart.next(), due);
        assert!(!heart.is_due(start + Duration::from_millis(2499)));
        assert!(heart.is_due(start + Duration::from_millis(3500)));
        heart.postpone(&up, start + Duration::from_secs(2));
        assert!(!heart.is_due(start + Duration::from_millis(4499)));
        heart.follow(&standing(State::ShutdownSent), start);
        assert_eq!(heart.next(), None);
    }

    #[test]
    fn its_moments_are_spread_by_half_an_rto_each_way() {
        let start = Instant::now();
        let mut heart = every(INTERVAL);
        let mut waits = Vec::new();
        for _ in 0..1000 {
            heart.postpone(&standing(State::Established), start);
            waits.push(heart.next().unwrap() - start - INTERVAL);
        }
        let (least, most) = (waits.iter().min().unwrap(), waits.iter().max().unwrap());
        assert!(*least >= RTO / 2 && *least < RTO.mul_f64(0.51), "{:?}", least);
        assert!(*most <= RTO.mul_f64(1.5) && *most > RTO.mul_f64(1.49), "{:?}", most);
    }

    #[test]
    fn each_without_an_answer_doubles_the_wait_for_the_next() {
        let start = Instant::now();
        let up = standing(State::Established);
        let mut heart = every(INTERVAL);
        for expected in [1, 2, 4, 8, 16, 32, 60, 60] {
            heart.sent([1; 8], &up, start);
            let wait = heart.next().unwrap() - start - INTERVAL;
            assert!(wait >= RTO * expected / 2 && wait <= RTO * expected * 3 / 2, "{:?} for {}", wait, expected);
        }
        heart.answered(&[1; 8], start);
        heart.sent([2; 8], &up, start);
        assert!(heart.next().unwrap() <= start + INTERVAL + RTO * 3 / 2);
    }

    #[test]
    fn only_its_own_value_is_an_answer() {
        let start = Instant::now();
        let mut heart = every(INTERVAL);
        heart.sent([7; 8], &standing(State::Established), start);
        let later = start + Duration::from_millis(40);
        assert_eq!(heart.answered(&[6; 8], later), None);
        assert_eq!(heart.answered(&[7; 4], later), None);
        assert!(heart.is_awaited());
        assert_eq!(heart.answered(&[7; 8], later), Some(Duration::from_millis(40)));
        assert_eq!(heart.answered(&[7; 8], later), None);
    }

    #[test]
    fn so_many_unanswered_are_in_vain() {
        let start = Instant::now();
        let up = standing(State::Established);
        let mut heart = Heartbeat::every(INTERVAL, 3, 5);
        for _ in 0..3 {
            heart.sent([1; 8], &up, start);
            heart.asked([2; 8], &up, start);
        }
        assert!(!heart.is_in_vain());
        heart.sent([1; 8], &up, start);
        assert!(heart.is_in_vain());
        heart.heard();
        assert!(!heart.is_in_vain());
    }
}
