//! T1, T2 and T3: when each runs (RFC 9260 sections 5.1, 6.3.2 and 9.2). How long is the record's RTO; what an expiry does is the core's.

use crate::calls::{Standing, State};
use std::time::Instant;

#[derive(Clone, Copy, Debug, PartialEq, Eq)]
pub enum Alarm {
    T1,
    T2,
    T3,
}

/// The timers follow the record: they are told how it stands after every call and start, restart or stop by what changed.
#[derive(Debug, Default)]
pub struct Timers {
    t1: Option<Instant>,
    t2: Option<Instant>,
    t3: Option<Instant>,
    seen: Option<(State, u32)>,
}

impl Timers {
    pub fn follow(&mut self, standing: &Standing, now: Instant) {
        let due = now + standing.rto;
        let is_same_state = self.seen.map_or(false, |(state, _)| state == standing.state);
        let has_not_moved = self.seen.map_or(false, |(_, acked)| acked == standing.acked);
        self.t1 = running(self.t1, standing.state.is_opening(), is_same_state, due);
        self.t2 = running(self.t2, standing.state.is_closing(), is_same_state, due);
        let waits_for_ack = standing.state.is_carrying() && standing.has_outstanding();
        self.t3 = running(self.t3, waits_for_ack, has_not_moved, due);
        self.seen = Some((standing.state, standing.acked));
    }

    /// DATA came in SHUTDOWN-SENT: a new SHUTDOWN went out.
    pub fn restart_t2(&mut self, standing: &Standing, now: Instant) {
        if standing.state.is_closing() {
            self.t2 = Some(now + standing.rto);
        }
    }

    /// The first outstanding chunk was sent again: it has a whole RTO once more (RFC 9260 section 7.2.4, step 4).
    pub fn restart_t3(&mut self, standing: &Standing, now: Instant) {
        self.t3 = Some(now + standing.rto);
    }

    /// An alarm that is due; it rings once.
    pub fn ring(&mut self, now: Instant) -> Option<Alarm> {
        let alarms = [(&mut self.t1, Alarm::T1), (&mut self.t2, Alarm::T2), (&mut self.t3, Alarm::T3)];
        for (timer, alarm) in alarms {
            if timer.map_or(false, |due| due <= now) {
                *timer = None;
                return Some(alarm);
            }
        }
        None
    }

    pub fn next(&self) -> Option<Instant> {
        [self.t1, self.t2, self.t3].iter().flatten().min().copied()
    }
}

/// A timer that should run goes on where nothing restarts it.
fn running(timer: Option<Instant>, should_run: bool, goes_on: bool, due: Instant) -> Option<Instant> {
    match timer {
        _ if !should_run => None,
        Some(earlier) if goes_on => Some(earlier),
        _ => Some(due),
    }
}

#[cfg(test)]
mod tests {
    use super::*;
    use std::time::Duration;

    const RTO: Duration = Duration::from_millis(1000);

    fn standing(state: State, acked: u32, next_tsn: u32) -> Standing {
        Standing { state, rto: RTO, my_tag: 1, streams_out: 8, acked, next_tsn, has_gap: false, window: 65_536, peer_window: 65_536 }
    }

    fn millis(n: u64) -> Duration {
        Duration::from_millis(n)
    }

    #[test]
    fn t1_runs_while_opening_and_starts_anew_with_the_cookie() {
        let start = Instant::now();
        let mut timers = Timers::default();
        timers.follow(&standing(State::CookieWait, 0, 1), start);
        timers.follow(&standing(State::CookieWait, 0, 1), start + millis(300));
        assert_eq!(timers.next(), Some(start + RTO));
        timers.follow(&standing(State::CookieEchoed, 0, 1), start + millis(400));
        assert_eq!(timers.next(), Some(start + millis(400) + RTO));
        timers.follow(&standing(State::Established, 0, 1), start + millis(500));
        assert_eq!(timers.next(), None);
    }

    #[test]
    fn an_alarm_rings_once_and_runs_again_when_followed() {
        let start = Instant::now();
        let mut timers = Timers::default();
        let waiting = standing(State::CookieWait, 0, 1);
        timers.follow(&waiting, start);
        assert_eq!(timers.ring(start + millis(999)), None);
        assert_eq!(timers.ring(start + RTO), Some(Alarm::T1));
        assert_eq!(timers.ring(start + RTO), None);
        timers.follow(&waiting, start + RTO);
        assert_eq!(timers.next(), Some(start + RTO + RTO));
    }

    #[test]
    fn t3_runs_with_data_outstanding_and_restarts_when_the_point_moves() {
        let start = Instant::now();
        let mut timers = Timers::default();
        let edge = u32::MAX;
        timers.follow(&standing(State::Established, edge, 0), start);
        assert_eq!(timers.next(), None);
        timers.follow(&standing(State::Established, edge, 2), start);
        timers.follow(&standing(State::Established, edge, 3), start + millis(100));
        assert_eq!(timers.next(), Some(start + RTO));
        timers.follow(&standing(State::ShutdownPending, 0, 3), start + millis(200));
        assert_eq!(timers.next(), Some(start + millis(200) + RTO));
        timers.follow(&standing(State::ShutdownPending, 2, 3), start + millis(300));
        assert_eq!(timers.next(), None);
    }

    #[test]
    fn t3_restarts_when_it_is_told_to() {
        let start = Instant::now();
        let mut timers = Timers::default();
        let waiting = standing(State::Established, 0, 3);
        timers.follow(&waiting, start);
        timers.restart_t3(&waiting, start + millis(600));
        timers.follow(&waiting, start + millis(600));
        assert_eq!(timers.next(), Some(start + millis(600) + RTO));
    }

    #[test]
    fn t2_runs_while_closing_and_restarts_on_data() {
        let start = Instant::now();
        let mut timers = Timers::default();
        let sent = standing(State::ShutdownSent, 0, 1);
        timers.follow(&sent, start);
        timers.restart_t2(&sent, start + millis(700));
        assert_eq!(timers.ring(start + RTO), None);
        assert_eq!(timers.ring(start + millis(700) + RTO), Some(Alarm::T2));
        timers.follow(&standing(State::ShutdownAckSent, 0, 1), start + millis(2000));
        assert_eq!(timers.next(), Some(start + millis(3000)));
        timers.follow(&standing(State::Closed, 0, 1), start + millis(2100));
        assert_eq!(timers.next(), None);
    }
}
