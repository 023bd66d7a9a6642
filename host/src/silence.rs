//! When a peer that owes an answer has been silent for so long that it should be told, long before the association is given up.

use std::time::{Duration, Instant};

/// How long a peer may be silent before that is an event.
pub const QUIET: Duration = Duration::from_secs(5);

#[derive(Clone, Copy, Debug, PartialEq, Eq)]
enum Waiting {
    /// The peer owes nothing.
    No,
    /// It owes an answer, and its silence is told at this moment.
    Until(Instant),
    Told,
}

#[derive(Debug)]
pub struct Silence {
    after: Duration,
    heard: Option<Instant>,
    waiting: Waiting,
}

impl Silence {
    pub fn after(after: Duration) -> Silence {
        Silence { after, heard: None, waiting: Waiting::No }
    }

    /// An association begins, which the peer's last answer is counted from.
    pub fn start(&mut self, now: Instant) {
        *self = Silence { heard: Some(now), ..Silence::after(self.after) };
    }

    /// The peer was heard: whether its silence had been told.
    pub fn heard(&mut self, now: Instant) -> bool {
        let was_told = self.waiting == Waiting::Told;
        self.heard = Some(now);
        self.waiting = Waiting::No;
        was_told
    }

    /// Whether the peer owes an answer, for which it has one RTO.
    pub fn follow(&mut self, owes: bool, rto: Duration, now: Instant) {
        if !owes {
            self.waiting = Waiting::No;
        } else if self.waiting == Waiting::No {
            let least = self.heard.unwrap_or(now) + self.after;
            self.waiting = Waiting::Until(least.max(now + rto));
        }
    }

    /// How long the peer has been silent, once, when it is to be told.
    pub fn ring(&mut self, now: Instant) -> Option<Duration> {
        match self.waiting {
            Waiting::Until(due) if due <= now => {
                self.waiting = Waiting::Told;
                Some(self.lasted(now))
            }
            _ => None,
        }
    }

    /// Since when nothing was heard.
    pub fn lasted(&self, now: Instant) -> Duration {
        self.heard.map_or(Duration::ZERO, |heard| now.saturating_duration_since(heard))
    }

    pub fn next(&self) -> Option<Instant> {
        match self.waiting {
            Waiting::Until(due) => Some(due),
            _ => None,
        }
    }
}

#[cfg(test)]
mod tests {
    use super::*;

    const RTO: Duration = Duration::from_secs(1);

    fn seconds(n: u64) -> Duration {
        Duration::from_secs(n)
    }

    #[test]
    fn a_peer_that_owes_nothing_may_be_silent() {
        let start = Instant::now();
        let mut silence = Silence::after(QUIET);
        silence.start(start);
        silence.follow(false, RTO, start);
        assert_eq!(silence.next(), None);
        assert_eq!(silence.ring(start + seconds(100)), None);
    }

    #[test]
    fn silence_is_told_once_and_ends_when_the_peer_is_heard() {
        let start = Instant::now();
        let mut silence = Silence::after(QUIET);
        silence.start(start);
        silence.follow(true, RTO, start + seconds(2));
        silence.follow(true, RTO, start + seconds(3));
        assert_eq!(silence.next(), Some(start + QUIET));
        assert_eq!(silence.ring(start + seconds(4)), None);
        assert_eq!(silence.ring(start + seconds(5)), Some(seconds(5)));
        silence.follow(true, RTO, start + seconds(6));
        assert_eq!(silence.next(), None);
        assert_eq!(silence.lasted(start + seconds(9)), seconds(9));
        assert!(silence.heard(start + seconds(9)));
        assert!(!silence.heard(start + seconds(9)));
    }

    #[test]
    fn after_a_long_idle_time_an_answer_has_one_rto() {
        let start = Instant::now();
        let mut silence = Silence::after(QUIET);
        silence.start(start);
        silence.follow(true, RTO, start + seconds(30));
        assert_eq!(silence.next(), Some(start + seconds(31)));
        assert_eq!(silence.ring(start + seconds(31)), Some(seconds(31)));
    }
}
