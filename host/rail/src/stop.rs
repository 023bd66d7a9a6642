//! Ctrl-C and SIGTERM: the first asks for a shutdown, the second for an abort.

use std::sync::atomic::{AtomicUsize, Ordering};
use std::sync::Arc;
use std::time::{Duration, Instant};

/// How long a shutdown that was asked for may take before it becomes an abort.
pub const PATIENCE: Duration = Duration::from_secs(10);

#[derive(Clone, Copy, Debug, PartialEq, Eq)]
pub enum Wish {
    GoOn,
    ShutDown,
    Abort,
}

/// How often the end was asked for.
#[derive(Clone, Debug, Default)]
pub struct Stop {
    asked: Arc<AtomicUsize>,
    hears_signals: bool,
}

impl Stop {
    /// Counts the process's signals from now on.
    pub fn on_signals() -> Stop {
        hear_signals();
        Stop { hears_signals: true, ..Stop::default() }
    }

    pub fn ask(&self) {
        self.asked.fetch_add(1, Ordering::Relaxed);
    }

    pub fn wish(&self) -> Wish {
        let signals = if self.hears_signals { SIGNALS.load(Ordering::Relaxed) } else { 0 };
        match self.asked.load(Ordering::Relaxed) + signals {
            0 => Wish::GoOn,
            1 => Wish::ShutDown,
            _ => Wish::Abort,
        }
    }
}

static SIGNALS: AtomicUsize = AtomicUsize::new(0);

/// Linux's numbers.
const SIGINT: i32 = 2;
const SIGTERM: i32 = 15;

extern "C" fn count(_: i32) {
    SIGNALS.fetch_add(1, Ordering::Relaxed);
}

extern "C" {
    fn signal(number: i32, handler: extern "C" fn(i32)) -> usize;
}

/// A handler that adds to a counter and does no more.
fn hear_signals() {
    for number in [SIGINT, SIGTERM] {
        // C's `signal` is given a number that it knows and a function that lives as long as the process, and which may interrupt anything: it touches an
        // atomic counter alone. It fails only for a number that it does not know.
        unsafe { signal(number, count) };
    }
}

/// The wish as one end follows it: a shutdown that takes too long becomes an abort.
#[derive(Clone, Debug, Default)]
pub struct Heeded {
    stop: Stop,
    since: Option<Instant>,
}

impl Heeded {
    pub fn of(stop: &Stop) -> Heeded {
        Heeded { stop: stop.clone(), since: None }
    }

    pub fn wish(&mut self, now: Instant) -> Wish {
        let wish = self.stop.wish();
        if wish == Wish::GoOn {
            return wish;
        }
        let since = *self.since.get_or_insert(now);
        if now.saturating_duration_since(since) >= PATIENCE {
            Wish::Abort
        } else {
            wish
        }
    }

    pub fn is_asked(&self) -> bool {
        self.stop.wish() != Wish::GoOn
    }
}

#[cfg(test)]
mod tests {
    use super::*;

    #[test]
    fn the_first_shuts_down_and_the_second_aborts() {
        let stop = Stop::default();
        let now = Instant::now();
        let mut heeded = Heeded::of(&stop);
        assert_eq!(heeded.wish(now), Wish::GoOn);
        stop.ask();
        assert_eq!(heeded.wish(now), Wish::ShutDown);
        stop.ask();
        assert_eq!(heeded.wish(now), Wish::Abort);
    }

    #[test]
    fn signals_are_counted_by_those_who_hear_them() {
        let (hears, deaf) = (Stop::on_signals(), Stop::default());
        assert_eq!(hears.wish(), Wish::GoOn);
        for (signal, wish) in [("INT", Wish::ShutDown), ("TERM", Wish::Abort)] {
            let sent = std::process::Command::new("sh").args(["-c", &format!("kill -{} {}", signal, std::process::id())]).status();
            assert!(sent.map_or(false, |status| status.success()));
            let until = Instant::now() + PATIENCE;
            while hears.wish() != wish && Instant::now() < until {
                std::thread::yield_now();
            }
            assert_eq!(hears.wish(), wish);
        }
        assert_eq!(deaf.wish(), Wish::GoOn);
    }

    #[test]
    fn a_shutdown_that_takes_too_long_becomes_an_abort() {
        let stop = Stop::default();
        let now = Instant::now();
        let mut heeded = Heeded::of(&stop);
        stop.ask();
        assert_eq!(heeded.wish(now), Wish::ShutDown);
        assert_eq!(heeded.wish(now + PATIENCE - Duration::from_millis(1)), Wish::ShutDown);
        assert_eq!(heeded.wish(now + PATIENCE), Wish::Abort);
    }
}
