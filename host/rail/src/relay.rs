//! A bad stretch between two UDP addresses: it drops, repeats, reorders and damages packets, as a seed decides.

use oilwhisper::random::Seeded;
use std::cmp::{Ordering, Reverse};
use std::collections::BinaryHeap;
use std::io::{self, ErrorKind};
use std::net::{IpAddr, SocketAddr, UdpSocket};
use std::sync::atomic::{AtomicBool, Ordering as Memory};
use std::time::{Duration, Instant};

/// How often each mishap befalls a packet, as a probability, and how long every packet takes.
#[derive(Clone, Copy, Debug, PartialEq)]
pub struct Weather {
    pub delay: Duration,
    pub loss: f64,
    pub repeat: f64,
    pub reorder: f64,
    pub damage: f64,
}

impl Weather {
    pub const FAIR: Weather = Weather { delay: Duration::ZERO, loss: 0.0, repeat: 0.0, reorder: 0.0, damage: 0.0 };
}

#[derive(Clone, Copy, Debug, Default, PartialEq, Eq)]
pub struct Mishaps {
    pub passed: u64,
    pub dropped: u64,
    pub repeated: u64,
    pub reordered: u64,
    pub damaged: u64,
}

impl Mishaps {
    pub fn and(self, other: Mishaps) -> Mishaps {
        Mishaps {
            passed: self.passed + other.passed,
            dropped: self.dropped + other.dropped,
            repeated: self.repeated + other.repeated,
            reordered: self.reordered + other.reordered,
            damaged: self.damaged + other.damaged,
        }
    }
}

/// The longest that a packet is held back, so that later ones overtake it.
const HELD_MOST: Duration = Duration::from_millis(5);

struct Delayed {
    due: Instant,
    turn: u64,
    packet: Vec<u8>,
}

impl Ord for Delayed {
    fn cmp(&self, other: &Delayed) -> Ordering {
        (self.due, self.turn).cmp(&(other.due, other.turn))
    }
}

impl PartialOrd for Delayed {
    fn partial_cmp(&self, other: &Delayed) -> Option<Ordering> {
        Some(self.cmp(other))
    }
}

impl PartialEq for Delayed {
    fn eq(&self, other: &Delayed) -> bool {
        self.cmp(other) == Ordering::Equal
    }
}

impl Eq for Delayed {}

/// One direction of the stretch.
pub struct Channel {
    weather: Weather,
    chance: Seeded,
    waiting: BinaryHeap<Reverse<Delayed>>,
    turn: u64,
    mishaps: Mishaps,
}

impl Channel {
    pub fn new(weather: Weather, seed: u64) -> Channel {
        Channel { weather, chance: Seeded::new(seed), waiting: BinaryHeap::new(), turn: 0, mishaps: Mishaps::default() }
    }

    pub fn mishaps(&self) -> Mishaps {
        self.mishaps
    }

    /// A packet enters.
    pub fn enter(&mut self, packet: &[u8], now: Instant) {
        if self.chance.happens(self.weather.loss) {
            self.mishaps.dropped += 1;
            return;
        }
        self.hold(packet, now);
        if self.chance.happens(self.weather.repeat) {
            self.mishaps.repeated += 1;
            self.hold(packet, now);
        }
    }

    /// A packet leaves, if one is due.
    pub fn leave(&mut self, now: Instant) -> Option<Vec<u8>> {
        if self.next()? > now {
            return None;
        }
        self.mishaps.passed += 1;
        self.waiting.pop().map(|Reverse(delayed)| delayed.packet)
    }

    /// When the next packet is due.
    pub fn next(&self) -> Option<Instant> {
        self.waiting.peek().map(|Reverse(delayed)| delayed.due)
    }

    fn hold(&mut self, packet: &[u8], now: Instant) {
        let mut packet = packet.to_vec();
        if self.chance.happens(self.weather.damage) && !packet.is_empty() {
            let bit = self.chance.below(packet.len() as u64 * 8) as usize;
            packet[bit / 8] ^= 1 << (bit % 8);
            self.mishaps.damaged += 1;
        }
        let mut due = now + self.weather.delay;
        if self.chance.happens(self.weather.reorder) {
            due += Duration::from_micros(1 + self.chance.below(HELD_MOST.as_micros() as u64));
            self.mishaps.reordered += 1;
        }
        self.turn += 1;
        self.waiting.push(Reverse(Delayed { due, turn: self.turn, packet }));
    }
}

/// The stretch between two addresses. Each end sends to the relay's address on its own side and hears the other from there.
pub struct Relay {
    ends: [SocketAddr; 2],
    sides: [UdpSocket; 2],
}

impl Relay {
    pub fn between(first: SocketAddr, second: SocketAddr, at: IpAddr) -> io::Result<Relay> {
        Ok(Relay { ends: [first, second], sides: [UdpSocket::bind((at, 0))?, UdpSocket::bind((at, 0))?] })
    }

    /// Where the first end sends to.
    pub fn first_side(&self) -> io::Result<SocketAddr> {
        self.sides[0].local_addr()
    }

    /// Where the second end sends to.
    pub fn second_side(&self) -> io::Result<SocketAddr> {
        self.sides[1].local_addr()
    }

    /// Carries packets from the first end to the second until told to stop, and tells what befell them.
    pub fn carry_forth(&self, channel: Channel, stop: &AtomicBool) -> io::Result<Mishaps> {
        carry(&self.sides[0], &self.sides[1], self.ends[1], channel, stop)
    }

    /// The same from the second to the first.
    pub fn carry_back(&self, channel: Channel, stop: &AtomicBool) -> io::Result<Mishaps> {
        carry(&self.sides[1], &self.sides[0], self.ends[0], channel, stop)
    }
}

const IDLE: Duration = Duration::from_millis(20);
const SHORTEST: Duration = Duration::from_millis(1);

fn carry(from: &UdpSocket, by: &UdpSocket, to: SocketAddr, mut channel: Channel, stop: &AtomicBool) -> io::Result<Mishaps> {
    let mut buffer = [0; 2048];
    let mut patience = None;
    while !stop.load(Memory::Relaxed) {
        let wait = if channel.next().is_some() { SHORTEST } else { IDLE };
        if patience != Some(wait) {
            from.set_read_timeout(Some(wait))?;
            patience = Some(wait);
        }
        match from.recv(&mut buffer) {
            Ok(length) => channel.enter(&buffer[..length], Instant::now()),
            Err(e) if matches!(e.kind(), ErrorKind::WouldBlock | ErrorKind::TimedOut | ErrorKind::Interrupted) => {}
            Err(e) => return Err(e),
        }
        while let Some(packet) = channel.leave(Instant::now()) {
            by.send_to(&packet, to)?;
        }
    }
    Ok(channel.mishaps())
}

#[cfg(test)]
mod tests {
    use super::*;

    const STORM: Weather = Weather { delay: Duration::ZERO, loss: 0.1, repeat: 0.1, reorder: 0.2, damage: 0.05 };

    /// What comes out of a channel when numbered packets enter, a millisecond apart.
    fn pass(weather: Weather, seed: u64, packets: u32) -> (Vec<Vec<u8>>, Mishaps) {
        let start = Instant::now();
        let mut channel = Channel::new(weather, seed);
        let mut out = Vec::new();
        for n in 0..packets {
            let now = start + Duration::from_millis(u64::from(n));
            channel.enter(&n.to_be_bytes(), now);
            out.extend(std::iter::from_fn(|| channel.leave(now)));
        }
        let end = start + Duration::from_millis(u64::from(packets)) + HELD_MOST;
        out.extend(std::iter::from_fn(|| channel.leave(end)));
        assert_eq!(channel.next(), None);
        (out, channel.mishaps())
    }

    #[test]
    fn fair_weather_changes_nothing() {
        let (out, mishaps) = pass(Weather::FAIR, 1, 1000);
        let sent: Vec<_> = (0u32..1000).map(|n| n.to_be_bytes().to_vec()).collect();
        assert_eq!(out, sent);
        assert_eq!(mishaps, Mishaps { passed: 1000, ..Mishaps::default() });
    }

    #[test]
    fn a_seed_repeats_itself_and_another_differs() {
        assert_eq!(pass(STORM, 5, 1000), pass(STORM, 5, 1000));
        assert_ne!(pass(STORM, 5, 1000).0, pass(STORM, 6, 1000).0);
    }

    #[test]
    fn every_packet_is_accounted_for() {
        let (out, mishaps) = pass(STORM, 9, 10_000);
        assert_eq!(out.len() as u64, mishaps.passed);
        assert_eq!(mishaps.passed, 10_000 - mishaps.dropped + mishaps.repeated);
        assert!((900..1100).contains(&mishaps.dropped));
        assert!((800..1000).contains(&mishaps.repeated));
        assert!((1800..2200).contains(&mishaps.reordered));
        assert!((400..600).contains(&mishaps.damaged));
    }

    #[test]
    fn reordering_alone_loses_nothing() {
        let weather = Weather { reorder: 0.3, ..Weather::FAIR };
        let (mut out, _) = pass(weather, 3, 2000);
        let sent: Vec<_> = (0u32..2000).map(|n| n.to_be_bytes().to_vec()).collect();
        assert_ne!(out, sent);
        out.sort();
        assert_eq!(out, sent);
    }

    #[test]
    fn every_packet_takes_its_time() {
        let weather = Weather { delay: Duration::from_millis(30), ..Weather::FAIR };
        let now = Instant::now();
        let mut channel = Channel::new(weather, 1);
        channel.enter(b"late", now);
        assert_eq!(channel.leave(now + Duration::from_millis(29)), None);
        assert_eq!(channel.leave(now + weather.delay), Some(b"late".to_vec()));
    }

    #[test]
    fn a_relay_carries_both_ways() {
        let home = IpAddr::from([127, 0, 0, 1]);
        let a = UdpSocket::bind((home, 0)).unwrap();
        let b = UdpSocket::bind((home, 0)).unwrap();
        for end in [&a, &b] {
            end.set_read_timeout(Some(Duration::from_secs(5))).unwrap();
        }
        let relay = Relay::between(a.local_addr().unwrap(), b.local_addr().unwrap(), home).unwrap();
        let stop = AtomicBool::new(false);
        std::thread::scope(|scope| {
            scope.spawn(|| relay.carry_forth(Channel::new(Weather::FAIR, 1), &stop));
            scope.spawn(|| relay.carry_back(Channel::new(Weather::FAIR, 2), &stop));
            let mut buffer = [0; 16];
            a.send_to(b"out", relay.first_side().unwrap()).unwrap();
            assert_eq!(b.recv(&mut buffer).map(|n| buffer[..n].to_vec()).unwrap(), b"out");
            b.send_to(b"home", relay.second_side().unwrap()).unwrap();
            assert_eq!(a.recv(&mut buffer).map(|n| buffer[..n].to_vec()).unwrap(), b"home");
            stop.store(true, Memory::Relaxed);
        });
    }
}
