//! Two endpoints on a clock that the test moves, with a channel each way, and what a stranger may send to either.

// Each test file uses a part of this.
#![allow(dead_code, unused_imports)]

use model::checksum;
pub use model::read::{
    ABORT, COOKIE_ACK, COOKIE_ECHO, DATA, HEARTBEAT, HEARTBEAT_ACK, INIT, INIT_ACK, SACK, SHUTDOWN, SHUTDOWN_ACK, SHUTDOWN_COMPLETE,
};
use oilwhisper::calls::State;
use oilwhisper::endpoint::{Config, Datagram, Endpoint, Event};
use oilwhisper::library::Library;
use oilwhisper::random::Random;
use rail::relay::{Channel, Weather};
use std::net::SocketAddr;
use std::time::{Duration, Instant};

pub const PORTS: [u16; 2] = [5000, 5001];

pub const MINUTE: Duration = Duration::from_secs(60);

/// What happens on a clock that the test moves.
pub trait Clocked {
    fn now(&mut self) -> &mut Instant;

    /// All that happens at this moment.
    fn settle(&mut self);

    /// When something happens next.
    fn next_moment(&self) -> Option<Instant>;

    /// Moves the clock from moment to moment until the end is reached; false where so much time passes before.
    fn run_until(&mut self, most: Duration, mut is_reached: impl FnMut(&mut Self) -> bool) -> bool {
        let deadline = *self.now() + most;
        loop {
            self.settle();
            if is_reached(self) {
                return true;
            }
            self.settle();
            match self.next_moment() {
                Some(next) if next <= deadline => *self.now() = (*self.now()).max(next),
                _ => {
                    *self.now() = deadline;
                    return false;
                }
            }
        }
    }

    fn run_for(&mut self, time: Duration) {
        self.run_until(time, |_| false);
    }
}

/// Whether a packet is lost.
pub type Loses = Box<dyn FnMut(&[u8]) -> bool>;

/// One end, with what it sent, took and saw happen.
pub struct End<L> {
    pub endpoint: Endpoint<L>,
    pub address: SocketAddr,
    pub channel: Channel,
    /// Decides which packets of this end are lost before they reach its channel.
    pub loses: Loses,
    pub sent: Vec<Vec<u8>>,
    /// What it sent where the other end is not.
    pub astray: Vec<Datagram>,
    pub taken: Vec<(u16, u16, Vec<u8>)>,
    pub takes: bool,
    pub events: Vec<Event>,
}

pub struct Pair<L> {
    pub now: Instant,
    /// There are other addresses than the two; else it is wrong to send anywhere but to the other end.
    pub has_strangers: bool,
    pub ends: [End<L>; 2],
}

pub fn config(end: usize) -> Config {
    Config { first_tsn: Some(u32::MAX - 99), ..Config::at_port(PORTS[end]) }
}

impl<L: Library> Pair<L> {
    pub fn new(weather: Weather, seed: u64) -> Pair<L> {
        Pair::with(weather, seed, [config(0), config(1)])
    }

    pub fn with(weather: Weather, seed: u64, configs: [Config; 2]) -> Pair<L> {
        let now = Instant::now();
        let end = |n: usize| End {
            endpoint: Endpoint::new(configs[n].clone(), Random::from_key([seed as u8 ^ n as u8; 32]), now),
            address: SocketAddr::from(([10, 0, 0, n as u8], 9899)),
            channel: Channel::new(weather, seed.wrapping_mul(2) + n as u64),
            loses: Box::new(|_| false),
            sent: Vec::new(),
            astray: Vec::new(),
            taken: Vec::new(),
            takes: true,
            events: Vec::new(),
        };
        Pair { now, has_strangers: false, ends: [end(0), end(1)] }
    }

    /// The first end asks the second for an association.
    pub fn associate(&mut self) {
        let (to, now) = (self.ends[1].address, self.now);
        self.ends[0].endpoint.associate(to, PORTS[1], now).expect("a closed record can associate");
    }

    pub fn up(weather: Weather, seed: u64) -> Pair<L> {
        let mut pair = Pair::new(weather, seed);
        pair.associate();
        assert!(pair.run_until(Duration::from_secs(60), |pair| pair.are(State::Established)));
        pair
    }

    pub fn state(&self, end: usize) -> State {
        self.ends[end].endpoint.standing().state
    }

    pub fn are(&self, state: State) -> bool {
        self.state(0) == state && self.state(1) == state
    }

    /// A packet comes to one end from this address, which need not be the other's.
    pub fn arrive(&mut self, end: usize, packet: &[u8], from: SocketAddr) {
        let now = self.now;
        self.ends[end].endpoint.arrive(packet, from, now);
    }

    fn step(&mut self, n: usize) -> bool {
        let now = self.now;
        let (here, there) = match (&mut self.ends, n) {
            ([a, b], 0) => (a, b),
            ([a, b], _) => (b, a),
        };
        here.endpoint.expire(now);
        let mut moved = false;
        while let Some(packet) = there.channel.leave(now) {
            here.endpoint.arrive(&packet, there.address, now);
            here.take_all();
            here.endpoint.flush(now);
            moved = true;
        }
        here.take_all();
        here.endpoint.flush(now);
        while let Some(datagram) = here.endpoint.outgoing() {
            moved = true;
            if datagram.to != there.address {
                assert!(self.has_strangers, "to {}", datagram.to);
                here.astray.push(datagram);
                continue;
            }
            if !(here.loses)(&datagram.packet) {
                here.channel.enter(&datagram.packet, now);
            }
            here.sent.push(datagram.packet);
        }
        here.events.extend(std::iter::from_fn(|| here.endpoint.event()));
        moved
    }
}

impl<L: Library> Clocked for Pair<L> {
    fn now(&mut self) -> &mut Instant {
        &mut self.now
    }

    fn settle(&mut self) {
        while self.step(0) | self.step(1) {}
    }

    fn next_moment(&self) -> Option<Instant> {
        let moments = self.ends.iter().flat_map(|end| [end.endpoint.next_moment(), end.channel.next()]);
        moments.flatten().min()
    }
}

impl<L: Library> End<L> {
    fn take_all(&mut self) {
        while self.takes {
            match self.endpoint.take() {
                Some((taken, message)) => self.taken.push((taken.stream, taken.ssn, message.to_vec())),
                None => return,
            }
        }
    }
}

/// A packet with a good checksum to this end, from the port of the other, of one chunk.
pub fn sealed(end: usize, tag: u32, chunk: &[u8]) -> Vec<u8> {
    let mut packet = Vec::new();
    packet.extend_from_slice(&PORTS[1 - end].to_be_bytes());
    packet.extend_from_slice(&PORTS[end].to_be_bytes());
    packet.extend_from_slice(&tag.to_be_bytes());
    packet.extend_from_slice(&[0; 4]);
    packet.extend_from_slice(chunk);
    checksum::seal(&mut packet);
    packet
}

/// An INIT that anybody can write: it shows no tag of ours.
pub fn init_to(end: usize) -> Vec<u8> {
    let mut chunk = vec![INIT, 0, 0, 20];
    for word in [77u32, 65_536, 8 << 16 | 8, 1000] {
        chunk.extend_from_slice(&word.to_be_bytes());
    }
    sealed(end, 0, &chunk)
}

pub fn stranger(n: u8) -> SocketAddr {
    SocketAddr::from(([203, 0, 113, n], 9899))
}

pub fn slow(milliseconds: u64) -> Weather {
    Weather { delay: Duration::from_millis(milliseconds), ..Weather::FAIR }
}

/// How many packets of an end, among those to the other, begin with a chunk of this type.
pub fn sent<L>(pair: &Pair<L>, end: usize, chunk: u8) -> usize {
    pair.ends[end].sent.iter().filter(|packet| first_chunk(packet) == chunk).count()
}

/// The type of a packet's first chunk.
pub fn first_chunk(packet: &[u8]) -> u8 {
    packet[12]
}

/// Loses the first so many packets that begin with a chunk of this type.
pub fn loses_first(chunk: u8, mut count: u32) -> Loses {
    Box::new(move |packet| {
        let lost = first_chunk(packet) == chunk && count > 0;
        count -= u32::from(lost);
        lost
    })
}
