//! A field computer with many heads in simulated time: every message that comes is compared with the one that was handed in, while somebody hostile sends too.
//! And what a head costs.

use crate::relay::{Channel, Mishaps, Weather};
use oilwhisper::calls::Refusal;
use oilwhisper::checksum;
use oilwhisper::config::Config;
use oilwhisper::counts::Counts;
use oilwhisper::endpoint::{Endpoint, Event};
use oilwhisper::hub::{self, HeadId, Hub, Settings};
use oilwhisper::library::Library;
use oilwhisper::packet::{ABORT, COOKIE_ECHO, DATA, INIT, SHUTDOWN_COMPLETE};
use oilwhisper::random::{Random, Seeded};
use std::cmp::Reverse;
use std::collections::{BinaryHeap, HashMap};
use std::net::SocketAddr;
use std::time::{Duration, Instant};

const FIELD_PORT: u16 = 5001;
const HEAD_PORT: u16 = 5000;
const STREAMS: u16 = 8;
/// The numbers of every head go round soon.
const FIRST_TSN: u32 = u32::MAX - 99;
/// A run in which nothing happens for so long is stuck.
const STUCK: Duration = Duration::from_secs(3600);

/// 3 % lost, 3 % repeated, 5 % overtaken, 1 % damaged.
pub const BAD_STRETCH: Weather = Weather { delay: Duration::from_millis(5), loss: 0.03, repeat: 0.03, reorder: 0.05, damage: 0.01 };

#[derive(Clone, Copy, Debug)]
pub struct Load {
    pub heads: usize,
    /// Of each head.
    pub messages: u64,
    pub weather: Weather,
    pub seed: u64,
}

#[derive(Clone, Debug, Default)]
pub struct Outcome {
    /// Messages that came once, in order, byte for byte.
    pub equal: u64,
    /// What went wrong; nothing, where every message did.
    pub faults: Vec<String>,
    pub hostile: u64,
    pub simulated: Duration,
    pub mishaps: Mishaps,
    pub heads: Counts,
    pub field: Counts,
}

fn field_address() -> SocketAddr {
    SocketAddr::from(([10, 0, 0, 1], 9899))
}

fn head_address(n: usize) -> SocketAddr {
    SocketAddr::from(([10, 1, (n >> 8) as u8, n as u8], 9899))
}

fn config(port: u16) -> Config {
    Config { streams: STREAMS, first_tsn: Some(FIRST_TSN), ..Config::on_a_rail(port) }
}

fn key(seed: u64, n: usize) -> [u8; 32] {
    let mut chance = Seeded::new(seed ^ (n as u64) << 32);
    let mut key = [0; 32];
    key.fill_with(|| chance.number() as u8);
    key
}

/// What the head hands in as its message of this number: a function of both, so that it can be told from every other.
fn message(head: usize, number: u64) -> Vec<u8> {
    let mut chance = Seeded::new((head as u64) << 40 ^ number);
    let size = 12 + chance.below(if number % 64 == 0 { 3_000 } else { 90 }) as usize;
    let mut message = Vec::with_capacity(size + 8);
    message.extend_from_slice(&(head as u32).to_be_bytes());
    message.extend_from_slice(&number.to_be_bytes());
    while message.len() < size {
        message.extend_from_slice(&chance.number().to_be_bytes());
    }
    message.truncate(size);
    message
}

struct Head<L> {
    endpoint: Endpoint<L>,
    forth: Channel,
    back: Channel,
    next: u64,
    waiting: Option<Vec<u8>>,
    is_up: bool,
    is_down: bool,
}

/// Whose moment has come.
#[derive(Clone, Copy, Debug, PartialEq, Eq, PartialOrd, Ord, Hash)]
enum Who {
    Field,
    Head(usize),
}

struct World<L> {
    load: Load,
    now: Instant,
    field: Hub<L>,
    heads: Vec<Head<L>>,
    /// When each is to be looked at next: the entries that are not in `scheduled` are old.
    moments: BinaryHeap<Reverse<(Instant, Who)>>,
    scheduled: HashMap<Who, Instant>,
    /// Which head each association is, and the messages of each stream that came.
    known: HashMap<HeadId, usize>,
    came: Vec<[u64; STREAMS as usize]>,
    down: usize,
    chance: Seeded,
    hostile: u64,
    equal: u64,
    faults: Vec<String>,
}

pub fn run<L: Library>(load: Load) -> Outcome {
    let start = Instant::now();
    let mut world = World::<L>::new(load, start);
    world.go();
    let sum = |channels: &dyn Fn(&Head<L>) -> Mishaps| world.heads.iter().fold(Mishaps::default(), |sum, head| sum.and(channels(head)));
    Outcome {
        mishaps: sum(&|head| head.forth.mishaps()).and(sum(&|head| head.back.mishaps())),
        heads: world.heads.iter().fold(Counts::default(), |sum, head| sum.and(head.endpoint.counts())),
        field: world.field.total(),
        simulated: world.now - start,
        hostile: world.hostile,
        equal: world.equal,
        faults: world.faults,
    }
}

impl<L: Library> World<L> {
    fn new(load: Load, now: Instant) -> World<L> {
        let head = |n: usize| Head {
            endpoint: Endpoint::new(Config { listens: false, ..config(HEAD_PORT) }, Random::from_key(key(load.seed, n)), now),
            forth: Channel::new(load.weather, load.seed + 2 * n as u64),
            back: Channel::new(load.weather, !load.seed - 2 * n as u64),
            next: 0,
            waiting: None,
            is_up: false,
            is_down: false,
        };
        World {
            now,
            // Strangers who never get through must not keep the heads out: they get no place.
            field: Hub::new(Settings::for_heads(config(FIELD_PORT), load.heads), Random::from_key(key(load.seed, load.heads)), now),
            heads: (0..load.heads).map(head).collect(),
            moments: BinaryHeap::new(),
            scheduled: HashMap::new(),
            known: HashMap::new(),
            came: vec![[0; STREAMS as usize]; load.heads],
            down: 0,
            chance: Seeded::new(load.seed),
            hostile: 0,
            equal: 0,
            faults: Vec::new(),
            load,
        }
    }

    /// Until every head has shut down, or something went wrong.
    fn go(&mut self) {
        for n in 0..self.heads.len() {
            if let Err(refusal) = self.heads[n].endpoint.associate(field_address(), FIELD_PORT, self.now) {
                self.faults.push(format!("head {} could not ask: {}", n, refusal));
            }
            self.turn_head(n);
        }
        while self.faults.is_empty() && self.down < self.heads.len() {
            let (moment, who) = match self.moments.pop() {
                Some(Reverse(next)) => next,
                None => return self.faults.push("nobody waits for anything, and not all is done".to_string()),
            };
            if self.scheduled.get(&who) != Some(&moment) {
                continue;
            }
            self.scheduled.remove(&who);
            if moment > self.now + STUCK {
                return self.faults.push("nothing happens for an hour".to_string());
            }
            self.now = self.now.max(moment);
            match who {
                Who::Field => self.field.expire(self.now),
                Who::Head(n) => {
                    while let Some(packet) = self.heads[n].forth.leave(self.now) {
                        self.field.arrive(&packet, head_address(n), self.now);
                        self.annoy();
                    }
                    self.turn_head(n);
                }
            }
            self.turn_field();
        }
        let missing = (self.load.messages * self.load.heads as u64).saturating_sub(self.equal);
        if self.faults.is_empty() && missing > 0 {
            self.faults.push(format!("{} messages are missing", missing));
        }
    }

    fn turn_head(&mut self, n: usize) {
        let (now, messages) = (self.now, self.load.messages);
        let head = &mut self.heads[n];
        while let Some(packet) = head.back.leave(now) {
            head.endpoint.arrive(&packet, field_address(), now);
        }
        head.endpoint.expire(now);
        while let Some(event) = head.endpoint.event() {
            match event {
                Event::Up => head.is_up = true,
                Event::Down(why) => {
                    head.is_down = true;
                    self.down += 1;
                    if head.next < messages || head.waiting.is_some() {
                        self.faults.push(format!("head {} is down after {} messages: {}", n, head.next, why));
                    }
                }
                Event::Restarted(_) | Event::Quiet(_) | Event::Heard => {}
            }
        }
        while head.is_up && !head.is_down {
            let next = match head.waiting.take() {
                Some(message) => message,
                None if head.next < messages => message(n, head.next),
                None => {
                    // Refused where it was asked for before.
                    let _ = head.endpoint.shutdown(now);
                    break;
                }
            };
            match head.endpoint.hand_in(&next, (head.next % u64::from(STREAMS)) as u16, false, 0) {
                Ok(()) => head.next += 1,
                Err(Refusal::FULL) => {
                    head.waiting = Some(next);
                    break;
                }
                Err(refusal) => {
                    self.faults.push(format!("head {}: a message was refused: {}", n, refusal));
                    break;
                }
            }
        }
        head.endpoint.flush(now);
        while let Some(datagram) = head.endpoint.outgoing() {
            head.forth.enter(&datagram.packet, now);
        }
        let next = [head.endpoint.next_moment(), head.forth.next(), head.back.next()];
        self.schedule(Who::Head(n), next.iter().flatten().min().copied());
    }

    fn schedule(&mut self, who: Who, moment: Option<Instant>) {
        if let Some(moment) = moment.filter(|moment| self.scheduled.get(&who).map_or(true, |before| moment < before)) {
            self.scheduled.insert(who, moment);
            self.moments.push(Reverse((moment, who)));
        }
    }

    fn turn_field(&mut self) {
        let now = self.now;
        while let Some((id, event)) = self.field.event() {
            match event {
                hub::Event::Up { peer, .. } => {
                    if let Some(n) = (0..self.load.heads).find(|n| head_address(*n) == peer) {
                        self.known.insert(id, n);
                    } else {
                        self.faults.push(format!("{} has come in", peer));
                    }
                }
                hub::Event::Readable => self.take(id),
                hub::Event::Down { why, .. } if why != oilwhisper::event::Why::ShutDown => {
                    self.faults.push(format!("{:?} is down: {}", self.known.get(&id), why))
                }
                _ => {}
            }
        }
        self.field.flush(now);
        while let Some(datagram) = self.field.outgoing() {
            if let [10, 1, high, low] = octets(datagram.to) {
                let n = usize::from(high) << 8 | usize::from(low);
                if let Some(head) = self.heads.get_mut(n) {
                    head.back.enter(&datagram.packet, now);
                    let next = head.back.next();
                    self.schedule(Who::Head(n), next);
                }
            }
        }
        self.schedule(Who::Field, self.field.next_moment());
    }

    /// Compares all that has come of one head.
    fn take(&mut self, id: HeadId) {
        let n = match self.known.get(&id) {
            Some(n) => *n,
            None => return,
        };
        while let Some((taken, bytes)) = self.field.take(id) {
            let number = match self.came[n].get_mut(usize::from(taken.stream)) {
                Some(count) => {
                    *count += 1;
                    (*count - 1) * u64::from(STREAMS) + u64::from(taken.stream)
                }
                None => return self.faults.push(format!("stream {} was never used", taken.stream)),
            };
            if bytes != message(n, number) {
                return self.faults.push(format!("message {} of head {} differs", number, n));
            }
            self.equal += 1;
        }
    }

    /// Somebody who knows no tag sends what he likes, under any address.
    fn annoy(&mut self) {
        if self.chance.below(8) > 0 {
            return;
        }
        self.hostile += 1;
        let packet = hostile_packet(&mut self.chance);
        let from = match self.chance.below(2) {
            0 => head_address(self.chance.below(self.load.heads as u64) as usize),
            _ => SocketAddr::from(([203, 0, 113, self.chance.below(250) as u8], self.chance.number() as u16)),
        };
        self.field.arrive(&packet, from, self.now);
    }
}

fn octets(address: SocketAddr) -> [u8; 4] {
    match address {
        SocketAddr::V4(four) => four.ip().octets(),
        SocketAddr::V6(_) => [0; 4],
    }
}

/// Sealed, to the right port: an INIT, a cookie, DATA, an ABORT with or without T, or a chunk of any kind.
pub fn hostile_packet(chance: &mut Seeded) -> Vec<u8> {
    let kind = [INIT, COOKIE_ECHO, DATA, ABORT, SHUTDOWN_COMPLETE, chance.below(256) as u8][chance.below(6) as usize];
    let (tag, length) = match kind {
        INIT => (0, 20),
        COOKIE_ECHO => (chance.number() as u32, 88),
        ABORT | SHUTDOWN_COMPLETE => (chance.number() as u32, 4),
        _ => (chance.number() as u32, 20 + 4 * chance.below(30) as usize),
    };
    let mut packet = Vec::with_capacity(12 + length);
    packet.extend_from_slice(&HEAD_PORT.to_be_bytes());
    packet.extend_from_slice(&FIELD_PORT.to_be_bytes());
    packet.extend_from_slice(&tag.to_be_bytes());
    packet.extend_from_slice(&[0; 4]);
    packet.extend_from_slice(&[kind, chance.below(4) as u8]);
    packet.extend_from_slice(&(length as u16).to_be_bytes());
    while packet.len() < 12 + length {
        packet.push(chance.number() as u8);
    }
    checksum::seal(&mut packet);
    packet
}

/// A field computer with heads that are all up, over lines that lose nothing and take no time: what its calls cost is measured by the caller.
pub struct Crowd<L> {
    pub now: Instant,
    pub field: Hub<L>,
    heads: Vec<Endpoint<L>>,
    ids: Vec<HeadId>,
}

impl<L: Library> Crowd<L> {
    pub fn of(heads: usize) -> Crowd<L> {
        let now = Instant::now();
        let endpoint = |n: usize| Endpoint::new(config(HEAD_PORT), Random::from_key(key(7, n)), now);
        let field = Hub::new(Settings::for_heads(config(FIELD_PORT), heads), Random::from_key(key(7, heads)), now);
        let mut crowd = Crowd { now, field, heads: (0..heads).map(endpoint).collect(), ids: Vec::new() };
        for n in 0..heads {
            // A closed record can always ask.
            let _ = crowd.heads[n].associate(field_address(), FIELD_PORT, now);
            crowd.settle(n);
        }
        while let Some((id, event)) = crowd.field.event() {
            if let hub::Event::Up { .. } = event {
                crowd.ids.push(id);
            }
        }
        crowd
    }

    /// How many heads are up.
    pub fn up(&self) -> usize {
        self.ids.len()
    }

    /// One head hands in a message of so many bytes: its packets.
    pub fn photograph(&mut self, n: usize, bytes: usize) -> Vec<Vec<u8>> {
        // There is room: the head's last message was acknowledged, or is alone on its way.
        let _ = self.heads[n].hand_in(&vec![7; bytes], 0, false, 0);
        self.heads[n].flush(self.now);
        std::iter::from_fn(|| self.heads[n].outgoing()).map(|datagram| datagram.packet).collect()
    }

    /// The field computer's part of a packet: it comes, what it brings is taken, and what is due goes out. The bytes that were taken.
    pub fn serve(&mut self, n: usize, packet: &[u8], answers: &mut Vec<Vec<u8>>) -> usize {
        let mut bytes = 0;
        self.field.arrive(packet, head_address(n), self.now);
        while let Some((id, event)) = self.field.event() {
            if event == hub::Event::Readable {
                while let Some((_, message)) = self.field.take(id) {
                    bytes += message.len();
                }
            }
        }
        self.field.flush(self.now);
        answers.extend(std::iter::from_fn(|| self.field.outgoing()).map(|datagram| datagram.packet));
        bytes
    }

    /// What the field computer answered reaches the head.
    pub fn answer(&mut self, n: usize, answers: &mut Vec<Vec<u8>>) {
        for packet in answers.drain(..) {
            self.heads[n].arrive(&packet, field_address(), self.now);
        }
        while self.heads[n].event().is_some() {}
    }

    /// Moves on to the field computer's next moment, if it is before this one: whether it was.
    pub fn advance(&mut self, until: Instant) -> bool {
        match self.field.next_moment() {
            Some(moment) if moment <= until => {
                self.now = self.now.max(moment);
                true
            }
            _ => false,
        }
    }

    /// The field computer's part of a moment at which nobody sends: the packets that it sends.
    pub fn idle(&mut self) -> Vec<(usize, Vec<u8>)> {
        self.field.expire(self.now);
        self.field.flush(self.now);
        let mut sent = Vec::new();
        while let Some(datagram) = self.field.outgoing() {
            if let [10, 1, high, low] = octets(datagram.to) {
                sent.push((usize::from(high) << 8 | usize::from(low), datagram.packet));
            }
        }
        sent
    }

    /// A head answers a packet of the field computer's: its packets.
    pub fn answers_of(&mut self, n: usize, packet: &[u8]) -> Vec<Vec<u8>> {
        self.heads[n].arrive(packet, field_address(), self.now);
        self.heads[n].flush(self.now);
        std::iter::from_fn(|| self.heads[n].outgoing()).map(|datagram| datagram.packet).collect()
    }

    /// Lets head and field computer talk until both are silent.
    fn settle(&mut self, n: usize) {
        loop {
            self.heads[n].flush(self.now);
            let packets: Vec<Vec<u8>> = std::iter::from_fn(|| self.heads[n].outgoing()).map(|datagram| datagram.packet).collect();
            if packets.is_empty() {
                return;
            }
            for packet in packets {
                self.field.arrive(&packet, head_address(n), self.now);
            }
            self.field.flush(self.now);
            let mut answers: Vec<Vec<u8>> = std::iter::from_fn(|| self.field.outgoing()).map(|datagram| datagram.packet).collect();
            self.answer(n, &mut answers);
        }
    }
}
