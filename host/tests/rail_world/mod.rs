//! A field computer and its heads on a clock that the test moves, with a channel each way for each head, and strangers' packets beside.

// Each test file uses a part of this.
#![allow(dead_code)]

pub use crate::pair::Clocked;
use oilwhisper::config::Config;
use oilwhisper::hub::{Event, HeadId, Hub, Settings};
use oilwhisper::library::Library;
use oilwhisper::packet::Datagram;
use oilwhisper::random::Random;
use oilwhisper::tickets::Ticket;
use rail::relay::{Channel, Weather};
use std::collections::HashMap;
use std::net::SocketAddr;
use std::time::{Duration, Instant};

pub const HEAD_PORT: u16 = 5000;
pub const FIELD_PORT: u16 = 5001;
pub const FIRST_TSN: u32 = u32::MAX - 99;
pub const FIELD: ([u8; 4], u16) = ([10, 0, 0, 1], 9899);

/// A message that was taken: stream, SSN, bytes.
pub type Message = (u16, u16, Vec<u8>);

pub fn settings(port: u16, at_once: usize) -> Settings {
    Settings::for_heads(Config { first_tsn: Some(FIRST_TSN), ..Config::on_a_rail(port) }, at_once)
}

pub fn address(n: usize) -> SocketAddr {
    SocketAddr::from(([10, 0, 1, n as u8], 9899))
}

pub fn field_address() -> SocketAddr {
    SocketAddr::from(FIELD)
}

/// A head, with what it saw happen.
pub struct Outpost<L> {
    pub hub: Hub<L>,
    pub id: HeadId,
    pub address: SocketAddr,
    pub forth: Channel,
    pub back: Channel,
    pub events: Vec<Event>,
    pub delivered: Vec<Ticket>,
    pub taken: Vec<Message>,
    /// The line is pulled.
    pub is_cut: bool,
}

impl<L: Library> Outpost<L> {
    /// Switched on: it asks the field computer.
    pub fn new(n: usize, address: SocketAddr, weather: Weather, seed: u64, now: Instant) -> Outpost<L> {
        let mut hub = Hub::new(settings(HEAD_PORT, 1), Random::from_key([seed as u8 ^ n as u8 ^ 0x55; 32]), now);
        let id = hub.connect(field_address(), FIELD_PORT, now).expect("a new association can be asked for");
        Outpost {
            hub,
            id,
            address,
            forth: Channel::new(weather, seed.wrapping_mul(1000) + 2 * n as u64),
            back: Channel::new(weather, seed.wrapping_mul(1000) + 2 * n as u64 + 1),
            events: Vec::new(),
            delivered: Vec::new(),
            taken: Vec::new(),
            is_cut: false,
        }
    }

    pub fn is_up(&self) -> bool {
        self.events.iter().any(|event| matches!(event, Event::Up { .. }))
    }

    pub fn is_down(&self) -> bool {
        self.events.iter().any(|event| matches!(event, Event::Down { .. }))
    }
}

pub struct World<L> {
    pub now: Instant,
    pub field: Hub<L>,
    pub outposts: Vec<Outpost<L>>,
    /// What the field computer saw happen, and took, of each association.
    pub events: Vec<(HeadId, Event)>,
    pub taken: HashMap<HeadId, Vec<Message>>,
    pub takes: bool,
    /// What went to an address where no head is.
    pub astray: Vec<Datagram>,
    /// The addresses that the field computer sent to, in that order.
    pub turns: Vec<SocketAddr>,
}

impl<L: Library> World<L> {
    /// So many heads ask a field computer for as many.
    pub fn with(heads: usize, weather: Weather, seed: u64) -> World<L> {
        World::of(settings(FIELD_PORT, heads), heads, weather, seed)
    }

    pub fn of(settings: Settings, heads: usize, weather: Weather, seed: u64) -> World<L> {
        let now = Instant::now();
        World {
            now,
            field: Hub::new(settings, Random::from_key([seed as u8; 32]), now),
            outposts: (0..heads).map(|n| Outpost::new(n, address(n), weather, seed, now)).collect(),
            events: Vec::new(),
            taken: HashMap::new(),
            takes: true,
            astray: Vec::new(),
            turns: Vec::new(),
        }
    }

    pub fn up(heads: usize, weather: Weather, seed: u64) -> World<L> {
        let mut world = World::with(heads, weather, seed);
        assert!(world.run_until(Duration::from_secs(60), |world| world.outposts.iter().all(Outpost::is_up)));
        world
    }

    /// The field computer's association with the head at this address that is there now.
    pub fn id_of(&self, address: SocketAddr) -> Option<HeadId> {
        self.field.heads().filter(|id| self.field.peer(*id) == Some(address)).last()
    }

    pub fn taken_from(&self, n: usize) -> usize {
        self.id_of(address(n)).and_then(|id| self.taken.get(&id)).map_or(0, Vec::len)
    }

    /// The events of one association at the field computer.
    pub fn events_of(&self, id: HeadId) -> Vec<&Event> {
        self.events.iter().filter(|(of, _)| *of == id).map(|(_, event)| event).collect()
    }

    fn step_field(&mut self) -> bool {
        let now = self.now;
        let mut moved = false;
        self.field.expire(now);
        for n in 0..self.outposts.len() {
            while let Some(packet) = self.outposts[n].forth.leave(now) {
                self.field.arrive(&packet, self.outposts[n].address, now);
                self.take();
                self.field.flush(now);
                moved = true;
            }
        }
        self.take();
        self.field.flush(now);
        while let Some(datagram) = self.field.outgoing() {
            moved = true;
            self.turns.push(datagram.to);
            match self.outposts.iter_mut().find(|outpost| outpost.address == datagram.to) {
                Some(outpost) if outpost.is_cut => {}
                Some(outpost) => outpost.back.enter(&datagram.packet, now),
                None => self.astray.push(datagram),
            }
        }
        moved
    }

    /// What happened at the field computer, and what can be taken there.
    fn take(&mut self) {
        while let Some((id, event)) = self.field.event() {
            self.events.push((id, event));
        }
        if !self.takes {
            return;
        }
        let ids: Vec<HeadId> = self.field.heads().collect();
        for id in ids {
            while let Some((taken, message)) = self.field.take(id) {
                self.taken.entry(id).or_default().push((taken.stream, taken.ssn, message.to_vec()));
            }
        }
    }

    fn step_outposts(&mut self) -> bool {
        let now = self.now;
        let mut moved = false;
        for outpost in &mut self.outposts {
            outpost.hub.expire(now);
            while let Some(packet) = outpost.back.leave(now) {
                outpost.hub.arrive(&packet, field_address(), now);
                moved = true;
            }
            while let Some((taken, message)) = outpost.hub.take(outpost.id) {
                outpost.taken.push((taken.stream, taken.ssn, message.to_vec()));
            }
            outpost.hub.flush(now);
            while let Some(datagram) = outpost.hub.outgoing() {
                assert_eq!(datagram.to, field_address());
                moved = true;
                if !outpost.is_cut {
                    outpost.forth.enter(&datagram.packet, now);
                }
            }
            while let Some((_, event)) = outpost.hub.event() {
                match event {
                    Event::Delivered(ticket) => outpost.delivered.push(ticket),
                    event => outpost.events.push(event),
                }
            }
        }
        moved
    }
}

impl<L: Library> Clocked for World<L> {
    fn now(&mut self) -> &mut Instant {
        &mut self.now
    }

    fn settle(&mut self) {
        while self.step_field() | self.step_outposts() {}
    }

    fn next_moment(&self) -> Option<Instant> {
        let of_heads = self.outposts.iter().flat_map(|outpost| [outpost.hub.next_moment(), outpost.forth.next(), outpost.back.next()]);
        of_heads.chain([self.field.next_moment()]).flatten().min()
    }
}
