//! An endpoint among four addresses, one of which is its peer's: sealed packets with right and wrong ports and tags come from all of them at random moments,
//! between those of an honest association and the calls of a user. Held at every step: nothing of an association goes to an address that has not answered,
//! every timer moves on or ends, and no queue and no memory grows; and where nobody knows a tag who should not, every message that was acknowledged is taken.

use model::checksum;
use modelled::Modelled;
use oilwhisper::calls::{Cause, State};
use oilwhisper::endpoint::{Config, Datagram, Endpoint, Event};
use oilwhisper::hub::{Hub, Settings};
use oilwhisper::library::Library;
use oilwhisper::random::{Random, Seeded};
use std::alloc::{GlobalAlloc, Layout, System};
use std::cell::Cell;
use std::collections::{HashSet, VecDeque};
use std::net::{IpAddr, SocketAddr};
use std::time::{Duration, Instant};

const STEPS: u32 = 200_000;
const PORTS: [u16; 2] = [5000, 5001];
const FIRST_TSN: u32 = u32::MAX - 99;
/// Where the tried endpoint is.
const TRIED: ([u8; 4], u16) = ([10, 0, 0, 99], 9899);
const KEPT: usize = 64;

const DATA: u8 = 0;
const INIT: u8 = 1;
const INIT_ACK: u8 = 2;
const SACK: u8 = 3;
const HEARTBEAT: u8 = 4;
const HEARTBEAT_ACK: u8 = 5;
const ABORT: u8 = 6;
const SHUTDOWN: u8 = 7;
const ERROR: u8 = 9;
const COOKIE_ECHO: u8 = 10;
const SHUTDOWN_COMPLETE: u8 = 14;

/// Counts the bytes that a thread has and has not given back.
struct Counting;

thread_local! {
    // Rust 1.63 makes it a constant, which its clippy then takes for one that could change.
    #[allow(clippy::declare_interior_mutable_const)]
    static LIVE: Cell<isize> = const { Cell::new(0) };
}

fn count(bytes: isize) {
    // A thread that ends has no count any more.
    let _ = LIVE.try_with(|live| live.set(live.get() + bytes));
}

unsafe impl GlobalAlloc for Counting {
    unsafe fn alloc(&self, layout: Layout) -> *mut u8 {
        count(layout.size() as isize);
        System.alloc(layout)
    }

    unsafe fn dealloc(&self, pointer: *mut u8, layout: Layout) {
        count(-(layout.size() as isize));
        System.dealloc(pointer, layout)
    }
}

#[global_allocator]
static ALLOCATOR: Counting = Counting;

fn live() -> isize {
    LIVE.with(Cell::get)
}

/// The honest peer's address is the first.
fn address(n: u64) -> SocketAddr {
    SocketAddr::from(([10, 0, 0, n as u8 + 1], 9899))
}

fn word(packet: &[u8], at: usize) -> u32 {
    packet.get(at..at + 4).map_or(0, |bytes| u32::from_be_bytes([bytes[0], bytes[1], bytes[2], bytes[3]]))
}

/// How far the tried endpoint got, so that a run which tried nothing is seen.
#[derive(Debug, Default)]
struct Seen {
    up: u32,
    down: u32,
    checks: u32,
    moves: u32,
    strays: u32,
    turned_away: u64,
    taken: u32,
}

/// The honest end's messages, each of one chunk and with a number of its own.
#[derive(Default)]
struct Ledger {
    handed_in: u64,
    /// Of this association, in the order of their TSNs.
    present: Vec<u64>,
    acknowledged: HashSet<u64>,
    taken: HashSet<u64>,
    /// So many went with an old life of the honest end's that was not taken in time.
    lost: usize,
}

impl Ledger {
    fn message(&self, length: usize) -> Vec<u8> {
        let mut message = self.handed_in.to_be_bytes().to_vec();
        message.resize(length.clamp(8, 512), 0);
        message
    }

    fn was_handed_in(&mut self) {
        self.present.push(self.handed_in);
        self.handed_in += 1;
    }

    /// The association stands here, or ended here: everything up to this TSN was acknowledged.
    fn ended(&mut self, acked: u32) {
        let count = acked.wrapping_sub(FIRST_TSN.wrapping_sub(1)) as usize;
        self.acknowledged.extend(self.present.drain(..).take(count));
    }

    fn took(&mut self, message: &[u8]) {
        let number = u64::from(word(message, 0)) << 32 | u64::from(word(message, 4));
        assert!(number < self.handed_in, "{} was never handed in", number);
        assert!(self.taken.insert(number), "{} was taken twice", number);
    }
}

struct World<L> {
    now: Instant,
    chance: Seeded,
    /// Strangers know the tags of the association, and answer what they are asked.
    knows_tags: bool,
    /// The user has time to take messages.
    takes: bool,
    ledger: Ledger,
    /// What the honest end had acknowledged before the last packet.
    acked: u32,
    tried: Endpoint<L>,
    honest: Endpoint<L>,
    /// Packets on their way to the tried endpoint and to the honest one.
    ways: [VecDeque<Vec<u8>>; 2],
    /// What the tried endpoint sent to a stranger, which may answer.
    to_strangers: VecDeque<Datagram>,
    /// The addresses that have answered something that was sent only there.
    invited: HashSet<IpAddr>,
    answered: HashSet<IpAddr>,
    beats: VecDeque<(Vec<u8>, SocketAddr)>,
    checked: Option<Instant>,
    seen: Seen,
}

impl<L: Library> World<L> {
    fn new(seed: u64, knows_tags: bool) -> World<L> {
        let now = Instant::now();
        let endpoint = |n: usize| {
            let config = Config { heartbeat: Duration::from_secs(2), unanswered: 2, first_tsn: Some(FIRST_TSN), ..Config::at_port(PORTS[n]) };
            Endpoint::new(config, Random::from_key([seed as u8 ^ n as u8; 32]), now)
        };
        World {
            now,
            chance: Seeded::new(seed),
            knows_tags,
            takes: true,
            ledger: Ledger::default(),
            acked: 0,
            tried: endpoint(1),
            honest: endpoint(0),
            ways: [VecDeque::new(), VecDeque::new()],
            to_strangers: VecDeque::new(),
            invited: HashSet::new(),
            answered: HashSet::new(),
            beats: VecDeque::new(),
            checked: None,
            seen: Seen::default(),
        }
    }

    fn step(&mut self) {
        match self.chance.below(100) {
            0..=24 => {
                let packet = self.random_packet();
                let from = address(self.chance.below(4));
                self.arrive(&packet, from);
            }
            25..=69 => self.carry(),
            70..=79 => self.pass_time(),
            80..=91 => self.use_it(),
            _ => self.answer_as_a_stranger(),
        }
        self.settle(None);
    }

    /// A packet comes to the tried endpoint, which is then held to what it sends.
    fn arrive(&mut self, packet: &[u8], from: SocketAddr) {
        let before = self.tried.standing();
        let brings_back = |value: &[u8]| self.beats.iter().any(|(beat, to)| beat == value && *to == from);
        if word(packet, 4) == before.my_tag && chunks(packet).any(|chunk| chunk[0] == HEARTBEAT_ACK && chunk.get(8..).map_or(false, brings_back)) {
            self.answered.insert(from.ip());
        }
        let peer = self.tried.peer();
        self.tried.arrive(packet, from, self.now);
        if before.state == State::Closed && self.tried.standing().state != State::Closed {
            assert!(self.invited.contains(&from.ip()), "{} was never sent a cookie", from);
            self.answered = HashSet::from([from.ip()]);
        } else if self.tried.peer() != peer {
            self.seen.moves += 1;
        }
        self.settle(Some((packet, from, before.state)));
    }

    fn settle(&mut self, came: Option<(&[u8], SocketAddr, State)>) {
        let now = self.now;
        for endpoint in [&mut self.tried, &mut self.honest] {
            endpoint.expire(now);
            endpoint.flush(now);
            assert!(endpoint.next_moment().map_or(true, |next| next > now), "a timer does not move on");
        }
        for count in 0.. {
            match self.tried.outgoing() {
                Some(datagram) => self.hold(datagram, came),
                None => break,
            }
            assert!(count < 16, "more than 16 packets at once");
        }
        while let Some(datagram) = self.honest.outgoing() {
            keep(&mut self.ways[0], datagram.packet);
        }
        for count in 0.. {
            match self.tried.event() {
                Some(Event::Up) => self.seen.up += 1,
                Some(Event::Down(_)) => self.seen.down += 1,
                Some(Event::Restarted(lost)) => self.ledger.lost += lost,
                Some(_) => {}
                None => break,
            }
            assert!(count < 8, "more than 8 events at once");
        }
        while let Some(event) = self.honest.event() {
            match event {
                Event::Down(_) => self.ledger.ended(self.honest.standing().acked),
                // Its record is of the new life already.
                Event::Restarted(_) => self.ledger.ended(self.acked),
                _ => {}
            }
        }
        self.acked = self.honest.standing().acked;
        while self.honest.take().is_some() {}
    }

    /// Nothing of an association goes to an address that has not answered.
    fn hold(&mut self, datagram: Datagram, came: Option<(&[u8], SocketAddr, State)>) {
        let Datagram { to, packet } = &datagram;
        let (kind, is_reflected) = (packet[12], packet[13] & 1 == 1);
        let answers = |wanted: u8| came.map_or(false, |(came, from, _)| from == *to && came.get(12) == Some(&wanted));
        let was_closed = came.map_or(false, |(_, _, state)| state == State::Closed);
        if kind == INIT_ACK {
            assert!(answers(INIT), "an INIT ACK to {} answers no INIT", to);
            self.invited.insert(to.ip());
        } else if self.answered.contains(&to.ip()) && !was_closed {
            if kind == HEARTBEAT {
                keep(&mut self.beats, (packet[20..28].to_vec(), *to));
            }
        } else if kind == HEARTBEAT {
            let shown = came.map_or(false, |(came, from, _)| from == *to && word(came, 4) == self.tried.standing().my_tag);
            assert!(shown, "{} showed no tag", to);
            let since = self.checked.map(|checked| self.now - checked);
            assert!(since.map_or(true, |since| since >= Duration::from_secs(1)), "asked again after {:?}", since);
            self.checked = Some(self.now);
            self.seen.checks += 1;
            keep(&mut self.beats, (packet[20..28].to_vec(), *to));
        } else if packet.len() == 16 && is_reflected && (kind == ABORT || kind == SHUTDOWN_COMPLETE) {
            let reflects = came.map_or(false, |(came, from, _)| from == *to && came[4..8] == packet[4..8] && came[12] != ABORT);
            assert!(reflects, "what {} sent was not out of the blue", to);
            self.seen.strays += 1;
        } else {
            let is_reply = was_closed && (answers(COOKIE_ECHO) && self.invited.contains(&to.ip()) || answers(INIT) && kind == ABORT);
            assert!(is_reply || self.answered.contains(&to.ip()), "a packet of type {} went to {}, which has not answered", kind, to);
        }
        if *to == address(0) {
            keep(&mut self.ways[1], datagram.packet);
        } else {
            keep(&mut self.to_strangers, datagram);
        }
    }

    /// The next packet of the honest two arrives, twice or not at all; now and then it seems to come from elsewhere.
    fn carry(&mut self) {
        let fate = self.chance.below(100);
        if self.chance.happens(0.5) {
            if let Some(packet) = self.ways[0].pop_front() {
                let from = if fate < 12 { address(self.chance.below(4)) } else { address(0) };
                if fate < 95 {
                    self.arrive(&packet, from);
                }
                if fate < 10 {
                    self.arrive(&packet, address(0));
                }
            }
        } else if let Some(packet) = self.ways[1].pop_front() {
            if fate < 95 {
                let now = self.now;
                self.honest.arrive(&packet, TRIED.into(), now);
            }
        }
    }

    fn pass_time(&mut self) {
        let most = match self.chance.below(100) {
            0..=79 => 50_000,
            80..=98 => 2_000_000,
            _ => 100_000_000,
        };
        let wanted = self.now + Duration::from_micros(self.chance.below(most));
        // Nobody sleeps through a moment of a timer.
        let next = [self.tried.next_moment(), self.honest.next_moment()].iter().flatten().min().copied();
        self.now = next.map_or(wanted, |next| next.min(wanted));
    }

    fn use_it(&mut self) {
        let now = self.now;
        let length = 1 + self.chance.below(1500) as usize;
        let (stream, unordered) = (self.chance.below(8) as u16, self.chance.happens(0.2));
        let is_tried = self.chance.happens(0.5);
        // Refused or not, a call changes nothing that is not its to change.
        match self.chance.below(100) {
            0..=9 => {
                let _ = self.tried.hand_in(&vec![7; length], stream, unordered, 0);
            }
            10..=39 if self.honest.hand_in(&self.ledger.message(length), stream, unordered, 0).is_ok() => self.ledger.was_handed_in(),
            40..=68 => while self.takes && self.chance.happens(0.9) && self.take() {},
            69 => self.takes = !self.takes,
            70..=74 => {
                let _ = self.either(is_tried).shutdown(now);
            }
            75..=77 => {
                let _ = self.either(is_tried).abort(Cause::User, now);
            }
            78..=81 => self.tried.listen(true),
            82..=90 if self.tried.associate(address(0), PORTS[0], now).is_ok() => {
                self.answered = HashSet::from([address(0).ip()]);
                self.honest.listen(true);
            }
            // Two that ask each other are refused by each other until they give up.
            _ if self.tried.standing().state == State::Closed => {
                self.tried.listen(true);
                let _ = self.honest.associate(TRIED.into(), PORTS[1], now);
            }
            _ => {}
        }
    }

    fn either(&mut self, is_tried: bool) -> &mut Endpoint<L> {
        if is_tried {
            &mut self.tried
        } else {
            &mut self.honest
        }
    }

    fn take(&mut self) -> bool {
        let taken = match self.tried.take() {
            Some((_, message)) if !self.knows_tags => {
                self.ledger.took(message);
                true
            }
            // Whoever knows the tag can put a message in another's place.
            taken => taken.is_some(),
        };
        self.seen.taken += u32::from(taken);
        taken
    }

    /// A stranger that was sent something does what an honest peer would: echoes a cookie, or answers a heartbeat.
    fn answer_as_a_stranger(&mut self) {
        let Datagram { to, packet } = match self.to_strangers.pop_front() {
            Some(datagram) => datagram,
            None => return,
        };
        let answer = match packet[12] {
            INIT_ACK => {
                let length = usize::from(u16::from_be_bytes([packet[34], packet[35]])).max(4);
                let cookie = packet.get(36..32 + length).unwrap_or_default();
                self.packet(word(&packet, 16), &[chunk(COOKIE_ECHO, 0, cookie)])
            }
            // Without the tag it can answer only what is its own.
            HEARTBEAT if self.knows_tags || self.tried.peer() == Some(to) => {
                self.packet(self.tried.standing().my_tag, &[chunk(HEARTBEAT_ACK, 0, &packet[16..28])])
            }
            _ => return,
        };
        self.arrive(&answer, to);
    }

    /// To the tried endpoint, from the honest one's port.
    fn packet(&self, tag: u32, chunks: &[Vec<u8>]) -> Vec<u8> {
        let mut packet = Vec::new();
        packet.extend_from_slice(&PORTS[0].to_be_bytes());
        packet.extend_from_slice(&PORTS[1].to_be_bytes());
        packet.extend_from_slice(&tag.to_be_bytes());
        packet.extend_from_slice(&[0; 4]);
        for chunk in chunks {
            packet.extend_from_slice(chunk);
            packet.resize((packet.len() + 3) & !3, 0);
        }
        checksum::seal(&mut packet);
        packet
    }

    fn random_packet(&mut self) -> Vec<u8> {
        let mut chunks: Vec<Vec<u8>> = Vec::new();
        for _ in 0..1 + self.chance.below(3) / 2 {
            chunks.push(self.random_chunk());
        }
        let standing = self.tried.standing();
        let tag = match self.chance.below(10) {
            0 if self.knows_tags => self.tried.core().record().head.ends.peer_tag,
            1 => self.chance.number() as u32,
            _ if chunks[0][0] == INIT => 0,
            _ if self.knows_tags && self.chance.happens(0.4) => standing.my_tag,
            _ => self.chance.number() as u32 & 0xff,
        };
        let mut packet = self.packet(tag, &chunks);
        if self.chance.happens(0.1) {
            let at = self.chance.below(4) as usize;
            packet[at] = self.chance.number() as u8;
        }
        if self.chance.happens(0.1) {
            let at = 12 + self.chance.below(packet.len() as u64 - 12) as usize;
            packet[at] = self.chance.number() as u8;
        }
        if self.chance.happens(0.95) {
            checksum::seal(&mut packet);
        }
        packet
    }

    fn random_chunk(&mut self) -> Vec<u8> {
        let head = self.tried.core().record().head;
        let (point, acked) = (head.keeping.point, head.sender.acked);
        let near = |base: u32, by: u64| base.wrapping_add(by as u32).wrapping_sub(2).to_be_bytes();
        let flags = if self.chance.happens(0.3) { self.chance.number() as u8 } else { 3 };
        let mut random = |length: u64| (0..length).map(|_| self.chance.number() as u8).collect::<Vec<u8>>();
        let ours = [[0, 0, 0, 77], [0, 1, 0, 0], [0, 8, 0, 8], [0, 0, 3, 232]].concat();
        match random(1)[0] % 40 {
            0..=7 => {
                let tsn = near(point, u64::from(random(1)[0] % 8));
                let rest = random(12);
                chunk(DATA, flags, &[&tsn[..], &[0, rest[0] % 9, 0, rest[1] % 4, 0, 0, 0, 0], &rest].concat())
            }
            8..=13 => {
                let window = if random(1)[0] % 2 == 0 { [0, 1, 0, 0] } else { [0, 0, random(1)[0] % 3, 0] };
                chunk(SACK, 0, &[&near(acked, u64::from(random(1)[0] % 6))[..], &window, &[0; 4]].concat())
            }
            14..=17 => chunk(HEARTBEAT, 0, &[&[0, 1, 0, 12][..], &random(8)].concat()),
            18..=20 => {
                let value = match self.beats.back() {
                    Some((value, _)) if random(1)[0] % 2 == 0 => value.clone(),
                    _ => random(8),
                };
                chunk(HEARTBEAT_ACK, 0, &[&[0, 1, 0, 12][..], &value].concat())
            }
            21..=27 => chunk(INIT, 0, &ours),
            28 => chunk(INIT_ACK, 0, &[&ours[..], &[0, 7, 0, 8, 1, 2, 3, 4]].concat()),
            29 => chunk(COOKIE_ECHO, 0, &random(82)),
            30 if random(1)[0] % 8 == 0 => chunk(ABORT, flags & 1, &[]),
            31 if random(1)[0] % 4 == 0 => chunk(SHUTDOWN, 0, &near(acked, 2)),
            32 => chunk(ERROR, 0, &[&[0, random(1)[0] % 5, 0, 8][..], &random(4)].concat()),
            33 => chunk(INIT, 0, &[&ours[..], &[0, 11, 0, 8, b'a', b'.', b'b', 0]].concat()),
            _ => {
                let kind = random(1)[0];
                chunk(if kind == ABORT { ERROR } else { kind }, flags, &random(u64::from(kind % 40)))
            }
        }
    }
}

fn chunks(packet: &[u8]) -> impl Iterator<Item = &[u8]> {
    let mut rest = packet.get(12..).unwrap_or_default();
    std::iter::from_fn(move || {
        let length = usize::from(u16::from_be_bytes([*rest.get(2)?, *rest.get(3)?]));
        let chunk = rest.get(..length.max(4))?;
        rest = rest.get((length.max(4) + 3) & !3..).unwrap_or_default();
        Some(chunk)
    })
}

fn chunk(kind: u8, flags: u8, value: &[u8]) -> Vec<u8> {
    let length = (value.len() as u16 + 4).to_be_bytes();
    [&[kind, flags, length[0], length[1]], value].concat()
}

/// Queues of the test hold no more than this, so that all that grows is the endpoint's.
fn keep<T>(queue: &mut VecDeque<T>, item: T) {
    if queue.len() == KEPT {
        queue.pop_front();
    }
    queue.push_back(item);
}

fn endures<L: Library>(seed: u64, knows_tags: bool, steps: u32) {
    let mut world = World::<L>::new(seed, knows_tags);
    let mut highest = [0; 2];
    for step in 0..steps {
        world.step();
        if step > steps / 10 {
            let half = &mut highest[usize::from(step > steps / 2)];
            *half = live().max(*half);
        }
    }
    // What the second half had at most, the first had too: one finished record and a packet or two are the difference.
    assert!(highest[1] - highest[0] < 200_000, "{:?}", highest);
    world.seen.turned_away = world.tried.counts().turned_away;
    let seen = &world.seen;
    let least = steps / 10_000;
    let counts = [seen.up, seen.down, seen.checks, seen.strays, seen.turned_away as u32, seen.taken];
    assert!(counts.iter().all(|count| *count > least) && (seen.moves > least || !knows_tags), "{:?}", seen);
    // When nothing comes any more, every timer ends, and what was acknowledged is there.
    world.ways = [VecDeque::new(), VecDeque::new()];
    for moment in 0.. {
        assert!(moment < 1000, "the timers do not end");
        match world.tried.next_moment() {
            Some(next) => world.now = world.now.max(next),
            None => break,
        }
        let now = world.now;
        world.tried.expire(now);
        world.tried.flush(now);
        while world.tried.outgoing().is_some() {}
    }
    assert_eq!(world.tried.standing().state, State::Closed);
    while world.take() {}
    world.ledger.ended(world.honest.standing().acked);
    let Ledger { acknowledged, taken, lost, .. } = &world.ledger;
    assert!(knows_tags || acknowledged.len() > least as usize);
    let missed: Vec<_> = acknowledged.difference(taken).collect();
    assert!(knows_tags || missed.len() <= *lost, "{:?} were acknowledged and not taken, and {} are told as lost", missed, lost);
}

#[test]
fn an_endpoint_on_the_model_endures_whatever_comes() {
    for seed in 0..4 {
        endures::<Modelled>(seed, seed < 2, STEPS / 4);
    }
}

#[cfg(feature = "proved")]
#[test]
fn an_endpoint_on_the_proved_library_endures_whatever_comes() {
    for seed in 4..6 {
        endures::<oilwhisper::library::Proved>(seed, seed == 4, STEPS / 4);
    }
}

/// What a head takes of memory is what is told, but for what waits to be sent and the hub's own tables.
#[test]
fn a_head_takes_as_much_memory_as_is_told() {
    let now = Instant::now();
    let mut hub = Hub::<Modelled>::new(Settings::for_heads(Config::at_port(PORTS[0]), 64), Random::from_key([1; 32]), now);
    let before = live();
    for n in 0..64 {
        hub.connect(address(n), PORTS[1], now).expect("a new association can be asked for");
    }
    let each = (live() - before) / 64;
    let told = Hub::<Modelled>::bytes_of_a_head() as isize;
    assert!((told..told + told / 20).contains(&each), "{} bytes, and {} are told", each, told);
}
