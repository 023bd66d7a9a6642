//! Many associations on one socket, without the socket and without a clock: packets and moments go in, packets and events come out. A packet goes to the
//! association whose tag it shows; INITs and cookies go to the front, which keeps nothing of them until a good cookie comes. Each association has its own record,
//! timers and counts (`session`), and none waits for another: packets go out in turns.

mod farewells;

use crate::calls::{Answer, Cause, Refusal, Shelf, Standing, Taken, AREA, MESSAGE_MOST};
use crate::config::Config;
use crate::counts::Counts;
use crate::event::{self, Why};
use crate::front::{Front, Met};
use crate::library::Library;
use crate::outbox::Outbox;
use crate::packet::{first_chunk, flags_of_first, source_port, tag, Datagram, Incoming, ABORT, INIT, SHUTDOWN_COMPLETE, T};
use crate::random::Random;
use crate::session::{Session, Tools};
use crate::tickets::{Ticket, Tickets};
use farewells::Farewells;
use std::collections::{BTreeMap, BTreeSet, HashMap, VecDeque};
use std::mem::size_of;
use std::net::SocketAddr;
use std::time::{Duration, Instant};

/// One association of a hub. The number is given once.
#[derive(Clone, Copy, Debug, PartialEq, Eq, PartialOrd, Ord, Hash)]
pub struct HeadId(u64);

impl HeadId {
    /// For C, which knows it as a number.
    pub fn number(self) -> u64 {
        self.0
    }

    /// Of a number that no association has, nothing can be asked.
    pub fn from_number(number: u64) -> HeadId {
        HeadId(number)
    }
}

/// What happened to an association.
#[derive(Clone, Debug, PartialEq, Eq)]
pub enum Event {
    /// It is established.
    Up {
        /// Where the peer is.
        peer: SocketAddr,
        /// The streams agreed for sending.
        streams: u16,
    },
    /// DATA came: take until there is nothing.
    Readable,
    /// After `Refusal::FULL`: something was acknowledged, so that there may be room.
    Writable,
    /// The peer has this message.
    Delivered(Ticket),
    /// The peer owes an answer and has not been heard for so long. The association is still up, or still asked for.
    Quiet(Duration),
    /// A peer that was quiet is heard again.
    Heard,
    /// Packets to the peer go elsewhere from now on.
    Moved {
        /// Where they went.
        from: SocketAddr,
        /// Where they go.
        to: SocketAddr,
    },
    /// It takes the place of an association with the same peer, which had lost all that it knew of that one.
    Restarted {
        /// The association before, which is down.
        before: HeadId,
    },
    /// It is over. What came and was acknowledged can still be taken; of these messages nobody knows whether the peer has them.
    Down {
        /// How it came to its end.
        why: Why,
        /// The messages that were not acknowledged.
        undelivered: Vec<Ticket>,
    },
}

/// What a hub is set to.
#[derive(Clone, Debug)]
pub struct Settings {
    /// What every association is set to, and who may come.
    pub common: Config,
    /// How many associations there are at once, those that are down and not taken out included.
    pub at_once: usize,
    /// How many of them with peers at one IP address.
    pub at_one_address: usize,
}

impl Settings {
    /// For a rail of so many heads, one at each address or all behind one.
    pub fn for_heads(common: Config, at_once: usize) -> Settings {
        Settings { common, at_once, at_one_address: at_once }
    }
}

struct Head<L> {
    session: Session<L>,
    my_tag: u32,
    tickets: Tickets,
    /// Where the peer was when that was last told.
    peer: SocketAddr,
    /// A message was refused for want of room.
    wants_room: bool,
    /// What is told once: that there is something to take, and the end.
    is_readable_told: bool,
    is_down: bool,
    is_down_told: bool,
    /// In which of the hub's queues it stands.
    is_touched: bool,
    is_sending: bool,
    moment: Option<Instant>,
}

/// Whose turn it is to send.
#[derive(Clone, Copy, Debug, PartialEq, Eq)]
enum Sender {
    Front,
    Head(HeadId),
}

/// The hub. `udp::Station` puts one on a socket; here a field computer has two heads, each an endpoint, and a network in memory:
///
#[cfg_attr(feature = "proved", doc = "```")]
#[cfg_attr(not(feature = "proved"), doc = "```ignore")]
/// use oilwhisper::endpoint::{Config, Endpoint};
/// use oilwhisper::hub::{Event, Hub, Settings};
/// use oilwhisper::library::Proved;
/// use oilwhisper::random::Random;
/// use std::net::SocketAddr;
/// use std::time::Instant;
///
/// # fn main() -> Result<(), Box<dyn std::error::Error>> {
/// let now = Instant::now();
/// let field_at: SocketAddr = "192.0.2.1:9899".parse()?;
/// let mut field = Hub::<Proved>::new(Settings::for_heads(Config::on_a_rail(5001), 64), Random::from_system()?, now);
/// let mut heads = Vec::new();
/// for at in ["192.0.2.11:9899", "192.0.2.12:9899"] {
///     let mut head = Endpoint::<Proved>::new(Config::on_a_rail(5000), Random::from_system()?, now);
///     head.associate(field_at, 5001, now)?;
///     heads.push((at.parse::<SocketAddr>()?, head));
/// }
///
/// let mut came = Vec::new();
/// while came.len() < heads.len() {
///     for (at, head) in &mut heads {
///         // Refused until the association is up; `hand_in` of a hub gives a ticket, and its delivery is an event.
///         if head.counts().messages_in == 0 {
///             let _ = head.hand_in(at.to_string().as_bytes(), 0, false, 0);
///         }
///         head.flush(now);
///         while let Some(datagram) = head.outgoing() {
///             field.arrive(&datagram.packet, *at, now);
///         }
///     }
///     while let Some((id, event)) = field.event() {
///         if event == Event::Readable {
///             while let Some((_, message)) = field.take(id) {
///                 came.push(String::from_utf8(message.to_vec())?);
///             }
///         }
///     }
///     field.flush(now);
///     while let Some(datagram) = field.outgoing() {
///         for (_, head) in heads.iter_mut().filter(|(at, _)| *at == datagram.to) {
///             head.arrive(&datagram.packet, field_at, now);
///         }
///     }
/// }
/// came.sort();
/// assert_eq!(came, ["192.0.2.11:9899", "192.0.2.12:9899"]);
/// # Ok(())
/// # }
/// ```
pub struct Hub<L> {
    settings: Settings,
    tools: Tools,
    front: Front<L>,
    /// For what is of no association.
    strangers: Outbox,
    heads: BTreeMap<HeadId, Head<L>>,
    next: u64,
    /// The tags of ours that are alive.
    tags: HashMap<u32, HeadId>,
    moments: BTreeSet<(Instant, HeadId)>,
    /// To be flushed.
    touched: VecDeque<HeadId>,
    turns: VecDeque<Sender>,
    ended: Vec<HeadId>,
    farewells: Farewells,
    events: VecDeque<(HeadId, Event)>,
    /// Of the associations that are gone.
    counts: Counts,
    message: Box<[u8]>,
}

impl<L: Library> Hub<L> {
    /// A hub without associations.
    pub fn new(settings: Settings, random: Random, now: Instant) -> Hub<L> {
        let mut tools = Tools::new(&settings.common, random);
        let front = Front::new(&settings.common, &mut tools, now);
        Hub {
            settings,
            tools,
            front,
            strangers: Outbox::default(),
            heads: BTreeMap::new(),
            next: 0,
            tags: HashMap::new(),
            moments: BTreeSet::new(),
            touched: VecDeque::new(),
            turns: VecDeque::new(),
            ended: Vec::new(),
            farewells: Farewells::default(),
            events: VecDeque::new(),
            counts: Counts::default(),
            message: vec![0; MESSAGE_MOST].into_boxed_slice(),
        }
    }

    /// What an association takes of memory, beside the packets and events that wait.
    pub fn bytes_of_a_head() -> usize {
        size_of::<Head<L>>() + 2 * AREA
    }

    /// The associations that are there, those that are down and not taken out included.
    pub fn heads(&self) -> impl Iterator<Item = HeadId> + '_ {
        self.heads.keys().copied()
    }

    /// Where an association stands now; none where it is not there.
    pub fn standing(&self, head: HeadId) -> Option<Standing> {
        self.heads.get(&head).map(|head| head.session.standing())
    }

    /// Where packets to its peer go.
    pub fn peer(&self, head: HeadId) -> Option<SocketAddr> {
        self.heads.get(&head).map(|head| head.peer)
    }

    /// What it did so far.
    pub fn counts(&self, head: HeadId) -> Option<&Counts> {
        self.heads.get(&head).map(|head| &head.session.outbox.counts)
    }

    /// What came of this association and was not taken.
    pub fn shelf(&self, head: HeadId) -> Option<Shelf> {
        self.heads.get(&head).map(|head| head.session.core().shelf())
    }

    /// How long nothing was heard of the peer.
    pub fn silence(&self, head: HeadId, now: Instant) -> Option<Duration> {
        self.heads.get(&head).map(|head| head.session.silence(now))
    }

    /// Of all associations that are and were, and of what is of none.
    pub fn total(&self) -> Counts {
        let living = self.heads.values().map(|head| &head.session.outbox.counts);
        living.fold(self.counts.and(&self.strangers.counts), |sum, counts| sum.and(counts))
    }

    /// Whether INITs are answered from now on.
    pub fn listen(&mut self, listens: bool) {
        self.front.listen(listens);
    }

    /// The next packet to send: associations take turns.
    pub fn outgoing(&mut self) -> Option<Datagram> {
        let sender = self.turns.pop_front()?;
        let outbox = match sender {
            Sender::Front => &mut self.strangers,
            Sender::Head(id) => &mut self.heads.get_mut(&id)?.session.outbox,
        };
        let datagram = outbox.pop();
        if !outbox.is_empty() {
            self.turns.push_back(sender);
        } else if let Sender::Head(id) = sender {
            if let Some(head) = self.heads.get_mut(&id) {
                head.is_sending = false;
            }
        }
        datagram
    }

    /// The next thing that happened, and to whom.
    pub fn event(&mut self) -> Option<(HeadId, Event)> {
        let (id, event) = self.events.pop_front()?;
        if let (Event::Down { .. }, Some(head)) = (&event, self.heads.get_mut(&id)) {
            head.is_down_told = true;
        }
        Some((id, event))
    }

    /// Asks a peer for an association, whoever may come otherwise.
    pub fn connect(&mut self, peer: SocketAddr, port: u16, now: Instant) -> Answer<HeadId> {
        let tags = &self.tags;
        let my_tag = self.tools.fresh_tag(|tag| tags.contains_key(&tag));
        let mut session = Session::new(&self.settings.common, &mut self.tools);
        session.associate(peer, port, my_tag, &self.settings.common, &mut self.tools, now)?;
        Ok(self.add(session, peer, now))
    }

    /// A message for a stream. Refused with `Refusal::FULL` it is not lost: hand it in again at `Event::Writable`.
    pub fn hand_in(&mut self, head: HeadId, message: &[u8], stream: u16, unordered: bool, ppid: u32) -> Answer<Ticket> {
        let id = head;
        let head = self.heads.get_mut(&id).ok_or(Refusal::STATE)?;
        let answer = head.session.hand_in(message, stream, unordered, ppid);
        head.wants_room |= answer == Err(Refusal::FULL);
        let ticket = head.tickets.hand_out(answer?);
        self.touch(id);
        Ok(ticket)
    }

    /// The next message that came of this association, if there is one.
    pub fn take(&mut self, head: HeadId) -> Option<(Taken, &[u8])> {
        let id = head;
        let head = self.heads.get_mut(&id)?;
        let taken = head.session.take(&mut self.message);
        head.is_readable_told = taken.is_some();
        self.touch(id);
        taken.map(|taken| (taken, self.message.get(..taken.length).unwrap_or_default()))
    }

    /// No more messages: closes when all that was handed in has come.
    pub fn shutdown(&mut self, head: HeadId, now: Instant) -> Answer<()> {
        let answer = self.heads.get_mut(&head).ok_or(Refusal::STATE)?.session.shutdown(&mut self.tools, now);
        self.settle(head, now);
        answer
    }

    /// Closes an association at once, and tells the peer.
    pub fn abort(&mut self, head: HeadId, cause: Cause, now: Instant) -> Answer<()> {
        let answer = self.heads.get_mut(&head).ok_or(Refusal::STATE)?.session.abort(cause, &mut self.tools, now);
        self.settle(head, now);
        answer
    }

    /// A packet came from this address.
    pub fn arrive(&mut self, packet: &[u8], from: SocketAddr, now: Instant) {
        let incoming = Incoming { packet, from, at: now };
        match self.owner(incoming) {
            Some(id) => self.pass(id, incoming),
            None => self.meet(incoming),
        }
        if !self.strangers.is_empty() && !self.turns.contains(&Sender::Front) {
            self.turns.push_back(Sender::Front);
        }
    }

    /// Does what timers ask for at this moment; `flush` then sends.
    pub fn expire(&mut self, now: Instant) {
        let due: Vec<HeadId> = self.moments.iter().take_while(|(moment, _)| *moment <= now).map(|(_, id)| *id).collect();
        for id in due {
            if let Some(head) = self.heads.get_mut(&id) {
                head.session.expire(&mut self.tools, now);
            }
            self.settle(id, now);
        }
    }

    /// Sends what is due: for each association a SACK, then DATA as far as the core lets it. To be called after packets, expiries and messages handed in, and best
    /// when what came was taken, since the SACK then offers the whole window.
    pub fn flush(&mut self, now: Instant) {
        for id in std::mem::take(&mut self.touched) {
            if let Some(head) = self.heads.get_mut(&id) {
                head.session.flush(&mut self.tools, now);
            }
            self.settle(id, now);
            if let Some(head) = self.heads.get_mut(&id) {
                head.is_touched = false;
            }
        }
        self.sweep();
    }

    /// When `expire` and `flush` are to be called next.
    pub fn next_moment(&self) -> Option<Instant> {
        self.moments.iter().next().map(|(moment, _)| *moment)
    }

    /// The association that a packet is of, if it is of one.
    fn owner(&self, incoming: Incoming) -> Option<HeadId> {
        let shown = tag(incoming.packet)?;
        if let Some(id) = self.tags.get(&shown) {
            return Some(*id);
        }
        // RFC 9260 section 5.2.1: an INIT that crosses ours is of the association that is being opened.
        if first_chunk(incoming.packet) == Some(INIT) {
            let is_asked = |id: &HeadId| self.heads.get(id).map_or(false, |head| head.session.standing().state.is_opening());
            return self.living_at(incoming).filter(is_asked);
        }
        // RFC 9260 section 8.5.1: with T set an ABORT or a SHUTDOWN COMPLETE shows the peer's own tag.
        let is_reflected = matches!(first_chunk(incoming.packet), Some(ABORT | SHUTDOWN_COMPLETE)) && flags_of_first(incoming.packet) & T != 0;
        let is_its_own = |head: &Head<L>| !head.is_down && head.session.core().peer_tag() == shown && head.session.is_of_peer(incoming);
        is_reflected.then(|| self.heads.iter().find(|(_, head)| is_its_own(head)).map(|(id, _)| *id)).flatten()
    }

    /// An association gets its packet.
    fn pass(&mut self, id: HeadId, incoming: Incoming) {
        let head = match self.heads.get_mut(&id) {
            Some(head) => head,
            None => return,
        };
        head.session.outbox.counts.packets_received += 1;
        let tags = &self.tags;
        let prepared = self.front.prepare(incoming, &head.session, |tag| tags.contains_key(&tag), &mut self.tools);
        let answer = head.session.arrive(incoming, &prepared, &self.settings.common, &mut self.tools);
        if prepared.opens() {
            self.front.spent(head.session.standing().my_tag, incoming.at);
        }
        if answer == Err(Refusal::TAG) && !head.session.is_of_peer(incoming) {
            self.front.answer_stray(incoming, &mut self.strangers);
        }
        self.settle(id, incoming.at);
    }

    /// A packet is of no association.
    fn meet(&mut self, incoming: Incoming) {
        self.strangers.counts.packets_received += 1;
        let before = self.living_at(incoming);
        let has_room = self.has_room(incoming.from, before);
        let tags = &self.tags;
        match self.front.meet(incoming, |tag| tags.contains_key(&tag), has_room, &mut self.strangers, &mut self.tools) {
            Met::Done => {}
            Met::OutOfTheBlue => {
                // RFC 9260 section 8.5: a packet of a peer's with a wrong tag is dropped. Late ones of an end that was clean get the last word, and no ABORT.
                if before.is_none() && !self.farewells.answer(incoming, &mut self.strangers) {
                    self.front.answer_stray(incoming, &mut self.strangers);
                }
            }
            Met::Opens(prepared) => {
                let mut session = Session::new(&self.settings.common, &mut self.tools);
                if session.open(incoming, &prepared, &self.settings.common, &mut self.tools).is_some() {
                    self.front.opened(session.standing().my_tag, incoming.at);
                    session.outbox.counts.packets_received += 1;
                    if let Some(before) = before {
                        self.supersede(before, incoming.at);
                    }
                    let id = self.add(session, incoming.from, incoming.at);
                    if let Some(before) = before {
                        self.events.push_back((id, Event::Restarted { before }));
                    }
                }
            }
        }
    }

    /// The association that is alive with the peer at this very address and port.
    fn living_at(&self, incoming: Incoming) -> Option<HeadId> {
        let port = source_port(incoming.packet)?;
        let is_there = |head: &Head<L>| !head.is_down && head.peer == incoming.from && head.session.core().peer_port() == port;
        self.heads.iter().find(|(_, head)| is_there(head)).map(|(id, _)| *id)
    }

    /// Whether one more may come from here. One that begins anew takes the place of the association before, unless that has still to be taken out.
    fn has_room(&mut self, from: SocketAddr, before: Option<HeadId>) -> bool {
        let makes_place = before.and_then(|id| self.heads.get_mut(&id)).map_or(false, |head| !head.session.may_take());
        let here = self.heads.values().filter(|head| head.peer.ip() == from.ip()).count();
        makes_place || self.heads.len() < self.settings.at_once && here < self.settings.at_one_address
    }

    /// The peer has begun anew: it has lost what it knew of this association, and would not understand a word of it.
    fn supersede(&mut self, id: HeadId, now: Instant) {
        if let Some(head) = self.heads.get_mut(&id) {
            head.session.give_up(Why::BeganAnew, &mut self.tools);
        }
        self.settle(id, now);
    }

    fn add(&mut self, session: Session<L>, peer: SocketAddr, now: Instant) -> HeadId {
        let id = HeadId(self.next);
        self.next += 1;
        let standing = session.standing();
        let head = Head {
            session,
            my_tag: standing.my_tag,
            tickets: Tickets::from(standing.acked),
            peer,
            wants_room: false,
            is_readable_told: false,
            is_down: false,
            is_down_told: false,
            is_touched: false,
            is_sending: false,
            moment: None,
        };
        self.tags.insert(standing.my_tag, id);
        self.heads.insert(id, head);
        self.settle(id, now);
        id
    }

    fn touch(&mut self, id: HeadId) {
        if let Some(head) = self.heads.get_mut(&id).filter(|head| !head.is_touched) {
            head.is_touched = true;
            self.touched.push_back(id);
        }
    }

    /// Something was done with an association: tells what came of it, and puts it into the queues that it belongs to.
    fn settle(&mut self, id: HeadId, now: Instant) {
        let head = match self.heads.get_mut(&id) {
            Some(head) => head,
            None => return,
        };
        let events = &mut self.events;
        let mut tell = |event| events.push_back((id, event));
        let standing = head.session.standing();
        if let Some(to) = head.session.peer().filter(|peer| *peer != head.peer) {
            tell(Event::Moved { from: head.peer, to });
            head.peer = to;
        }
        if head.tickets.acknowledge(standing.acked) && head.wants_room && standing.state.is_carrying() {
            head.wants_room = false;
            tell(Event::Writable);
        }
        while let Some(ticket) = head.tickets.delivered() {
            tell(Event::Delivered(ticket));
        }
        while let Some(event) = head.session.events.pop_front() {
            match event {
                event::Event::Up => tell(Event::Up { peer: head.peer, streams: standing.streams_out }),
                event::Event::Quiet(silence) => tell(Event::Quiet(silence)),
                event::Event::Heard => tell(Event::Heard),
                // A peer that begins anew gets a record of its own here (`meet`), with no tie to the one before.
                event::Event::Restarted(_) => {}
                event::Event::Down(why) => {
                    head.is_down = true;
                    tell(Event::Down { why, undelivered: head.tickets.undelivered() });
                    self.tags.remove(&head.my_tag);
                    if let Some(farewell) = head.session.farewell() {
                        self.farewells.keep(farewell, now);
                    }
                    self.ended.push(id);
                }
            }
        }
        if head.session.may_take() && !head.is_readable_told {
            head.is_readable_told = true;
            tell(Event::Readable);
        }
        if !head.session.outbox.is_empty() && !head.is_sending {
            head.is_sending = true;
            self.turns.push_back(Sender::Head(id));
        }
        let moment = head.session.next_moment();
        if moment != head.moment {
            if let Some(before) = head.moment {
                self.moments.remove(&(before, id));
            }
            self.moments.extend(moment.map(|moment| (moment, id)));
            head.moment = moment;
        }
        self.touch(id);
    }

    /// Lets go of associations whose end was told, whose last packet went out and which have nothing to take.
    fn sweep(&mut self) {
        let heads = &mut self.heads;
        let (counts, moments) = (&mut self.counts, &mut self.moments);
        self.ended.retain(|id| {
            let is_through = |head: &&mut Head<L>| head.is_down_told && !head.is_sending && !head.session.may_take();
            let is_gone = heads.get_mut(id).filter(is_through).is_some();
            if let Some(head) = is_gone.then(|| heads.remove(id)).flatten() {
                *counts = counts.and(&head.session.outbox.counts);
                if let Some(moment) = head.moment {
                    moments.remove(&(moment, *id));
                }
            }
            !is_gone
        });
    }
}
