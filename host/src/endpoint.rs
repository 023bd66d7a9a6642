//! One end of one association after another, without a socket and without a clock of its own: packets and moments go in, packets and events come out. What
//! the core decides is the core's; what it leaves to the host stands in `session` for an association, and in `front` for what is of none.

use crate::association::Association;
use crate::calls::{Answer, Cause, Refusal, Standing, Taken, MESSAGE_MOST};
use crate::counts::Counts;
use crate::front::{Front, Met};
use crate::library::Library;
use crate::packet::Incoming;
use crate::random::Random;
use crate::session::{Session, Tools};
use std::net::SocketAddr;
use std::time::{Duration, Instant};

pub use crate::config::{Book, Config};
pub use crate::event::{Event, Why};
pub use crate::packet::Datagram;

/// One end. `udp::Line` puts one on a socket; here two of them have a network in memory:
///
#[cfg_attr(feature = "proved", doc = "```")]
#[cfg_attr(not(feature = "proved"), doc = "```ignore")]
/// use oilwhisper::endpoint::{Config, Endpoint, Event, Why};
/// use oilwhisper::library::Proved;
/// use oilwhisper::random::Random;
/// use std::net::SocketAddr;
/// use std::time::Instant;
///
/// /// Carries packets to and fro until neither end has one.
/// fn carry(ends: &mut [Endpoint<Proved>; 2], at: [SocketAddr; 2], now: Instant) {
///     let mut has_moved = true;
///     while std::mem::take(&mut has_moved) {
///         for n in 0..2 {
///             ends[n].flush(now);
///             while let Some(datagram) = ends[n].outgoing() {
///                 ends[1 - n].arrive(&datagram.packet, at[n], now);
///                 has_moved = true;
///             }
///         }
///     }
/// }
///
/// # fn main() -> Result<(), Box<dyn std::error::Error>> {
/// let now = Instant::now();
/// let at = ["192.0.2.1:9899".parse()?, "192.0.2.2:9899".parse()?];
/// let end = |port| Ok::<_, std::io::Error>(Endpoint::new(Config::at_port(port), Random::from_system()?, now));
/// let mut ends = [end(5000)?, end(5001)?];
///
/// ends[0].associate(at[1], 5001, now)?;
/// carry(&mut ends, at, now);
/// assert_eq!([ends[0].event(), ends[1].event()], [Some(Event::Up); 2]);
///
/// ends[0].hand_in(b"painted rock", 3, false, 0)?;
/// carry(&mut ends, at, now);
/// let (taken, message) = ends[1].take().expect("it has come");
/// assert_eq!((taken.stream, message), (3, &b"painted rock"[..]));
///
/// ends[0].shutdown(now)?;
/// carry(&mut ends, at, now);
/// assert_eq!(ends[1].event(), Some(Event::Down(Why::ShutDown)));
/// # Ok(())
/// # }
/// ```
pub struct Endpoint<L> {
    config: Config,
    tools: Tools,
    front: Front<L>,
    session: Session<L>,
    /// The association before, while it has messages that were acknowledged and not taken.
    finished: Option<Association<L>>,
    message: Box<[u8]>,
}

impl<L: Library> Endpoint<L> {
    /// An endpoint without an association.
    pub fn new(config: Config, random: Random, now: Instant) -> Endpoint<L> {
        let mut tools = Tools::new(&config, random);
        let front = Front::new(&config, &mut tools, now);
        let session = Session::new(&config, &mut tools);
        Endpoint { config, tools, front, session, finished: None, message: vec![0; MESSAGE_MOST].into_boxed_slice() }
    }

    /// The association's record, in the core's own terms.
    pub fn core(&self) -> &Association<L> {
        self.session.core()
    }

    /// Where the association stands now.
    pub fn standing(&self) -> Standing {
        self.session.standing()
    }

    /// What it did so far, in all its associations.
    pub fn counts(&self) -> &Counts {
        &self.session.outbox.counts
    }

    /// How long nothing was heard of the peer.
    pub fn silence(&self, now: Instant) -> Duration {
        self.session.silence(now)
    }

    /// Where packets to the peer go.
    pub fn peer(&self) -> Option<SocketAddr> {
        self.session.peer()
    }

    /// The next packet to send.
    pub fn outgoing(&mut self) -> Option<Datagram> {
        self.session.outbox.pop()
    }

    /// The next thing that happened to the association.
    pub fn event(&mut self) -> Option<Event> {
        self.session.events.pop_front()
    }

    /// Whether INITs are answered from now on.
    pub fn listen(&mut self, listens: bool) {
        self.front.listen(listens);
    }

    /// Asks a peer for an association, and listens to no other from now on. Refused with `Refusal::STATE` also while there are messages to take of two
    /// associations before.
    pub fn associate(&mut self, peer: SocketAddr, port: u16, now: Instant) -> Answer<()> {
        if !self.session.is_over() || !self.has_room() {
            return self.session.outbox.counted(Err(Refusal::STATE));
        }
        let my_tag = self.tools.random.tag();
        let ended = self.session.associate(peer, port, my_tag, &self.config, &mut self.tools, now)?;
        self.set_aside(ended);
        self.listen(false);
        Ok(())
    }

    /// A message for a stream. Refused with `Refusal::FULL` it is not lost: hand it in again when something was acknowledged.
    pub fn hand_in(&mut self, message: &[u8], stream: u16, unordered: bool, ppid: u32) -> Answer<()> {
        self.session.hand_in(message, stream, unordered, ppid).map(|_| ())
    }

    /// The next message that came, if there is one; those of the association before come first.
    pub fn take(&mut self) -> Option<(Taken, &[u8])> {
        let taken = match self.take_of_finished() {
            Some(taken) => taken,
            None => self.session.take(&mut self.message)?,
        };
        Some((taken, self.message.get(..taken.length).unwrap_or_default()))
    }

    /// Whether what `take` gives next is of the association before this one, whose streams and SSNs are others.
    pub fn has_finished_messages(&mut self) -> bool {
        self.finished.as_mut().map_or(false, Association::has_message)
    }

    /// No more messages: closes when all that was handed in has come.
    pub fn shutdown(&mut self, now: Instant) -> Answer<()> {
        self.session.shutdown(&mut self.tools, now)
    }

    /// Closes at once, and tells the peer.
    pub fn abort(&mut self, cause: Cause, now: Instant) -> Answer<()> {
        self.session.abort(cause, &mut self.tools, now)
    }

    /// A packet came from this address.
    pub fn arrive(&mut self, packet: &[u8], from: SocketAddr, now: Instant) {
        self.session.outbox.counts.packets_received += 1;
        let incoming = Incoming { packet, from, at: now };
        if self.session.is_over() {
            return self.meet(incoming);
        }
        let my_tag = self.session.standing().my_tag;
        let prepared = self.front.prepare(incoming, &self.session, |tag| tag == my_tag, &mut self.tools);
        let answer = self.session.arrive(incoming, &prepared, &self.config, &mut self.tools);
        if answer == Err(Refusal::TAG) && !self.session.is_of_peer(incoming) {
            // RFC 9260 section 8.5: a packet of the peer's with a wrong tag is dropped.
            self.front.answer_stray(incoming, &mut self.session.outbox);
        }
        if prepared.opens() {
            self.front.spent(self.session.standing().my_tag, now);
        }
    }

    /// Sends what is due: a SACK, then DATA as far as the core lets it. To be called after packets, expiries and messages handed in, and best when what came was
    /// taken, since the SACK then offers the whole window.
    pub fn flush(&mut self, now: Instant) {
        self.session.flush(&mut self.tools, now);
    }

    /// Does what timers ask for at this moment; `flush` then sends.
    pub fn expire(&mut self, now: Instant) {
        self.session.expire(&mut self.tools, now);
    }

    /// When `expire` and `flush` are to be called next.
    pub fn next_moment(&self) -> Option<Instant> {
        self.session.next_moment()
    }

    /// A packet came while there is no association.
    fn meet(&mut self, incoming: Incoming) {
        let has_room = self.has_room();
        match self.front.meet(incoming, |_| false, has_room, &mut self.session.outbox, &mut self.tools) {
            Met::Done => {}
            Met::OutOfTheBlue => {
                // An ABORT would make a failure of an end that was clean.
                if !self.session.answer_late(incoming) {
                    self.front.answer_stray(incoming, &mut self.session.outbox);
                }
            }
            Met::Opens(prepared) => {
                if let Some(ended) = self.session.open(incoming, &prepared, &self.config, &mut self.tools) {
                    self.front.opened(self.session.standing().my_tag, incoming.at);
                    self.set_aside(ended);
                }
            }
        }
    }

    /// Whether a new association can begin: there is a place for the messages of the one that ended.
    fn has_room(&mut self) -> bool {
        !(self.session.has_message() && self.has_finished_messages())
    }

    /// A record that was replaced stays while it has messages to take.
    fn set_aside(&mut self, mut ended: Association<L>) {
        if ended.has_message() {
            self.finished = Some(ended);
        }
    }

    fn take_of_finished(&mut self) -> Option<Taken> {
        let taken = self.finished.as_mut()?.take(&mut self.message).ok();
        match taken {
            Some(_) => self.session.outbox.counts.messages_out += 1,
            None => self.finished = None,
        }
        taken
    }
}
