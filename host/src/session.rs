//! One association, with what the core leaves to the host while it lasts: timers, when to acknowledge, which round trips count, where the peer is, and the calls
//! that verdicts name. Packets and moments go in, packets and events come out; which packets are its own is for the owner to say.

use crate::acknowledging::DelayedSack;
use crate::association::Association;
use crate::calls::{Answer, Cause, Expired, Fate, Named, NotTaken, Refusal, Standing, Taken, Turn, Verdict, OUTPUT};
use crate::config::Config;
use crate::door::Prepared;
use crate::event::{Event, Why};
use crate::heartbeat::Heartbeat;
use crate::last_word::{Farewell, LastWord};
use crate::library::Library;
use crate::outbox::Outbox;
use crate::packet::{chunk_at, first_chunk, source_port, tag, Incoming, ABORT, DATA, HEARTBEAT_ACK, INIT, INIT_ACK};
use crate::path::Path;
use crate::random::Random;
use crate::round_trip::RoundTrip;
use crate::silence::Silence;
use crate::timers::{Alarm, Timers};
use std::collections::VecDeque;
use std::net::SocketAddr;
use std::time::{Duration, Instant};

/// Of DATA's flags: the I bit (RFC 9260 section 3.3.1).
const IMMEDIATELY: u8 = 8;
/// Where the value stands in a HEARTBEAT ACK of ours: behind the headers of the chunk and of its parameter.
const HEARTBEAT_VALUE: usize = 8;
/// RFC 9260 section 16: Max.Burst, the packets of DATA that go out at once (section 6.1 D).
const BURST: usize = 4;

/// What the associations of one socket share.
pub struct Tools {
    pub random: Random,
    first_tsn: Option<u32>,
    /// Where the core writes a packet.
    pub out: Box<[u8]>,
}

impl Tools {
    pub fn new(config: &Config, random: Random) -> Tools {
        Tools { random, first_tsn: config.first_tsn, out: vec![0; OUTPUT].into_boxed_slice() }
    }

    /// A tag that is not one of these.
    pub fn fresh_tag(&mut self, is_taken: impl Fn(u32) -> bool) -> u32 {
        loop {
            let tag = self.random.tag();
            if !is_taken(tag) {
                return tag;
            }
        }
    }

    pub fn first_tsn(&mut self) -> u32 {
        match self.first_tsn {
            Some(tsn) => tsn,
            None => self.random.word(),
        }
    }

    /// The first bytes of what the core wrote.
    pub fn written(&self, length: usize) -> Vec<u8> {
        self.out.get(..length).unwrap_or_default().to_vec()
    }
}

pub struct Session<L> {
    core: Association<L>,
    path: Path,
    timers: Timers,
    sack: DelayedSack,
    heartbeat: Heartbeat,
    silence: Silence,
    round_trip: RoundTrip,
    last_word: LastWord,
    /// The peer's first TSN, of the association that there is.
    peer_first: Option<u32>,
    pub outbox: Outbox,
    /// Something happened since the core had nothing to send, or nothing to take.
    may_send: bool,
    may_take: bool,
    pub events: VecDeque<Event>,
}

impl<L: Library> Session<L> {
    /// One that nothing has happened to yet.
    pub fn new(config: &Config, tools: &mut Tools) -> Session<L> {
        Session {
            core: Association::closed(config.port, config.book),
            path: Path::default(),
            timers: Timers::default(),
            sack: DelayedSack::default(),
            heartbeat: heartbeat(config, tools),
            silence: Silence::after(config.quiet),
            round_trip: RoundTrip::default(),
            last_word: LastWord::default(),
            peer_first: None,
            outbox: Outbox::default(),
            may_send: false,
            may_take: false,
            events: VecDeque::new(),
        }
    }

    pub fn core(&self) -> &Association<L> {
        &self.core
    }

    pub fn standing(&self) -> Standing {
        self.core.standing()
    }

    pub fn is_over(&self) -> bool {
        self.core.is_closed()
    }

    pub fn peer(&self) -> Option<SocketAddr> {
        self.path.peer()
    }

    /// How long nothing was heard of the peer.
    pub fn silence(&self, now: Instant) -> Duration {
        self.silence.lasted(now)
    }

    /// Whether a packet from here is the peer's, by its IP address and its SCTP port.
    pub fn is_of_peer(&self, incoming: Incoming) -> bool {
        self.path.is_of_peer(incoming.from) && source_port(incoming.packet) == Some(self.core.peer_port())
    }

    /// Asks a peer for an association, in place of the one that ended, whose record is given back.
    pub fn associate(
        &mut self,
        peer: SocketAddr,
        port: u16,
        my_tag: u32,
        config: &Config,
        tools: &mut Tools,
        now: Instant,
    ) -> Answer<Association<L>> {
        let mut core = Association::closed(config.port, config.book);
        let tsn = tools.first_tsn();
        let answer = core.associate(my_tag, tsn, port, config.streams, &mut tools.out);
        let length = self.counted(answer)?;
        let before = self.begin(core, peer, config, tools, now);
        self.outbox.send(peer, tools.written(length));
        self.follow(now);
        Ok(before)
    }

    /// A packet with a good cookie opens an association, in place of the one that ended, whose record is given back. None where the core refuses it all the same.
    pub fn open(&mut self, incoming: Incoming, prepared: &Prepared, config: &Config, tools: &mut Tools) -> Option<Association<L>> {
        let mut core = Association::closed(config.port, config.book);
        let before = core.standing();
        let answer = core.arrive(incoming.packet, &prepared.lent, prepared.echoed, &mut tools.out);
        let arrived = self.counted(answer).ok()?;
        arrived.verdicts.iter().find(|verdict| verdict.turn == Turn::Up)?;
        let reply = tools.written(arrived.reply);
        let ended = self.begin(core, incoming.from, config, tools, incoming.at);
        self.peer_first = prepared.first_of_peer();
        self.heed(incoming, &before, &arrived.verdicts, reply, prepared, tools);
        self.follow(incoming.at);
        Some(ended)
    }

    /// All that the host measures of a peer starts over.
    fn start_over(&mut self, peer: SocketAddr, config: &Config, tools: &mut Tools, now: Instant) {
        self.path.start(peer);
        self.silence.start(now);
        self.sack = DelayedSack::default();
        self.heartbeat = heartbeat(config, tools);
        self.round_trip = RoundTrip::default();
        self.last_word.forget();
    }

    /// An association with this peer begins: nothing of an earlier one is left but its record, which is given back.
    fn begin(&mut self, core: Association<L>, peer: SocketAddr, config: &Config, tools: &mut Tools, now: Instant) -> Association<L> {
        self.start_over(peer, config, tools, now);
        self.peer_first = None;
        std::mem::replace(&mut self.core, core)
    }

    /// The core has begun anew with the peer that there is: so does all that the host measures of it.
    fn begin_again(&mut self, peer: SocketAddr, prepared: &Prepared, config: &Config, tools: &mut Tools, now: Instant) {
        self.start_over(peer, config, tools, now);
        self.peer_first = prepared.first_of_peer();
        self.may_take = false;
    }

    /// The number of chunks that the message was cut into.
    pub fn hand_in(&mut self, message: &[u8], stream: u16, unordered: bool, ppid: u32) -> Answer<usize> {
        let answer = self.core.hand_in(message, stream, unordered, ppid);
        let chunks = self.counted(answer)?;
        self.outbox.counts.messages_in += 1;
        self.may_send = true;
        Ok(chunks)
    }

    /// The next message that came, if there is one.
    pub fn take(&mut self, message: &mut [u8]) -> Option<Taken> {
        if !self.may_take {
            return None;
        }
        match self.core.take(message) {
            Ok(taken) => {
                self.outbox.counts.messages_out += 1;
                Some(taken)
            }
            Err(NotTaken::Refused(Refusal::NOTHING)) => {
                self.may_take = false;
                None
            }
            Err(NotTaken::Refused(refusal)) => {
                self.outbox.counts.refuse(refusal);
                None
            }
            // The buffer has the length of the longest message.
            Err(NotTaken::Short(_)) => None,
        }
    }

    pub fn has_message(&mut self) -> bool {
        self.core.has_message()
    }

    /// Whether DATA has come since there was nothing to take.
    pub fn may_take(&self) -> bool {
        self.may_take
    }

    pub fn shutdown(&mut self, tools: &mut Tools, now: Instant) -> Answer<()> {
        let answer = self.core.shutdown(&mut tools.out);
        let length = self.counted(answer)?;
        self.send_to_peer(tools.written(length));
        self.follow(now);
        Ok(())
    }

    pub fn abort(&mut self, cause: Cause, tools: &mut Tools, now: Instant) -> Answer<()> {
        self.abort_as(cause, Why::WeAborted(cause), tools, now)
    }

    /// A packet came, which the core may refuse whole. What is lent with it is for an INIT or an echo of the peer's.
    pub fn arrive(&mut self, incoming: Incoming, prepared: &Prepared, config: &Config, tools: &mut Tools) -> Answer<()> {
        let before = self.core.standing();
        let expected = self.core.next_expected();
        // A restart leaves nothing of what came, so it is counted before.
        let untaken = if prepared.opens() { self.core.untaken() } else { 0 };
        let answer = self.core.arrive(incoming.packet, &prepared.lent, prepared.echoed, &mut tools.out);
        let answer = self.counted(answer).map(|arrived| {
            let reply = tools.written(arrived.reply);
            match arrived.verdicts.first().map(|verdict| verdict.turn) {
                Some(Turn::Restarted) => {
                    self.begin_again(incoming.from, prepared, config, tools, incoming.at);
                    self.events.push_back(Event::Restarted(untaken));
                }
                Some(Turn::Up) if prepared.opens() => self.begin_again(incoming.from, prepared, config, tools, incoming.at),
                Some(Turn::Up) => self.peer_first = Some(expected),
                _ => {}
            }
            if tag(incoming.packet) == Some(before.my_tag) && arrived.verdicts.iter().any(|verdict| verdict.fate == Fate::Accepted) {
                self.note_sender(incoming.from, tools, incoming.at);
            }
            self.heed(incoming, &before, &arrived.verdicts, reply, prepared, tools);
        });
        self.follow(incoming.at);
        answer
    }

    /// Ends it without a word to the peer.
    pub fn give_up(&mut self, why: Why, tools: &mut Tools) {
        // The core is told, so that it takes and sends nothing more; its ABORT stays here. Refused only where it is over already.
        let answer = self.core.abort(Cause::User, &mut tools.out);
        if self.counted(answer).is_ok() {
            self.events.push_back(Event::Down(why));
        }
    }

    /// Whether a packet came late to an association that was shut down; it then gets the last word again, if it asks for it.
    pub fn answer_late(&mut self, incoming: Incoming) -> bool {
        let farewell = match self.last_word.farewell().filter(|farewell| farewell.is_late(incoming)) {
            Some(farewell) => farewell,
            None => return false,
        };
        let again = farewell.to_late(incoming).map(<[u8]>::to_vec);
        self.path.showed(incoming.from, incoming.at);
        self.repeat(again);
        true
    }

    /// It is over: what is left to say to late packets, where nothing else of it may be kept. What came can still be taken.
    pub fn farewell(&mut self) -> Option<Farewell> {
        self.may_take = self.core.has_message();
        std::mem::take(&mut self.last_word).into_farewell()
    }

    /// Sends what is due: a SACK, then DATA as far as the core lets it.
    pub fn flush(&mut self, tools: &mut Tools, now: Instant) {
        let standing = self.core.standing();
        if standing.state.reads_data() {
            self.sack.window_is(standing.window, now);
            if self.sack.is_due(now) {
                self.acknowledge(tools);
            }
        } else {
            self.sack = DelayedSack::default();
        }
        if self.may_send && standing.state.is_carrying() {
            self.transmit(tools, now);
        }
        let standing = self.core.standing();
        self.timers.follow(&standing, now);
        self.heartbeat.follow(&standing, now);
        let waits = standing.state.is_opening() || standing.state.is_closing();
        let waits_for_ack = standing.state.is_carrying() && standing.has_outstanding();
        self.silence.follow(waits || waits_for_ack || self.heartbeat.is_awaited(), standing.rto, now);
    }

    /// Does what timers ask for at this moment; `flush` then sends.
    pub fn expire(&mut self, tools: &mut Tools, now: Instant) {
        while let Some(alarm) = self.timers.ring(now) {
            self.outbox.counts.expiries += 1;
            let answer = match alarm {
                Alarm::T1 => self.core.t1(&mut tools.out),
                Alarm::T2 => self.core.t2(&mut tools.out),
                Alarm::T3 => self.core.t3(),
            };
            self.round_trip.spoil();
            self.may_send = true;
            match self.counted(answer) {
                Ok(Expired::TriedAgain(length)) => {
                    self.send_to_peer(tools.written(length));
                    if alarm == Alarm::T3 {
                        // Its round trip ends the doubled RTO, which what is sent again cannot (RFC 9260 section 6.3.3).
                        self.ask(tools, now);
                    }
                }
                Ok(Expired::Over) => self.events.push_back(Event::Down(Why::NoAnswer)),
                Err(_) => {}
            }
        }
        if self.heartbeat.is_due(now) {
            self.beat(tools, now);
        }
        let is_over = self.is_over();
        if let Some(silence) = self.silence.ring(now).filter(|_| !is_over) {
            self.events.push_back(Event::Quiet(silence));
        }
    }

    /// When `expire` and `flush` are to be called next.
    pub fn next_moment(&self) -> Option<Instant> {
        [self.timers.next(), self.sack.next(), self.heartbeat.next(), self.silence.next()].iter().flatten().min().copied()
    }

    fn counted<T>(&mut self, answer: Answer<T>) -> Answer<T> {
        self.outbox.counted(answer)
    }

    fn follow(&mut self, now: Instant) {
        self.timers.follow(&self.core.standing(), now);
    }

    fn send_to_peer(&mut self, packet: Vec<u8>) {
        if let Some(peer) = self.path.peer() {
            self.outbox.send(peer, packet);
        }
    }

    fn abort_as(&mut self, cause: Cause, why: Why, tools: &mut Tools, now: Instant) -> Answer<()> {
        let answer = self.core.abort(cause, &mut tools.out);
        let length = self.counted(answer)?;
        self.send_to_peer(tools.written(length));
        self.events.push_back(Event::Down(why));
        self.follow(now);
        Ok(())
    }

    /// The core took the packet as the peer's: sends its reply and does what the verdicts ask for.
    fn heed(&mut self, incoming: Incoming, before: &Standing, verdicts: &[Verdict], reply: Vec<u8>, prepared: &Prepared, tools: &mut Tools) {
        let Incoming { packet, from, at: now } = incoming;
        for verdict in verdicts {
            self.note_turn(verdict.turn, before, &reply);
        }
        // What answers an INIT goes to its sender and is of no association; everything else goes where the peer is known to be, and so does the SHUTDOWN ACK that an
        // INIT may ask for again: it shows the peer's tag.
        match (first_chunk(packet), first_chunk(&reply)) {
            (Some(INIT), Some(INIT_ACK | ABORT)) => self.outbox.send(from, reply),
            _ => self.send_to_peer(reply),
        }
        self.note_data(packet, verdicts, now);
        self.note_acknowledged(before, now);
        for verdict in verdicts {
            self.note_refusal(verdict);
            self.note_heartbeat(packet, from, verdict, now);
            self.make_named_call(verdict.named, from, prepared, tools, now);
            // Where its TSNs are not those that the record was made from, nothing that comes can be told from what came.
            if verdict.turn == Turn::Retagged && prepared.first_of_peer() != self.peer_first {
                let _ = self.abort(Cause::User, tools, now);
            }
        }
        self.may_send = true;
    }

    /// The peer was heard from this address, which may be new.
    fn note_sender(&mut self, from: SocketAddr, tools: &mut Tools, now: Instant) {
        if self.silence.heard(now) {
            self.events.push_back(Event::Heard);
        }
        if self.path.showed(from, now) && self.core.standing().state.is_carrying() {
            let nonce = tools.random.bytes();
            // The reply to the packet was taken from the output before.
            let answer = self.core.heartbeat(nonce, &mut tools.out);
            if let Ok(length) = self.counted(answer) {
                self.path.asks(from, nonce, now);
                self.outbox.send(from, tools.written(length));
            }
        }
    }

    fn note_turn(&mut self, turn: Turn, before: &Standing, reply: &[u8]) {
        let why = match turn {
            // A restart was told before its record was replaced.
            Turn::None | Turn::Restarted | Turn::Retagged => return,
            Turn::Up => return self.events.push_back(Event::Up),
            Turn::ShutDown => {
                self.note_last_word(before.my_tag, reply);
                Why::ShutDown
            }
            Turn::Aborted => Why::PeerAborted,
            Turn::StaleCookie => Why::StaleCookie,
            Turn::HostName => Why::HostName,
        };
        self.events.push_back(Event::Down(why));
    }

    /// The end of a shutdown: where it was this end's to say, the peer may not get it.
    fn note_last_word(&mut self, my_tag: u32, reply: &[u8]) {
        if let Some(peer) = self.path.peer().filter(|_| !reply.is_empty()) {
            self.last_word.closed(Farewell { peer: peer.ip(), peer_port: self.core.peer_port(), my_tag, reply: reply.to_vec() });
        }
    }

    /// What the packet's DATA asks of the next SACK, of the taker and of T2. An opposite chunk is neither new nor a duplicate, and asks for nothing.
    fn note_data(&mut self, packet: &[u8], verdicts: &[Verdict], now: Instant) {
        let of_data = |verdict: &&Verdict| packet.get(verdict.at) == Some(&DATA);
        let asks_for_it = |verdict: &Verdict| packet.get(verdict.at + 1).map_or(false, |flags| flags & IMMEDIATELY != 0);
        let has_come = |fate: Fate| fate == Fate::Accepted || fate == Fate::Refused(Refusal::STRAY);
        let asks_at_once = |fate: Fate| [Refusal::DUPLICATE, Refusal::WEDGED, Refusal::FAR].iter().any(|refusal| fate == Fate::Refused(*refusal));
        let new = verdicts.iter().filter(of_data).any(|verdict| has_come(verdict.fate));
        let asked = verdicts.iter().filter(of_data).any(|verdict| has_come(verdict.fate) && asks_for_it(verdict));
        let again = verdicts.iter().filter(of_data).any(|verdict| asks_at_once(verdict.fate));
        if !new && !again {
            return;
        }
        let standing = self.core.standing();
        self.sack.data_came(again || asked || standing.has_gap, now);
        if new {
            self.may_take = true;
            self.timers.restart_t2(&standing, now);
        }
    }

    fn note_acknowledged(&mut self, before: &Standing, now: Instant) {
        let acked = self.core.standing().acked;
        if acked == before.acked {
            return;
        }
        self.heartbeat.heard();
        if let Some(sample) = self.round_trip.acknowledged(acked, now) {
            let answer = self.core.rtt(sample);
            // A packet that closed the association leaves nothing to measure.
            let _ = self.counted(answer);
        }
    }

    fn note_refusal(&mut self, verdict: &Verdict) {
        if let Fate::Refused(refusal) = verdict.fate {
            self.outbox.counts.refuse(refusal);
        }
    }

    fn note_heartbeat(&mut self, packet: &[u8], from: SocketAddr, verdict: &Verdict, now: Instant) {
        let chunk = chunk_at(packet, verdict.at);
        if verdict.fate != Fate::Accepted || chunk.first() != Some(&HEARTBEAT_ACK) {
            return;
        }
        let value = chunk.get(HEARTBEAT_VALUE..).unwrap_or_default();
        self.path.answered(value, from);
        // Behind a shut window the RTO stays doubled, so that probes go further and further apart (RFC 9260 section 6.1 A).
        let is_probing = self.core.standing().is_probing();
        if let Some(sample) = self.heartbeat.answered(value, now).filter(|_| !is_probing) {
            let answer = self.core.rtt(sample);
            let _ = self.counted(answer);
        }
    }

    fn make_named_call(&mut self, named: Named, from: SocketAddr, prepared: &Prepared, tools: &mut Tools, now: Instant) {
        match named {
            Named::NoCall => {}
            Named::ErrorStale => {
                if let Some((port, tag, late)) = prepared.stale {
                    let microseconds = u32::try_from(late.as_micros()).unwrap_or(u32::MAX);
                    let answer = self.core.error_stale(port, tag, microseconds, &mut tools.out);
                    if let Ok(length) = self.counted(answer) {
                        self.outbox.send(from, tools.written(length));
                    }
                }
            }
            Named::Abort(cause) => {
                // Refused only where a later chunk closed the association.
                let _ = self.abort(cause, tools, now);
            }
            Named::ErrorStream(stream) => {
                let answer = self.core.error_stream(stream, &mut tools.out);
                if let Ok(length) = self.counted(answer) {
                    self.send_to_peer(tools.written(length));
                }
            }
        }
    }

    fn repeat(&mut self, word: Option<Vec<u8>>) {
        if let Some(packet) = word {
            self.outbox.counts.last_words += 1;
            self.send_to_peer(packet);
        }
    }

    fn acknowledge(&mut self, tools: &mut Tools) {
        let answer = self.core.sack(&mut tools.out);
        self.sack.drop_due();
        if let Ok(told) = self.counted(answer) {
            self.outbox.counts.acknowledgements += 1;
            self.sack.sent(told.window);
            self.send_to_peer(tools.written(told.length));
        }
    }

    /// Sends DATA, in a burst that is no longer than it may be. With all of it outstanding, something will happen that lets the next one go.
    fn transmit(&mut self, tools: &mut Tools, now: Instant) {
        self.may_send = false;
        for _ in 0..BURST {
            let answer = self.core.transmit(&mut tools.out);
            let packet = match self.counted(answer) {
                Ok(packet) if packet.length > 0 => packet,
                _ => return,
            };
            let standing = self.core.standing();
            self.outbox.counts.resent += u64::from(packet.resent);
            self.round_trip.sent(&packet, now);
            if packet.resent && packet.first == standing.acked.wrapping_add(1) {
                self.timers.restart_t3(&standing, now);
            }
            self.send_to_peer(tools.written(packet.length));
            if !packet.resent {
                self.heartbeat.postpone(&standing, now);
            }
        }
    }

    fn beat(&mut self, tools: &mut Tools, now: Instant) {
        if self.heartbeat.is_in_vain() {
            // Refused only where it is over already.
            let _ = self.abort_as(Cause::User, Why::NoAnswer, tools, now);
            return;
        }
        if let Some(value) = self.send_heartbeat(tools) {
            self.heartbeat.sent(value, &self.core.standing(), now);
        }
    }

    /// Asks whether the peer is there, beside what a timer sends again.
    fn ask(&mut self, tools: &mut Tools, now: Instant) {
        if let Some(value) = self.send_heartbeat(tools) {
            self.heartbeat.asked(value, &self.core.standing(), now);
        }
    }

    /// The value that will come back.
    fn send_heartbeat(&mut self, tools: &mut Tools) -> Option<[u8; 8]> {
        let value = tools.random.bytes();
        let answer = self.core.heartbeat(value, &mut tools.out);
        let length = self.counted(answer).ok()?;
        self.send_to_peer(tools.written(length));
        Some(value)
    }
}

fn heartbeat(config: &Config, tools: &mut Tools) -> Heartbeat {
    Heartbeat::every(config.heartbeat, config.unanswered, u64::from(tools.random.word()))
}
