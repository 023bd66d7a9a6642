//! What is of no association: INITs and echoed cookies, which one closed record answers and keeps nothing of, and packets out of the blue.

use crate::association::{peek, Association};
use crate::calls::{Fate, Named, Peeked, Refusal, State};
use crate::config::Config;
use crate::door::{Door, Own, Prepared};
use crate::library::Library;
use crate::outbox::Outbox;
use crate::packet::{destination_port, Incoming};
use crate::session::{Session, Tools};
use crate::stray::Strays;
use std::net::SocketAddr;
use std::time::Instant;

/// What a packet that no association has taken is.
pub enum Met {
    /// Answered, refused or turned away.
    Done,
    /// Well formed and of no association: `answer_stray` answers it, where nobody knows better.
    OutOfTheBlue,
    /// With a good cookie: an association begins.
    Opens(Prepared),
}

pub struct Front<L> {
    closed: Association<L>,
    door: Door,
    strays: Strays,
    port: u16,
}

impl<L: Library> Front<L> {
    pub fn new(config: &Config, tools: &mut Tools, now: Instant) -> Front<L> {
        Front {
            closed: Association::closed(config.port, config.book),
            door: Door::new(config, &mut tools.random, now),
            strays: Strays::default(),
            port: config.port,
        }
    }

    /// Whether INITs are answered from now on.
    pub fn listen(&mut self, listens: bool) {
        self.door.listen(listens);
    }

    /// A packet came. An INIT is answered with a tag that is free, and promised only what its cookie will get.
    pub fn meet(&mut self, incoming: Incoming, is_taken: impl Fn(u32) -> bool, has_room: bool, outbox: &mut Outbox, tools: &mut Tools) -> Met {
        let Incoming { packet, from, at: now } = incoming;
        let prepared = match peek::<L>(packet) {
            Peeked::Nothing | Peeked::Refused(_) => return self.refuse(packet, outbox, tools),
            _ if !self.door.admits(from.ip()) => return turned_away(outbox),
            Peeked::Init(_) if !has_room => return turned_away(outbox),
            Peeked::Init(init) => {
                let (tag, tsn) = (tools.fresh_tag(is_taken), tools.first_tsn());
                self.door.invite(&init, from, tag, tsn, now)
            }
            Peeked::Echo { at, len } => match self.door.judge(packet, at, len, from, now) {
                prepared if !prepared.opens() => prepared,
                prepared if has_room => return Met::Opens(prepared),
                _ => return turned_away(outbox),
            },
        };
        self.answer(incoming, &prepared, outbox, tools);
        Met::Done
    }

    /// What is lent with a packet that came to an association. Only its own peer, at the address where it is known, may begin anew or collide: the record has no
    /// address of its own yet.
    pub fn prepare(&mut self, incoming: Incoming, session: &Session<L>, is_taken: impl Fn(u32) -> bool, tools: &mut Tools) -> Prepared {
        let Incoming { packet, from, at: now } = incoming;
        if !session.is_of_peer(incoming) {
            return Prepared::nothing();
        }
        match peek::<L>(packet) {
            Peeked::Nothing | Peeked::Refused(_) => Prepared::nothing(),
            Peeked::Init(init) => {
                let standing = session.standing();
                let (tag, tsn) = match standing.state.is_opening() {
                    true => (standing.my_tag, standing.next_tsn),
                    false => (tools.fresh_tag(is_taken), tools.first_tsn()),
                };
                let ties = match standing.state {
                    State::CookieWait => (0, 0),
                    _ => (standing.my_tag, session.core().peer_tag()),
                };
                self.door.invite_again(&init, from, &Own { tag, tsn, streams: standing.streams_out, ties }, now)
            }
            Peeked::Echo { at, len } => self.door.judge_again(packet, at, len, from, now),
        }
    }

    /// An association with a peer that was there already began anew with the cookie that has this tag of ours.
    pub fn spent(&mut self, my_tag: u32, now: Instant) {
        self.door.spent(my_tag, now);
    }

    /// An association began with the cookie that has this tag of ours: it is good for no second one.
    pub fn opened(&mut self, my_tag: u32, now: Instant) {
        self.door.opened(my_tag, now);
    }

    /// Tells the sender of a packet that came to our port that there is no association (RFC 9260 section 8.4).
    pub fn answer_stray(&mut self, incoming: Incoming, outbox: &mut Outbox) {
        if destination_port(incoming.packet) != Some(self.port) || peek::<L>(incoming.packet) != Peeked::Nothing {
            return;
        }
        if let Some(answer) = self.strays.answer(incoming.packet, incoming.from, incoming.at) {
            outbox.counts.strays += 1;
            outbox.send(incoming.from, answer.to_vec());
        }
    }

    /// A packet that opens nothing: a closed record refuses it, and the number tells why.
    fn refuse(&mut self, packet: &[u8], outbox: &mut Outbox, tools: &mut Tools) -> Met {
        let nothing = Prepared::nothing();
        let answer = self.closed.arrive(packet, &nothing.lent, nothing.echoed, &mut tools.out);
        match outbox.counted(answer) {
            Err(Refusal::TAG) if peek::<L>(packet) == Peeked::Nothing => Met::OutOfTheBlue,
            _ => Met::Done,
        }
    }

    fn answer(&mut self, incoming: Incoming, prepared: &Prepared, outbox: &mut Outbox, tools: &mut Tools) {
        let answer = self.closed.arrive(incoming.packet, &prepared.lent, prepared.echoed, &mut tools.out);
        let arrived = match outbox.counted(answer) {
            Ok(arrived) => arrived,
            Err(_) => return,
        };
        outbox.send(incoming.from, tools.written(arrived.reply));
        for verdict in &arrived.verdicts {
            if let Fate::Refused(refusal) = verdict.fate {
                outbox.counts.refuse(refusal);
            }
            if verdict.named == Named::ErrorStale {
                self.tell_stale(incoming.from, prepared, outbox, tools);
            }
        }
    }

    fn tell_stale(&mut self, to: SocketAddr, prepared: &Prepared, outbox: &mut Outbox, tools: &mut Tools) {
        if let Some((port, tag, late)) = prepared.stale {
            let microseconds = u32::try_from(late.as_micros()).unwrap_or(u32::MAX);
            let answer = self.closed.error_stale(port, tag, microseconds, &mut tools.out);
            if let Ok(length) = outbox.counted(answer) {
                outbox.send(to, tools.written(length));
            }
        }
    }
}

fn turned_away(outbox: &mut Outbox) -> Met {
    outbox.counts.turned_away += 1;
    Met::Done
}
