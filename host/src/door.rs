//! How an association comes in: who may, the cookie that an INIT is answered with, and the word on the one that is echoed. An INIT leaves nothing behind.

use crate::admission::Admission;
use crate::calls::{Echoed, Init, Lent, Made};
use crate::config::Config;
use crate::cookie::{CookieJar, Judgement};
use crate::packet::source_port;
use crate::random::Random;
use std::net::{IpAddr, SocketAddr};
use std::time::{Duration, Instant};

/// What is lent to the core with a packet, and what a verdict on it may need.
pub struct Prepared {
    pub lent: Lent,
    pub echoed: Echoed,
    /// Of a stale cookie: the port and tag to tell it to, and by how much it is late.
    pub stale: Option<(u16, u32, Duration)>,
}

impl Prepared {
    pub fn nothing() -> Prepared {
        Prepared { lent: Lent::default(), echoed: Echoed::Bad, stale: None }
    }

    /// Whether an association begins with it.
    pub fn opens(&self) -> bool {
        matches!(self.echoed, Echoed::Good(_))
    }

    /// The peer's first TSN, as the echoed cookie has it.
    pub fn first_of_peer(&self) -> Option<u32> {
        match self.echoed {
            Echoed::Good(made) | Echoed::Stale(made) => Some(made.peer_tsn),
            Echoed::Bad => None,
        }
    }
}

/// What an INIT ACK says of us while there is an association (RFC 9260 sections 5.2.1 and 5.2.2).
pub struct Own {
    pub tag: u32,
    pub tsn: u32,
    pub streams: u16,
    /// Our tag and the peer's, or 0.
    pub ties: (u32, u32),
}

pub struct Door {
    admission: Admission,
    jar: CookieJar,
    streams: u16,
}

impl Door {
    pub fn new(config: &Config, random: &mut Random, now: Instant) -> Door {
        let admission = Admission::new(config.listens, config.admits.clone(), config.most);
        Door { admission, jar: CookieJar::new(random.key(), now), streams: config.streams }
    }

    pub fn listen(&mut self, listens: bool) {
        self.admission.listens = listens;
    }

    pub fn admits(&self, address: IpAddr) -> bool {
        self.admission.admits(address)
    }

    /// An INIT is answered with this tag and first TSN of ours.
    pub fn invite(&mut self, init: &Init, from: SocketAddr, tag: u32, tsn: u32, now: Instant) -> Prepared {
        let made = init.agreed(tag, tsn, self.streams);
        let cookie = self.jar.bake(made, from, init.source, now);
        Prepared { lent: Lent { tag, tsn, streams: self.streams, cookie }, ..Prepared::nothing() }
    }

    /// An INIT of the peer's, while there is an association: the INIT ACK has the tag, the first TSN and the streams that are said here, and the cookie the ties.
    pub fn invite_again(&mut self, init: &Init, from: SocketAddr, own: &Own, now: Instant) -> Prepared {
        let made = Made { my_tie: own.ties.0, peer_tie: own.ties.1, ..init.agreed(own.tag, own.tsn, own.streams) };
        let cookie = self.jar.bake(made, from, init.source, now);
        Prepared { lent: Lent { tag: own.tag, tsn: own.tsn, streams: own.streams, cookie }, ..Prepared::nothing() }
    }

    /// The packet echoes a cookie that stands here in it, to start an association.
    pub fn judge(&self, packet: &[u8], at: usize, len: usize, from: SocketAddr, now: Instant) -> Prepared {
        let port = source_port(packet).unwrap_or(0);
        prepared(port, self.jar.judge(packet.get(at..at + len).unwrap_or_default(), from, port, now))
    }

    /// The same, while there is an association.
    pub fn judge_again(&self, packet: &[u8], at: usize, len: usize, from: SocketAddr, now: Instant) -> Prepared {
        let port = source_port(packet).unwrap_or(0);
        prepared(port, self.jar.judge_again(packet.get(at..at + len).unwrap_or_default(), from, port, now))
    }

    /// An association began with the cookie that has this tag of ours: it is good for no second one.
    pub fn opened(&mut self, my_tag: u32, now: Instant) {
        self.admission.took_up();
        self.spent(my_tag, now);
    }

    /// The same, where the association is with a peer that was there already.
    pub fn spent(&mut self, my_tag: u32, now: Instant) {
        self.jar.spend(my_tag, now);
    }
}

/// What is lent with an echo.
fn prepared(port: u16, judgement: Judgement) -> Prepared {
    match judgement {
        Judgement::Bad => Prepared::nothing(),
        Judgement::Good(made) => Prepared { echoed: Echoed::Good(made), ..Prepared::nothing() },
        Judgement::Stale(made, late) => Prepared { echoed: Echoed::Stale(made), stale: Some((port, made.peer_tag, late)), ..Prepared::nothing() },
    }
}
