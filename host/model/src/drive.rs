//! Random calls, valid, damaged and hostile, made of two implementations at once. Every episode follows from its seed alone.

use std::sync::atomic::{AtomicBool, AtomicUsize, Ordering};
use std::sync::Mutex;

use crate::association::{self, knows_peer};
use crate::bend;
use crate::born;
use crate::call::{Bytes, Call, Maker, Reply, GUARD};
use crate::cases::Met;
use crate::coverage::Coverage;
use crate::craft::{self, Crafted};
use crate::random::Random;
use crate::read;
use crate::record::*;
use crate::twin::{Difference, Twin};

/// Calls of one episode.
pub const EPISODE: usize = 2_000;

/// At least so many calls, on all cores of the machine. The first difference ends it.
pub fn drive(left: &dyn Maker, right: &dyn Maker, seed: u64, calls: usize) -> Result<Coverage, Difference> {
    let episodes = (calls + EPISODE - 1) / EPISODE;
    let next = AtomicUsize::new(0);
    let stop = AtomicBool::new(false);
    let result = Mutex::new(Ok(Coverage::default()));
    let work = || loop {
        let i = next.fetch_add(1, Ordering::Relaxed);
        if i >= episodes || stop.load(Ordering::Relaxed) {
            return;
        }
        let done = episode(left, right, seed.wrapping_add(i as u64));
        let mut result = result.lock().expect("no thread panics with it");
        match (&mut *result, done) {
            (Ok(all), Ok(one)) => all.add(&one),
            (Ok(_), Err(difference)) => {
                stop.store(true, Ordering::Relaxed);
                *result = Err(difference);
            }
            (Err(_), _) => {}
        }
    };
    let threads = std::thread::available_parallelism().map_or(1, |n| n.get());
    std::thread::scope(|s| (0..threads).for_each(|_| drop(s.spawn(work))));
    result.into_inner().expect("no thread panics with it")
}

/// How an episode treats its two ends.
#[derive(Clone, Copy, PartialEq)]
enum Mood {
    /// Hosts that keep to their part, over a channel that loses, repeats and reorders.
    Fair,
    /// Damaged and crafted packets, short buffers and bent records among it.
    Rough,
    /// Records that no honest run need reach.
    Hostile,
}

struct Episode<'m> {
    r: Random,
    mood: Mood,
    ends: [Twin<'m>; 2],
    /// Packets under way, with the end that they go to.
    pool: Vec<(usize, Vec<u8>)>,
    seed: u64,
    seen: Coverage,
}

/// One episode, which its seed settles. A difference is met once more with the areas compared at each call, so that the call which made it is named.
pub fn episode(left: &dyn Maker, right: &dyn Maker, seed: u64) -> Result<Coverage, Difference> {
    patiently(left, right, seed, 64).map_err(|found| patiently(left, right, seed, 1).err().unwrap_or(found))
}

fn patiently(left: &dyn Maker, right: &dyn Maker, seed: u64, patience: usize) -> Result<Coverage, Difference> {
    let mut r = Random::new(seed);
    let mood = r.pick(&[Mood::Fair, Mood::Rough, Mood::Hostile]);
    let end = |port| {
        let mut twin = Twin::new(left, right, association::closed(port, BOOK_9260));
        twin.patience = patience;
        twin
    };
    let mut e = Episode { r, mood, ends: [end(1), end(2)], pool: Vec::new(), seed, seen: Coverage::default() };
    for who in 0..2 {
        let mode = e.r.pick(&[BOOK_9260, BOOK_4960]);
        e.make(who, &Call::Closed { port: who as u16 + 1, mode })?;
    }
    while e.seen.calls < EPISODE {
        e.step()?;
    }
    for who in 0..2 {
        e.ends[who].finish().map_err(|what| e.difference("the end of the episode".into(), what))?;
    }
    Ok(e.seen)
}

impl<'m> Episode<'m> {
    fn difference(&self, call: String, what: String) -> Difference {
        Difference { seed: self.seed, number: self.seen.calls, call, what }
    }

    fn make(&mut self, who: usize, call: &Call) -> Result<Reply, Difference> {
        let before = *self.ends[who].record();
        match self.ends[who].call(call) {
            Err(what) => Err(self.difference(format!("state {} tries {}: {call:?}", before.state, before.tries), what)),
            Ok(reply) => {
                self.seen.note(&Met { before: &before, call, reply: &reply, after: self.ends[who].record() });
                if matches!(call, Call::Associate { .. }) && reply.length() > 0 && !self.r.one_in(4) {
                    self.pool.clear();
                }
                if reply.length() > 0 {
                    let packet = self.ends[who].out(reply.length()).to_vec();
                    self.pool.push((1 - who, packet));
                    if self.pool.len() > 40 {
                        self.pool.remove(0);
                    }
                }
                Ok(reply)
            }
        }
    }

    fn step(&mut self) -> Result<(), Difference> {
        let who = self.r.below(2);
        if self.mood == Mood::Hostile && self.r.one_in(25) {
            let a = born::record(&mut self.r);
            self.ends[who].lend(&a);
        }
        let crafted = match self.mood {
            Mood::Fair => 0,
            Mood::Rough => 15,
            Mood::Hostile => 50,
        };
        let roll = self.r.below(100);
        if roll < crafted {
            self.craft(who)
        } else if self.mood != Mood::Fair && roll >= 95 {
            self.bent(who)
        } else if self.is_to_deliver() {
            self.deliver()
        } else {
            let call = self.any_call(who);
            let reply = self.make(who, &call)?;
            self.take_again(who, &reply)
        }
    }

    /// A take that was answered 18 is made again with the length needed, or one byte less.
    fn take_again(&mut self, who: usize, reply: &Reply) -> Result<(), Difference> {
        match reply {
            Reply::Delivered(d) if d.number == 18 && d.message.length > 0 => {
                let out = d.message.length - self.r.below(2);
                self.make(who, &Call::Take { area: AREA, out }).map(drop)
            }
            _ => Ok(()),
        }
    }

    /// While an association opens, packets go before timers; else half and half.
    fn is_to_deliver(&mut self) -> bool {
        let opening = (0..2).any(|who| matches!(self.ends[who].record().state, COOKIE_WAIT | COOKIE_ECHOED));
        self.mood != Mood::Hostile && !self.pool.is_empty() && (opening && !self.r.one_in(20) || self.r.one_in(2))
    }

    // ---- Packets

    fn craft(&mut self, who: usize) -> Result<(), Difference> {
        let mut c = craft::packet(&mut self.r, self.ends[who].record());
        if self.r.one_in(12) {
            bend::packet(&mut self.r, &mut c.packet);
        }
        self.arrive(who, c)
    }

    fn arrive(&mut self, who: usize, c: Crafted) -> Result<(), Difference> {
        if self.r.one_in(8) {
            self.make(who, &Call::Peek { packet: Bytes(c.packet.clone()) })?;
        }
        let (area, out) = (self.area(), self.out());
        let call = Call::Arrive { packet: Bytes(c.packet), lent: c.lent, cookie: Bytes(c.cookie), echoed: c.echoed, area, out };
        let reply = self.make(who, &call)?;
        if reply.number() == 4 {
            // Packets of an association that is no more: one is enough.
            self.pool.retain(|p| p.0 != who);
        }
        // A peer with another tag may have other TSNs too: the host may abort.
        if matches!(reply, Reply::Arrived(r) if r.verdicts[0].event == RETAGGED) && self.mood != Mood::Hostile && self.r.one_in(2) {
            let call = self.call(who, 13);
            self.make(who, &call)?;
        }
        Ok(())
    }

    /// A packet of the other end comes: not always, not always once, not always in order, not always whole.
    fn deliver(&mut self) -> Result<(), Difference> {
        let i = self.r.below(self.pool.len().min(4));
        let (who, mut packet) = if self.r.one_in(10) { self.pool[i].clone() } else { self.pool.remove(i) };
        if self.r.one_in(14) {
            return Ok(());
        }
        if self.mood != Mood::Fair && self.r.one_in(10) {
            bend::packet(&mut self.r, &mut packet);
        }
        let c = self.host(who, packet)?;
        self.arrive(who, c)
    }

    /// What a host lends with a packet: a cookie for an INIT, its word on the cookie of an echo.
    fn host(&mut self, who: usize, packet: Vec<u8>) -> Result<Crafted, Difference> {
        let a = *self.ends[who].record();
        let mut c = Crafted { lent: craft::lent(&mut self.r), echoed: craft::echoed(&mut self.r, &a), cookie: Vec::new(), packet };
        let call = Call::Peek { packet: Bytes(c.packet.clone()) };
        let seen = match self.make(who, &call)? {
            Reply::Peeked(seen) => seen,
            _ => return Ok(c),
        };
        if seen.kind == SAW_INIT {
            // What the INIT ACK will say, by sections 5.2.1 and 5.2.2.
            let (tag, tsn) = match a.state {
                COOKIE_WAIT | COOKIE_ECHOED => (a.ends.my_tag, a.sending.next_tsn),
                _ => (c.lent.tag, c.lent.tsn),
            };
            let outs = if a.state == CLOSED { c.lent.streams } else { a.ends.streams_out };
            let ties = if knows_peer(&a) { (a.ends.my_tag, a.ends.peer_tag) } else { (0, 0) };
            let streams = u32::from(seen.outs.min(128)) << 16 | u32::from(seen.ins.min(outs).min(128));
            for n in [tag, tsn, seen.tag, seen.tsn, seen.window, streams, ties.0, ties.1] {
                c.cookie.extend_from_slice(&n.to_be_bytes());
            }
        } else if seen.kind == SAW_COOKIE_ECHO && seen.len == 32 {
            let at = |i: usize| read::be32(&c.packet, seen.at + 4 * i);
            c.echoed.made = Made {
                my_tag: at(0),
                my_tsn: at(1),
                peer_tag: at(2),
                peer_tsn: at(3),
                window: at(4),
                streams_in: (at(5) >> 16) as u16,
                streams_out: at(5) as u16,
                my_tie: at(6),
                peer_tie: at(7),
                options: 0,
            };
            if !self.r.one_in(30) {
                c.echoed.word = GOOD;
            }
        }
        Ok(c)
    }

    // ---- Records outside their bounds

    /// A call on a record that was bent; "1 record outside its bounds" leaves all.
    fn bent(&mut self, who: usize) -> Result<(), Difference> {
        let kept = *self.ends[who].record();
        let mut a = kept;
        for _ in 0..self.r.within(1, 2) {
            bend::record(&mut self.r, &mut a);
        }
        self.ends[who].lend(&a);
        if self.r.one_in(3) {
            self.craft(who)?;
        } else {
            let call = self.any_call(who);
            self.make(who, &call)?;
        }
        // A record that is still within its bounds may live on.
        if !association::is_sound(self.ends[who].record()) || self.r.one_in(2) {
            self.ends[who].lend(&kept);
        }
        Ok(())
    }

    // ---- Other calls

    fn out(&mut self) -> usize {
        if self.mood != Mood::Fair && self.r.one_in(50) {
            return self.r.pick(&[0, 1, 548, 1_471]);
        }
        self.r.pick(&[OUTPUT, OUTPUT, OUTPUT, 1_473, 2_000])
    }

    fn area(&mut self) -> usize {
        if self.mood != Mood::Fair && self.r.one_in(60) {
            return self.r.pick(&[0, AREA - 1]);
        }
        self.r.pick(&[AREA, AREA, AREA, AREA + GUARD])
    }

    /// Mostly one that the state lets through. End 1 waits for end 0 to ask, as a rule.
    fn any_call(&mut self, who: usize) -> Call {
        let fair: &[(usize, usize)] = match self.ends[who].record().state {
            CLOSED if who == 0 => &[(3, 90), (6, 10), (15, 3), (0, 1)],
            CLOSED => &[(3, 1), (6, 20), (15, 5), (0, 1)],
            COOKIE_WAIT | COOKIE_ECHOED => &[(8, 30), (11, 10), (13, 1), (6, 5)],
            ESTABLISHED => &[(4, 240), (5, 320), (6, 160), (7, 160), (10, 10), (11, 20), (16, 10), (14, 8), (12, 2), (13, 1)],
            SHUTDOWN_PENDING => &[(5, 120), (6, 40), (7, 40), (10, 5), (11, 5), (16, 5), (14, 4), (13, 1)],
            SHUTDOWN_SENT => &[(6, 20), (7, 20), (9, 3), (11, 3), (14, 3), (13, 1)],
            SHUTDOWN_RECEIVED => &[(5, 120), (6, 20), (10, 3), (11, 3), (16, 3), (13, 1)],
            _ => &[(6, 20), (9, 4), (11, 3), (13, 1)],
        };
        let odd = if self.mood == Mood::Fair { 60 } else { 12 };
        let kind = if self.r.one_in(odd) {
            self.r.within(3, 16)
        } else {
            let mut at = self.r.below(fair.iter().map(|w| w.1).sum());
            let mut found = fair[0].0;
            for &(kind, weight) in fair {
                found = kind;
                if at < weight {
                    break;
                }
                at -= weight;
            }
            found
        };
        self.call(who, kind)
    }

    fn call(&mut self, who: usize, kind: usize) -> Call {
        let out = self.out();
        let area = self.area();
        let streams = self.ends[who].record().ends.streams_out;
        let r = &mut self.r;
        match kind {
            0 => Call::Closed {
                port: if self.mood == Mood::Hostile && r.one_in(3) { 0 } else { who as u16 + 1 },
                mode: if self.mood == Mood::Hostile && r.one_in(6) { r.pick(&[2, 255]) } else { r.pick(&[BOOK_9260, BOOK_4960]) },
            },
            3 => Call::Associate {
                tag: if r.one_in(30) { 0 } else { r.word() | 1 },
                tsn: born::tsn(r),
                port: if r.one_in(30) { 0 } else { 2 - who as u16 },
                streams: r.pick(&[0, 1, 3, 128, 129, 128, 128]),
                out,
            },
            4 => self.hand_in(streams, area),
            5 => Call::Transmit { area, out },
            6 => {
                let size = r.pick(&[1, 100, 1_000, 3_000, 3_000, 3_000, 3_000, 3_000, 3_000, MESSAGE_MOST]);
                Call::Take { area, out: if size < 3_000 { r.below(size) } else { size } }
            }
            7 => Call::Sack { out },
            8 => Call::T1 { out },
            9 => Call::T2 { out },
            10 => Call::T3,
            11 => Call::Rtt { sample: r.pick(&[0, 1, 50, 999, 3_000, 60_000, 60_001, u32::MAX]) },
            12 => Call::Shutdown { out },
            13 => Call::Abort { cause: r.pick(&[0, 9, 12, 13, 255]), tsn: r.word(), out },
            14 => Call::ErrorStream { stream: r.word() as u16, out },
            15 => Call::ErrorStale { port: r.below(4) as u16, tag: if r.one_in(6) { 0 } else { r.word() }, late: r.word(), out },
            _ => Call::Heartbeat { value: r.long().to_be_bytes(), out },
        }
    }

    fn hand_in(&mut self, streams: u16, area: usize) -> Call {
        let r = &mut self.r;
        let size = match r.below(60) {
            0 => 0,
            1 => MESSAGE_MOST + 1,
            2 => MESSAGE_MOST,
            3 => r.within(1, MESSAGE_MOST),
            4..=12 => r.within(1, 4_000),
            _ => born::payload_length(r),
        };
        let mut message = vec![0; size];
        r.fill(&mut message);
        let agreed = usize::from(streams).max(1);
        let stream = if r.one_in(30) { r.pick(&[streams, 128, 65_535]) } else { r.below(agreed.min(6)) as u16 };
        Call::HandIn { message: Bytes(message), stream, unordered: r.pick(&[0, 0, 0, 0, 0, 0, 1, 2, 255]), ppid: r.word(), area }
    }
}
