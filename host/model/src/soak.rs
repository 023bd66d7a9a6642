//! Two honest hosts over a bad channel: each message is compared when it is taken. Time is a number, so a soak takes as long as its calls.

use std::collections::VecDeque;

use crate::association;
use crate::channel::{Channel, Faults};
use crate::core::Core;
use crate::random::Random;
use crate::read;
use crate::record::*;

const SACK_DELAY: u64 = 200;

/// A message, from which its bytes follow.
#[derive(Clone, Copy, Debug, PartialEq, Eq)]
pub struct Due {
    /// Its number.
    pub id: u32,
    /// Its stream.
    pub stream: u16,
    /// Whether it is out of its stream's order.
    pub unordered: bool,
    /// Its bytes.
    pub length: usize,
}

impl Due {
    /// What it is.
    pub fn bytes(self) -> Vec<u8> {
        let mut b = vec![0; self.length];
        Random::new(u64::from(self.id) << 8 | 0x51).fill(&mut b);
        b
    }
}

/// An end of an association with its timers, as a host has them.
struct End {
    a: Association,
    receive_area: Vec<u8>,
    send_area: Vec<u8>,
    out: Vec<u8>,
    timer: Option<u64>,
    sack_at: Option<u64>,
    unacknowledged: usize,
    /// A TSN whose round trip is measured, and when it went.
    measured: Option<(u32, u64)>,
    to_send: VecDeque<Due>,
    ordered: Vec<VecDeque<Due>>,
    unordered: Vec<Due>,
    taken: usize,
    shut: bool,
}

/// What came of a soak.
#[derive(Clone, Debug, Default)]
pub struct Report {
    /// Messages taken at each end.
    pub taken: [usize; 2],
    /// Packets with a chunk that was sent before.
    pub resent: usize,
    /// Packets that the channel lost.
    pub lost: usize,
    /// How often each number was answered.
    pub refused: Vec<usize>,
    /// Calls in all.
    pub calls: usize,
    /// How long it took, in its own time.
    pub milliseconds: u64,
    /// The last TSN that came in order at each end.
    pub points: [u32; 2],
    /// The state of each end.
    pub states: [u8; 2],
}

/// Both hosts and the channel.
pub struct Soak<'c> {
    core: &'c dyn Core,
    random: Random,
    faults: Faults,
    channel: Channel,
    ends: [End; 2],
    now: u64,
    /// What came of it so far.
    pub report: Report,
}

fn end(core: &dyn Core, port: u16) -> End {
    End {
        a: core.closed(port, BOOK_9260),
        receive_area: vec![0; AREA],
        send_area: vec![0; AREA],
        out: vec![0; MESSAGE_MOST],
        timer: None,
        sack_at: None,
        unacknowledged: 0,
        measured: None,
        to_send: VecDeque::new(),
        ordered: vec![VecDeque::new(); STREAMS],
        unordered: Vec::new(),
        taken: 0,
        shut: false,
    }
}

impl<'c> Soak<'c> {
    /// End 0 asks for the association; the first TSNs are given.
    pub fn new(core: &'c dyn Core, seed: u64, faults: Faults, tsns: [u32; 2]) -> Soak<'c> {
        let mut soak = Soak {
            core,
            random: Random::new(seed),
            faults,
            channel: Channel::default(),
            ends: [end(core, 1000), end(core, 2000)],
            now: 0,
            report: Report { refused: vec![0; 32], ..Report::default() },
        };
        soak.open(tsns);
        soak
    }

    /// The handshake goes over a good channel: 01 repairs no lost COOKIE ACK.
    fn open(&mut self, tsns: [u32; 2]) {
        let faults = std::mem::replace(&mut self.faults, Faults::NONE);
        let e = &mut self.ends[0];
        let r = self.core.associate(&mut e.a, 0xA11CE, tsns[0], 2000, 128, &mut e.out);
        assert_eq!(r.number, 0);
        self.send(0, r.length);
        while let Some(c) = self.channel.take() {
            self.now = c.at;
            self.arrive(c.to, &c.packet, tsns[1]);
        }
        assert_eq!([self.ends[0].a.state, self.ends[1].a.state], [ESTABLISHED; 2]);
        self.faults = faults;
    }

    /// This end hands in a message when it can.
    pub fn hand_in_later(&mut self, from: usize, m: Due) {
        let other = &mut self.ends[1 - from];
        if m.unordered {
            other.unordered.push(m);
        } else {
            other.ordered[usize::from(m.stream)].push_back(m);
        }
        self.ends[from].to_send.push_back(m);
    }

    /// From now on an end shuts down as soon as its messages are handed in.
    pub fn shut_down_after(&mut self, from: usize) {
        self.ends[from].shut = true;
    }

    fn called(&mut self, who: usize, number: u8) {
        self.report.calls += 1;
        self.report.refused[usize::from(number)] += 1;
        assert!(association::is_sound(&self.ends[who].a), "call {} left a record outside its bounds", self.report.calls);
    }

    fn send(&mut self, from: usize, length: usize) {
        if length > 0 {
            let packet = &self.ends[from].out[..length];
            assert!(read::check_whole(packet) == 0 && read::check_shape(packet) == 0, "a packet that no core would read");
            self.channel.send(&mut self.random, self.faults, self.now, 1 - from, packet);
        }
    }

    fn arrive(&mut self, who: usize, packet: &[u8], tsn: u32) {
        let seen = self.core.peek(packet);
        let mut lent = Lent::default();
        let mut cookie = Vec::new();
        let mut echoed = Echoed::default();
        if seen.kind == SAW_INIT {
            lent = Lent { tag: 0xB0B, tsn, streams: 128, options: 0 };
            for n in [seen.tag, seen.tsn, seen.window, u32::from(seen.outs), u32::from(seen.ins), tsn] {
                cookie.extend_from_slice(&n.to_be_bytes());
            }
        } else if seen.kind == SAW_COOKIE_ECHO {
            let at = |i: usize| read::be32(packet, seen.at + 4 * i);
            let made = Made {
                my_tag: 0xB0B,
                peer_tag: at(0),
                peer_tsn: at(1),
                window: at(2),
                streams_in: at(3).min(128) as u16,
                streams_out: at(4).min(128) as u16,
                my_tsn: at(5),
                ..Made::default()
            };
            echoed = Echoed { word: GOOD, made };
        }
        let e = &mut self.ends[who];
        let r = self.core.arrive(&mut e.a, &mut e.receive_area, packet, lent, &cookie, echoed, &mut e.out);
        self.called(who, r.number);
        self.send(who, r.length);
        let verdicts = &r.verdicts[..r.count];
        let kind = |v: &Verdict| packet[v.at];
        for v in verdicts {
            self.report.refused[usize::from(v.number)] += 1;
        }
        if verdicts.iter().any(|v| kind(v) == read::DATA) {
            let quick = verdicts.iter().any(|v| v.number != 0) || self.ends[who].a.receiving.keeping.come.contains(&YES);
            self.note_data(who, quick);
        }
        if verdicts.iter().any(|v| kind(v) == read::SACK && v.number == 0) {
            self.measure(who);
            self.ends[who].timer = None;
        }
        self.take(who);
        self.pump(who);
    }

    /// Every second packet with DATA is acknowledged at once, the first 200 ms later.
    fn note_data(&mut self, who: usize, quick: bool) {
        let e = &mut self.ends[who];
        e.unacknowledged += 1;
        if quick || e.unacknowledged >= 2 {
            self.sack(who);
        } else {
            e.sack_at = Some(self.now + SACK_DELAY);
        }
    }

    fn sack(&mut self, who: usize) {
        let e = &mut self.ends[who];
        e.unacknowledged = 0;
        e.sack_at = None;
        let r = self.core.sack(&mut e.a, &mut e.out);
        self.called(who, r.number);
        self.send(who, r.length);
    }

    fn measure(&mut self, who: usize) {
        let e = &mut self.ends[who];
        if let Some((tsn, at)) = e.measured {
            if e.a.sending.acked.wrapping_sub(tsn) < 1 << 31 {
                e.measured = None;
                let r = self.core.rtt(&mut e.a, (self.now - at) as u32);
                self.called(who, r.number);
            }
        }
    }

    fn take(&mut self, who: usize) {
        loop {
            let e = &mut self.ends[who];
            let r = self.core.take(&mut e.a, &e.receive_area, &mut e.out);
            self.called(who, r.number);
            if r.number != 0 {
                assert_eq!(r.number, 17);
                return;
            }
            let e = &mut self.ends[who];
            let m = r.message;
            let due = if m.unordered {
                let i = e.unordered.iter().position(|d| d.id == m.ppid).expect("a message that nobody sent, or one twice");
                e.unordered.swap_remove(i)
            } else {
                e.ordered[usize::from(m.stream)].pop_front().expect("a message that nobody sent")
            };
            assert_eq!((m.ppid, m.stream, m.unordered), (due.id, due.stream, due.unordered), "out of order");
            assert_eq!(e.out[..m.length], due.bytes()[..]);
            e.taken += 1;
        }
    }

    /// Hands in what there is room for, and sends what may go.
    fn pump(&mut self, who: usize) {
        while let (ESTABLISHED, Some(&m)) = (self.ends[who].a.state, self.ends[who].to_send.front()) {
            let e = &mut self.ends[who];
            let r = self.core.hand_in(&mut e.a, &mut e.send_area, &m.bytes(), m.stream, u8::from(m.unordered), m.id);
            self.called(who, r.number);
            if r.number != 0 {
                assert_eq!(r.number, 20);
                break;
            }
            self.ends[who].to_send.pop_front();
        }
        let e = &mut self.ends[who];
        if e.shut && e.to_send.is_empty() && e.a.state == ESTABLISHED {
            let r = self.core.shutdown(&mut e.a, &mut e.out);
            self.called(who, r.number);
            self.send(who, r.length);
        }
        while matches!(self.ends[who].a.state, ESTABLISHED | SHUTDOWN_PENDING | SHUTDOWN_RECEIVED) {
            let e = &mut self.ends[who];
            let r = self.core.transmit(&mut e.a, &e.send_area, &mut e.out);
            self.called(who, r.number);
            if r.length == 0 {
                break;
            }
            assert!(r.length <= SENT_MOST);
            self.report.resent += usize::from(r.resent);
            let e = &mut self.ends[who];
            e.measured = if r.resent { None } else { e.measured.or(Some((r.last, self.now))) };
            self.send(who, r.length);
        }
        self.start_timer(who);
    }

    /// T1, T2 or T3: at most one of them runs.
    fn start_timer(&mut self, who: usize) {
        let e = &mut self.ends[who];
        let outstanding = e.a.sending.places.iter().any(|p| p.status == FLYING || p.status == MARKED);
        let runs = match e.a.state {
            COOKIE_WAIT | COOKIE_ECHOED | SHUTDOWN_SENT | SHUTDOWN_ACK_SENT => true,
            ESTABLISHED | SHUTDOWN_PENDING | SHUTDOWN_RECEIVED => outstanding,
            _ => false,
        };
        let deadline = self.now + u64::from(e.a.sending.path.clock.rto);
        e.timer = if runs { e.timer.or(Some(deadline)) } else { None };
    }

    fn expire(&mut self, who: usize) {
        let e = &mut self.ends[who];
        e.timer = None;
        e.measured = None;
        let r = match e.a.state {
            COOKIE_WAIT | COOKIE_ECHOED => self.core.t1(&mut e.a, &mut e.out),
            SHUTDOWN_SENT | SHUTDOWN_ACK_SENT => self.core.t2(&mut e.a, &mut e.out),
            _ => self.core.t3(&mut e.a),
        };
        self.called(who, r.number);
        assert_eq!(r.number, 0);
        self.send(who, r.length);
        self.pump(who);
    }

    /// One step: what comes first of a packet, a timer and a SACK that is due. False if nothing is left to come.
    fn step(&mut self) -> bool {
        let mut first = self.channel.next_at().map(|at| (at, 4));
        for who in 0..2 {
            let e = &self.ends[who];
            for (at, what) in [(e.timer, who), (e.sack_at, 2 + who)] {
                first = at.map(|at| (at, what)).into_iter().chain(first).min();
            }
        }
        let (at, what) = match first {
            None => return false,
            Some(first) => first,
        };
        self.now = at;
        match what {
            4 => {
                let c = self.channel.take().expect("something comes");
                self.arrive(c.to, &c.packet, 0);
            }
            2 | 3 => {
                self.ends[what - 2].sack_at = None;
                if matches!(self.ends[what - 2].a.state, ESTABLISHED | SHUTDOWN_PENDING | SHUTDOWN_SENT) {
                    self.sack(what - 2);
                }
            }
            _ => self.expire(what),
        }
        true
    }

    /// Runs until nothing is left to come, and says what became of it.
    pub fn run(mut self) -> Report {
        self.pump(0);
        self.pump(1);
        while self.step() {}
        for who in 0..2 {
            self.report.taken[who] = self.ends[who].taken;
            self.report.points[who] = self.ends[who].a.receiving.keeping.point;
            self.report.states[who] = self.ends[who].a.state;
        }
        self.report.lost = self.channel.lost;
        self.report.milliseconds = self.now;
        self.report
    }
}
