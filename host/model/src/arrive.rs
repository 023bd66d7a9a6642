//! A packet arrives: checks of the whole, then chunk by chunk a verdict; one reply.

use crate::association::{self, move_to};
use crate::calls::kept_cookie;
use crate::letting::{check, heeded};
use crate::meeting::{self, Action};
use crate::read::{self, padded, Seen};
use crate::receiving;
use crate::record::*;
use crate::sending;
use crate::write;

/// What a packet's replies come to: chunks in order, each of which fits or is left out, and what goes behind or in place of them all.
struct Reply {
    body: Vec<u8>,
    port: u16,
    tag: u32,
    shutdown: bool,
    complete: Option<bool>,
}

struct Arriving<'a> {
    a: &'a mut Association,
    area: &'a mut [u8],
    head: read::Header,
    lent: Lent,
    cookie: &'a [u8],
    echoed: Echoed,
    reply: Reply,
    /// The rest of the packet is unread.
    ended: bool,
}

impl Reply {
    fn add(&mut self, chunk: &[u8]) {
        if 12 + self.body.len() + padded(chunk.len()) <= OUTPUT {
            self.body.extend_from_slice(chunk);
            write::pad(&mut self.body);
        }
    }
}

fn accepted() -> Verdict {
    Verdict::default()
}

fn event(event: u8) -> Verdict {
    Verdict { event, ..accepted() }
}

fn refused(number: u8) -> Verdict {
    Verdict { fate: REFUSED, number, ..Verdict::default() }
}

fn named(number: u8, cause: u8, value: u32) -> Verdict {
    Verdict { cause, value, ..refused(number) }
}

pub fn arrive(a: &mut Association, area: &mut [u8], packet: &[u8], lent: Lent, cookie: &[u8], echoed: Echoed, out: &mut [u8]) -> Arrived {
    let echoed = heeded(a, echoed);
    let number = check(a, area, packet, &echoed, out);
    let mut answer = Arrived { number, count: 0, verdicts: [NO_VERDICT; VERDICTS], length: 0 };
    if number != 0 {
        return answer;
    }
    let head = read::header(packet);
    let reply = Reply { body: Vec::new(), port: head.source, tag: 0, shutdown: false, complete: None };
    let mut now = Arriving { a, area, head, lent, cookie, echoed, reply, ended: false };
    for c in read::walk(packet) {
        let v = if now.ended { NO_VERDICT } else { now.chunk(c) };
        answer.verdicts[answer.count] = Verdict { at: c.at, ..v };
        answer.count += 1;
    }
    // "MUST NOT respond to any received packet that contains an ABORT" (section 9.1).
    if read::walk(packet).all(|c| c.kind() != read::ABORT) {
        answer.length = now.finish(out);
    }
    answer
}

impl<'a> Arriving<'a> {
    fn chunk(&mut self, c: Seen<'_>) -> Verdict {
        match c.kind() {
            read::DATA => self.data(c),
            read::INIT => self.init(c),
            read::INIT_ACK => self.init_ack(c),
            read::SACK => self.sack(c),
            read::HEARTBEAT => self.heartbeat(c),
            read::HEARTBEAT_ACK => self.heartbeat_ack(),
            read::ABORT => self.abort(),
            read::SHUTDOWN => self.shutdown(c),
            read::SHUTDOWN_ACK => self.shutdown_ack(),
            read::ERROR => self.error(c),
            read::COOKIE_ECHO => self.cookie_echo(c),
            read::COOKIE_ACK => self.cookie_ack(),
            read::SHUTDOWN_COMPLETE => self.shutdown_complete(),
            _ => self.unknown(c),
        }
    }

    // ---- Opening (sections 5.1 and 5.2)

    /// "INIT is no longer answered 7 in any state" (T-08). No INIT changes the record.
    fn init(&mut self, c: Seen<'_>) -> Verdict {
        let i = read::init(c);
        let own = self.own_init();
        let odd_cookie = self.cookie.is_empty() || self.cookie.len() > COOKIE_MOST;
        let is_closing = self.a.state == SHUTDOWN_ACK_SENT;
        let options = if self.a.state == CLOSED { self.lent.options } else { self.a.ends.options };
        let is_lent = own.tag != 0 && own.outs != 0 && options == 0 && !odd_cookie;
        if is_poor(&i) || !is_closing && !is_lent {
            return refused(8);
        }
        // "it discards the INIT chunk and retransmits the SHUTDOWN ACK chunk" (section 9.2), to the peer that the association is with.
        if is_closing {
            self.reply.add(&write::chunk(read::SHUTDOWN_ACK, 0, &[]));
            return accepted();
        }
        self.reply.tag = i.tag;
        if let Some(name) = read::host_name(c) {
            self.reply.add(&write::caused(read::ABORT, 5, name));
            return accepted();
        }
        let ours = read::Init { outs: own.outs.min(STREAMS as u16).min(i.ins), ..own };
        self.reply.add(&write::init_ack(ours, self.cookie, &read::reported_parameters(c)));
        accepted()
    }

    /// What an INIT ACK says of us. "the same parameters it sent in its original INIT chunk (including its Initiate Tag, unchanged)" where we sent one
    /// (section 5.2.1); "a new Initiate Tag (randomly generated)", and "Other parameters … copied from the existing parameters of the association
    /// (e.g., number of outbound streams)" where we are up (5.2.2).
    fn own_init(&self) -> read::Init {
        let lent = read::Init { tag: self.lent.tag, window: AREA as u32, outs: self.lent.streams, ins: STREAMS as u16, tsn: self.lent.tsn };
        let outs = self.a.ends.streams_out;
        match self.a.state {
            CLOSED => lent,
            COOKIE_WAIT | COOKIE_ECHOED => read::Init { tag: self.a.ends.my_tag, tsn: self.a.sending.next_tsn, outs, ..lent },
            _ => read::Init { outs, ..lent },
        }
    }

    fn init_ack(&mut self, c: Seen<'_>) -> Verdict {
        let i = read::init(c);
        if self.a.state != COOKIE_WAIT {
            return refused(7);
        }
        let cookie = read::cookie(c).map_or(&[][..], |p| &p[4..]);
        if is_poor(&i) || cookie.is_empty() || cookie.len() > COOKIE_MOST {
            return refused(8);
        }
        self.reply.tag = i.tag;
        if let Some(name) = read::host_name(c) {
            self.reply.add(&write::caused(read::ABORT, 5, name));
            move_to(self.a, CLOSED);
            return event(DOWN_HOST_NAME);
        }
        self.a.ends.peer_tag = i.tag;
        self.a.ends.streams_out = self.a.ends.streams_out.min(i.ins);
        self.a.ends.streams_in = i.outs.min(STREAMS as u16);
        self.a.cookie = kept_cookie(cookie);
        self.a.receiving = receiving::fresh(i.tsn);
        self.a.sending.advertised = i.window;
        move_to(self.a, COOKIE_ECHOED);
        self.reply.add(&write::chunk(read::COOKIE_ECHO, 0, cookie));
        let reports = read::reported_parameters(c);
        if !reports.is_empty() {
            self.reply.add(&write::error_parameters(&reports));
        }
        accepted()
    }

    /// Only as the first chunk of its packet; one that is not acted on leaves the rest unread (section 5.1.5, 5.2.4).
    fn cookie_echo(&mut self, c: Seen<'_>) -> Verdict {
        if c.at != 12 {
            return refused(7);
        }
        let len = c.value().len();
        self.ended = len == 0 || len > COOKIE_MOST || self.echoed.word != GOOD;
        if len == 0 || len > COOKIE_MOST {
            return refused(8);
        }
        match self.echoed.word {
            GOOD => {}
            LATE => return named(27, CAUSE_STALE, 0),
            _ => return refused(27),
        }
        if self.a.state == CLOSED {
            return self.start(UP);
        }
        let action = meeting::action(self.a, &self.echoed.made);
        let opens = matches!(self.a.state, COOKIE_WAIT | COOKIE_ECHOED);
        self.ended = match action {
            Some(Action::A) => self.a.state == SHUTDOWN_ACK_SENT,
            Some(Action::B | Action::D) => false,
            Some(Action::C) | None => true,
        };
        match action {
            // "it MUST NOT set up a new association but instead resend the SHUTDOWN ACK and send an ERROR chunk with a 'Cookie Received While
            // Shutting Down' error cause".
            Some(Action::A) if self.a.state == SHUTDOWN_ACK_SENT => {
                self.reply.add(&write::chunk(read::SHUTDOWN_ACK, 0, &[]));
                self.reply.add(&write::caused(read::ERROR, 10, &[]));
                accepted()
            }
            Some(Action::A) => self.start(RESTARTED),
            // "stay in or enter the ESTABLISHED state": what has left it already is not led back.
            Some(Action::B | Action::D) if opens => self.start(UP),
            Some(Action::B) => {
                self.a.ends.peer_tag = self.echoed.made.peer_tag;
                self.reply.add(&write::chunk(read::COOKIE_ACK, 0, &[]));
                event(RETAGGED)
            }
            Some(Action::D) => {
                self.reply.add(&write::chunk(read::COOKIE_ACK, 0, &[]));
                accepted()
            }
            Some(Action::C) => accepted(),
            None => refused(7),
        }
    }

    /// "a good echo starts from a fresh record only where it restarts (A) or enters ESTABLISHED".
    fn start(&mut self, why: u8) -> Verdict {
        let m = self.echoed.made;
        let ends = Ends {
            local_port: self.a.ends.local_port,
            peer_port: self.head.source,
            my_tag: m.my_tag,
            peer_tag: m.peer_tag,
            streams_in: m.streams_in,
            streams_out: m.streams_out,
            options: m.options,
        };
        *self.a = association::fresh(ESTABLISHED, ends, m.my_tsn, m.window, m.peer_tsn, self.a.sending.mode);
        self.reply.add(&write::chunk(read::COOKIE_ACK, 0, &[]));
        event(why)
    }

    fn cookie_ack(&mut self) -> Verdict {
        if self.a.state != COOKIE_ECHOED {
            return refused(7);
        }
        move_to(self.a, ESTABLISHED);
        event(UP)
    }

    // ---- DATA, SACK, HEARTBEAT

    fn data(&mut self, c: Seen<'_>) -> Verdict {
        if !matches!(self.a.state, ESTABLISHED | SHUTDOWN_PENDING | SHUTDOWN_SENT) {
            return refused(7);
        }
        let d = read::data(c);
        match receiving::arrive(&mut self.a.receiving, self.area, self.a.ends.streams_in, &d) {
            0 => {}
            9 => return named(9, CAUSE_NO_DATA, d.tsn),
            number @ (12 | 21) => return named(number, CAUSE_VIOLATION, 0),
            14 => return named(14, CAUSE_STREAM, u32::from(d.stream)),
            number => return refused(number),
        }
        if self.a.state == SHUTDOWN_SENT {
            self.a.tries = 0;
            self.reply.shutdown = true;
        }
        accepted()
    }

    fn sack(&mut self, c: Seen<'_>) -> Verdict {
        if !matches!(self.a.state, ESTABLISHED | SHUTDOWN_PENDING | SHUTDOWN_RECEIVED) {
            return refused(7);
        }
        let s = read::sack(c);
        match sending::acknowledge(&mut self.a.sending, s.point, Some((s.window, &s.blocks))) {
            0 => {}
            16 => return named(16, CAUSE_VIOLATION, 0),
            number => return refused(number),
        }
        if sending::is_empty(&self.a.sending) {
            match self.a.state {
                SHUTDOWN_PENDING => {
                    move_to(self.a, SHUTDOWN_SENT);
                    self.reply.shutdown = true;
                }
                SHUTDOWN_RECEIVED => self.acknowledge_shutdown(),
                _ => {}
            }
        }
        accepted()
    }

    fn heartbeat(&mut self, c: Seen<'_>) -> Verdict {
        if !matches!(self.a.state, COOKIE_ECHOED | ESTABLISHED | SHUTDOWN_PENDING | SHUTDOWN_RECEIVED) {
            return refused(7);
        }
        self.reply.add(&write::chunk(read::HEARTBEAT_ACK, 0, c.value()));
        accepted()
    }

    fn heartbeat_ack(&mut self) -> Verdict {
        if !matches!(self.a.state, ESTABLISHED | SHUTDOWN_PENDING | SHUTDOWN_RECEIVED) {
            return refused(7);
        }
        self.a.sending.path.tries = 0;
        accepted()
    }

    // ---- Closing (section 9)

    fn abort(&mut self) -> Verdict {
        if self.a.state == CLOSED {
            return refused(7);
        }
        move_to(self.a, CLOSED);
        self.ended = true;
        event(DOWN_ABORT)
    }

    fn error(&mut self, c: Seen<'_>) -> Verdict {
        match self.a.state {
            CLOSED => refused(7),
            COOKIE_ECHOED if read::is_stale(c) => {
                move_to(self.a, CLOSED);
                event(DOWN_STALE)
            }
            _ => accepted(),
        }
    }

    fn acknowledge_shutdown(&mut self) {
        move_to(self.a, SHUTDOWN_ACK_SENT);
        self.reply.add(&write::chunk(read::SHUTDOWN_ACK, 0, &[]));
    }

    /// "SHUTDOWN's point works alike, window and block marks kept; if stale, only the state moves."
    fn shutdown(&mut self, c: Seen<'_>) -> Verdict {
        let from = self.a.state;
        if matches!(from, CLOSED | COOKIE_WAIT | COOKIE_ECHOED) {
            return refused(7);
        }
        if sending::acknowledge(&mut self.a.sending, read::be32(c.bytes, 4), None) == 16 {
            return named(16, CAUSE_VIOLATION, 0);
        }
        let tries = self.a.tries;
        if from == SHUTDOWN_SENT || from == SHUTDOWN_ACK_SENT || sending::is_empty(&self.a.sending) {
            self.acknowledge_shutdown();
        } else {
            move_to(self.a, SHUTDOWN_RECEIVED);
        }
        if from == SHUTDOWN_ACK_SENT {
            self.a.tries = tries;
        }
        accepted()
    }

    /// SHUTDOWN COMPLETE stands alone: the first that is due displaces every other reply.
    fn shutdown_ack(&mut self) -> Verdict {
        match self.a.state {
            COOKIE_WAIT | COOKIE_ECHOED => {
                self.reply.complete.get_or_insert(true);
                accepted()
            }
            SHUTDOWN_SENT | SHUTDOWN_ACK_SENT => {
                self.reply.complete.get_or_insert(false);
                move_to(self.a, CLOSED);
                event(DOWN_SHUT_DOWN)
            }
            _ => refused(7),
        }
    }

    fn shutdown_complete(&mut self) -> Verdict {
        if self.a.state != SHUTDOWN_ACK_SENT {
            return refused(7);
        }
        move_to(self.a, CLOSED);
        event(DOWN_SHUT_DOWN)
    }

    /// Not reported where the peer's tag is not known, nor behind a chunk that closed the association.
    fn unknown(&mut self, c: Seen<'_>) -> Verdict {
        let high = c.kind() >> 6;
        let report = read::reports(high) && !matches!(self.a.state, CLOSED | COOKIE_WAIT);
        if report {
            self.reply.add(&write::caused(read::ERROR, 6, c.bytes));
        }
        self.ended = read::stops(high);
        let fate = match (self.ended, report) {
            (true, true) => STOPPED_REPORTED,
            (true, false) => STOPPED,
            (false, true) => SKIPPED_REPORTED,
            (false, false) => SKIPPED,
        };
        Verdict { fate, ..Verdict::default() }
    }

    /// Writes the reply, if there is one.
    fn finish(mut self, out: &mut [u8]) -> usize {
        if let Some(reflected) = self.reply.complete {
            let tag = if reflected { self.head.tag } else { self.a.ends.peer_tag };
            let chunk = write::chunk(read::SHUTDOWN_COMPLETE, u8::from(reflected), &[]);
            return write::packet(out, self.a.ends.local_port, self.reply.port, tag, &chunk);
        }
        if self.reply.shutdown && self.a.state == SHUTDOWN_SENT {
            self.reply.add(&write::shutdown(self.a.receiving.keeping.point));
        }
        if self.reply.body.is_empty() {
            return 0;
        }
        // An INIT and an INIT ACK name the tag of their answer; else it is the peer's.
        let tag = if self.reply.tag != 0 { self.reply.tag } else { self.a.ends.peer_tag };
        write::packet(out, self.a.ends.local_port, self.reply.port, tag, &self.reply.body)
    }
}

/// "INIT or INIT ACK: tag 0, no streams, window under 1,500".
fn is_poor(i: &read::Init) -> bool {
    i.tag == 0 || i.outs == 0 || i.ins == 0 || i.window < WINDOW_LEAST
}
