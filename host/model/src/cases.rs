//! Cases that hang on more than a call and its number, each with its name: a drive counts how often it met each of them, and should have met all.

use crate::association::is_sound;
use crate::call::{Call, Reply};
use crate::letting::{heeded, is_addressed};
use crate::meeting::{self, Action};
use crate::read::{self, Seen};
use crate::record::*;

/// A call that was made, its answer, and the record before and after.
pub struct Met<'a> {
    pub before: &'a Association,
    pub call: &'a Call,
    pub reply: &'a Reply,
    pub after: &'a Association,
}

type Case = (&'static str, fn(&Met<'_>) -> bool);

#[rustfmt::skip]
pub const CASES: [Case; 44] = [
    ("an INIT with a Host Name ahead of what stops", |m| m.first(read::INIT).map_or(false, |c| host_name(c) < stop(c) && has_stop(c))),
    ("an INIT with a Host Name behind what stops", |m| m.first(read::INIT).map_or(false, is_passed)),
    ("an INIT ACK with a Host Name ahead of what stops",
        |m| m.first(read::INIT_ACK).map_or(false, |c| host_name(c) < stop(c) && has_stop(c)) && m.after.state == CLOSED),
    ("an INIT ACK with a Host Name behind what stops", |m| m.first(read::INIT_ACK).map_or(false, is_passed) && m.after.state == COOKIE_ECHOED),
    ("an INIT ACK with its cookie behind what stops",
        |m| m.first(read::INIT_ACK).map_or(false, |c| stop(c) < place(c, |kind| kind == read::STATE_COOKIE)) && m.after.state == COOKIE_ECHOED),
    ("associate answered 4 for our port alone", |m| m.is_no_port(|ours, port, _| !ours && port)),
    ("associate answered 4 for the peer's port alone", |m| m.is_no_port(|ours, port, _| ours && !port)),
    ("associate answered 4 where 8 would come next", |m| m.is_no_port(|_, _, rest| !rest)),
    ("error_stale answered 4 for our port alone", |m| m.is_no_way(|ours, port, tag| !ours && port && tag)),
    ("error_stale answered 4 for the peer's port alone", |m| m.is_no_way(|ours, port, tag| ours && !port && tag)),
    ("error_stale answered 4 for the tag alone", |m| m.is_no_way(|ours, port, tag| ours && port && !tag)),
    ("a closed record with too many streams in alone outside", |m| m.is_outside_by(CLOSED, |e| e.streams_in = 128)),
    ("a closed record with too many streams out alone outside", |m| m.is_outside_by(CLOSED, |e| e.streams_out = 128)),
    ("a closed record with an option alone outside", |m| m.is_outside_by(CLOSED, |e| e.options = 0)),
    ("an open record with an option alone outside", |m| m.before.state != CLOSED && m.is_outside_by(m.before.state, |e| e.options = 0)),
    ("a closed record with 128 streams each way within", |m| m.is_closed_within(|e| (e.streams_in, e.streams_out) == (128, 128))),
    ("a closed record with no streams within", |m| m.is_closed_within(|e| e.streams_in == 0 && e.streams_out > 0)),
    ("a closed record with no ports within", |m| m.is_closed_within(|e| e.local_port == 0 && e.peer_port == 0)),
    ("an open record whose own port alone puts it outside", |m| m.before.state != CLOSED && m.is_outside_by(m.before.state, |e| e.local_port = 1)),
    ("an open record whose peer's port alone puts it outside", |m| m.before.state != CLOSED && m.is_outside_by(m.before.state, |e| e.peer_port = 1)),
    ("an ABORT behind a good COOKIE ECHO in CLOSED", |m| m.is_blue(4, |p, good| good && p[12] == read::COOKIE_ECHO && read::check_shape(p) == 0)),
    ("an ABORT behind another COOKIE ECHO in CLOSED", |m| m.is_blue(4, |p, good| !good && p[12] == read::COOKIE_ECHO && read::check_shape(p) == 0)),
    ("an ABORT in CLOSED where 6 would come next", |m| m.is_blue(4, |p, _| read::check_shape(p) == 6)),
    ("an ABORT in CLOSED behind a length under 4", |m| m.is_blue(4, |p, _| read::heads(p).take_while(|h| h.0 != read::ABORT).any(|h| h.1 < 4))),
    ("an ABORT in CLOSED with a length under 4", |m| m.is_blue(4, |p, _| is_ill_abort(p, |length, _| length < 4))),
    ("an ABORT in CLOSED that reaches past the packet", |m| m.is_blue(4, |p, _| is_ill_abort(p, |length, size| length > size))),
    ("an ABORT in CLOSED behind a length past the packet", |m| m.is_blue(5, |p, _| ends_as_abort(p))),
    ("an ABORT in CLOSED within another chunk", |m| m.is_blue(0, |p, _| ends_as_abort(p))),
    ("a SACK with a window of 511 and nothing new: T3's tries 0", |m| m.is_nothing_new(read::SACK, |m, w| w == 511 && m.after.sending.path.tries == 0)),
    ("a SACK with a window of 0 and nothing new: T3's tries 0", |m| m.is_nothing_new(read::SACK, |m, w| w == 0 && m.after.sending.path.tries == 0)),
    ("a SACK with a window of 512 and nothing new: T3's tries kept", |m| m.is_nothing_new(read::SACK, |m, w| w == 512 && m.after.sending.path.tries > 0)),
    ("a SHUTDOWN with nothing new, the window closed: T3's tries kept",
        |m| m.is_nothing_new(read::SHUTDOWN, |m, _| m.before.sending.advertised < 512 && m.after.sending.path.tries > 0)),
    ("a restart with messages held", |m| m.is_meeting(Some(Action::A), ESTABLISHED) && m.before.receiving.held.iter().any(|h| h.used)),
    ("a restart in COOKIE-ECHOED", |m| m.is_meeting(Some(Action::A), COOKIE_ECHOED)),
    ("a restart where we wait for SHUTDOWN COMPLETE", |m| m.is_meeting(Some(Action::A), SHUTDOWN_ACK_SENT)),
    ("colliding INITs in COOKIE-WAIT", |m| m.is_meeting(Some(Action::B), COOKIE_WAIT)),
    ("colliding INITs in COOKIE-ECHOED", |m| m.is_meeting(Some(Action::B), COOKIE_ECHOED)),
    ("another tag of the peer in ESTABLISHED", |m| m.is_meeting(Some(Action::B), ESTABLISHED)),
    ("our own cookie, late", |m| m.is_meeting(Some(Action::C), ESTABLISHED)),
    ("an echo again in COOKIE-ECHOED", |m| m.is_meeting(Some(Action::D), COOKIE_ECHOED)),
    ("an echo again in ESTABLISHED", |m| m.is_meeting(Some(Action::D), ESTABLISHED)),
    ("an echo again that is stale", |m| m.is_meeting(Some(Action::D), ESTABLISHED) && m.word() == Some(LATE)),
    ("an echo that the table does not show in COOKIE-WAIT", |m| m.is_meeting(None, COOKIE_WAIT)),
    ("an echo that the table does not show in ESTABLISHED", |m| m.is_meeting(None, ESTABLISHED)),
];

impl<'a> Met<'a> {
    fn arrived(&self) -> Option<(&'a [u8], &'a Arrived)> {
        match (self.call, self.reply) {
            (Call::Arrive { packet, .. }, Reply::Arrived(r)) => Some((packet, r)),
            _ => None,
        }
    }

    /// The first chunk of a packet, if it is of this type and was accepted.
    fn first(&self, kind: u8) -> Option<Seen<'a>> {
        let (packet, r) = self.arrived()?;
        if r.number != 0 || packet[12] != kind || r.verdicts[0].fate != ACCEPTED {
            return None;
        }
        read::walk(packet).next()
    }

    /// A lone chunk of this type that was accepted, with tries to lose, and acknowledged nothing new; `is` is told the window, which a SACK alone has.
    fn is_nothing_new(&self, kind: u8, is: fn(&Met<'_>, u32) -> bool) -> bool {
        let mut places = self.before.sending.places.iter().zip(&self.after.sending.places);
        let outstanding = |p: &Place| matches!(p.status, FLYING | MARKED);
        self.arrived().map_or(false, |(_, r)| r.count == 1)
            && self.before.sending.path.tries > 0
            && !places.any(|(before, after)| outstanding(before) && !outstanding(after))
            && self.first(kind).map_or(false, |c| is(self, if kind == read::SACK { read::be32(c.bytes, 8) } else { 0 }))
    }

    /// A packet to a closed record that was answered so, whose ports and tag are right; `is` is told whether an echo would be good.
    fn is_blue(&self, number: u8, is: fn(&[u8], bool) -> bool) -> bool {
        match self.call {
            Call::Arrive { packet, echoed, .. } if self.before.state == CLOSED && self.reply.number() == number => {
                let echoed = heeded(self.before, *echoed);
                is_addressed(self.before, packet, &echoed) && is(packet, echoed.word == GOOD)
            }
            _ => false,
        }
    }

    /// A good echo that was let in in this state, and the table's action for it.
    fn is_meeting(&self, action: Option<Action>, state: u8) -> bool {
        match (self.call, self.arrived()) {
            (Call::Arrive { echoed, .. }, Some((packet, r))) if self.before.state == state && r.number == 0 && packet[12] == read::COOKIE_ECHO => {
                let is_read = !matches!(r.verdicts[0].number, 8 | 27);
                is_read && meeting::action(self.before, &heeded(self.before, *echoed).made) == action
            }
            _ => false,
        }
    }

    /// The host's own word on an echo.
    fn word(&self) -> Option<u8> {
        match self.call {
            Call::Arrive { echoed, .. } => Some(echoed.word),
            _ => None,
        }
    }

    /// A record in this state that was answered 1, and would be within its bounds if one thing were mended.
    fn is_outside_by(&self, state: u8, mend: fn(&mut Ends)) -> bool {
        self.before.state == state && self.reply.number() == 1 && {
            let mut mended = *self.before;
            mend(&mut mended.ends);
            is_sound(&mended)
        }
    }

    fn is_closed_within(&self, is: fn(&Ends) -> bool) -> bool {
        self.before.state == CLOSED
            && !matches!(self.call, Call::Closed { .. } | Call::Peek { .. })
            && self.reply.number() != 1
            && is(&self.before.ends)
    }

    /// An `associate` that was answered 4: whether our port, the peer's port, and all the rest are such that a packet could go out.
    fn is_no_port(&self, which: fn(bool, bool, bool) -> bool) -> bool {
        match *self.call {
            Call::Associate { tag, port, streams, .. } => {
                self.reply.number() == 4 && which(self.before.ends.local_port != 0, port != 0, tag != 0 && streams != 0)
            }
            _ => false,
        }
    }

    /// The same of an `error_stale`: our port, the peer's port and its tag.
    fn is_no_way(&self, which: fn(bool, bool, bool) -> bool) -> bool {
        match *self.call {
            Call::ErrorStale { port, tag, .. } => self.reply.number() == 4 && which(self.before.ends.local_port != 0, port != 0, tag != 0),
            _ => false,
        }
    }
}

// ---- Parameters

/// Where the first parameter of such a type stands among all; behind them all, if there is none.
fn place(c: Seen<'_>, is: fn(u16) -> bool) -> usize {
    read::parameters(c).position(|p| is(p.0)).unwrap_or(usize::MAX)
}

fn host_name(c: Seen<'_>) -> usize {
    place(c, |kind| kind == read::HOST_NAME)
}

fn stop(c: Seen<'_>) -> usize {
    place(c, read::is_stop)
}

fn has_stop(c: Seen<'_>) -> bool {
    stop(c) < usize::MAX
}

/// There is a Host Name, and it stands behind what stops.
fn is_passed(c: Seen<'_>) -> bool {
    stop(c) < host_name(c) && host_name(c) < usize::MAX
}

// ---- ABORT

/// The first ABORT's length, and the packet's.
fn is_ill_abort(packet: &[u8], is: fn(usize, usize) -> bool) -> bool {
    read::heads(packet).find(|h| h.0 == read::ABORT).map_or(false, |h| is(h.1, packet.len()))
}

/// The last bytes would be an ABORT, if a chunk began there.
fn ends_as_abort(packet: &[u8]) -> bool {
    let last = &packet[packet.len().saturating_sub(8)..];
    last.len() == 8 && last[0] == read::ABORT && last[2..] == [0, 8, 0, 12, 0, 4]
}
