//! Every call of the host but `arrive`. "for other calls 1, 18, 7, 19, 20".

use crate::association::{self, move_to, NO_COOKIE};
use crate::path;
use crate::read;
use crate::receiving;
use crate::record::*;
use crate::sending;
use crate::write;

fn refused(number: u8) -> Answer {
    Answer { number, ..Answer::default() }
}

fn told(length: usize) -> Answer {
    Answer { length, ..Answer::default() }
}

/// 1, 18, 7, or 0.
fn bar(a: &Association, short: bool, states: &[u8]) -> u8 {
    if !association::is_sound(a) {
        1
    } else if short {
        18
    } else if !states.contains(&a.state) {
        7
    } else {
        0
    }
}

fn is_short(out: &[u8]) -> bool {
    out.len() < OUTPUT
}

const OPEN: [u8; 7] = [COOKIE_WAIT, COOKIE_ECHOED, ESTABLISHED, SHUTDOWN_PENDING, SHUTDOWN_SENT, SHUTDOWN_RECEIVED, SHUTDOWN_ACK_SENT];
const EVERY: [u8; 8] = [CLOSED, COOKIE_WAIT, COOKIE_ECHOED, ESTABLISHED, SHUTDOWN_PENDING, SHUTDOWN_SENT, SHUTDOWN_RECEIVED, SHUTDOWN_ACK_SENT];
const READS_DATA: [u8; 3] = [ESTABLISHED, SHUTDOWN_PENDING, SHUTDOWN_SENT];
const READS_SACK: [u8; 3] = [ESTABLISHED, SHUTDOWN_PENDING, SHUTDOWN_RECEIVED];

/// A packet of one chunk to the peer.
fn send(e: &Ends, out: &mut [u8], mut chunk: Vec<u8>) -> usize {
    write::pad(&mut chunk);
    write::packet(out, e.local_port, e.peer_port, e.peer_tag, &chunk)
}

fn init_of(a: &Association) -> Vec<u8> {
    let i = read::Init { tag: a.ends.my_tag, window: AREA as u32, outs: a.ends.streams_out, ins: STREAMS as u16, tsn: a.sending.next_tsn };
    write::chunk(read::INIT, 0, &write::init_fields(i))
}

/// INIT has tag 0, whatever the record says of the peer's.
fn send_init(a: &Association, out: &mut [u8]) -> usize {
    send(&Ends { peer_tag: 0, ..a.ends }, out, init_of(a))
}

// ---- Opening

pub fn associate(a: &mut Association, tag: u32, tsn: u32, port: u16, streams: u16, out: &mut [u8]) -> Answer {
    match bar(a, is_short(out), &[CLOSED]) {
        0 if a.ends.local_port == 0 || port == 0 => return refused(4),
        0 if tag == 0 || streams == 0 => return refused(8),
        0 => {}
        number => return refused(number),
    }
    let ends = Ends {
        local_port: a.ends.local_port,
        peer_port: port,
        my_tag: tag,
        peer_tag: 0,
        streams_in: STREAMS as u16,
        streams_out: streams.min(STREAMS as u16),
        options: 0,
    };
    // "after our own INIT, the INIT ACK sets its point": until then it is 0.
    *a = association::fresh(COOKIE_WAIT, ends, tsn, 0, 1, a.sending.mode);
    told(send_init(a, out))
}

/// 2, 3, 5, 6; then what the first chunk is, if it is an INIT or a COOKIE ECHO.
pub fn peek(packet: &[u8]) -> Peeked {
    let number = match read::check_whole(packet) {
        0 => read::check_shape(packet),
        number => number,
    };
    let mut p = Peeked { number, ..Peeked::default() };
    if number != 0 {
        return p;
    }
    let first = read::walk(packet).next().expect("a packet of 16 bytes has a chunk");
    match first.kind() {
        read::INIT => {
            let i = read::init(first);
            p.kind = SAW_INIT;
            p.source = read::header(packet).source;
            p.tag = i.tag;
            p.window = i.window;
            p.outs = i.outs;
            p.ins = i.ins;
            p.tsn = i.tsn;
        }
        read::COOKIE_ECHO => {
            p.kind = SAW_COOKIE_ECHO;
            p.at = first.at + 4;
            p.len = first.value().len();
        }
        _ => {}
    }
    p
}

// ---- Messages

pub fn hand_in(a: &mut Association, area: &mut [u8], message: &[u8], stream: u16, unordered: u8, ppid: u32) -> HandedIn {
    let (number, chunks) = match bar(a, area.len() < AREA, &[ESTABLISHED]) {
        0 => sending::hand_in(&mut a.sending, area, message, stream, a.ends.streams_out, unordered != NO, ppid),
        number => (number, 0),
    };
    HandedIn { number, chunks }
}

pub fn transmit(a: &mut Association, area: &[u8], out: &mut [u8]) -> Transmitted {
    let number = bar(a, area.len() < AREA || is_short(out), &READS_SACK);
    if number != 0 {
        return Transmitted { number, ..Transmitted::default() };
    }
    let f = sending::transmit(&mut a.sending, area);
    let length = match f.body.is_empty() {
        true => 0,
        false => write::packet(out, a.ends.local_port, a.ends.peer_port, a.ends.peer_tag, &f.body),
    };
    Transmitted { number, length, resent: f.resent, first: f.first, last: f.last }
}

/// "taken in any state"; 17 comes before the 18 of the output.
pub fn take(a: &mut Association, area: &[u8], out: &mut [u8]) -> Delivered {
    let every = [&[CLOSED][..], &OPEN].concat();
    let (number, message) = match bar(a, area.len() < AREA, &every) {
        0 => receiving::take(&mut a.receiving, area, out),
        number => (number, Message::default()),
    };
    Delivered { number, message }
}

pub fn sack(a: &mut Association, out: &mut [u8]) -> Acknowledged {
    let number = bar(a, is_short(out), &READS_DATA);
    if number != 0 {
        return Acknowledged { number, length: 0, sack: receiving::no_sack() };
    }
    let sack = receiving::sack(&mut a.receiving);
    Acknowledged { number, length: send(&a.ends, out, write::sack(&sack)), sack }
}

// ---- Timers

/// "the next expiry closes and reports", and changes nothing else.
fn over(a: &mut Association) -> Answer {
    move_to(a, CLOSED);
    Answer { over: true, ..Answer::default() }
}

/// What a waiting state waits for is sent again.
fn send_again(a: &Association, out: &mut [u8]) -> usize {
    let cookie = &a.cookie.bytes[..usize::from(a.cookie.len)];
    match a.state {
        COOKIE_WAIT => send_init(a, out),
        COOKIE_ECHOED => send(&a.ends, out, write::chunk(read::COOKIE_ECHO, 0, cookie)),
        SHUTDOWN_SENT => send(&a.ends, out, write::shutdown(a.receiving.keeping.point)),
        _ => send(&a.ends, out, write::chunk(read::SHUTDOWN_ACK, 0, &[])),
    }
}

fn expire(a: &mut Association, out: &mut [u8], states: &[u8]) -> Answer {
    match bar(a, is_short(out), states) {
        0 if a.tries >= association::most_tries(a.state) => over(a),
        0 => {
            a.tries += 1;
            path::double(&mut a.sending.path.clock);
            told(send_again(a, out))
        }
        number => refused(number),
    }
}

pub fn t1(a: &mut Association, out: &mut [u8]) -> Answer {
    expire(a, out, &[COOKIE_WAIT, COOKIE_ECHOED])
}

pub fn t2(a: &mut Association, out: &mut [u8]) -> Answer {
    expire(a, out, &[SHUTDOWN_SENT, SHUTDOWN_ACK_SENT])
}

/// "with nothing outstanding it is answered 7".
pub fn t3(a: &mut Association) -> Answer {
    match bar(a, false, &READS_SACK) {
        0 if !sending::has_outstanding(&a.sending) => refused(7),
        0 if a.sending.path.tries >= TRIES => over(a),
        0 => {
            sending::expire(&mut a.sending);
            told(0)
        }
        number => refused(number),
    }
}

pub fn rtt(a: &mut Association, sample: u32) -> Answer {
    match bar(a, false, &OPEN) {
        0 => {
            path::sample(&mut a.sending.path.clock, sample);
            told(0)
        }
        number => refused(number),
    }
}

// ---- Closing and telling

pub fn shutdown(a: &mut Association, out: &mut [u8]) -> Answer {
    match bar(a, is_short(out), &[ESTABLISHED]) {
        0 if sending::is_empty(&a.sending) => {
            move_to(a, SHUTDOWN_SENT);
            told(send_again(a, out))
        }
        0 => {
            move_to(a, SHUTDOWN_PENDING);
            told(0)
        }
        number => refused(number),
    }
}

/// From COOKIE-WAIT nothing goes out: no tag of the peer is known. Any cause but 9 and 13 counts as the user's.
pub fn abort(a: &mut Association, cause: u8, tsn: u32, out: &mut [u8]) -> Answer {
    match bar(a, is_short(out), &OPEN) {
        0 => {}
        number => return refused(number),
    }
    let from = a.state;
    move_to(a, CLOSED);
    if from == COOKIE_WAIT {
        return told(0);
    }
    let chunk = match cause {
        CAUSE_NO_DATA => write::caused(read::ABORT, 9, &tsn.to_be_bytes()),
        CAUSE_VIOLATION => write::caused(read::ABORT, 13, &[]),
        _ => write::caused(read::ABORT, 12, &[]),
    };
    told(send(&a.ends, out, chunk))
}

pub fn error_stream(a: &mut Association, stream: u16, out: &mut [u8]) -> Answer {
    match bar(a, is_short(out), &READS_DATA) {
        0 => {
            let s = stream.to_be_bytes();
            told(send(&a.ends, out, write::caused(read::ERROR, 1, &[s[0], s[1], 0, 0])))
        }
        number => refused(number),
    }
}

/// In every state: so is a stale cookie met.
pub fn error_stale(a: &mut Association, port: u16, tag: u32, late: u32, out: &mut [u8]) -> Answer {
    match bar(a, is_short(out), &EVERY) {
        0 if a.ends.local_port == 0 || port == 0 || tag == 0 => refused(4),
        0 => {
            let to = Ends { peer_port: port, peer_tag: tag, ..a.ends };
            told(send(&to, out, write::caused(read::ERROR, 3, &late.to_be_bytes())))
        }
        number => refused(number),
    }
}

pub fn heartbeat(a: &mut Association, value: [u8; 8], out: &mut [u8]) -> Answer {
    match bar(a, is_short(out), &READS_SACK) {
        0 => told(send(&a.ends, out, write::heartbeat(value))),
        number => refused(number),
    }
}

/// The cookie of an INIT ACK, kept for T1; the bytes behind it are 0.
pub fn kept_cookie(cookie: &[u8]) -> Cookie {
    let mut c = NO_COOKIE;
    c.bytes[..cookie.len()].copy_from_slice(cookie);
    c.len = cookie.len() as u16;
    c
}
