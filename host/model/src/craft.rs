//! Packets that a record may meet: chunks of every type, near to what its numbers make of them, and what the host lends with them.

use crate::born;
use crate::random::Random;
use crate::read::{self, padded};
use crate::record::*;
use crate::write;

/// A packet, and what the host lends beside it.
#[derive(Clone, Debug, Default)]
pub struct Crafted {
    pub packet: Vec<u8>,
    pub lent: Lent,
    pub cookie: Vec<u8>,
    pub echoed: Echoed,
}

fn bytes(r: &mut Random, n: usize) -> Vec<u8> {
    let mut b = vec![0; n];
    r.fill(&mut b);
    b
}

fn cookie_length(r: &mut Random) -> usize {
    match r.below(12) {
        0 => 0,
        1 => 257,
        2 => 256,
        3 => r.within(258, 400),
        _ => r.within(1, 60),
    }
}

pub fn lent(r: &mut Random) -> Lent {
    let tag = if r.one_in(20) { 0 } else { r.word() | 1 };
    let streams = if r.one_in(20) { 0 } else { r.pick(&[1, 5, 128, 129, 65_535]) };
    let options = if r.one_in(20) { r.pick(&[1, 2, 128, 255]) } else { 0 };
    Lent { tag, tsn: born::tsn(r), streams, options }
}

/// Mostly good, on values that an association can start from, with tags and ties that the record knows and others.
pub fn echoed(r: &mut Random, a: &Association) -> Echoed {
    let (ours, peers) = (a.ends.my_tag, a.ends.peer_tag);
    let (my_tie, peer_tie) = r.pick(&[(0, 0), (ours, peers), (ours, peers), (ours, 0), (0, peers), (ours, peers ^ 1), (ours ^ 1, peers)]);
    let mut made = Made {
        my_tag: if r.one_in(2) { ours } else { r.word() | 1 },
        peer_tag: if r.one_in(2) { peers } else { r.word() | 1 },
        streams_in: born::streams(r),
        streams_out: born::streams(r),
        my_tsn: born::tsn(r),
        peer_tsn: born::tsn(r),
        window: r.pick(&[1_500, 1_501, 65_536, u32::MAX]),
        my_tie,
        peer_tie,
        options: 0,
    };
    match r.below(40) {
        0 => made.my_tag = 0,
        1 => made.peer_tag = 0,
        2 => made.streams_in = r.pick(&[0, 129, 65_535]),
        3 => made.streams_out = r.pick(&[0, 129, 65_535]),
        4 => made.window = r.pick(&[0, 1_499]),
        5 => made.options = r.pick(&[1, 2, 128, 255]),
        _ => {}
    }
    Echoed { word: r.pick(&[GOOD, GOOD, GOOD, GOOD, LATE, BAD, 3, 255]), made }
}

// ---- Chunks

fn data(r: &mut Random, a: &Association) -> Vec<u8> {
    let k = &a.receiving;
    let held = k.held[r.below(PLACES)];
    let tsn = match r.below(12) {
        0 => k.keeping.point.wrapping_sub(r.below(3) as u32),
        1 => held.tsn,
        2 => born::tsn(r),
        3 => k.keeping.point.wrapping_add(1 << 31),
        4 => k.keeping.point.wrapping_add(r.within(120, 132) as u32),
        5 | 6 => k.keeping.point.wrapping_add(r.within(1, 20) as u32),
        _ => k.keeping.point.wrapping_add(r.within(1, 4) as u32),
    };
    let agreed = usize::from(a.ends.streams_in).max(1);
    let stream = match r.below(12) {
        0 => a.ends.streams_in,
        1 => r.pick(&[127, 128, 65_535]),
        2 => r.below(agreed) as u16,
        _ => r.below(agreed.min(3)) as u16,
    };
    let next = k.next[usize::from(stream) % STREAMS];
    let whole = !r.one_in(4);
    let c = Chunk {
        tsn,
        stream,
        ssn: if r.one_in(6) { r.word() as u16 } else { next.wrapping_add(r.pick(&[0, 0, 0, 1])) },
        ppid: r.word(),
        begin: whole || r.one_in(2),
        end: whole || r.one_in(2),
        unordered: r.one_in(4),
        ..Chunk::default()
    };
    let length = match r.below(24) {
        0 => 0,
        1 => 513,
        2 => 1_400,
        _ => born::payload_length(r),
    };
    let mut chunk = write::data(&c, &bytes(r, length));
    chunk[1] |= if r.one_in(6) { r.word() as u8 & 0xF8 } else { 0 };
    chunk
}

/// Points about ours: mostly of what was sent.
fn point(r: &mut Random, s: &Sending) -> u32 {
    let sent = s.next_tsn.wrapping_sub(s.acked).wrapping_sub(1);
    match r.below(12) {
        0 => s.acked.wrapping_sub(r.within(1, 3) as u32),
        1 => s.next_tsn.wrapping_add(r.below(2) as u32),
        2 => s.acked.wrapping_add(1 << 31),
        3 => s.next_tsn.wrapping_sub(1),
        4 | 5 => s.acked.wrapping_add(r.within(0, sent.min(3) as usize) as u32),
        6 => s.acked.wrapping_add(r.below(sent as usize % 200 + 1) as u32),
        _ => s.acked,
    }
}

fn sack(r: &mut Random, s: &Sending) -> Vec<u8> {
    let point = point(r, s);
    let above = s.next_tsn.wrapping_sub(point).wrapping_sub(1) % 200;
    let mut v = point.to_be_bytes().to_vec();
    v.extend_from_slice(&r.pick(&[0, 1, 511, 512, 65_536, 65_536, u32::MAX]).to_be_bytes());
    let mut blocks = Vec::new();
    let mut at = 1;
    while r.one_in(2) || blocks.len() > 3 && !r.one_in(6) {
        let start = at + r.within(1, 3) as u32;
        let end = start + r.below(3) as u32;
        if end > above && !r.one_in(20) {
            break;
        }
        blocks.push((start as u16, end as u16));
        at = end + 1;
    }
    if r.one_in(16) {
        blocks.push(r.pick(&[(0, 0), (1, 1), (2, 1), (2, 2), (3, 3), (65_535, 65_535), (2, 65_535)]));
    }
    if blocks.len() > 1 && r.one_in(16) {
        blocks.swap(0, 1);
    }
    let dups = if r.one_in(4) { r.below(5) } else { 0 };
    v.extend_from_slice(&(blocks.len() as u16).to_be_bytes());
    v.extend_from_slice(&(dups as u16).to_be_bytes());
    for (start, end) in blocks {
        v.extend_from_slice(&start.to_be_bytes());
        v.extend_from_slice(&end.to_be_bytes());
    }
    v.extend_from_slice(&bytes(r, 4 * dups));
    write::chunk(read::SACK, 0, &v)
}

/// INIT, or INIT ACK with its cookie: parameters known and unknown of every handling.
fn init(r: &mut Random, kind: u8) -> Vec<u8> {
    let mut i = read::Init {
        tag: r.word() | 1,
        window: r.pick(&[1_500, 65_536, u32::MAX]),
        outs: r.pick(&[1, 8, 128, 129, 65_535]),
        ins: r.pick(&[1, 8, 128, 129, 65_535]),
        tsn: born::tsn(r),
    };
    match r.below(24) {
        0 => i.tag = 0,
        1 => i.outs = 0,
        2 => i.ins = 0,
        3 => i.window = 1_499,
        _ => {}
    }
    let mut v = write::init_fields(i);
    let cookie_at = r.below(3);
    // Now and then so many that their reports do not all fit.
    let many = r.one_in(10);
    // Now and then a Host Name beside what stops, in any order.
    let stopping = r.one_in(5);
    let count = if many { 300 } else { r.below(6) };
    for n in 0..=count {
        if kind == read::INIT_ACK && n == cookie_at.min(count) && !r.one_in(20) {
            write::pad(&mut v);
            let length = cookie_length(r);
            v.extend_from_slice(&write::item(read::STATE_COOKIE, &bytes(r, length)));
        }
        if n == count || v.len() > 1_300 {
            break;
        }
        write::pad(&mut v);
        let kind = match r.below(40) {
            _ if many && !r.one_in(200) => 0xC001,
            _ if stopping => r.pick(&[read::HOST_NAME, read::HOST_NAME, 2, 10, 0x4002, 0xC001]),
            0 => read::HOST_NAME,
            1..=10 => r.pick(&[1, 5, 6, 7, 8, 9, 12, 0x8000]),
            11 | 12 => r.pick(&[2, 0x4002, 0x3FFF, 0x7FFF]),
            13..=24 => r.pick(&[0x8001, 0xBFFF]),
            _ => r.pick(&[0xC000, 0xC001, 0xFFFF]),
        };
        let length = if r.one_in(12) && !many { r.within(0, 700) } else { r.below(14) };
        v.extend_from_slice(&write::item(kind, &bytes(r, length)));
    }
    match r.below(30) {
        0 => {
            // Too few bytes for a parameter.
            write::pad(&mut v);
            let length = r.within(1, 3);
            v.extend_from_slice(&bytes(r, length));
        }
        // The last one's padding counted: whole, as the other shop does, or in part.
        1..=6 => write::pad(&mut v),
        7 | 8 => {
            let length = r.within(v.len(), padded(v.len()));
            v.resize(length, 0);
        }
        _ => {}
    }
    v.truncate(1_456);
    write::chunk(kind, if r.one_in(8) { 255 } else { 0 }, &v)
}

fn error(r: &mut Random) -> Vec<u8> {
    let mut v = Vec::new();
    for _ in 0..r.below(4) {
        let cause = r.pick(&[1, 3, 6, 13]);
        let length = r.below(9);
        write::pad(&mut v);
        v.extend_from_slice(&write::item(cause, &bytes(r, length)));
        if r.one_in(5) {
            let at = v.len() - length - 1;
            v[at] = r.pick(&[0, 3, 4, 200]);
        }
    }
    write::chunk(read::ERROR, 0, &v)
}

/// Types that are none of the rail's, of every handling.
fn unknown(r: &mut Random) -> Vec<u8> {
    let kind = match r.below(12) {
        0 => r.pick(&[12, 13, 15, 63]),
        1 => r.pick(&[64, 127]),
        2..=5 => r.pick(&[128, 191]),
        _ => r.pick(&[192, 193, 255]),
    };
    let length = match r.below(12) {
        0 => r.within(0, 1_456),
        1 => 1_456,
        _ => r.below(12),
    };
    write::chunk(kind, r.word() as u8, &bytes(r, length))
}

fn heartbeat(r: &mut Random, kind: u8) -> Vec<u8> {
    let length = match r.below(10) {
        0 => 0,
        1 => 1_456,
        2 => r.within(0, 1_456),
        _ => 12,
    };
    write::chunk(kind, r.word() as u8 & 3, &bytes(r, length))
}

fn chunk(r: &mut Random, a: &Association, kind: u8) -> Vec<u8> {
    match kind {
        read::DATA => data(r, a),
        read::INIT | read::INIT_ACK => init(r, kind),
        read::SACK => sack(r, &a.sending),
        read::HEARTBEAT | read::HEARTBEAT_ACK => heartbeat(r, kind),
        read::ABORT => chunk_of_abort(r),
        read::SHUTDOWN => write::chunk(kind, 0, &point(r, &a.sending).to_be_bytes()),
        read::ERROR => error(r),
        read::COOKIE_ECHO => {
            let length = cookie_length(r);
            write::chunk(kind, 0, &bytes(r, length))
        }
        read::SHUTDOWN_COMPLETE => write::chunk(kind, r.below(2) as u8, &[]),
        read::COOKIE_ACK | read::SHUTDOWN_ACK => {
            let tail = if r.one_in(20) { 4 } else { 0 };
            write::chunk(kind, 0, &bytes(r, tail))
        }
        _ => unknown(r),
    }
}

/// Which chunk comes first: what the state reads, or anything.
fn first_kind(r: &mut Random, state: u8) -> u8 {
    if r.one_in(3) {
        return r.below(16) as u8;
    }
    if r.one_in(6) {
        return r.pick(&[read::INIT, read::COOKIE_ECHO, read::COOKIE_ECHO]);
    }
    let kinds: &[u8] = match state {
        CLOSED => &[read::INIT, read::COOKIE_ECHO, read::COOKIE_ECHO],
        COOKIE_WAIT => &[read::INIT_ACK, read::INIT_ACK, read::SHUTDOWN_ACK, read::ERROR, 200],
        COOKIE_ECHOED => &[read::COOKIE_ACK, read::ERROR, read::HEARTBEAT, read::SHUTDOWN_ACK, 200],
        SHUTDOWN_SENT => &[read::DATA, read::DATA, read::SHUTDOWN, read::SHUTDOWN_ACK, 200],
        SHUTDOWN_RECEIVED => &[read::SACK, read::SACK, read::SHUTDOWN, read::HEARTBEAT, 200],
        SHUTDOWN_ACK_SENT => &[read::SHUTDOWN_COMPLETE, read::SHUTDOWN_ACK, read::SHUTDOWN, 200],
        _ => &[read::DATA, read::DATA, read::DATA, read::SACK, read::SACK, read::HEARTBEAT, read::HEARTBEAT_ACK, read::SHUTDOWN, 200],
    };
    r.pick(kinds)
}

fn later_kind(r: &mut Random) -> u8 {
    if r.one_in(8) {
        return r.below(16) as u8;
    }
    r.pick(&[read::DATA, read::DATA, read::DATA, read::SACK, read::SACK, read::HEARTBEAT, read::SHUTDOWN, read::SHUTDOWN_ACK, read::ERROR, 200, 200])
}

/// The tag that the first chunk asks for.
fn tag(r: &mut Random, a: &Association, first: &[u8], e: &Echoed) -> u32 {
    if r.one_in(24) {
        return r.pick(&[0, a.ends.my_tag, a.ends.peer_tag, e.made.my_tag, a.ends.my_tag ^ 1]);
    }
    match first[0] {
        read::INIT => 0,
        read::ABORT | read::SHUTDOWN_COMPLETE if first[1] & 1 == 1 => a.ends.peer_tag,
        read::COOKIE_ECHO => e.made.my_tag,
        _ => a.ends.my_tag,
    }
}

/// An ABORT goes behind what the packet has so far: plainly, where a walk over ill lengths finds it, or where none does.
fn add_abort(r: &mut Random, body: &mut Vec<u8>) {
    write::pad(body);
    let mut abort = chunk_of_abort(r);
    let more = match r.below(8) {
        // Behind a chunk whose length is under 4.
        0 | 1 => [&[r.pick(&[read::DATA, read::HEARTBEAT, 128, 63]), 0, 0, r.below(4) as u8], &abort[..]].concat(),
        // Behind one that claims to reach past the packet.
        2 => [&[r.pick(&[read::DATA, read::HEARTBEAT, 128]), 0, r.pick(&[0x10, 0xFF]), r.word() as u8], &abort[..]].concat(),
        // As the value of another chunk.
        3 => write::chunk(r.pick(&[read::HEARTBEAT, 128, 192]), 0, &abort),
        // Its own length is ill.
        4 => {
            abort[2] = r.pick(&[0, 0, 0x10]);
            abort[3] = r.below(4) as u8;
            abort
        }
        // Behind an unknown chunk that stops.
        5 => [write::chunk(63, 0, &[]), abort].concat(),
        _ => abort,
    };
    if 12 + body.len() + more.len() <= PACKET_MOST {
        body.extend_from_slice(&more);
    }
    if r.one_in(12) {
        // The first chunk's length is under 4: the walk goes on within it.
        body[2] = 0;
        body[3] = r.below(4) as u8;
    }
}

fn chunk_of_abort(r: &mut Random) -> Vec<u8> {
    write::chunk(read::ABORT, r.below(2) as u8, &write::item(12, &[]))
}

/// A packet to an end with this record.
pub fn packet(r: &mut Random, a: &Association) -> Crafted {
    let echoed = echoed(r, a);
    let kind = first_kind(r, a.state);
    let first = chunk(r, a, kind);
    let tag = tag(r, a, &first, &echoed);
    let alone = matches!(kind, read::INIT | read::INIT_ACK | read::SHUTDOWN_COMPLETE);
    let count = match r.below(40) {
        _ if alone && !r.one_in(30) => 0,
        0 => 364,
        1..=12 => r.within(1, 12),
        13..=24 => 1,
        _ => 0,
    };
    let tiny = count == 364 && r.one_in(2);
    let mut body = first;
    for _ in 0..count {
        write::pad(&mut body);
        let next = if tiny {
            write::chunk(r.pick(&[read::COOKIE_ACK, read::HEARTBEAT, 128, 192]), 0, &[])
        } else {
            let kind = later_kind(r);
            chunk(r, a, kind)
        };
        if 12 + body.len() + padded(next.len()) <= PACKET_MOST {
            body.extend_from_slice(&next);
        }
    }
    if a.state == CLOSED && r.one_in(5) {
        add_abort(r, &mut body);
    }
    write::pad(&mut body);
    if r.one_in(20) {
        // Padding that is not zero is ignored.
        let last = body.len() - 1;
        body[last] |= 1;
    }
    let (mut source, mut destination) = (a.ends.peer_port, a.ends.local_port);
    match r.below(60) {
        0 => source = source.wrapping_add(1),
        1 => destination = destination.wrapping_add(1),
        2 => source = 0,
        3 => destination = 0,
        _ if a.state == CLOSED => source = r.within(1, 9) as u16,
        _ => {}
    }
    let mut packet = vec![0; 12 + body.len()];
    write::packet(&mut packet, source, destination, tag, &body);
    let length = cookie_length(r);
    Crafted { packet, lent: lent(r), cookie: bytes(r, length), echoed }
}
