//! Records within their bounds that no honest run need reach.

use crate::path::{PMDCS, RTO_LEAST, RTO_MOST, START, TOP};
use crate::random::Random;
use crate::record::*;

/// A number on a circle, often near where something happens.
pub fn tsn(r: &mut Random) -> u32 {
    let near = r.below(300) as u32;
    match r.below(5) {
        0 => near,
        1 => 0u32.wrapping_sub(near),
        2 => (1 << 31) + near,
        3 => (1u32 << 31) - near,
        _ => r.word(),
    }
}

fn ssn(r: &mut Random) -> u16 {
    match r.below(3) {
        0 => r.below(3) as u16,
        1 => 65_535 - r.below(3) as u16,
        _ => r.word() as u16,
    }
}

pub fn payload_length(r: &mut Random) -> usize {
    match r.below(8) {
        0 => 1,
        1 => PAYLOAD,
        2 => r.within(1, PAYLOAD),
        _ => r.within(1, 60),
    }
}

pub fn streams(r: &mut Random) -> u16 {
    match r.below(4) {
        0 => 1,
        1 => 128,
        _ => r.within(1, 128) as u16,
    }
}

fn stream(r: &mut Random) -> u16 {
    let few = if r.one_in(2) { 3 } else { STREAMS };
    r.below(few) as u16
}

fn shuffled(r: &mut Random) -> [usize; PLACES] {
    let mut order = [0; PLACES];
    for i in 0..PLACES {
        let j = r.within(0, i);
        order[i] = order[j];
        order[j] = i;
    }
    order
}

/// A record within its bounds, in any state.
pub fn record(r: &mut Random) -> Association {
    // Those that are left soonest come most often.
    let brief = [ESTABLISHED, SHUTDOWN_PENDING, SHUTDOWN_PENDING, SHUTDOWN_SENT, SHUTDOWN_SENT, SHUTDOWN_SENT, SHUTDOWN_ACK_SENT];
    let state = if r.one_in(2) { r.pick(&brief) } else { r.below(8) as u8 };
    let most = crate::association::most_tries(state);
    let tries = if r.one_in(2) { most } else { r.within(0, usize::from(most)) as u8 };
    let mut ends = Ends {
        local_port: r.within(1, 9) as u16,
        peer_port: r.within(1, 9) as u16,
        my_tag: r.word() | 1,
        peer_tag: if state == CLOSED || state == COOKIE_WAIT { r.word() & 1 } else { r.word() | 1 },
        streams_in: streams(r),
        streams_out: streams(r),
        options: 0,
    };
    if state == CLOSED {
        unsettle(r, &mut ends);
    }
    let mut cookie = Cookie { bytes: [0; COOKIE_MOST], len: 0 };
    r.fill(&mut cookie.bytes);
    cookie.len = r.pick(&[1, 3, 4, 100, 255, 256]);
    if state != COOKIE_ECHOED && r.one_in(2) {
        cookie.len = 0;
    }
    Association { state, tries, ends, cookie, receiving: receiving(r), sending: sending(r) }
}

/// What a closed record need not have.
fn unsettle(r: &mut Random, ends: &mut Ends) {
    match r.below(10) {
        0 | 1 => ends.local_port = 0,
        2 => ends.peer_port = 0,
        3 => ends.streams_in = 0,
        4 => ends.streams_out = 0,
        5 => ends.my_tag = 0,
        _ => {}
    }
}

// ---- Receiving

fn receiving(r: &mut Random) -> Receiving {
    let point = tsn(r);
    let low = match r.below(6) {
        0 => r.within(0, 128),
        1 => 128,
        2 => 127,
        _ => r.below(6),
    };
    let mut come = [false; PLACES];
    let room = PLACES - low;
    if room >= 2 && !r.one_in(4) {
        let highest = if r.one_in(2) { room } else { r.within(2, room) };
        let density = r.within(1, 4);
        for c in come[1..highest].iter_mut() {
            *c = !r.one_in(density + 1);
        }
    }
    let mut tsns: Vec<u32> = Vec::new();
    let keep = r.within(1, 4);
    for (i, _) in come.iter().enumerate().filter(|c| *c.1) {
        if !r.one_in(keep) {
            tsns.push(point.wrapping_add(i as u32 + 1));
        }
    }
    low_numbers(r, point, &come, low, &mut tsns);
    let mut next = [0; STREAMS];
    next.iter_mut().for_each(|n| *n = ssn(r));
    let mut dups = [0; LISTED];
    dups.iter_mut().for_each(|d| *d = tsn(r));
    let listed = r.pick(&[0, 1, 7, 15, 16]);
    let mut held = [Held::default(); PLACES];
    let order = shuffled(r);
    tsns.sort_unstable_by_key(|t| t.wrapping_sub(point));
    let mut like = one_held(r, &next);
    let sameness = r.pick(&[2, 8, 200]);
    let edges = r.pick(&[2, 3, 8, 1_000]);
    for (i, &place) in order.iter().enumerate() {
        if r.one_in(sameness) {
            like = one_held(r, &next);
        }
        like.begin = r.one_in(edges);
        like.end = r.one_in(edges);
        like.len = payload_length(r) as u16;
        held[place] = Held { used: i < tsns.len(), tsn: tsns.get(i).copied().unwrap_or(like.tsn), ..like };
        if !held[place].used && r.one_in(2) {
            held[place] = Held::default();
        }
    }
    Receiving { keeping: Keeping { point, come: come.map(u8::from), dups, listed }, held, next }
}

fn one_held(r: &mut Random, next: &[u16; STREAMS]) -> Held {
    let stream = stream(r);
    let ssn = next[usize::from(stream)].wrapping_add(r.pick(&[0, 0, 0, 1, 65_535, 32_768]));
    Held { used: false, begin: false, end: false, unordered: r.one_in(4), tsn: r.word(), stream, ssn, ppid: r.word(), len: 0 }
}

/// TSNs that are held and whose offset has not come: behind the point, above it, or far away.
fn low_numbers(r: &mut Random, point: u32, come: &[bool; PLACES], low: usize, tsns: &mut Vec<u32>) {
    let mut left = low;
    let run = !r.one_in(3);
    let mut at = r.below(3) as u32;
    while left > 0 && tsns.len() < PLACES {
        let t = match r.below(12) {
            0 => point.wrapping_add(r.within(1, 300) as u32),
            1 => point.wrapping_add((1 << 31) - 2 + r.below(4) as u32),
            2 => r.word(),
            _ => {
                at += if run { 1 } else { r.within(1, 3) as u32 };
                point.wrapping_sub(at - 1)
            }
        };
        let d = t.wrapping_sub(point) as usize;
        let has_come = (1..=PLACES).contains(&d) && come[d - 1];
        if !has_come && !tsns.contains(&t) {
            tsns.push(t);
            left -= 1;
        }
    }
}

// ---- Sending

/// A figure in bytes, often one that a rule compares with.
fn figure(r: &mut Random, near: u32) -> u32 {
    let n = match r.below(8) {
        0 => 0,
        1 => PMDCS,
        2 => START,
        3 => TOP,
        4 => near,
        5 => near.saturating_add(r.within(1, 600) as u32),
        6 => near.saturating_sub(r.within(1, 600) as u32),
        _ => r.below(20_000) as u32,
    };
    n.min(TOP)
}

fn chunk(r: &mut Random) -> Chunk {
    Chunk {
        tsn: r.word(),
        order: r.word(),
        stream: stream(r),
        ssn: ssn(r),
        ppid: r.word(),
        len: payload_length(r) as u16,
        begin: r.one_in(2),
        end: r.one_in(2),
        unordered: r.one_in(3),
    }
}

fn sending(r: &mut Random) -> Sending {
    let acked = tsn(r);
    let oldest = tsn(r);
    let sent = match r.below(4) {
        0 => 0,
        1 => r.within(0, 128),
        _ => r.within(1, 12),
    };
    let waiting = if r.one_in(3) { r.within(0, 128 - sent) } else { r.below(6).min(128 - sent) };
    let kinds = r.pick(&[&[FLYING][..], &[FLYING, MARKED], &[FLYING, MARKED, BLOCKED], &[FLYING, FLYING, FLYING, BLOCKED], &[MARKED], &[BLOCKED]]);
    let mut places = [Place::default(); PLACES];
    let mut flight = 0;
    let missed = r.pick(&[1, 3, 4]);
    for (i, &place) in shuffled(r).iter().enumerate() {
        let p = &mut places[place];
        p.misses = r.below(missed) as u8;
        p.chunk = chunk(r);
        if i < sent {
            p.status = r.pick(kinds);
            p.chunk.tsn = acked.wrapping_add(i as u32 + 1);
            flight += if p.status == FLYING { 16 + u32::from(p.chunk.len) } else { 0 };
        } else if i < sent + waiting {
            p.status = WAITING;
            p.chunk.order = oldest.wrapping_add((i - sent) as u32);
        } else if r.one_in(2) {
            *p = Place::default();
        }
    }
    let mut next = [0; STREAMS];
    next.iter_mut().for_each(|n| *n = ssn(r));
    let cwnd = figure(r, flight);
    let path = Path {
        control: Control { cwnd, ssthresh: figure(r, cwnd), partial: figure(r, cwnd) },
        clock: clock(r),
        flight,
        running: u8::from(r.one_in(2)),
        until: acked.wrapping_add(r.pick(&[0, 0, 1 << 31, u32::MAX])).wrapping_add(r.below(12) as u32).wrapping_sub(2),
        tries: r.pick(&[0, 1, 9, 10]),
    };
    let advertised = window(r, &places, oldest);
    let mode = r.pick(&[BOOK_9260, BOOK_4960]);
    Sending { acked, next_tsn: acked.wrapping_add(sent as u32 + 1), advertised, oldest, places, next, path, mode }
}

/// A window, often one that the chunk which waits longest just fits, or just does not.
fn window(r: &mut Random, places: &[Place; PLACES], oldest: u32) -> u32 {
    let flying: u32 = places.iter().filter(|p| p.status == FLYING).map(|p| u32::from(p.chunk.len)).sum();
    let first = places.iter().find(|p| p.status == WAITING && p.chunk.order == oldest).map_or(0, |p| u32::from(p.chunk.len));
    match r.below(3) {
        0 => (flying + first + r.below(3) as u32).saturating_sub(1),
        _ => r.pick(&[0, 1, 511, 512, 1024, 65_536, u32::MAX]),
    }
}

fn clock(r: &mut Random) -> Clock {
    let figures = [0, 1, 999, 5_000, 59_999, RTO_MOST];
    let srtt = if r.one_in(2) { r.below(RTO_MOST as usize) as u32 } else { r.pick(&figures) };
    let rto = if r.one_in(2) { r.within(RTO_LEAST as usize, RTO_MOST as usize) as u32 } else { r.pick(&figures).max(RTO_LEAST) };
    Clock { sampled: u8::from(r.one_in(2)), srtt, rttvar: r.pick(&figures), rto }
}

#[test]
fn born_within_bounds() {
    let mut r = Random::new(1);
    for _ in 0..20_000 {
        assert!(crate::association::is_sound(&record(&mut r)));
    }
}
