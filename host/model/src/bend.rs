//! Damage: to a record, which then is mostly outside its bounds, and to a packet.

use crate::checksum;
use crate::random::Random;
use crate::record::*;

/// The greatest length that a place can have: the core keeps it in 12 bits.
const LENGTH_MOST: u16 = 4_095;

/// One field gets a value that it should not have, or just another.
pub fn record(r: &mut Random, a: &mut Association) {
    match r.below(4) {
        0 => head(r, a),
        1 => receiving(r, &mut a.receiving),
        2 => place(r, &mut a.sending),
        _ => sending(r, &mut a.sending),
    }
}

fn near(r: &mut Random, n: u32) -> u32 {
    match r.below(6) {
        0 => n.wrapping_add(1),
        1 => n.wrapping_sub(1),
        2 => n ^ 1 << r.below(32),
        3 => 0,
        4 => u32::MAX,
        _ => r.word(),
    }
}

/// One of the two that it may be, or another byte.
fn flag(r: &mut Random) -> u8 {
    r.pick(&[NO, YES, YES, 2, 255])
}

fn head(r: &mut Random, a: &mut Association) {
    match r.below(11) {
        0 => a.state = r.word() as u8,
        1 => a.state = r.below(9) as u8,
        2 => a.tries = r.pick(&[0, 1, 8, 9, 10, 11, 255]),
        3 => a.ends.my_tag = 0,
        4 => a.ends.peer_tag = 0,
        5 => a.ends.streams_in = r.pick(&[0, 1, 128, 129, 65_535]),
        6 => a.ends.streams_out = r.pick(&[0, 1, 128, 129, 65_535]),
        7 => a.ends.local_port = r.below(2) as u16,
        8 => a.ends.peer_port = r.below(2) as u16,
        9 => a.ends.options = r.pick(&[1, 2, 128, 255]),
        _ => a.cookie.len = r.pick(&[0, 1, 256, 257, 65_535]),
    }
}

fn receiving(r: &mut Random, k: &mut Receiving) {
    let i = r.below(PLACES);
    let j = r.below(PLACES);
    match r.below(11) {
        0 => k.keeping.come[0] = flag(r),
        1 => k.keeping.come[i] = flag(r),
        2 => k.keeping.come[PLACES - 1] = flag(r),
        3 => k.keeping.listed = r.pick(&[0, 1, 16, 17, usize::MAX]),
        4 => k.keeping.point = near(r, k.keeping.point),
        5 => k.held[i].tsn = k.held[j].tsn,
        6 => k.held[i].used = !k.held[i].used,
        7 => k.held[i].len = r.pick(&[0, 1, 512, 513, LENGTH_MOST]),
        8 => k.held[i].stream = r.pick(&[0, 127, 128, 65_535]),
        9 => k.held[i] = k.held[j],
        _ => k.held[i].tsn = near(r, k.held[i].tsn),
    }
}

fn place(r: &mut Random, s: &mut Sending) {
    let i = r.below(PLACES);
    let j = r.below(PLACES);
    match r.below(8) {
        0 => s.places[i].status = r.pick(&[0, 1, 2, 3, 4, 5, 255]),
        1 => s.places[i].misses = r.pick(&[0, 3, 4, 255]),
        2 => s.places[i].chunk.len = r.pick(&[0, 1, 512, 513, LENGTH_MOST]),
        3 => s.places[i].chunk.stream = r.pick(&[0, 127, 128, 65_535]),
        4 => s.places[i].chunk.tsn = near(r, s.places[i].chunk.tsn),
        5 => s.places[i].chunk.order = near(r, s.places[i].chunk.order),
        6 => s.places[i] = s.places[j],
        _ => s.places.swap(i, j),
    }
}

fn sending(r: &mut Random, s: &mut Sending) {
    let p = &mut s.path;
    match r.below(16) {
        0 => s.acked = near(r, s.acked),
        1 => s.next_tsn = near(r, s.next_tsn),
        2 => s.oldest = near(r, s.oldest),
        3 => s.advertised = near(r, s.advertised),
        4 => p.flight = near(r, p.flight),
        5 => p.control.cwnd = r.pick(&[0, 1_048_576, 1_048_577, u32::MAX]),
        6 => p.control.ssthresh = r.pick(&[0, 1_048_576, 1_048_577, u32::MAX]),
        7 => p.control.partial = r.pick(&[0, 1_048_576, 1_048_577, u32::MAX]),
        8 => p.clock.rto = r.pick(&[0, 999, 1_000, 60_000, 60_001, u32::MAX]),
        9 => p.clock.srtt = r.pick(&[0, 60_000, 60_001, u32::MAX]),
        10 => p.clock.rttvar = r.pick(&[0, 60_000, 60_001, u32::MAX]),
        11 => p.tries = r.pick(&[0, 9, 10, 11, 255]),
        12 => p.running = flag(r),
        13 => p.clock.sampled = flag(r),
        14 => s.mode = r.pick(&[0, 1, 2, 255]),
        _ => p.until = near(r, p.until),
    }
}

/// Bits, bytes, lengths or the size; mostly with the right checksum again, so that deeper checks are met.
pub fn packet(r: &mut Random, p: &mut Vec<u8>) {
    match r.below(6) {
        0 if !p.is_empty() => {
            let at = r.below(p.len());
            p[at] ^= 1 << r.below(8);
        }
        1 if p.len() > 16 => {
            let at = r.within(12, p.len() - 1);
            p[at] = r.pick(&[0, 1, 4, 16, 255]);
        }
        // A length field, where chunks begin most often.
        2 if p.len() >= 16 => {
            let at = 12 + 4 * r.below(((p.len() - 12) / 4).min(8));
            p[at + 3] = p[at + 3].wrapping_add(r.pick(&[1, 2, 3, 4, 252, 255]));
        }
        3 => {
            let size = r.below(p.len() + 1);
            p.truncate(if r.one_in(3) { size } else { size / 4 * 4 });
        }
        4 => {
            let more = r.pick(&[1, 3, 4, 4, 8, 400, 1_472]);
            p.resize(p.len() + more, r.pick(&[0, 0, 0xC1]));
        }
        _ => {
            let size = r.pick(&[0, 12, 15, 16, 1_471, 1_472, 1_473, 1_476]);
            p.resize(size, 0);
        }
    }
    if p.len() >= 12 && !r.one_in(5) {
        checksum::seal(p);
    }
}
