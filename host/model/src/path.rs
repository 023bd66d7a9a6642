//! Congestion and round trips: the numbers of the one path.

use crate::numbers::tsn_distance;
use crate::record::{Clock, Control, Path, BOOK_4960, NO, TRIES, YES};

pub const PMDCS: u32 = 528;
/// "the path MTU, set to 576 here".
pub const MTU: u32 = 576;
pub const START: u32 = 2_112;
pub const TOP: u32 = 1_048_576;
pub const RTO_LEAST: u32 = 1_000;
pub const RTO_MOST: u32 = 60_000;

/// What the sizes are reckoned from.
fn unit(mode: u8) -> u32 {
    match mode {
        BOOK_4960 => MTU,
        _ => PMDCS,
    }
}

/// RFC 4960, section 7.2.3: "max(cwnd/2, 4*MTU)"; "max(cwnd/2 rounded down, 2,112)", which is four PMDCS.
fn half(cwnd: u32, mode: u8) -> u32 {
    (cwnd / 2).max(4 * unit(mode))
}

/// RFC 4960, sections 7.2.1 and 15: "min (4*MTU, max (2*MTU, 4380 bytes))", "RTO.Initial - 3 seconds".
pub fn fresh(mode: u8) -> Path {
    let (cwnd, rto) = match mode {
        BOOK_4960 => ((4 * MTU).min(4_380.max(2 * MTU)), 3_000),
        _ => (START, RTO_LEAST),
    };
    Path {
        control: Control { cwnd, ssthresh: TOP, partial: 0 },
        clock: Clock { sampled: NO, srtt: 0, rttvar: 0, rto },
        flight: 0,
        running: NO,
        until: 0,
        tries: 0,
    }
}

pub fn is_sound(p: &Path) -> bool {
    p.running <= YES
        && p.clock.sampled <= YES
        && p.control.cwnd <= TOP
        && p.control.ssthresh <= TOP
        && p.control.partial <= TOP
        && p.clock.srtt <= RTO_MOST
        && p.clock.rttvar <= RTO_MOST
        && (RTO_LEAST..=RTO_MOST).contains(&p.clock.rto)
        && p.tries <= TRIES
}

/// A sample of R milliseconds.
pub fn sample(c: &mut Clock, r: u32) {
    let r = r.min(RTO_MOST);
    if c.sampled == YES {
        let off = c.srtt.abs_diff(r);
        c.rttvar = (3 * c.rttvar + off) / 4;
        c.srtt = (7 * c.srtt + r) / 8;
    } else {
        c.sampled = YES;
        c.srtt = r;
        c.rttvar = r / 2;
    }
    c.rttvar = c.rttvar.max(1);
    c.rto = (c.srtt + 4 * c.rttvar).clamp(RTO_LEAST, RTO_MOST);
}

pub fn double(c: &mut Clock) {
    c.rto = (2 * c.rto).min(RTO_MOST);
}

/// What flight was before a SACK, whether its point moved, and the bytes that it newly acknowledged.
pub struct News {
    pub flight: u32,
    pub moved: bool,
    pub newly: u32,
}

/// "If cwnd was at or below ssthresh, … If cwnd was above ssthresh: …"
pub fn grow(p: &mut Path, mode: u8, n: &News) {
    let c = &mut p.control;
    if c.cwnd <= c.ssthresh {
        if n.flight >= c.cwnd && n.moved && p.running == NO {
            c.cwnd = (c.cwnd + n.newly.min(unit(mode))).min(TOP);
        }
        return;
    }
    if mode == BOOK_4960 {
        return avoid(c, n);
    }
    c.partial = (c.partial + n.newly).min(TOP);
    if n.flight < c.cwnd {
        c.partial = c.partial.min(c.cwnd);
    } else if c.partial >= c.cwnd {
        c.partial -= c.cwnd;
        c.cwnd = (c.cwnd + PMDCS).min(TOP);
    }
}

/// RFC 4960, section 7.2.2: "upon each SACK arrival that advances the Cumulative TSN Ack Point, increase partial_bytes_acked …. When partial_bytes_acked is
/// equal to or greater than cwnd and before the arrival of the SACK the sender had cwnd or more bytes of data outstanding …, increase cwnd by MTU, and reset
/// partial_bytes_acked to (partial_bytes_acked - cwnd)": the cwnd before.
fn avoid(c: &mut Control, n: &News) {
    if !n.moved {
        return;
    }
    c.partial = (c.partial + n.newly).min(TOP);
    if c.partial >= c.cwnd && n.flight >= c.cwnd {
        c.partial -= c.cwnd;
        c.cwnd = (c.cwnd + MTU).min(TOP);
    }
}

/// "ssthresh = max(cwnd/2 rounded down, 2,112), cwnd = ssthresh, partial bytes 0"; fast recovery runs until the point reaches the last TSN.
pub fn strike(p: &mut Path, mode: u8, last: u32) {
    let ssthresh = half(p.control.cwnd, mode);
    p.control = Control { cwnd: ssthresh, ssthresh, partial: 0 };
    p.running = YES;
    p.until = last;
}

/// "recovery ends, as a SACK's last step, when the point reaches": at it or ahead of it, never opposite.
pub fn end_recovery(p: &mut Path, point: u32) {
    if p.running == YES && tsn_distance(p.until, point).map_or(false, |d| d >= 0) {
        p.running = NO;
    }
}

/// "T3: same ssthresh, cwnd 528, partial bytes 0, … RTO doubled", and one try more. RFC 4960, section 7.2.3: "cwnd = 1*MTU", and nothing of
/// partial_bytes_acked.
pub fn expire(p: &mut Path, mode: u8) {
    p.control.ssthresh = half(p.control.cwnd, mode);
    p.control.cwnd = unit(mode);
    if mode != BOOK_4960 {
        p.control.partial = 0;
    }
    double(&mut p.clock);
    p.tries += 1;
}
