//! "Sending": places, cutting, what goes into a packet, what a SACK does, T3.

use crate::numbers::{ahead, tsn_distance};
use crate::path::{self, News};
use crate::read::padded;
use crate::record::{
    Chunk, Place, Sending, BLOCKED, BOOK_4960, FLYING, FREE, MARKED, MESSAGE_MOST, NO, PAYLOAD, PLACES, SENT_MOST, STREAMS, WAITING, YES,
};
use crate::write;

pub fn fresh(tsn: u32, window: u32, mode: u8) -> Sending {
    Sending {
        acked: tsn.wrapping_sub(1),
        next_tsn: tsn,
        advertised: window,
        oldest: 0,
        places: [Place::default(); PLACES],
        next: [0; STREAMS],
        path: path::fresh(mode),
        mode,
    }
}

/// "A chunk counts 16 plus payload for congestion".
fn weight(p: &Place) -> u32 {
    16 + u32::from(p.chunk.len)
}

fn is_sent(p: &Place) -> bool {
    matches!(p.status, FLYING | MARKED | BLOCKED)
}

/// "Outstanding: sent, not acknowledged, marked or not."
fn is_outstanding(p: &Place) -> bool {
    matches!(p.status, FLYING | MARKED)
}

/// "the sum over chunks sent, not acknowledged and not marked for resending"
fn flight(s: &Sending) -> u32 {
    s.places.iter().filter(|p| p.status == FLYING).map(weight).sum()
}

fn waiting(s: &Sending) -> usize {
    s.places.iter().filter(|p| p.status == WAITING).count()
}

pub fn has_outstanding(s: &Sending) -> bool {
    s.places.iter().any(is_outstanding)
}

/// No chunk waits, is outstanding or is acknowledged by a block alone.
pub fn is_empty(s: &Sending) -> bool {
    s.places.iter().all(|p| p.status == FREE)
}

/// How many TSNs above our point were sent.
fn sent(s: &Sending) -> i64 {
    ahead(s.acked, s.next_tsn) - 1
}

// ---- Bounds

/// "every limit above; … flight equal to its sum; sent TSNs successive", and what waits has successive orders. "1 covers a record whose mode is unknown".
pub fn is_sound(s: &Sending) -> bool {
    if s.mode > BOOK_4960 || !path::is_sound(&s.path) || ahead(s.acked, s.next_tsn) < 1 {
        return false;
    }
    let (mut flight, mut gone, mut wait) = (0, 0, 0);
    let mut tsns = [false; PLACES];
    let mut turns = [false; PLACES];
    for p in &s.places {
        if p.status > BLOCKED || p.misses > 3 {
            return false;
        }
        if p.status == FREE {
            continue;
        }
        if p.chunk.len == 0 || usize::from(p.chunk.len) > PAYLOAD || usize::from(p.chunk.stream) >= STREAMS {
            return false;
        }
        if p.status == FLYING {
            flight += weight(p);
        }
        let (seen, count, turn) = if p.status == WAITING {
            (&mut turns, &mut wait, i64::from(p.chunk.order.wrapping_sub(s.oldest)))
        } else {
            (&mut tsns, &mut gone, ahead(s.acked, p.chunk.tsn) - 1)
        };
        if !(0..PLACES as i64).contains(&turn) || seen[turn as usize] {
            return false;
        }
        seen[turn as usize] = true;
        *count += 1;
    }
    flight == s.path.flight && gone as i64 == sent(s) && tsns[..gone].iter().all(|&t| t) && turns[..wait].iter().all(|&t| t)
}

// ---- A message is handed in

/// 19, 20, or 0 and into how many chunks it was cut.
pub fn hand_in(s: &mut Sending, area: &mut [u8], message: &[u8], stream: u16, streams: u16, unordered: bool, ppid: u32) -> (u8, usize) {
    if message.is_empty() || message.len() > MESSAGE_MOST || stream >= streams || usize::from(stream) >= STREAMS {
        return (19, 0);
    }
    let chunks = (message.len() + PAYLOAD - 1) / PAYLOAD;
    let free: Vec<usize> = (0..PLACES).filter(|&i| s.places[i].status == FREE).take(chunks).collect();
    if free.len() < chunks {
        return (20, 0);
    }
    let turn = s.oldest.wrapping_add(waiting(s) as u32);
    for (k, part) in message.chunks(PAYLOAD).enumerate() {
        area[PAYLOAD * free[k]..][..part.len()].copy_from_slice(part);
        s.places[free[k]] = Place {
            status: WAITING,
            misses: 0,
            chunk: Chunk {
                tsn: 0,
                order: turn.wrapping_add(k as u32),
                stream,
                ssn: 0,
                ppid,
                len: part.len() as u16,
                begin: k == 0,
                end: k + 1 == chunks,
                unordered,
            },
        };
    }
    (0, chunks)
}

// ---- One packet of DATA chunks

/// "Send marked ones first, lowest TSN first, then new".
fn candidate(s: &Sending) -> Option<usize> {
    let of = |status| move |&i: &usize| s.places[i].status == status;
    let marked = (0..PLACES).filter(of(MARKED)).min_by_key(|&i| ahead(s.acked, s.places[i].chunk.tsn));
    marked.or_else(|| (0..PLACES).filter(of(WAITING)).min_by_key(|&i| s.places[i].chunk.order.wrapping_sub(s.oldest)))
}

/// The chunk goes out: a new one gets its TSN and SSN; the SSN rises behind the last chunk of an ordered message.
fn send(s: &mut Sending, i: usize) {
    let p = &mut s.places[i];
    if p.status == WAITING {
        p.chunk.tsn = s.next_tsn;
        s.next_tsn = s.next_tsn.wrapping_add(1);
        s.oldest = s.oldest.wrapping_add(1);
        p.chunk.ssn = 0;
        if !p.chunk.unordered {
            let next = &mut s.next[usize::from(p.chunk.stream)];
            p.chunk.ssn = *next;
            if p.chunk.end {
                *next = next.wrapping_add(1);
            }
        }
    }
    p.status = FLYING;
    s.path.flight += weight(p);
}

/// What went into a packet: the chunks' bytes, whether one of them went before, the first and the last TSN.
pub struct Filled {
    pub body: Vec<u8>,
    pub resent: bool,
    pub first: u32,
    pub last: u32,
}

/// "One call fills one packet": it stops at the first candidate that fails.
pub fn transmit(s: &mut Sending, area: &[u8]) -> Filled {
    let mut f = Filled { body: Vec::new(), resent: false, first: 0, last: 0 };
    while let Some(i) = candidate(s) {
        let p = s.places[i];
        let len = u32::from(p.chunk.len);
        let payload: u32 = s.places.iter().filter(|p| p.status == FLYING).map(|p| u32::from(p.chunk.len)).sum();
        let in_window = s.path.flight == 0 || len <= s.advertised.saturating_sub(payload);
        let fits = 12 + f.body.len() + padded(16 + len as usize) <= SENT_MOST;
        if s.path.flight >= s.path.control.cwnd || !fits || !(p.status == MARKED || in_window) {
            break;
        }
        f.resent |= p.status == MARKED;
        send(s, i);
        let chunk = s.places[i].chunk;
        if f.body.is_empty() {
            f.first = chunk.tsn;
        }
        f.last = chunk.tsn;
        f.body.extend_from_slice(&write::data(&chunk, &area[PAYLOAD * i..][..len as usize]));
        write::pad(&mut f.body);
    }
    f
}

// ---- A SACK, or a SHUTDOWN's point

/// "first judge it": 15, 16, or how far its point is ahead of ours.
fn judge(s: &Sending, point: u32, blocks: &[(u16, u16)]) -> Result<i64, u8> {
    let d = match tsn_distance(s.acked, point) {
        None => return Err(16),
        Some(d) if d < 0 => return Err(15),
        Some(d) => d,
    };
    if d > sent(s) {
        return Err(16);
    }
    let mut before = 0;
    for &(start, end) in blocks {
        let (start, end) = (i64::from(start), i64::from(end));
        if start < 2 || end < start || start <= before + 1 || d + end > sent(s) {
            return Err(16);
        }
        before = end;
    }
    Ok(d)
}

/// A SACK, with its window and blocks; or a SHUTDOWN's point, which has neither and keeps the window and the marks of blocks. 0, 15 or 16.
pub fn acknowledge(s: &mut Sending, point: u32, told: Option<(u32, &[(u16, u16)])>) -> u8 {
    let blocks = told.map_or(&[][..], |t| t.1);
    let d = match judge(s, point, blocks) {
        Err(number) => return number,
        Ok(d) => d,
    };
    let mut in_block = [false; PLACES + 1];
    for &(start, end) in blocks {
        in_block[usize::from(start)..=usize::from(end)].fill(true);
    }
    let running = s.path.running == YES;
    let mut news = News { flight: s.path.flight, moved: d > 0, newly: 0 };
    // Offsets from the SACK's point; one at or below it has none.
    let mut highest = 0;
    for p in s.places.iter_mut().filter(|p| is_sent(p)) {
        let offset = tsn_distance(point, p.chunk.tsn).unwrap_or(0);
        let was = is_outstanding(p);
        if offset <= 0 {
            p.status = FREE;
        } else if in_block[offset as usize] {
            p.status = BLOCKED;
        } else if p.status == BLOCKED && told.is_some() {
            p.status = FLYING;
        }
        if was && !is_outstanding(p) {
            news.newly += weight(p);
            highest = highest.max(offset);
        }
    }
    s.acked = point;
    if let Some((window, _)) = told {
        s.advertised = window;
    }
    path::grow(&mut s.path, s.mode, &news);
    let limit = if running && news.moved { blocks.last().map_or(0, |b| i64::from(b.1)) } else { highest };
    if miss(s, limit) && s.path.running == NO {
        let last = s.places.iter().filter(|p| is_outstanding(p)).map(|p| ahead(point, p.chunk.tsn)).max();
        path::strike(&mut s.path, s.mode, point.wrapping_add(last.unwrap_or(0) as u32));
    }
    s.path.flight = flight(s);
    if !has_outstanding(s) {
        s.path.control.partial = 0;
    }
    // A peer that tells of its closed window is alive: a probe that it leaves unacknowledged counts for nothing (section 6.1 A).
    let is_closed = told.map_or(false, |t| (t.0 as usize) < PAYLOAD);
    if news.newly > 0 || is_closed {
        s.path.tries = 0;
    }
    path::end_recovery(&mut s.path, point);
    0
}

/// "an unacknowledged chunk below the highest newly acknowledged TSN gets one; … At three it is marked, once until T3". Whether one was marked.
fn miss(s: &mut Sending, limit: i64) -> bool {
    let point = s.acked;
    let mut struck = false;
    for p in s.places.iter_mut().filter(|p| is_outstanding(p)) {
        if ahead(point, p.chunk.tsn) < limit && p.misses < 3 {
            p.misses += 1;
            if p.misses == 3 {
                p.status = MARKED;
                struck = true;
            }
        }
    }
    struck
}

/// "all outstanding marked, misses 0".
pub fn expire(s: &mut Sending) {
    path::expire(&mut s.path, s.mode);
    for p in s.places.iter_mut() {
        p.misses = 0;
        if is_outstanding(p) {
            p.status = MARKED;
        }
    }
    s.path.flight = 0;
}
