//! "Receiving": what has come, what is held, what can be taken, what a SACK says.

use crate::numbers::{ahead, take_key, tsn_distance};
use crate::read::Data;
use crate::record::{Blocks, Held, Keeping, Message, Receiving, Sacked, BLOCKS, LISTED, NO, PAYLOAD, PLACES, STREAMS, YES};

/// "Fresh: point = peer's initial TSN minus 1, all else empty or zero."
pub fn fresh(peer_tsn: u32) -> Receiving {
    Receiving {
        keeping: Keeping { point: peer_tsn.wrapping_sub(1), come: [NO; PLACES], dups: [0; LISTED], listed: 0 },
        held: [Held::default(); PLACES],
        next: [0; STREAMS],
    }
}

fn is_come(k: &Keeping, tsn: u32) -> bool {
    let d = ahead(k.point, tsn) as usize;
    (1..=PLACES).contains(&d) && k.come[d - 1] == YES
}

/// "the number of held chunks whose offset is not marked come"
fn low(r: &Receiving) -> usize {
    r.held.iter().filter(|h| h.used && !is_come(&r.keeping, h.tsn)).count()
}

/// "Bounds for 1 … offset 1 not come; highest offset come plus low at most 128; held TSNs distinct".
pub fn is_sound(r: &Receiving) -> bool {
    if r.keeping.come.iter().any(|&c| c > YES) || r.keeping.come[0] == YES || r.keeping.listed > LISTED {
        return false;
    }
    let mut held = [0u32; PLACES];
    let mut count = 0;
    for h in r.held.iter().filter(|h| h.used) {
        if h.len == 0 || usize::from(h.len) > PAYLOAD || usize::from(h.stream) >= STREAMS {
            return false;
        }
        held[count] = h.tsn;
        count += 1;
    }
    held[..count].sort_unstable();
    if held[..count].windows(2).any(|w| w[0] == w[1]) {
        return false;
    }
    let highest = r.keeping.come.iter().rposition(|&c| c == YES).map_or(0, |i| i + 1);
    highest + low(r) <= PLACES
}

/// The TSN comes; "Then the point moves past every consecutive offset."
fn mark(k: &mut Keeping, tsn: u32) {
    k.come[ahead(k.point, tsn) as usize - 1] = YES;
    let run = k.come.iter().take_while(|&&c| c == YES).count();
    k.come.copy_within(run.., 0);
    k.come[PLACES - run..].fill(NO);
    k.point = k.point.wrapping_add(run as u32);
}

/// The checks behind 7, in 01's order, of a DATA chunk; 0 if it is held. Of 02, T-07: "24, just before 11, record unchanged and no duplicate listed" for
/// the opposite number. T-01: "21, after 14 in the order, record unchanged" for a chunk that contradicts one that is held.
pub fn arrive(r: &mut Receiving, area: &mut [u8], streams_in: u16, c: &Data<'_>) -> u8 {
    if c.payload.is_empty() {
        return 9;
    }
    if c.payload.len() > PAYLOAD {
        return 10;
    }
    let d = match tsn_distance(r.keeping.point, c.tsn) {
        None => return 24,
        Some(d) => d,
    };
    if d <= 0 || is_come(&r.keeping, c.tsn) || r.held.iter().any(|h| h.used && h.tsn == c.tsn) {
        if r.keeping.listed < LISTED {
            r.keeping.dups[r.keeping.listed] = c.tsn;
            r.keeping.listed += 1;
        }
        return 11;
    }
    let low = low(r);
    if low == PLACES && choice(r).is_none() {
        return 12;
    }
    if d > (PLACES - low) as i64 {
        return 13;
    }
    if c.stream >= streams_in || usize::from(c.stream) >= STREAMS {
        mark(&mut r.keeping, c.tsn);
        return 14;
    }
    if contradicts(r, c) {
        return 21;
    }
    let place = r.held.iter().position(|h| !h.used).expect("a chunk that passes the checks finds a place");
    r.held[place] = Held {
        used: true,
        begin: c.begin,
        end: c.end,
        unordered: c.unordered,
        tsn: c.tsn,
        stream: c.stream,
        ssn: c.ssn,
        ppid: c.ppid,
        len: c.payload.len() as u16,
    };
    area[PAYLOAD * place..][..c.payload.len()].copy_from_slice(c.payload);
    mark(&mut r.keeping, c.tsn);
    0
}

/// "the chunk held one TSN before it lacks E and this one has B, or that one has E and this one lacks B; and the same with the chunk held one TSN after."
fn contradicts(r: &Receiving, c: &Data<'_>) -> bool {
    let held_at = |tsn: u32| r.held.iter().find(|h| h.used && h.tsn == tsn);
    let before = held_at(c.tsn.wrapping_sub(1)).map_or(false, |h| h.end != c.begin);
    let after = held_at(c.tsn.wrapping_add(1)).map_or(false, |h| c.end != h.begin);
    before || after
}

/// The places of the message that a take gives, first chunk first.
fn choice(r: &Receiving) -> Option<Vec<usize>> {
    let mut order: Vec<usize> = (0..PLACES).filter(|&i| r.held[i].used).collect();
    order.sort_unstable_by_key(|&i| take_key(r.keeping.point, r.held[i].tsn));
    (0..order.len()).find_map(|from| message(r, &order, from))
}

/// "a run of held chunks with successive TSNs, B on the first only, E on the last only, one stream, one U bit, and, if ordered, one SSN. It can be
/// taken if unordered, or if its SSN is the next expected". In `order`, a circle by TSN, the successor of a TSN stands behind it if it is held.
fn message(r: &Receiving, order: &[usize], from: usize) -> Option<Vec<usize>> {
    let first = &r.held[order[from]];
    if !first.begin || !(first.unordered || first.ssn == r.next[usize::from(first.stream)]) {
        return None;
    }
    let mut run = vec![order[from]];
    let mut last = first;
    for step in 1.. {
        if last.end {
            return Some(run);
        }
        let place = order[(from + step) % order.len()];
        let h = &r.held[place];
        let follows = step < order.len() && h.tsn == last.tsn.wrapping_add(1);
        let belongs = !h.begin && h.stream == first.stream && h.unordered == first.unordered;
        if !follows || !belongs || !(h.unordered || h.ssn == first.ssn) {
            return None;
        }
        run.push(place);
        last = h;
    }
    None
}

/// 17, 18 with the length needed, or 0 and the message.
pub fn take(r: &mut Receiving, area: &[u8], out: &mut [u8]) -> (u8, Message) {
    let run = match choice(r) {
        None => return (17, Message::default()),
        Some(run) => run,
    };
    let length = run.iter().map(|&i| usize::from(r.held[i].len)).sum();
    if out.len() < length {
        return (18, Message { length, ..Message::default() });
    }
    let first = r.held[run[0]];
    let mut at = 0;
    for &i in &run {
        let len = usize::from(r.held[i].len);
        out[at..at + len].copy_from_slice(&area[PAYLOAD * i..][..len]);
        at += len;
        r.held[i] = Held::default();
    }
    if !first.unordered {
        let next = &mut r.next[usize::from(first.stream)];
        *next = next.wrapping_add(1);
    }
    (0, Message { length, stream: first.stream, unordered: first.unordered, ssn: first.ssn, ppid: first.ppid })
}

pub fn no_sack() -> Sacked {
    let blocks = Blocks { count: 0, starts: [0; BLOCKS], ends: [0; BLOCKS] };
    Sacked { point: 0, window: 0, blocks, dups: [0; LISTED], listed: 0 }
}

/// "the point, a window of 512 times the free places, gap blocks …, then the first 16 duplicates …, whose list it empties".
pub fn sack(r: &mut Receiving) -> Sacked {
    let k = &mut r.keeping;
    let mut s = no_sack();
    s.point = k.point;
    s.window = (PAYLOAD * r.held.iter().filter(|h| !h.used).count()) as u32;
    for d in 1..=PLACES {
        let come = |d: usize| (1..=PLACES).contains(&d) && k.come[d - 1] == YES;
        if come(d) && !come(d - 1) {
            s.blocks.starts[s.blocks.count] = d as u16;
        }
        if come(d) && !come(d + 1) {
            s.blocks.ends[s.blocks.count] = d as u16;
            s.blocks.count += 1;
        }
    }
    s.dups = k.dups;
    s.listed = k.listed;
    k.dups = [0; LISTED];
    k.listed = 0;
    s
}
