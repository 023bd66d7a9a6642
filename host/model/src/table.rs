//! The state table, row by row as the paper gives it, tried on a core: each chunk and each call in each of the eight states, which honest calls reach.

use crate::call::{Buffers, Bytes, Call, Maker, Reply};
use crate::read;
use crate::record::*;
use crate::write;

const MY_TAG: u32 = 7;
const PEER_TAG: u32 = 9;
const FIRST: u32 = 100;

/// What becomes of a chunk: the packet is refused 4, the chunk is refused, or it is accepted with a state, replies and an event.
#[derive(Clone, Copy, Debug, PartialEq)]
enum Cell {
    Tag,
    Not(u8),
    Is(u8, &'static [u8], u8),
    Unknown(u8, &'static [u8]),
}

use Cell::{Is, Not, Tag, Unknown};

const CL: u8 = CLOSED;
const CW: u8 = COOKIE_WAIT;
const CE: u8 = COOKIE_ECHOED;
const ES: u8 = ESTABLISHED;
const SP: u8 = SHUTDOWN_PENDING;
const SS: u8 = SHUTDOWN_SENT;
const SR: u8 = SHUTDOWN_RECEIVED;
const SA: u8 = SHUTDOWN_ACK_SENT;
const STALE: u8 = DOWN_STALE;
const SHUT: u8 = DOWN_SHUT_DOWN;
const N7: Cell = Not(7);
const GONE: Cell = Is(CL, &[], DOWN_ABORT);
const ACKS: Cell = Is(SA, &[8], 0);

/// A name, the chunk, and a cell for each state. In SHUTDOWN-PENDING and SHUTDOWN-RECEIVED one chunk is outstanding, with TSN 100.
#[rustfmt::skip]
fn rows() -> Vec<(&'static str, Vec<u8>, [Cell; 8])> {
    let init = read::Init { tag: PEER_TAG, window: 65_536, outs: 4, ins: 4, tsn: 1 };
    let with_cookie = [write::init_fields(init), write::item(read::STATE_COOKIE, b"cookie")].concat();
    let data = Chunk { tsn: 1, begin: true, end: true, ..Chunk::default() };
    let sack = |point: u32| [&point.to_be_bytes()[..], &65_536u32.to_be_bytes(), &[0; 4]].concat();
    let point = |p: u32| p.to_be_bytes();
    let stop: &[u8] = &[];
    vec![
        ("INIT", write::chunk(read::INIT, 0, &write::init_fields(init)), 
            [Is(CL, &[2], 0), Is(CW, &[2], 0), Is(CE, &[2], 0), Is(ES, &[2], 0), Is(SP, &[2], 0), Is(SS, &[2], 0), Is(SR, &[2], 0), ACKS]),
        ("INIT ACK", write::chunk(read::INIT_ACK, 0, &with_cookie), [Tag, Is(CE, &[10], 0), N7, N7, N7, N7, N7, N7]),
        ("COOKIE ECHO", write::chunk(read::COOKIE_ECHO, 0, b"cookie"),
            [Is(ES, &[11], UP), Is(ES, &[11], UP), Is(ES, &[11], UP), Is(ES, &[11], 0), Is(SP, &[11], 0), Is(SS, &[11], 0), Is(SR, &[11], 0), Is(SA, &[11], 0)]),
        ("COOKIE ACK", write::chunk(read::COOKIE_ACK, 0, &[]), [Tag, N7, Is(ES, &[], UP), N7, N7, N7, N7, N7]),
        ("DATA", write::data(&data, b"tile"), [Tag, N7, N7, Is(ES, &[], 0), Is(SP, &[], 0), Is(SS, &[7], 0), N7, N7]),
        ("SACK of all", write::chunk(read::SACK, 0, &sack(FIRST)), [Tag, N7, N7, Not(16), Is(SS, &[7], 0), N7, ACKS, N7]),
        ("SACK of none", write::chunk(read::SACK, 0, &sack(FIRST - 1)), [Tag, N7, N7, Is(ES, &[], 0), Is(SP, &[], 0), N7, Is(SR, &[], 0), N7]),
        ("SACK behind", write::chunk(read::SACK, 0, &sack(FIRST - 2)), [Tag, N7, N7, Not(15), Not(15), N7, Not(15), N7]),
        ("HEARTBEAT", write::heartbeat([1; 8]), [Tag, N7, Is(CE, &[5], 0), Is(ES, &[5], 0), Is(SP, &[5], 0), N7, Is(SR, &[5], 0), N7]),
        ("HEARTBEAT ACK", write::chunk(read::HEARTBEAT_ACK, 0, &[0, 1, 0, 4]), [Tag, N7, N7, Is(ES, &[], 0), Is(SP, &[], 0), N7, Is(SR, &[], 0), N7]),
        ("ABORT", write::chunk(read::ABORT, 0, &[]), [Tag, GONE, GONE, GONE, GONE, GONE, GONE, GONE]),
        ("ERROR 1", write::caused(read::ERROR, 1, &[0; 4]),
            [Tag, Is(CW, &[], 0), Is(CE, &[], 0), Is(ES, &[], 0), Is(SP, &[], 0), Is(SS, &[], 0), Is(SR, &[], 0), Is(SA, &[], 0)]),
        ("ERROR 3", write::caused(read::ERROR, 3, &[0; 4]),
            [Tag, Is(CW, &[], 0), Is(CL, &[], STALE), Is(ES, &[], 0), Is(SP, &[], 0), Is(SS, &[], 0), Is(SR, &[], 0), Is(SA, &[], 0)]),
        ("SHUTDOWN of all", write::chunk(read::SHUTDOWN, 0, &point(FIRST)), [Tag, N7, N7, Not(16), ACKS, Not(16), ACKS, Not(16)]),
        ("SHUTDOWN of none", write::chunk(read::SHUTDOWN, 0, &point(FIRST - 1)), [Tag, N7, N7, ACKS, Is(SR, &[], 0), ACKS, Is(SR, &[], 0), ACKS]),
        ("SHUTDOWN behind", write::chunk(read::SHUTDOWN, 0, &point(FIRST - 2)), [Tag, N7, N7, ACKS, Is(SR, &[], 0), ACKS, Is(SR, &[], 0), ACKS]),
        ("SHUTDOWN ACK", write::chunk(read::SHUTDOWN_ACK, 0, &[]),
            [Tag, Is(CW, &[14], 0), Is(CE, &[14], 0), N7, N7, Is(CL, &[14], SHUT), N7, Is(CL, &[14], SHUT)]),
        ("SHUTDOWN COMPLETE", write::chunk(read::SHUTDOWN_COMPLETE, 0, &[]), [Tag, N7, N7, N7, N7, N7, N7, Is(CL, &[], SHUT)]),
        ("unknown, 00", write::chunk(0x3F, 0, stop), [Tag, Unknown(4, &[]), Unknown(4, &[]), Unknown(4, &[]), Unknown(4, &[]), Unknown(4, &[]), Unknown(4, &[]), Unknown(4, &[])]),
        ("unknown, 01", write::chunk(0x40, 0, stop), [Tag, Unknown(4, &[]), Unknown(5, &[9]), Unknown(5, &[9]), Unknown(5, &[9]), Unknown(5, &[9]), Unknown(5, &[9]), Unknown(5, &[9])]),
        ("unknown, 10", write::chunk(0x80, 0, stop), [Tag, Unknown(2, &[]), Unknown(2, &[]), Unknown(2, &[]), Unknown(2, &[]), Unknown(2, &[]), Unknown(2, &[]), Unknown(2, &[])]),
        ("unknown, 11", write::chunk(0xC0, 0, stop), [Tag, Unknown(2, &[]), Unknown(3, &[9]), Unknown(3, &[9]), Unknown(3, &[9]), Unknown(3, &[9]), Unknown(3, &[9]), Unknown(3, &[9])]),
    ]
}

/// Tags and ties of a good cookie, and what its echo comes to where there is an association, which has the tags 7 and 9: RFC 9260 section 5.2.4.
#[rustfmt::skip]
fn echoes() -> Vec<([u32; 4], [Cell; 7])> {
    let up = Is(ES, &[11], UP);
    let anew = Is(ES, &[11], RESTARTED);
    let moved = |s: u8| Is(s, &[11], RETAGGED);
    let again = |s: u8| Is(s, &[11], 0);
    let late = |s: u8| Is(s, &[], 0);
    let (x, y) = (MY_TAG + 1, PEER_TAG + 1);
    let all = [N7; 7];
    vec![
        ([x, y, MY_TAG, PEER_TAG], [N7, anew, anew, anew, anew, anew, Is(SA, &[8, 9], 0)]),
        ([MY_TAG, y, 0, 0], [up, up, moved(ES), moved(SP), moved(SS), moved(SR), moved(SA)]),
        ([MY_TAG, y, MY_TAG, PEER_TAG], [up, up, moved(ES), moved(SP), moved(SS), moved(SR), moved(SA)]),
        ([MY_TAG, y, 1, 2], [up, up, moved(ES), moved(SP), moved(SS), moved(SR), moved(SA)]),
        ([x, PEER_TAG, 0, 0], [N7, late(CE), late(ES), late(SP), late(SS), late(SR), late(SA)]),
        ([MY_TAG, PEER_TAG, 0, 0], [up, up, again(ES), again(SP), again(SS), again(SR), again(SA)]),
        ([MY_TAG, PEER_TAG, MY_TAG, PEER_TAG], [up, up, again(ES), again(SP), again(SS), again(SR), again(SA)]),
        ([x, y, 0, 0], all),
        ([x, y, MY_TAG, 0], all),
        ([x, y, 0, PEER_TAG], all),
        ([x, y, MY_TAG, y], all),
        ([x, y, x, PEER_TAG], all),
        ([x, PEER_TAG, MY_TAG, PEER_TAG], all),
        ([x, PEER_TAG, MY_TAG, 0], all),
        ([x, PEER_TAG, 0, PEER_TAG], all),
    ]
}

/// The number, the state that a call leads to, and the chunk that goes out (none: 255).
type Outcome = (u8, u8, u8);

/// A call, and its outcome in each state.
#[rustfmt::skip]
fn calls() -> Vec<(Call, [Outcome; 8])> {
    let out = OUTPUT;
    let no = (7, 255, 255);
    let stays = |s: u8, sent: u8| (0, s, sent);
    vec![
        (Call::Associate { tag: 5, tsn: 5, port: 20, streams: 1, out }, [(0, CW, 1), no, no, no, no, no, no, no]),
        (Call::HandIn { message: Bytes(vec![1]), stream: 0, unordered: 0, ppid: 0, area: AREA }, [no, no, no, stays(ES, 255), no, no, no, no]),
        (Call::Transmit { area: AREA, out }, [no, no, no, stays(ES, 255), stays(SP, 255), no, stays(SR, 255), no]),
        (Call::Take { area: AREA, out: 10 }, [(17, CL, 255), (17, CW, 255), (17, CE, 255), (17, ES, 255), (17, SP, 255), (17, SS, 255), (17, SR, 255), (17, SA, 255)]),
        (Call::Sack { out }, [no, no, no, stays(ES, 3), stays(SP, 3), stays(SS, 3), no, no]),
        (Call::ErrorStream { stream: 3, out }, [no, no, no, stays(ES, 9), stays(SP, 9), stays(SS, 9), no, no]),
        (Call::T1 { out }, [no, stays(CW, 1), stays(CE, 10), no, no, no, no, no]),
        (Call::T2 { out }, [no, no, no, no, no, stays(SS, 7), no, stays(SA, 8)]),
        (Call::T3, [no, no, no, no, stays(SP, 255), no, stays(SR, 255), no]),
        (Call::Shutdown { out }, [no, no, no, (0, SS, 7), no, no, no, no]),
        (Call::Abort { cause: 12, tsn: 0, out }, [no, (0, CL, 255), (0, CL, 6), (0, CL, 6), (0, CL, 6), (0, CL, 6), (0, CL, 6), (0, CL, 6)]),
        (Call::Heartbeat { value: [3; 8], out }, [no, no, no, stays(ES, 4), stays(SP, 4), no, stays(SR, 4), no]),
        (Call::Rtt { sample: 3 }, [no, stays(CW, 255), stays(CE, 255), stays(ES, 255), stays(SP, 255), stays(SS, 255), stays(SR, 255), stays(SA, 255)]),
        (Call::ErrorStale { port: 20, tag: 9, late: 1, out }, 
            [stays(CL, 9), stays(CW, 9), stays(CE, 9), stays(ES, 9), stays(SP, 9), stays(SS, 9), stays(SR, 9), stays(SA, 9)]),
    ]
}

fn packet(tag: u32, chunk: &[u8]) -> Bytes {
    let mut body = chunk.to_vec();
    write::pad(&mut body);
    let mut p = vec![0; 12 + body.len()];
    write::packet(&mut p, 20, 10, tag, &body);
    Bytes(p)
}

fn arriving(tag: u32, chunk: &[u8]) -> Call {
    arriving_with(tag, chunk, [MY_TAG, PEER_TAG, 0, 0])
}

/// With a good word on a cookie that has these tags and ties.
fn arriving_with(tag: u32, chunk: &[u8], [my_tag, peer_tag, my_tie, peer_tie]: [u32; 4]) -> Call {
    let made = Made { my_tag, peer_tag, streams_in: 4, streams_out: 4, my_tsn: FIRST, peer_tsn: 1, window: 65_536, my_tie, peer_tie, options: 0 };
    Call::Arrive {
        packet: packet(tag, chunk),
        lent: Lent { tag: MY_TAG, tsn: FIRST, streams: 4, options: 0 },
        cookie: Bytes(b"cookie".to_vec()),
        echoed: Echoed { word: GOOD, made },
        area: AREA,
        out: OUTPUT,
    }
}

/// The calls that lead from a closed record to a state.
fn way(state: u8) -> Vec<Call> {
    let out = OUTPUT;
    let all = rows();
    let chunk = |name: &str| all.iter().find(|r| r.0 == name).map(|r| r.1.clone()).expect("a row of the table");
    let arrives = |name| arriving(MY_TAG, &chunk(name));
    let mut calls = match state {
        CL => vec![],
        CW | CE => vec![Call::Associate { tag: MY_TAG, tsn: FIRST, port: 20, streams: 4, out }],
        _ => vec![arrives("COOKIE ECHO")],
    };
    if state == SP || state == SR {
        calls.push(Call::HandIn { message: Bytes(vec![1]), stream: 0, unordered: 0, ppid: 0, area: AREA });
        calls.push(Call::Transmit { area: AREA, out });
    }
    match state {
        CE => calls.push(arrives("INIT ACK")),
        SP | SS => calls.push(Call::Shutdown { out }),
        SR | SA => calls.push(arrives("SHUTDOWN of none")),
        _ => {}
    }
    calls
}

fn at(core: &dyn Maker, state: u8) -> Buffers {
    let mut b = Buffers::new(crate::association::closed(10, BOOK_9260));
    core.make(&Call::Closed { port: 10, mode: BOOK_9260 }, &mut b);
    for call in way(state) {
        let reply = core.make(&call, &mut b);
        assert_eq!(reply.number(), 0, "{call:?}");
    }
    assert_eq!(b.a.state, state);
    b
}

/// The types of the chunks of the packet that went out.
fn sent(b: &Buffers, length: usize) -> Vec<u8> {
    read::walk(&b.out[..length]).map(|c| c.kind()).collect()
}

fn is(core: &dyn Maker, state: u8, chunk: &[u8]) -> Cell {
    let tag = if chunk[0] == read::INIT { 0 } else { MY_TAG };
    is_by(core, state, &arriving(tag, chunk))
}

fn is_by(core: &dyn Maker, state: u8, arriving: &Call) -> Cell {
    let mut b = at(core, state);
    let reply = core.make(arriving, &mut b);
    let r = match reply {
        Reply::Arrived(r) if r.number == 0 => r,
        _ => return Tag,
    };
    let v = r.verdicts[0];
    // The cells' lists are constants: name the one that this is.
    let replies: &'static [u8] = match sent(&b, r.length)[..] {
        [] => &[],
        [2] => &[2],
        [5] => &[5],
        [7] => &[7],
        [8] => &[8],
        [9] => &[9],
        [10] => &[10],
        [11] => &[11],
        [14] => &[14],
        [8, 9] => &[8, 9],
        _ => &[255],
    };
    match v.fate {
        REFUSED => Not(v.number),
        ACCEPTED => Is(b.a.state, replies, v.event),
        fate => Unknown(fate, replies),
    }
}

/// Every cell that is not as the paper has it.
pub fn faults(core: &dyn Maker) -> Vec<String> {
    let mut faults = Vec::new();
    for (name, chunk, cells) in rows() {
        for (state, cell) in cells.iter().enumerate() {
            let found = is(core, state as u8, &chunk);
            if found != *cell {
                faults.push(format!("{name} in state {state}: {found:?}, and not {cell:?}"));
            }
        }
    }
    for (tags, cells) in echoes() {
        for (state, cell) in (CW..).zip(cells) {
            let found = is_by(core, state, &arriving_with(tags[0], &write::chunk(read::COOKIE_ECHO, 0, b"cookie"), tags));
            if found != cell {
                faults.push(format!("COOKIE ECHO with {tags:?} in state {state}: {found:?}, and not {cell:?}"));
            }
        }
    }
    for (call, cells) in calls() {
        for (state, &(number, to, chunk)) in cells.iter().enumerate() {
            let mut b = at(core, state as u8);
            let reply = core.make(&call, &mut b);
            let went = sent(&b, reply.length()).first().copied().unwrap_or(255);
            let to = if number == 7 { state as u8 } else { to };
            if (reply.number(), b.a.state, went) != (number, to, chunk) {
                faults.push(format!("{call:?} in state {state}: {} to {} with {went}", reply.number(), b.a.state));
            }
        }
    }
    faults
}
