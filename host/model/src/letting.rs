//! What lets a packet in: the order of its checks, and the ports and the tag that it must carry.

use crate::association::{self, are_streams, knows_peer};
use crate::read;
use crate::record::*;

/// A good word on values that no association can start from counts as bad, and so does a word that there is not. "If both Verification Tags in the
/// State Cookie match the Verification Tags of the current association, consider the State Cookie valid … even if the lifespan is exceeded" (section
/// 5.2.4, 3).
pub fn heeded(a: &Association, mut e: Echoed) -> Echoed {
    let m = &e.made;
    let is_agreed = are_streams(m.streams_in) && are_streams(m.streams_out) && m.options == 0;
    let is_made = m.my_tag != 0 && m.peer_tag != 0 && is_agreed && m.window >= WINDOW_LEAST;
    if e.word > GOOD || (e.word == GOOD && !is_made) {
        e.word = BAD;
    }
    let both_match = knows_peer(a) && m.my_tag == a.ends.my_tag && m.peer_tag == a.ends.peer_tag;
    if e.word == LATE && is_made && both_match {
        e.word = GOOD;
    }
    e
}

/// "a COOKIE ECHO … the cookie's, if good": in every state, since a peer that began anew has the tag that it was given then.
fn is_of_cookie(tag: u32, e: &Echoed) -> bool {
    e.word != GOOD || tag == e.made.my_tag
}

/// "4 port or tag"; "The first chunk settles which tag rule holds."
pub fn is_addressed(a: &Association, packet: &[u8], e: &Echoed) -> bool {
    let h = read::header(packet);
    let (kind, t) = (packet[12], packet[13] & 1 == 1);
    // Section 3.1 forbids port 0: a record keeps the port that it was given, and every packet to port 0 is 4.
    if h.destination != a.ends.local_port || h.destination == 0 {
        return false;
    }
    if a.state == CLOSED {
        return h.source != 0
            && match kind {
                read::INIT => h.tag == 0,
                read::COOKIE_ECHO => is_of_cookie(h.tag, e),
                _ => false,
            };
    }
    h.source == a.ends.peer_port
        && match kind {
            read::INIT => h.tag == 0,
            read::COOKIE_ECHO => is_of_cookie(h.tag, e),
            read::ABORT | read::SHUTDOWN_COMPLETE if t => a.state != COOKIE_WAIT && h.tag == a.ends.peer_tag,
            _ => h.tag == a.ends.my_tag,
        }
}

/// What comes out of the blue and contains an ABORT is discarded "and take no further action" (section 8.4, rule 2), whatever else it contains.
fn is_let_in(a: &Association, packet: &[u8], e: &Echoed) -> bool {
    is_addressed(a, packet, e) && !(a.state == CLOSED && read::has_abort(packet))
}

/// Order: 1, 18, 2, 3, 4, 5, 6.
pub fn check(a: &Association, area: &[u8], packet: &[u8], e: &Echoed, out: &[u8]) -> u8 {
    if !association::is_sound(a) {
        return 1;
    }
    if area.len() < AREA || out.len() < OUTPUT {
        return 18;
    }
    match read::check_whole(packet) {
        0 if is_let_in(a, packet, e) => read::check_shape(packet),
        0 => 4,
        number => number,
    }
}
