//! The whole record: what a fresh one is, and its bounds.

use crate::receiving;
use crate::record::*;
use crate::sending;

pub const NO_COOKIE: Cookie = Cookie { bytes: [0; COOKIE_MOST], len: 0 };

/// "A good echo, or our own INIT, starts from a fresh record": all but the mode.
pub fn fresh(state: u8, ends: Ends, my_tsn: u32, window: u32, peer_tsn: u32, mode: u8) -> Association {
    Association { state, tries: 0, ends, cookie: NO_COOKIE, receiving: receiving::fresh(peer_tsn), sending: sending::fresh(my_tsn, window, mode) }
}

/// Both points 0, the next TSN 1; "a mode chosen when the record is made".
pub fn closed(port: u16, mode: u8) -> Association {
    fresh(CLOSED, Ends { local_port: port, ..Ends::default() }, 1, 0, 1, mode)
}

/// There is an association, and an INIT ACK or a cookie has told the peer's tag.
pub fn knows_peer(a: &Association) -> bool {
    a.state != CLOSED && a.state != COOKIE_WAIT
}

/// The state alone moves; its count of tries starts anew.
pub fn move_to(a: &mut Association, state: u8) {
    a.state = state;
    a.tries = 0;
}

/// "Tries: 8 for T1, 10 for T2"; the other states have no count.
pub fn most_tries(state: u8) -> u8 {
    match state {
        COOKIE_WAIT | COOKIE_ECHOED => OPENING_TRIES,
        SHUTDOWN_SENT | SHUTDOWN_ACK_SENT => TRIES,
        _ => 0,
    }
}

/// "128 streams each way at most", and at least one.
pub fn are_streams(n: u16) -> bool {
    (1..=STREAMS).contains(&usize::from(n))
}

/// "128 streams each way at most" holds in every state, and none has an option. A closed record need have no stream, no tag and no port yet.
fn are_ends(a: &Association) -> bool {
    let e = &a.ends;
    if e.options != 0 {
        return false;
    }
    if a.state == CLOSED {
        return usize::from(e.streams_in) <= STREAMS && usize::from(e.streams_out) <= STREAMS;
    }
    let has_ports = e.local_port != 0 && e.peer_port != 0;
    let has_tags = e.my_tag != 0 && (e.peer_tag != 0 || a.state == COOKIE_WAIT);
    has_ports && has_tags && are_streams(e.streams_in) && are_streams(e.streams_out)
}

/// Number 1: "record outside its bounds".
pub fn is_sound(a: &Association) -> bool {
    a.state <= SHUTDOWN_ACK_SENT
        && a.tries <= most_tries(a.state)
        && usize::from(a.cookie.len) <= COOKIE_MOST
        && are_ends(a)
        && (a.state != COOKIE_ECHOED || a.cookie.len > 0)
        && receiving::is_sound(&a.receiving)
        && sending::is_sound(&a.sending)
}
