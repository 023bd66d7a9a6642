//! RFC 9260 section 5.2.4, table 12: what a COOKIE ECHO means where there is an association already.

use crate::association::knows_peer;
use crate::record::{Association, Made};

#[derive(Clone, Copy, Debug, PartialEq, Eq)]
pub enum Action {
    /// The peer has restarted.
    A,
    /// Both ends opened at once, and the peer took another tag.
    B,
    /// Our own cookie came late.
    C,
    /// The echo again.
    D,
}

/// The legend below the table.
#[derive(Clone, Copy, PartialEq, Eq)]
enum Is {
    /// It does not match that of the association.
    X,
    /// It matches.
    M,
    /// It is not known: the peer's tag not yet, or no tie in the cookie.
    Zero,
}

use Is::{Zero, M, X};

/// A field of a row: one of the three, or "All cases".
type Field = Option<Is>;

/// Local tag, peer's tag, local tie, peer's tie, and the action.
const TABLE_12: [([Field; 4], Action); 5] = [
    ([Some(X), Some(X), Some(M), Some(M)], Action::A),
    ([Some(M), Some(X), None, None], Action::B),
    ([Some(M), Some(Zero), None, None], Action::B),
    ([Some(X), Some(M), Some(Zero), Some(Zero)], Action::C),
    ([Some(M), Some(M), None, None], Action::D),
];

fn matched(tag: u32, ours: u32) -> Is {
    if tag == ours {
        M
    } else {
        X
    }
}

fn tied(tie: u32, ours: u32) -> Is {
    if tie == 0 {
        Zero
    } else {
        matched(tie, ours)
    }
}

/// None: "For any case not shown in Table 12".
pub fn action(a: &Association, m: &Made) -> Option<Action> {
    let peer = if knows_peer(a) { matched(m.peer_tag, a.ends.peer_tag) } else { Zero };
    // The ties match the tags of the association, so where the peer's is not known no tie matches it.
    let peer_tie = if knows_peer(a) || m.peer_tie == 0 { tied(m.peer_tie, a.ends.peer_tag) } else { X };
    let found = [matched(m.my_tag, a.ends.my_tag), peer, tied(m.my_tie, a.ends.my_tag), peer_tie];
    let fits = |row: &[Field; 4]| row.iter().zip(found).all(|(field, is)| field.map_or(true, |f| f == is));
    TABLE_12.iter().find(|(row, _)| fits(row)).map(|(_, action)| *action)
}
