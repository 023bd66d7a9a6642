//! What an endpoint tells of its association.

use crate::calls::Cause;
use std::fmt;
use std::time::Duration;

/// What happened.
#[derive(Clone, Copy, Debug, PartialEq, Eq)]
pub enum Event {
    /// The association is established.
    Up,
    /// It is over.
    Down(Why),
    /// The peer owes an answer and has not been heard for so long. The association is still up, or still asked for.
    Quiet(Duration),
    /// A peer that was quiet is heard again.
    Heard,
    /// The peer began anew, having lost all that it knew: the association is up, and fresh. So many messages of its old life were not taken, and are gone.
    Restarted(usize),
}

/// Why an association is over.
#[derive(Clone, Copy, Debug, PartialEq, Eq)]
pub enum Why {
    /// Both ends have shut down, and all was delivered.
    ShutDown,
    /// The peer has aborted it.
    PeerAborted,
    /// This end has aborted it.
    WeAborted(Cause),
    /// The cookie came back to the peer too late.
    StaleCookie,
    /// The peer wants a host name resolved, which nobody does.
    HostName,
    /// The peer does not answer.
    NoAnswer,
    /// Another association with the same peer has taken its place.
    BeganAnew,
}

impl fmt::Display for Why {
    fn fmt(&self, f: &mut fmt::Formatter) -> fmt::Result {
        match self {
            Why::ShutDown => write!(f, "shut down by both ends"),
            Why::PeerAborted => write!(f, "aborted by the peer"),
            Why::WeAborted(Cause::User) => write!(f, "aborted by this end"),
            Why::WeAborted(Cause::NoData(tsn)) => write!(f, "aborted: DATA {} had no payload", tsn),
            Why::WeAborted(Cause::Violation) => write!(f, "aborted: the peer broke the protocol"),
            Why::StaleCookie => write!(f, "the cookie came back too late"),
            Why::HostName => write!(f, "the peer wants a host name resolved"),
            Why::NoAnswer => write!(f, "the peer does not answer"),
            Why::BeganAnew => write!(f, "the peer has begun anew"),
        }
    }
}
