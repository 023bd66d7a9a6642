//! What an endpoint is set to.

use crate::admission::Network;
use crate::ffi;
use crate::heartbeat;
use crate::silence;
use std::time::Duration;

/// The book that is kept to when sending. The peer need not know: what is read and what is delivered is the same in both.
#[derive(Clone, Copy, Debug, PartialEq, Eq)]
pub enum Book {
    /// RFC 9260: the RTO starts at 1 s.
    Rfc9260,
    /// RFC 4960, as some borrowed rails want it: the RTO starts at 3 s, and the window of congestion goes by a path MTU of 576 bytes.
    Rfc4960,
}

impl Book {
    pub(crate) fn mode(self) -> u8 {
        match self {
            Book::Rfc9260 => ffi::BOOK_9260,
            Book::Rfc4960 => ffi::BOOK_4960,
        }
    }
}

/// What an endpoint, and every association of a hub, is set to.
#[derive(Clone, Debug)]
pub struct Config {
    /// Our SCTP port, inside UDP.
    pub port: u16,
    /// The streams wanted for sending.
    pub streams: u16,
    /// Our first TSN, where it is not to be random.
    pub first_tsn: Option<u32>,
    /// The book that is kept to when sending.
    pub book: Book,
    /// How long an idle path waits for its next heartbeat, to which an RTO is added.
    pub heartbeat: Duration,
    /// So many heartbeats may go unanswered; after one more the association is over.
    pub unanswered: u32,
    /// How long a peer that owes an answer may be silent before that is an event. Beyond it an answer always has an RTO.
    pub quiet: Duration,
    /// Whether INITs are answered. Whoever asks for an association listens no longer, whatever stands here, until told to: see `Endpoint::listen`.
    pub listens: bool,
    /// From where INITs are answered; from everywhere, if nothing is said. There is no other test of who comes: a network that strangers can send into needs one.
    pub admits: Option<Vec<Network>>,
    /// How many associations are taken up in the endpoint's life, asked for by others; any number, if nothing is said. At once it is one.
    pub most: Option<u64>,
}

impl Config {
    /// As RFC 9260 section 16 has it, and listening to everyone.
    pub fn at_port(port: u16) -> Config {
        Config {
            port,
            streams: 8,
            first_tsn: None,
            book: Book::Rfc9260,
            heartbeat: heartbeat::INTERVAL,
            unanswered: heartbeat::UNANSWERED_MOST,
            quiet: silence::QUIET,
            listens: true,
            admits: None,
            most: None,
        }
    }

    /// On a rail's own network, where a peer that is lost should show within seconds: a heartbeat every 2 s, so that silence is an event 5 s after the last
    /// packet, and an association that only listens is over after about 80 s.
    pub fn on_a_rail(port: u16) -> Config {
        Config { heartbeat: Duration::from_secs(2), unanswered: 5, ..Config::at_port(port) }
    }
}
