//! What the calls of `Association` take and answer.

use std::fmt;
use std::time::Duration;

/// The bytes of an output buffer that suits every call but a take.
pub const OUTPUT: usize = 1472;
/// The bytes of the longest message.
pub const MESSAGE_MOST: usize = 65_536;
/// The bytes of an area, which is also the widest window that a receiver offers.
pub const AREA: usize = 65_536;
/// The streams each way, at most.
pub const STREAMS_MOST: u16 = 128;
/// Of a SACK, one place's worth of window.
pub const PAYLOAD: usize = 512;

/// RFC 9260 section 4.
#[derive(Clone, Copy, Debug, PartialEq, Eq)]
pub enum State {
    /// There is no association.
    Closed,
    /// An INIT was sent.
    CookieWait,
    /// A cookie was echoed.
    CookieEchoed,
    /// Both ends send and take.
    Established,
    /// We shut down when all is acknowledged.
    ShutdownPending,
    /// A SHUTDOWN was sent.
    ShutdownSent,
    /// The peer shuts down; what was handed in still goes out.
    ShutdownReceived,
    /// A SHUTDOWN ACK was sent.
    ShutdownAckSent,
}

impl State {
    /// T1 runs.
    pub fn is_opening(self) -> bool {
        matches!(self, State::CookieWait | State::CookieEchoed)
    }

    /// DATA is sent, SACKs and heartbeats are answered, T3 may run.
    pub fn is_carrying(self) -> bool {
        matches!(self, State::Established | State::ShutdownPending | State::ShutdownReceived)
    }

    /// DATA is read, so SACKs are sent.
    pub fn reads_data(self) -> bool {
        matches!(self, State::Established | State::ShutdownPending | State::ShutdownSent)
    }

    /// T2 runs.
    pub fn is_closing(self) -> bool {
        matches!(self, State::ShutdownSent | State::ShutdownAckSent)
    }
}

/// A number that the core answers in place of doing what was asked.
#[derive(Clone, Copy, Debug, PartialEq, Eq)]
pub struct Refusal(pub u8);

impl Refusal {
    /// Port or tag.
    pub const TAG: Refusal = Refusal(4);
    /// Not for this state.
    pub const STATE: Refusal = Refusal(7);
    /// DATA that has come before.
    pub const DUPLICATE: Refusal = Refusal(11);
    /// Every place is held and no message can be taken.
    pub const WEDGED: Refusal = Refusal(12);
    /// DATA too far ahead.
    pub const FAR: Refusal = Refusal(13);
    /// DATA for a stream that is not agreed.
    pub const STRAY: Refusal = Refusal(14);
    /// No message to take.
    pub const NOTHING: Refusal = Refusal(17);
    /// No room to send.
    pub const FULL: Refusal = Refusal(20);
    /// DATA that contradicts a held chunk.
    pub const CLASHING: Refusal = Refusal(21);
    /// DATA half the circle from the point.
    pub const OPPOSITE: Refusal = Refusal(24);

    /// The number in words.
    pub fn meaning(self) -> &'static str {
        match self.0 {
            1 => "record outside its bounds",
            2 => "packet size",
            3 => "checksum",
            4 => "port or tag",
            5 => "chunk length",
            6 => "bundled where it must stand alone",
            7 => "not for this state",
            8 => "unusable INIT, INIT ACK or cookie length",
            9 => "DATA without payload",
            10 => "payload over 512 bytes",
            11 => "duplicate",
            12 => "wedged",
            13 => "too far ahead",
            14 => "stream not agreed",
            15 => "stale acknowledgement",
            16 => "false acknowledgement",
            17 => "nothing to take",
            18 => "lent buffer too short",
            19 => "message length or stream",
            20 => "no room to send",
            21 => "contradicts a held chunk",
            24 => "opposite to the point",
            27 => "cookie bad or stale",
            _ => "a number that the core does not give",
        }
    }
}

impl fmt::Display for Refusal {
    fn fmt(&self, f: &mut fmt::Formatter) -> fmt::Result {
        write!(f, "{} ({})", self.0, self.meaning())
    }
}

impl std::error::Error for Refusal {}

/// What was asked for, or the number that refuses it.
pub type Answer<T> = Result<T, Refusal>;

/// What the host may know of a record between calls.
#[derive(Clone, Copy, Debug, PartialEq, Eq)]
pub struct Standing {
    /// Where the association is in its life.
    pub state: State,
    /// How long the timers run.
    pub rto: Duration,
    /// The tag that packets to us show.
    pub my_tag: u32,
    /// The streams agreed for sending.
    pub streams_out: u16,
    /// The TSN up to which the peer has all.
    pub acked: u32,
    /// The TSN of the chunk that is sent next for the first time.
    pub next_tsn: u32,
    /// Whether a TSN has come above one that has not.
    pub has_gap: bool,
    /// What a SACK would offer now.
    pub window: u32,
    /// The window that the peer's last SACK offered.
    pub peer_window: u32,
}

impl Standing {
    /// Whether T3 has something to wait for.
    pub fn has_outstanding(&self) -> bool {
        self.acked.wrapping_add(1) != self.next_tsn
    }

    /// Whether what is outstanding is a probe of a window that the peer has shut (RFC 9260 section 6.1 A).
    pub fn is_probing(&self) -> bool {
        self.has_outstanding() && (self.peer_window as usize) < PAYLOAD
    }
}

/// What came and was not taken, for one who looks on.
#[derive(Clone, Debug, Default, PartialEq, Eq)]
pub struct Shelf {
    /// The first TSN that has not come, where one above it has.
    pub missing: Option<u32>,
    /// Of each chunk of a message in its stream's order: the stream, and how many messages of it come before. The same pair stands there for each chunk.
    pub held: Vec<(u16, u16)>,
}

/// What a packet is, before it arrives.
#[derive(Clone, Copy, Debug, PartialEq, Eq)]
pub enum Peeked {
    /// It is not well formed.
    Refused(Refusal),
    /// Its first chunk is nothing that the host has to know of.
    Nothing,
    /// An INIT, for which the host makes a cookie.
    Init(Init),
    /// Where the echoed cookie stands in the packet.
    Echo {
        /// The cookie's first byte in the packet.
        at: usize,
        /// The bytes of the cookie.
        len: usize,
    },
}

/// The fields of an INIT, and the port that it came from.
#[derive(Clone, Copy, Debug, PartialEq, Eq)]
pub struct Init {
    /// The port that the packet came from.
    pub source: u16,
    /// The peer's tag.
    pub tag: u32,
    /// The window that the peer offers.
    pub window: u32,
    /// The streams that the peer wants to send on.
    pub outs: u16,
    /// The streams that the peer takes at most.
    pub ins: u16,
    /// The peer's first TSN.
    pub tsn: u32,
    /// The options that it offers: 0.
    pub options: u8,
}

impl Init {
    /// What an association starts from, if this INIT is answered with such a tag, first TSN and number of streams (RFC 9260 section 5.1.1).
    pub fn agreed(&self, my_tag: u32, my_tsn: u32, streams: u16) -> Made {
        Made {
            my_tag,
            peer_tag: self.tag,
            streams_in: self.outs.min(STREAMS_MOST),
            streams_out: streams.min(STREAMS_MOST).min(self.ins),
            my_tsn,
            peer_tsn: self.tsn,
            window: self.window,
            ..Made::default()
        }
    }
}

/// What the host lends for the INIT ACK that answers an INIT.
#[derive(Clone, Debug, Default, PartialEq, Eq)]
pub struct Lent {
    /// Our tag.
    pub tag: u32,
    /// Our first TSN.
    pub tsn: u32,
    /// The streams wanted for sending.
    pub streams: u16,
    /// What the peer is to echo.
    pub cookie: Vec<u8>,
}

/// What a cookie was made from.
#[derive(Clone, Copy, Debug, Default, PartialEq, Eq)]
pub struct Made {
    /// Our tag.
    pub my_tag: u32,
    /// The peer's tag.
    pub peer_tag: u32,
    /// The streams agreed for receiving.
    pub streams_in: u16,
    /// The streams agreed for sending.
    pub streams_out: u16,
    /// Our first TSN.
    pub my_tsn: u32,
    /// The peer's first TSN.
    pub peer_tsn: u32,
    /// The peer's window.
    pub window: u32,
    /// Our tie-tag, 0 for none.
    pub my_tie: u32,
    /// The peer's tie-tag, 0 for none.
    pub peer_tie: u32,
    /// The options agreed: 0.
    pub options: u8,
}

/// The host's word on an echoed cookie.
#[derive(Clone, Copy, Debug, PartialEq, Eq)]
pub enum Echoed {
    /// Not ours, or changed, or used; or there is none.
    Bad,
    /// Ours, and past its lifetime.
    Stale(Made),
    /// Ours.
    Good(Made),
}

/// What became of a chunk.
#[derive(Clone, Copy, Debug, PartialEq, Eq)]
pub enum Fate {
    /// It was taken in.
    Accepted,
    /// It was refused.
    Refused(Refusal),
    /// Of an unknown type, and left aside.
    Skipped {
        /// Whether the peer is told.
        reported: bool,
    },
    /// Of an unknown type that ends the packet.
    Stopped {
        /// Whether the peer is told.
        reported: bool,
    },
    /// Behind a chunk that ended the packet.
    Unread,
}

/// The call that a verdict names, which is the host's to make.
#[derive(Clone, Copy, Debug, PartialEq, Eq)]
pub enum Named {
    /// None.
    NoCall,
    /// `error_stream`, with this stream.
    ErrorStream(u16),
    /// `error_stale`.
    ErrorStale,
    /// `abort`.
    Abort(Cause),
}

/// Why the host aborts.
#[derive(Clone, Copy, Debug, PartialEq, Eq)]
pub enum Cause {
    /// For reasons of its own.
    User,
    /// DATA with this TSN had no payload.
    NoData(u32),
    /// The peer broke the protocol.
    Violation,
}

/// What a chunk caused.
#[derive(Clone, Copy, Debug, PartialEq, Eq)]
pub enum Turn {
    /// Nothing.
    None,
    /// The association is established.
    Up,
    /// The peer has aborted.
    Aborted,
    /// Our echo came too late for the peer.
    StaleCookie,
    /// The peer's INIT ACK had a host name.
    HostName,
    /// Both ends have shut down.
    ShutDown,
    /// The peer began anew: the record is fresh, and established.
    Restarted,
    /// The peer has another tag.
    Retagged,
}

/// Of one chunk.
#[derive(Clone, Copy, Debug, PartialEq, Eq)]
pub struct Verdict {
    /// Where the chunk begins in the packet.
    pub at: usize,
    /// What became of it.
    pub fate: Fate,
    /// The call that it asks for.
    pub named: Named,
    /// What it caused.
    pub turn: Turn,
}

/// Of a packet that was let in.
#[derive(Clone, Debug, PartialEq, Eq)]
pub struct Arrived {
    /// One for each chunk, in their order.
    pub verdicts: Vec<Verdict>,
    /// The bytes of the reply; 0 for none.
    pub reply: usize,
}

/// A packet of DATA.
#[derive(Clone, Copy, Debug, PartialEq, Eq)]
pub struct Transmitted {
    /// Its bytes; 0 for none.
    pub length: usize,
    /// Whether a chunk in it was sent before, so that its round trip must not be measured.
    pub resent: bool,
    /// The TSN of its first chunk.
    pub first: u32,
    /// The TSN of its last chunk.
    pub last: u32,
}

/// A message that was taken.
#[derive(Clone, Copy, Debug, PartialEq, Eq)]
pub struct Taken {
    /// Its bytes.
    pub length: usize,
    /// The stream that it came on.
    pub stream: u16,
    /// Whether it is out of its stream's order.
    pub unordered: bool,
    /// Its number in its stream, on the circle of 2^16.
    pub ssn: u16,
    /// The number that the peer's host gave it.
    pub ppid: u32,
}

/// Why no message was taken.
#[derive(Clone, Copy, Debug, PartialEq, Eq)]
pub enum NotTaken {
    /// There is none, or the call is refused.
    Refused(Refusal),
    /// The buffer is too short for the message, which has so many bytes.
    Short(usize),
}

/// A SACK.
#[derive(Clone, Copy, Debug, PartialEq, Eq)]
pub struct Acknowledged {
    /// Its packet's bytes.
    pub length: usize,
    /// The window that it offers.
    pub window: u32,
}

/// What came of a timer.
#[derive(Clone, Copy, Debug, PartialEq, Eq)]
pub enum Expired {
    /// So many bytes go out; 0 for none.
    TriedAgain(usize),
    /// The tries are spent: the association is closed.
    Over,
}

#[cfg(test)]
mod tests {
    use super::*;

    #[test]
    fn streams_are_agreed_by_the_smaller_number() {
        let init = Init { source: 5001, tag: 3, window: 2000, outs: 300, ins: 10, tsn: 4, options: 0 };
        let made = init.agreed(1, 2, 200);
        assert_eq!((made.streams_in, made.streams_out), (128, 10));
        let wide = Init { ins: 500, ..init }.agreed(1, 2, 200);
        assert_eq!(wide.streams_out, 128);
    }
}
