//! A call as a value, so that it can be made of two implementations, and printed.

use std::fmt;
use std::ops::Deref;

use crate::core::Core;
use crate::record::*;

/// Bytes that print as hexadecimal.
#[derive(Clone, Default, PartialEq, Eq)]
pub struct Bytes(pub Vec<u8>);

impl Deref for Bytes {
    type Target = [u8];

    fn deref(&self) -> &[u8] {
        &self.0
    }
}

impl fmt::Debug for Bytes {
    fn fmt(&self, f: &mut fmt::Formatter<'_>) -> fmt::Result {
        write!(f, "{} bytes ", self.0.len())?;
        self.0.iter().try_for_each(|b| write!(f, "{b:02x}"))
    }
}

/// `out` and `area` are how many bytes of the buffers are lent.
#[derive(Clone, Debug)]
pub enum Call {
    /// `closed`.
    Closed {
        /// Our port.
        port: u16,
        /// The book.
        mode: u8,
    },
    /// `peek`.
    Peek {
        /// The packet.
        packet: Bytes,
    },
    /// `arrive`.
    Arrive {
        /// The packet.
        packet: Bytes,
        /// For the INIT ACK.
        lent: Lent,
        /// For the INIT ACK.
        cookie: Bytes,
        /// The host's word on an echoed cookie.
        echoed: Echoed,
        /// Bytes of the area that are lent.
        area: usize,
        /// Bytes of the output that are lent.
        out: usize,
    },
    /// `associate`.
    Associate {
        /// Our tag.
        tag: u32,
        /// Our first TSN.
        tsn: u32,
        /// The peer's port.
        port: u16,
        /// The streams wanted for sending.
        streams: u16,
        /// Bytes of the output that are lent.
        out: usize,
    },
    /// `hand_in`.
    HandIn {
        /// Its bytes.
        message: Bytes,
        /// Its stream.
        stream: u16,
        /// 0 for one in its stream's order.
        unordered: u8,
        /// The number that goes with it.
        ppid: u32,
        /// Bytes of the area that are lent.
        area: usize,
    },
    /// `transmit`.
    Transmit {
        /// Bytes of the area that are lent.
        area: usize,
        /// Bytes of the output that are lent.
        out: usize,
    },
    /// `take`.
    Take {
        /// Bytes of the area that are lent.
        area: usize,
        /// Bytes of the output that are lent.
        out: usize,
    },
    /// `sack`.
    Sack {
        /// Bytes of the output that are lent.
        out: usize,
    },
    /// `t1`.
    T1 {
        /// Bytes of the output that are lent.
        out: usize,
    },
    /// `t2`.
    T2 {
        /// Bytes of the output that are lent.
        out: usize,
    },
    /// `t3`.
    T3,
    /// `rtt`.
    Rtt {
        /// Milliseconds.
        sample: u32,
    },
    /// `shutdown`.
    Shutdown {
        /// Bytes of the output that are lent.
        out: usize,
    },
    /// `abort`.
    Abort {
        /// Its cause.
        cause: u8,
        /// The TSN that goes with the cause.
        tsn: u32,
        /// Bytes of the output that are lent.
        out: usize,
    },
    /// `error_stream`.
    ErrorStream {
        /// The stream.
        stream: u16,
        /// Bytes of the output that are lent.
        out: usize,
    },
    /// `error_stale`.
    ErrorStale {
        /// The peer's port.
        port: u16,
        /// The peer's tag.
        tag: u32,
        /// Microseconds.
        late: u32,
        /// Bytes of the output that are lent.
        out: usize,
    },
    /// `heartbeat`.
    Heartbeat {
        /// What the answer is to bring back.
        value: [u8; 8],
        /// Bytes of the output that are lent.
        out: usize,
    },
}

/// The calls' names.
pub const KINDS: [&str; 17] = [
    "closed",
    "peek",
    "arrive",
    "associate",
    "hand_in",
    "transmit",
    "take",
    "sack",
    "t1",
    "t2",
    "t3",
    "rtt",
    "shutdown",
    "abort",
    "error_stream",
    "error_stale",
    "heartbeat",
];

impl Call {
    /// Where the call stands in `KINDS`.
    pub fn kind(&self) -> usize {
        match self {
            Call::Closed { .. } => 0,
            Call::Peek { .. } => 1,
            Call::Arrive { .. } => 2,
            Call::Associate { .. } => 3,
            Call::HandIn { .. } => 4,
            Call::Transmit { .. } => 5,
            Call::Take { .. } => 6,
            Call::Sack { .. } => 7,
            Call::T1 { .. } => 8,
            Call::T2 { .. } => 9,
            Call::T3 => 10,
            Call::Rtt { .. } => 11,
            Call::Shutdown { .. } => 12,
            Call::Abort { .. } => 13,
            Call::ErrorStream { .. } => 14,
            Call::ErrorStale { .. } => 15,
            Call::Heartbeat { .. } => 16,
        }
    }
}

/// What a call answered.
#[derive(Clone, Debug, PartialEq, Eq)]
pub enum Reply {
    /// Of `closed`, whose record is the buffers'.
    Closed,
    /// Of `peek`.
    Peeked(Peeked),
    /// Of `arrive`.
    Arrived(Box<Arrived>),
    /// Of most calls.
    Answer(Answer),
    /// Of `hand_in`.
    HandedIn(HandedIn),
    /// Of `transmit`.
    Transmitted(Transmitted),
    /// Of `take`.
    Delivered(Delivered),
    /// Of `sack`.
    Acknowledged(Box<Acknowledged>),
}

impl Reply {
    /// 0, or what refuses it.
    pub fn number(&self) -> u8 {
        match self {
            Reply::Closed => 0,
            Reply::Peeked(r) => r.number,
            Reply::Arrived(r) => r.number,
            Reply::Answer(r) => r.number,
            Reply::HandedIn(r) => r.number,
            Reply::Transmitted(r) => r.number,
            Reply::Delivered(r) => r.number,
            Reply::Acknowledged(r) => r.number,
        }
    }

    /// Bytes of the packet that was written.
    pub fn length(&self) -> usize {
        match self {
            Reply::Arrived(r) => r.length,
            Reply::Answer(r) => r.length,
            Reply::Transmitted(r) => r.length,
            Reply::Acknowledged(r) => r.length,
            _ => 0,
        }
    }
}

/// The record and what is lent with it.
pub struct Buffers {
    /// The record.
    pub a: Association,
    /// The area for receiving.
    pub receive: Vec<u8>,
    /// The area for sending.
    pub send: Vec<u8>,
    /// The output.
    pub out: Vec<u8>,
}

/// What lies behind a lent buffer, and must stay.
pub const GUARD: usize = 64;

impl Buffers {
    /// Empty buffers beside this record.
    pub fn new(a: Association) -> Buffers {
        Buffers { a, receive: vec![0; AREA + GUARD], send: vec![0; AREA + GUARD], out: vec![0; MESSAGE_MOST + GUARD] }
    }
}

/// Whatever makes a call: a core, or one that a test has bent.
pub trait Maker: Sync {
    /// Makes the call, and answers what it answered.
    fn make(&self, call: &Call, b: &mut Buffers) -> Reply;
}

impl<C: Core + Sync> Maker for C {
    fn make(&self, call: &Call, b: &mut Buffers) -> Reply {
        let a = &mut b.a;
        match *call {
            Call::Closed { port, mode } => {
                *a = self.closed(port, mode);
                Reply::Closed
            }
            Call::Peek { ref packet } => Reply::Peeked(self.peek(packet)),
            Call::Arrive { ref packet, lent, ref cookie, echoed, area, out } => {
                let r = self.arrive(a, &mut b.receive[..area], packet, lent, cookie, echoed, &mut b.out[..out]);
                Reply::Arrived(Box::new(r))
            }
            Call::Associate { tag, tsn, port, streams, out } => Reply::Answer(self.associate(a, tag, tsn, port, streams, &mut b.out[..out])),
            Call::HandIn { ref message, stream, unordered, ppid, area } => {
                Reply::HandedIn(self.hand_in(a, &mut b.send[..area], message, stream, unordered, ppid))
            }
            Call::Transmit { area, out } => Reply::Transmitted(self.transmit(a, &b.send[..area], &mut b.out[..out])),
            Call::Take { area, out } => Reply::Delivered(self.take(a, &b.receive[..area], &mut b.out[..out])),
            Call::Sack { out } => Reply::Acknowledged(Box::new(self.sack(a, &mut b.out[..out]))),
            Call::T1 { out } => Reply::Answer(self.t1(a, &mut b.out[..out])),
            Call::T2 { out } => Reply::Answer(self.t2(a, &mut b.out[..out])),
            Call::T3 => Reply::Answer(self.t3(a)),
            Call::Rtt { sample } => Reply::Answer(self.rtt(a, sample)),
            Call::Shutdown { out } => Reply::Answer(self.shutdown(a, &mut b.out[..out])),
            Call::Abort { cause, tsn, out } => Reply::Answer(self.abort(a, cause, tsn, &mut b.out[..out])),
            Call::ErrorStream { stream, out } => Reply::Answer(self.error_stream(a, stream, &mut b.out[..out])),
            Call::ErrorStale { port, tag, late, out } => Reply::Answer(self.error_stale(a, port, tag, late, &mut b.out[..out])),
            Call::Heartbeat { value, out } => Reply::Answer(self.heartbeat(a, value, &mut b.out[..out])),
        }
    }
}
