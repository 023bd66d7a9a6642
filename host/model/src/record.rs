//! The record, and what the calls answer: the same fields, in the same order, as `include/oilwhisper.h`.

/// Chunks held for receiving, and as many for sending.
pub const PLACES: usize = 128;
/// Streams each way.
pub const STREAMS: usize = 128;
/// Bytes of a DATA chunk's payload, at most.
pub const PAYLOAD: usize = 512;
/// Bytes of a lent area.
pub const AREA: usize = PLACES * PAYLOAD;
/// Bytes of a lent output, at least.
pub const OUTPUT: usize = 1472;
/// Bytes of a received packet, at least.
pub const PACKET_LEAST: usize = 16;
/// Bytes of a received packet, at most.
pub const PACKET_MOST: usize = 1472;
/// Bytes of a packet that `transmit` writes, at most.
pub const SENT_MOST: usize = 548;
/// Bytes of a message, at most.
pub const MESSAGE_MOST: usize = 65_536;
/// Bytes of a cookie, at most.
pub const COOKIE_MOST: usize = 256;
/// The window that a peer must offer.
pub const WINDOW_LEAST: u32 = 1500;
/// Duplicates that a SACK lists, at most.
pub const LISTED: usize = 16;
/// Gap blocks of a SACK, at most.
pub const BLOCKS: usize = 64;
/// Chunks of a packet, at most.
pub const VERDICTS: usize = 365;
/// Expiries of T1 that try again.
pub const OPENING_TRIES: u8 = 8;
/// The same of T2 and of T3.
pub const TRIES: u8 = 10;

/// State: there is no association.
pub const CLOSED: u8 = 0;
/// State: an INIT was sent; T1 runs.
pub const COOKIE_WAIT: u8 = 1;
/// State: a cookie was echoed; T1 runs.
pub const COOKIE_ECHOED: u8 = 2;
/// State: both ends send and take.
pub const ESTABLISHED: u8 = 3;
/// State: we shut down when all is acknowledged.
pub const SHUTDOWN_PENDING: u8 = 4;
/// State: a SHUTDOWN was sent; T2 runs.
pub const SHUTDOWN_SENT: u8 = 5;
/// State: the peer shuts down.
pub const SHUTDOWN_RECEIVED: u8 = 6;
/// State: a SHUTDOWN ACK was sent; T2 runs.
pub const SHUTDOWN_ACK_SENT: u8 = 7;

/// Of a place to send: free.
pub const FREE: u8 = 0;
/// Of a place to send: not sent yet.
pub const WAITING: u8 = 1;
/// Of a place to send: sent.
pub const FLYING: u8 = 2;
/// Of a place to send: sent, and to be sent again.
pub const MARKED: u8 = 3;
/// Of a place to send: acknowledged by a gap block.
pub const BLOCKED: u8 = 4;

/// The mode of a record that keeps to RFC 9260.
pub const BOOK_9260: u8 = 0;
/// The mode of a record that keeps to RFC 4960.
pub const BOOK_4960: u8 = 1;

/// A flag of the record that is not set, but for those of the chunks; a byte that is neither this nor `YES` is outside its bounds.
pub const NO: u8 = 0;
/// A flag of the record that is set.
pub const YES: u8 = 1;

/// Ports, tags, streams and options.
#[repr(C)]
#[derive(Clone, Copy, Debug, Default, PartialEq, Eq)]
pub struct Ends {
    /// Our port.
    pub local_port: u16,
    /// The peer's port.
    pub peer_port: u16,
    /// The tag that packets to us show.
    pub my_tag: u32,
    /// The tag that packets to the peer show.
    pub peer_tag: u32,
    /// Streams for receiving.
    pub streams_in: u16,
    /// Streams for sending.
    pub streams_out: u16,
    /// Options: there is none yet.
    pub options: u8,
}

/// The cookie of the peer's INIT ACK.
#[repr(C)]
#[derive(Clone, Copy, Debug, PartialEq, Eq)]
pub struct Cookie {
    /// Its bytes, and 0 behind them.
    pub bytes: [u8; COOKIE_MOST],
    /// How many there are.
    pub len: u16,
}

/// Which TSNs have come.
#[repr(C)]
#[derive(Clone, Copy, Debug, PartialEq, Eq)]
pub struct Keeping {
    /// All up to this one.
    pub point: u32,
    /// Whether point + 1 + i has: 0 or 1.
    pub come: [u8; PLACES],
    /// Those that came again since the last SACK.
    pub dups: [u32; LISTED],
    /// How many of `dups` count.
    pub listed: usize,
}

/// A place for receiving.
#[repr(C)]
#[derive(Clone, Copy, Debug, Default, PartialEq, Eq)]
pub struct Held {
    /// Whether a chunk is held here.
    pub used: bool,
    /// It begins a message.
    pub begin: bool,
    /// It ends a message.
    pub end: bool,
    /// It is out of its stream's order.
    pub unordered: bool,
    /// Its TSN.
    pub tsn: u32,
    /// Its stream.
    pub stream: u16,
    /// Its number in its stream.
    pub ssn: u16,
    /// The number that the peer's host gave.
    pub ppid: u32,
    /// Bytes of its payload.
    pub len: u16,
}

/// The receiving side.
#[repr(C)]
#[derive(Clone, Copy, Debug, PartialEq, Eq)]
pub struct Receiving {
    /// Which TSNs have come.
    pub keeping: Keeping,
    /// The places.
    pub held: [Held; PLACES],
    /// The SSN expected next on each stream.
    pub next: [u16; STREAMS],
}

/// A chunk to send.
#[repr(C)]
#[derive(Clone, Copy, Debug, Default, PartialEq, Eq)]
pub struct Chunk {
    /// Its TSN, once sent.
    pub tsn: u32,
    /// Its turn among those handed in.
    pub order: u32,
    /// Its stream.
    pub stream: u16,
    /// Its number in its stream, once sent.
    pub ssn: u16,
    /// The number that goes with it.
    pub ppid: u32,
    /// Bytes of its payload.
    pub len: u16,
    /// It begins a message.
    pub begin: bool,
    /// It ends a message.
    pub end: bool,
    /// It is out of its stream's order.
    pub unordered: bool,
}

/// A place to send.
#[repr(C)]
#[derive(Clone, Copy, Debug, Default, PartialEq, Eq)]
pub struct Place {
    /// `FREE`, `WAITING`, `FLYING`, `MARKED` or `BLOCKED`.
    pub status: u8,
    /// How often a SACK passed it over.
    pub misses: u8,
    /// What it has.
    pub chunk: Chunk,
}

/// Congestion, in bytes.
#[repr(C)]
#[derive(Clone, Copy, Debug, Default, PartialEq, Eq)]
pub struct Control {
    /// Congestion window.
    pub cwnd: u32,
    /// Slow start threshold.
    pub ssthresh: u32,
    /// Bytes acknowledged since the window last grew.
    pub partial: u32,
}

/// Round trips, in milliseconds.
#[repr(C)]
#[derive(Clone, Copy, Debug, Default, PartialEq, Eq)]
pub struct Clock {
    /// Whether one was measured: 0 or 1.
    pub sampled: u8,
    /// Smoothed.
    pub srtt: u32,
    /// How much they vary.
    pub rttvar: u32,
    /// How long the timers run.
    pub rto: u32,
}

/// The one path.
#[repr(C)]
#[derive(Clone, Copy, Debug, Default, PartialEq, Eq)]
pub struct Path {
    /// Congestion.
    pub control: Control,
    /// Round trips.
    pub clock: Clock,
    /// Bytes on the way.
    pub flight: u32,
    /// Whether fast recovery runs: 0 or 1.
    pub running: u8,
    /// The TSN that ends it.
    pub until: u32,
    /// Expiries of T3 since the peer answered.
    pub tries: u8,
}

/// The sending side.
#[repr(C)]
#[derive(Clone, Copy, Debug, PartialEq, Eq)]
pub struct Sending {
    /// All up to this TSN is acknowledged.
    pub acked: u32,
    /// The next TSN to give.
    pub next_tsn: u32,
    /// The peer's last window.
    pub advertised: u32,
    /// The order of the chunk that waits longest.
    pub oldest: u32,
    /// The places.
    pub places: [Place; PLACES],
    /// The next SSN to give on each stream.
    pub next: [u16; STREAMS],
    /// The path.
    pub path: Path,
    /// The book: `BOOK_9260` or `BOOK_4960`.
    pub mode: u8,
}

/// The record.
#[repr(C)]
#[derive(Clone, Copy, Debug, PartialEq, Eq)]
pub struct Association {
    /// A number of those above.
    pub state: u8,
    /// Expiries of the timer of a state that waits.
    pub tries: u8,
    /// Ports, tags, streams and options.
    pub ends: Ends,
    /// The cookie that is kept for T1.
    pub cookie: Cookie,
    /// The receiving side.
    pub receiving: Receiving,
    /// The sending side.
    pub sending: Sending,
}

// ---- What is lent beside a packet

/// For the INIT ACK that answers an INIT.
#[repr(C)]
#[derive(Clone, Copy, Debug, Default, PartialEq, Eq)]
pub struct Lent {
    /// Our tag.
    pub tag: u32,
    /// Our first TSN.
    pub tsn: u32,
    /// The streams wanted for sending.
    pub streams: u16,
    /// Options: there is none yet.
    pub options: u8,
}

/// What a cookie was made from.
#[repr(C)]
#[derive(Clone, Copy, Debug, Default, PartialEq, Eq)]
pub struct Made {
    /// Our tag.
    pub my_tag: u32,
    /// The peer's tag.
    pub peer_tag: u32,
    /// The streams agreed for receiving.
    pub streams_in: u16,
    /// The streams agreed for sending.
    pub streams_out: u16,
    /// Our first TSN.
    pub my_tsn: u32,
    /// The peer's first TSN.
    pub peer_tsn: u32,
    /// The peer's window.
    pub window: u32,
    /// Our tag of an association that stood when it was made; 0 for none.
    pub my_tie: u32,
    /// The peer's tag of that association; 0 for none.
    pub peer_tie: u32,
    /// Options: there is none yet.
    pub options: u8,
}

/// Of an echoed cookie: not ours, or changed.
pub const BAD: u8 = 0;
/// Of an echoed cookie: past its lifetime.
pub const LATE: u8 = 1;
/// Of an echoed cookie: ours.
pub const GOOD: u8 = 2;

/// `word` is `BAD`, `LATE` or `GOOD`; any other number counts as `BAD`.
#[repr(C)]
#[derive(Clone, Copy, Debug, Default, PartialEq, Eq)]
pub struct Echoed {
    /// The host's word.
    pub word: u8,
    /// What the cookie was made from.
    pub made: Made,
}

// ---- Answers

/// Of most calls.
#[repr(C)]
#[derive(Clone, Copy, Debug, Default, PartialEq, Eq)]
pub struct Answer {
    /// 0, or what refuses it.
    pub number: u8,
    /// Bytes of the packet that was written; 0 for none.
    pub length: usize,
    /// Whether an expiry closed the association.
    pub over: bool,
}

/// Of a packet: neither of the two that follow.
pub const SAW_NOTHING: u8 = 0;
/// Of a packet: an INIT.
pub const SAW_INIT: u8 = 1;
/// Of a packet: a COOKIE ECHO.
pub const SAW_COOKIE_ECHO: u8 = 2;

/// The first chunk of a packet; what does not belong to its kind is 0.
#[repr(C)]
#[derive(Clone, Copy, Debug, Default, PartialEq, Eq)]
pub struct Peeked {
    /// 0, or what refuses it.
    pub number: u8,
    /// `SAW_NOTHING`, `SAW_INIT` or `SAW_COOKIE_ECHO`.
    pub kind: u8,
    /// Of an INIT: the port that it came from.
    pub source: u16,
    /// Of an INIT: the peer's tag.
    pub tag: u32,
    /// Of an INIT: the peer's window.
    pub window: u32,
    /// Of an INIT: the streams that the peer wants to send on.
    pub outs: u16,
    /// Of an INIT: the streams that the peer takes at most.
    pub ins: u16,
    /// Of an INIT: the peer's first TSN.
    pub tsn: u32,
    /// Of a COOKIE ECHO: the cookie's first byte.
    pub at: usize,
    /// Of a COOKIE ECHO: the cookie's bytes.
    pub len: usize,
    /// Of an INIT: the options that it offers, of which there is none yet.
    pub options: u8,
}

/// Fate of a chunk.
pub const ACCEPTED: u8 = 0;
/// Fate of a chunk, with a number.
pub const REFUSED: u8 = 1;
/// Fate of a chunk of an unknown type.
pub const SKIPPED: u8 = 2;
/// Fate of a chunk of an unknown type; the peer is told.
pub const SKIPPED_REPORTED: u8 = 3;
/// Fate of a chunk of an unknown type that ends the packet.
pub const STOPPED: u8 = 4;
/// Fate of a chunk of an unknown type that ends the packet; the peer is told.
pub const STOPPED_REPORTED: u8 = 5;
/// Fate of a chunk behind one that ended the packet.
pub const UNREAD: u8 = 6;

/// Event of a chunk: none.
pub const NO_EVENT: u8 = 0;
/// Event of a chunk: established.
pub const UP: u8 = 1;
/// Event of a chunk: closed by the peer's ABORT.
pub const DOWN_ABORT: u8 = 2;
/// Event of a chunk: closed, since our cookie was stale.
pub const DOWN_STALE: u8 = 3;
/// Event of a chunk: closed, since the peer wants a host name resolved.
pub const DOWN_HOST_NAME: u8 = 4;
/// Event of a chunk: closed, shut down by both.
pub const DOWN_SHUT_DOWN: u8 = 5;
/// Event of a chunk: the peer began anew; the record is fresh, and established.
pub const RESTARTED: u8 = 6;
/// Event of a chunk: the peer has another tag; nothing else of the record changed.
pub const RETAGGED: u8 = 7;

/// The call that a verdict names: none.
pub const CAUSE_NONE: u8 = 0;
/// The call that a verdict names: `ow_error_stream`.
pub const CAUSE_STREAM: u8 = 1;
/// The call that a verdict names: `ow_error_stale`.
pub const CAUSE_STALE: u8 = 3;
/// The call that a verdict names: `ow_abort`, with a TSN.
pub const CAUSE_NO_DATA: u8 = 9;
/// Cause of an abort that no verdict names: the host's own.
pub const CAUSE_USER: u8 = 12;
/// The call that a verdict names: `ow_abort`.
pub const CAUSE_VIOLATION: u8 = 13;

/// What became of a chunk.
#[repr(C)]
#[derive(Clone, Copy, Debug, Default, PartialEq, Eq)]
pub struct Verdict {
    /// Its first byte in the packet.
    pub at: usize,
    /// The TSN or the stream that the named call takes.
    pub value: u32,
    /// One of the fates above.
    pub fate: u8,
    /// 0, or what refuses it.
    pub number: u8,
    /// The call that it names.
    pub cause: u8,
    /// What it caused.
    pub event: u8,
}

/// What stands behind the verdicts of a packet's chunks.
pub const NO_VERDICT: Verdict = Verdict { at: 0, value: 0, fate: UNREAD, number: 0, cause: CAUSE_NONE, event: NO_EVENT };

/// A verdict for each chunk of a packet.
#[repr(C)]
#[derive(Clone, Copy, Debug, PartialEq, Eq)]
pub struct Arrived {
    /// 0, or what refuses the packet.
    pub number: u8,
    /// How many verdicts count.
    pub count: usize,
    /// In the order of the chunks, and `NO_VERDICT` behind them.
    pub verdicts: [Verdict; VERDICTS],
    /// Bytes of the reply; 0 for none.
    pub length: usize,
}

/// Of a message that was handed in.
#[repr(C)]
#[derive(Clone, Copy, Debug, Default, PartialEq, Eq)]
pub struct HandedIn {
    /// 0, or what refuses it.
    pub number: u8,
    /// Into how many it was cut.
    pub chunks: usize,
}

/// A packet of DATA.
#[repr(C)]
#[derive(Clone, Copy, Debug, Default, PartialEq, Eq)]
pub struct Transmitted {
    /// 0, or what refuses it.
    pub number: u8,
    /// Its bytes; 0 for none.
    pub length: usize,
    /// Whether a chunk in it was sent before.
    pub resent: bool,
    /// The TSN of its first chunk.
    pub first: u32,
    /// The TSN of its last chunk.
    pub last: u32,
}

/// A message that is taken.
#[repr(C)]
#[derive(Clone, Copy, Debug, Default, PartialEq, Eq)]
pub struct Message {
    /// Its bytes.
    pub length: usize,
    /// The stream that it came on.
    pub stream: u16,
    /// Whether it is out of its stream's order.
    pub unordered: bool,
    /// Its number in its stream.
    pub ssn: u16,
    /// The number that the peer's host gave it.
    pub ppid: u32,
}

/// Of a message that is taken.
#[repr(C)]
#[derive(Clone, Copy, Debug, Default, PartialEq, Eq)]
pub struct Delivered {
    /// 0, or what refuses it.
    pub number: u8,
    /// The message; for a buffer that is too short its length alone.
    pub message: Message,
}

/// Gap blocks; entries behind the last are 0.
#[repr(C)]
#[derive(Clone, Copy, Debug, PartialEq, Eq)]
pub struct Blocks {
    /// How many there are.
    pub count: usize,
    /// Where each begins, from the point on.
    pub starts: [u16; BLOCKS],
    /// Where each ends.
    pub ends: [u16; BLOCKS],
}

/// What a SACK says.
#[repr(C)]
#[derive(Clone, Copy, Debug, PartialEq, Eq)]
pub struct Sacked {
    /// All up to this TSN have come.
    pub point: u32,
    /// The window offered.
    pub window: u32,
    /// What has come above the point.
    pub blocks: Blocks,
    /// TSNs that came again.
    pub dups: [u32; LISTED],
    /// How many of them.
    pub listed: usize,
}

/// A SACK as a packet, and what it says.
#[repr(C)]
#[derive(Clone, Copy, Debug, PartialEq, Eq)]
pub struct Acknowledged {
    /// 0, or what refuses it.
    pub number: u8,
    /// Bytes of the packet.
    pub length: usize,
    /// What it says.
    pub sack: Sacked,
}
