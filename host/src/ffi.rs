//! The C interface of the proved library, as `include/oilwhisper.h` declares it. What each thing means stands there.

/// Chunks held for receiving, and as many for sending.
pub const PLACES: usize = 128;
/// Streams each way.
pub const STREAMS: usize = 128;
/// Bytes of a cookie, at most.
pub const COOKIE_MOST: usize = 256;
/// Duplicates that a SACK lists, at most.
pub const LISTED: usize = 16;
/// Gap blocks of a SACK, at most.
pub const BLOCKS: usize = 64;
/// Chunks of a packet, at most.
pub const VERDICTS: usize = 365;

/// Words of a place for receiving.
pub const HELD_WORDS: usize = 4;
/// Words of a place for sending.
pub const PLACE_WORDS: usize = 8;
/// Words of a verdict.
pub const VERDICT_WORDS: usize = 4;

/// What `ow_version` answers.
pub const VERSION: u32 = 2;

/// Mode of a record that keeps to RFC 9260.
pub const BOOK_9260: u8 = 0;
/// Mode of a record that keeps to RFC 4960.
pub const BOOK_4960: u8 = 1;

/// The number of a buffer that is too short.
pub const SHORT: u8 = 18;

/// State: there is no association.
pub const CLOSED: u8 = 0;
/// State: an INIT was sent; T1 runs.
pub const COOKIE_WAIT: u8 = 1;
/// State: a cookie was echoed; T1 runs.
pub const COOKIE_ECHOED: u8 = 2;
/// State: both ends send and take.
pub const ESTABLISHED: u8 = 3;
/// State: we shut down when all is acknowledged.
pub const SHUTDOWN_PENDING: u8 = 4;
/// State: a SHUTDOWN was sent; T2 runs.
pub const SHUTDOWN_SENT: u8 = 5;
/// State: the peer shuts down.
pub const SHUTDOWN_RECEIVED: u8 = 6;
/// State: a SHUTDOWN ACK was sent; T2 runs.
pub const SHUTDOWN_ACK_SENT: u8 = 7;

/// Of a packet: neither of the two that follow.
pub const SAW_NOTHING: u8 = 0;
/// Of a packet: an INIT.
pub const SAW_INIT: u8 = 1;
/// Of a packet: a COOKIE ECHO.
pub const SAW_COOKIE_ECHO: u8 = 2;

/// Of an echoed cookie: not ours, or changed.
pub const BAD: u8 = 0;
/// Of an echoed cookie: past its lifetime.
pub const LATE: u8 = 1;
/// Of an echoed cookie: ours.
pub const GOOD: u8 = 2;

/// Fate of a chunk.
pub const ACCEPTED: u8 = 0;
/// Fate of a chunk, with a number.
pub const REFUSED: u8 = 1;
/// Fate of a chunk of an unknown type.
pub const SKIPPED: u8 = 2;
/// Fate of a chunk of an unknown type; the peer is told.
pub const SKIPPED_REPORTED: u8 = 3;
/// Fate of a chunk of an unknown type that ends the packet.
pub const STOPPED: u8 = 4;
/// Fate of a chunk of an unknown type that ends the packet; the peer is told.
pub const STOPPED_REPORTED: u8 = 5;
/// Fate of a chunk behind one that ended the packet.
pub const UNREAD: u8 = 6;

/// Event of a chunk: none.
pub const NO_EVENT: u8 = 0;
/// Event of a chunk: established.
pub const UP: u8 = 1;
/// Event of a chunk: closed by the peer's ABORT.
pub const DOWN_ABORT: u8 = 2;
/// Event of a chunk: closed, since our cookie was stale.
pub const DOWN_STALE: u8 = 3;
/// Event of a chunk: closed, since the peer wants a host name resolved.
pub const DOWN_HOST_NAME: u8 = 4;
/// Event of a chunk: closed, shut down by both.
pub const DOWN_SHUT_DOWN: u8 = 5;
/// Event of a chunk: the peer began anew.
pub const RESTARTED: u8 = 6;
/// Event of a chunk: the peer has another tag.
pub const RETAGGED: u8 = 7;

/// The call that a verdict names: none.
pub const CAUSE_NONE: u8 = 0;
/// The call that a verdict names: `ow_error_stream`.
pub const CAUSE_STREAM: u8 = 1;
/// The call that a verdict names: `ow_error_stale`.
pub const CAUSE_STALE: u8 = 3;
/// The call that a verdict names: `ow_abort`, with a TSN.
pub const CAUSE_NO_DATA: u8 = 9;
/// Cause of an abort that no verdict names: the host's own.
pub const CAUSE_USER: u8 = 12;
/// The call that a verdict names: `ow_abort`.
pub const CAUSE_VIOLATION: u8 = 13;

/// Ports, tags, streams and options.
#[derive(Clone, Copy, Debug, PartialEq, Eq)]
#[repr(C)]
pub struct Ends {
    /// Our port.
    pub local_port: u16,
    /// The peer's port.
    pub peer_port: u16,
    /// The tag that packets to us show.
    pub my_tag: u32,
    /// The tag that packets to the peer show.
    pub peer_tag: u32,
    /// Streams for receiving.
    pub streams_in: u16,
    /// Streams for sending.
    pub streams_out: u16,
    /// Options: 0.
    pub options: u8,
}

/// Which TSNs have come.
#[derive(Clone, Copy, Debug, PartialEq, Eq)]
#[repr(C)]
pub struct Keeping {
    /// All up to this one.
    pub point: u32,
    /// Whether point + 1 + i has: 0 or 1.
    pub come: [u8; PLACES],
    /// Those that came again since the last SACK.
    pub dups: [u32; LISTED],
    /// How many of `dups` count.
    pub listed: usize,
}

/// Congestion, in bytes.
#[derive(Clone, Copy, Debug, PartialEq, Eq)]
#[repr(C)]
pub struct Control {
    /// Congestion window.
    pub cwnd: u32,
    /// Slow start threshold.
    pub ssthresh: u32,
    /// Bytes acknowledged since the window last grew.
    pub partial: u32,
}

/// Round trips, in milliseconds.
#[derive(Clone, Copy, Debug, PartialEq, Eq)]
#[repr(C)]
pub struct Clock {
    /// Whether one was measured: 0 or 1.
    pub sampled: u8,
    /// Smoothed.
    pub srtt: u32,
    /// How much they vary.
    pub rttvar: u32,
    /// How long the timers run.
    pub rto: u32,
}

/// The one path.
#[derive(Clone, Copy, Debug, PartialEq, Eq)]
#[repr(C)]
pub struct Path {
    /// Congestion.
    pub control: Control,
    /// Round trips.
    pub clock: Clock,
    /// Bytes on the way.
    pub flight: u32,
    /// Whether fast recovery runs: 0 or 1.
    pub running: u8,
    /// The TSN that ends it.
    pub until: u32,
    /// Expiries of T3 since the peer answered.
    pub tries: u8,
}

/// The sending side.
#[derive(Clone, Copy, Debug, PartialEq, Eq)]
#[repr(C)]
pub struct Sender {
    /// All up to this TSN is acknowledged.
    pub acked: u32,
    /// The next TSN to give.
    pub next_tsn: u32,
    /// The peer's last window.
    pub advertised: u32,
    /// The order of the chunk that waits longest.
    pub oldest: u32,
    /// The path.
    pub path: Path,
    /// The book: one of those above.
    pub mode: u8,
}

/// The record without its tables.
#[derive(Clone, Copy, Debug, PartialEq, Eq)]
#[repr(C)]
pub struct Head {
    /// A number of those above.
    pub state: u8,
    /// Expiries of the timer of a state that waits.
    pub tries: u8,
    /// Bytes of the cookie that is kept for T1.
    pub cookie_len: u16,
    /// Ports, tags, streams and options.
    pub ends: Ends,
    /// Which TSNs have come.
    pub keeping: Keeping,
    /// The sending side.
    pub sender: Sender,
}

/// No `Copy`: a call is lent the record, and what copies one says so.
#[derive(Clone, Debug, PartialEq, Eq)]
#[repr(C)]
pub struct Record {
    /// What is small.
    pub head: Head,
    /// The places for receiving, in words.
    pub held: [u32; HELD_WORDS * PLACES],
    /// The SSN expected next on each stream.
    pub next_in: [u16; STREAMS],
    /// The places for sending, in words.
    pub places: [u32; PLACE_WORDS * PLACES],
    /// The next SSN to give on each stream.
    pub next_out: [u16; STREAMS],
    /// The cookie of the peer's INIT ACK.
    pub cookie: [u8; COOKIE_MOST],
}

/// What the words of a place for receiving say.
#[derive(Clone, Copy, Debug, Default, PartialEq, Eq)]
pub struct Held {
    /// Whether a chunk is held here.
    pub used: bool,
    /// It begins a message.
    pub begin: bool,
    /// It ends a message.
    pub end: bool,
    /// It is out of its stream's order.
    pub unordered: bool,
    /// Its TSN.
    pub tsn: u32,
    /// Its stream.
    pub stream: u16,
    /// Its number in its stream.
    pub ssn: u16,
    /// The number that the peer's host gave.
    pub ppid: u32,
    /// Bytes of its payload.
    pub len: u16,
}

impl Held {
    fn of(words: &[u32]) -> Held {
        let shape = words[3];
        Held {
            used: has(shape, 0),
            begin: has(shape, 1),
            end: has(shape, 2),
            unordered: has(shape, 3),
            tsn: words[0],
            stream: stream_of(shape),
            ssn: words[1] as u16,
            ppid: words[2],
            len: len_of(shape),
        }
    }
}

/// What the words of a place for sending say.
#[derive(Clone, Copy, Debug, Default, PartialEq, Eq)]
pub struct Place {
    /// 0 free, 1 waiting, 2 sent, 3 to be sent again, 4 acknowledged by a gap block.
    pub status: u8,
    /// How often a SACK passed it over.
    pub misses: u8,
    /// Its TSN, once sent.
    pub tsn: u32,
    /// Its turn among those handed in.
    pub order: u32,
    /// Its stream.
    pub stream: u16,
    /// Its number in its stream, once sent.
    pub ssn: u16,
    /// The number that goes with it.
    pub ppid: u32,
    /// Bytes of its payload.
    pub len: u16,
    /// It begins a message.
    pub begin: bool,
    /// It ends a message.
    pub end: bool,
    /// It is out of its stream's order.
    pub unordered: bool,
}

impl Place {
    fn of(words: &[u32]) -> Place {
        let shape = words[4];
        Place {
            status: words[5] as u8,
            misses: (words[5] >> 8) as u8,
            tsn: words[0],
            order: words[1],
            stream: stream_of(shape),
            ssn: words[2] as u16,
            ppid: words[3],
            len: len_of(shape),
            begin: has(shape, 0),
            end: has(shape, 1),
            unordered: has(shape, 2),
        }
    }
}

fn has(shape: u32, bit: u32) -> bool {
    shape >> bit & 1 == 1
}

fn stream_of(shape: u32) -> u16 {
    (shape >> 16) as u16
}

fn len_of(shape: u32) -> u16 {
    (shape >> 4) as u16 & 0xfff
}

impl Record {
    /// The places for receiving, in their order.
    pub fn chunks_held(&self) -> impl Iterator<Item = Held> + '_ {
        self.held.chunks_exact(HELD_WORDS).map(Held::of)
    }

    /// The places for sending, in their order.
    pub fn chunks_to_send(&self) -> impl Iterator<Item = Place> + '_ {
        self.places.chunks_exact(PLACE_WORDS).map(Place::of)
    }
}

#[cfg(feature = "proved")]
extern "C" {
    pub(crate) fn ow_lent_close(
        head: *mut Head,
        held: *mut [u32; HELD_WORDS * PLACES],
        next_in: *mut [u16; STREAMS],
        places: *mut [u32; PLACE_WORDS * PLACES],
        next_out: *mut [u16; STREAMS],
        kept_cookie: *mut [u8; COOKIE_MOST],
        port: u16,
        mode: u8,
    ) -> u32;
    pub(crate) fn ow_version() -> u32;
    pub(crate) fn ow_sizes(told: *mut [usize; 7]);
    pub(crate) fn ow_lent_peek(packet: *const u8, packet_len: usize, told: *mut [usize; 10]) -> u32;
    pub(crate) fn ow_lent_arrive(
        head: *mut Head,
        held: *mut [u32; HELD_WORDS * PLACES],
        next_in: *mut [u16; STREAMS],
        places: *mut [u32; PLACE_WORDS * PLACES],
        next_out: *mut [u16; STREAMS],
        kept_cookie: *mut [u8; COOKIE_MOST],
        area: *mut u8,
        area_len: usize,
        verdicts: *mut [u32; VERDICT_WORDS * VERDICTS],
        packet: *const u8,
        packet_len: usize,
        tag: u32,
        tsn: u32,
        streams: u16,
        options: u8,
        cookie: *const u8,
        cookie_len: usize,
        word: u8,
        my_tag: u32,
        peer_tag: u32,
        streams_in: u16,
        streams_out: u16,
        my_tsn: u32,
        peer_tsn: u32,
        window: u32,
        my_tie: u32,
        peer_tie: u32,
        agreed: u8,
        out: *mut u8,
        out_len: usize,
        told: *mut [usize; 2],
    ) -> u32;
    pub(crate) fn ow_lent_associate(
        head: *mut Head,
        held: *mut [u32; HELD_WORDS * PLACES],
        next_in: *mut [u16; STREAMS],
        places: *mut [u32; PLACE_WORDS * PLACES],
        next_out: *mut [u16; STREAMS],
        kept_cookie: *mut [u8; COOKIE_MOST],
        tag: u32,
        tsn: u32,
        port: u16,
        streams: u16,
        out: *mut u8,
        out_len: usize,
        told: *mut [usize; 2],
    ) -> u32;
    pub(crate) fn ow_lent_hand_in(
        head: *mut Head,
        held: *const [u32; HELD_WORDS * PLACES],
        places: *mut [u32; PLACE_WORDS * PLACES],
        area: *mut u8,
        area_len: usize,
        message: *const u8,
        message_len: usize,
        stream: u16,
        unordered: u8,
        ppid: u32,
        told: *mut [usize; 1],
    ) -> u32;
    pub(crate) fn ow_lent_transmit(
        head: *mut Head,
        held: *const [u32; HELD_WORDS * PLACES],
        places: *mut [u32; PLACE_WORDS * PLACES],
        next_out: *mut [u16; STREAMS],
        area: *const u8,
        area_len: usize,
        out: *mut u8,
        out_len: usize,
        told: *mut [usize; 4],
    ) -> u32;
    pub(crate) fn ow_lent_take(
        head: *mut Head,
        held: *mut [u32; HELD_WORDS * PLACES],
        next_in: *mut [u16; STREAMS],
        places: *const [u32; PLACE_WORDS * PLACES],
        area: *const u8,
        area_len: usize,
        out: *mut u8,
        out_len: usize,
        told: *mut [usize; 5],
    ) -> u32;
    pub(crate) fn ow_lent_sack(
        head: *mut Head,
        held: *const [u32; HELD_WORDS * PLACES],
        places: *const [u32; PLACE_WORDS * PLACES],
        out: *mut u8,
        out_len: usize,
        starts: *mut [u16; BLOCKS],
        ends: *mut [u16; BLOCKS],
        dups: *mut [u32; LISTED],
        told: *mut [usize; 5],
    ) -> u32;
    pub(crate) fn ow_lent_t1(
        head: *mut Head,
        held: *const [u32; HELD_WORDS * PLACES],
        places: *const [u32; PLACE_WORDS * PLACES],
        kept_cookie: *const [u8; COOKIE_MOST],
        out: *mut u8,
        out_len: usize,
        told: *mut [usize; 2],
    ) -> u32;
    pub(crate) fn ow_lent_t2(
        head: *mut Head,
        held: *const [u32; HELD_WORDS * PLACES],
        places: *const [u32; PLACE_WORDS * PLACES],
        kept_cookie: *const [u8; COOKIE_MOST],
        out: *mut u8,
        out_len: usize,
        told: *mut [usize; 2],
    ) -> u32;
    pub(crate) fn ow_lent_t3(
        head: *mut Head,
        held: *const [u32; HELD_WORDS * PLACES],
        places: *mut [u32; PLACE_WORDS * PLACES],
        told: *mut [usize; 2],
    ) -> u32;
    pub(crate) fn ow_lent_rtt(
        head: *mut Head,
        held: *const [u32; HELD_WORDS * PLACES],
        places: *const [u32; PLACE_WORDS * PLACES],
        sample: u32,
        told: *mut [usize; 2],
    ) -> u32;
    pub(crate) fn ow_lent_shutdown(
        head: *mut Head,
        held: *const [u32; HELD_WORDS * PLACES],
        places: *const [u32; PLACE_WORDS * PLACES],
        out: *mut u8,
        out_len: usize,
        told: *mut [usize; 2],
    ) -> u32;
    pub(crate) fn ow_lent_abort(
        head: *mut Head,
        held: *const [u32; HELD_WORDS * PLACES],
        places: *const [u32; PLACE_WORDS * PLACES],
        cause: u8,
        tsn: u32,
        out: *mut u8,
        out_len: usize,
        told: *mut [usize; 2],
    ) -> u32;
    pub(crate) fn ow_lent_error_stream(
        head: *mut Head,
        held: *const [u32; HELD_WORDS * PLACES],
        places: *const [u32; PLACE_WORDS * PLACES],
        stream: u16,
        out: *mut u8,
        out_len: usize,
        told: *mut [usize; 2],
    ) -> u32;
    pub(crate) fn ow_lent_error_stale(
        head: *mut Head,
        held: *const [u32; HELD_WORDS * PLACES],
        places: *const [u32; PLACE_WORDS * PLACES],
        port: u16,
        tag: u32,
        late: u32,
        out: *mut u8,
        out_len: usize,
        told: *mut [usize; 2],
    ) -> u32;
    pub(crate) fn ow_lent_heartbeat(
        head: *mut Head,
        held: *const [u32; HELD_WORDS * PLACES],
        places: *const [u32; PLACE_WORDS * PLACES],
        value: *const [u8; 8],
        out: *mut u8,
        out_len: usize,
        told: *mut [usize; 2],
    ) -> u32;
}
