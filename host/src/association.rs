//! The core behind safe calls. It adds no test of its own: whatever a call is handed, the core answers.

use crate::calls::{
    Acknowledged, Answer, Arrived, Cause, Echoed, Expired, Fate, Lent, Made, Named, NotTaken, Peeked, Refusal, Shelf, Standing, State, Taken,
    Transmitted, Turn, Verdict, AREA, MESSAGE_MOST, PAYLOAD,
};
use crate::config::Book;
use crate::ffi;
use crate::library::{self, Library};
use std::marker::PhantomData;
use std::time::Duration;

/// A record of the core with its two areas. Every `out` below is to have at least `OUTPUT` bytes, and a call that is not refused has written its packet
/// there.
pub struct Association<L> {
    record: ffi::Record,
    received: Box<[u8]>,
    to_send: Box<[u8]>,
    library: PhantomData<L>,
}

/// The first chunk of a packet, if it is one that the host has to know of before the packet arrives.
pub fn peek<L: Library>(packet: &[u8]) -> Peeked {
    let seen = L::peek(packet);
    if seen.number != 0 {
        return Peeked::Refused(Refusal(seen.number));
    }
    match seen.kind {
        ffi::SAW_INIT => Peeked::Init(seen.init),
        ffi::SAW_COOKIE_ECHO => Peeked::Echo { at: seen.at, len: seen.len },
        _ => Peeked::Nothing,
    }
}

impl<L: Library> Association<L> {
    /// A closed association at this port of ours, which keeps to this book.
    pub fn closed(port: u16, book: Book) -> Association<L> {
        Association::from_record(L::closed(port, book.mode()))
    }

    /// An association from a record of any origin: the core tests it at each call.
    pub fn from_record(record: ffi::Record) -> Association<L> {
        Association { record, received: vec![0; AREA].into_boxed_slice(), to_send: vec![0; AREA].into_boxed_slice(), library: PhantomData }
    }

    /// The record as it stands.
    pub fn record(&self) -> &ffi::Record {
        &self.record
    }

    /// Whether there is no association.
    pub fn is_closed(&self) -> bool {
        state_of(self.record.head.state) == State::Closed
    }

    /// The tag that packets to the peer show; 0 until it is known.
    pub fn peer_tag(&self) -> u32 {
        self.record.head.ends.peer_tag
    }

    /// The peer's SCTP port; 0 until it is known.
    pub fn peer_port(&self) -> u16 {
        self.record.head.ends.peer_port
    }

    /// What the host may know of the record now.
    pub fn standing(&self) -> Standing {
        let head = &self.record.head;
        let free = self.record.chunks_held().filter(|place| !place.used).count();
        Standing {
            state: state_of(head.state),
            rto: Duration::from_millis(u64::from(head.sender.path.clock.rto)),
            my_tag: head.ends.my_tag,
            streams_out: head.ends.streams_out,
            acked: head.sender.acked,
            next_tsn: head.sender.next_tsn,
            has_gap: head.keeping.come.contains(&1),
            window: (free * PAYLOAD) as u32,
            peer_window: head.sender.advertised,
        }
    }

    /// What came and was not taken.
    pub fn shelf(&self) -> Shelf {
        let keeping = &self.record.head.keeping;
        let in_order = self.record.chunks_held().filter(|place| place.used && !place.unordered);
        let ahead = |stream: u16, ssn: u16| self.record.next_in.get(usize::from(stream)).map(|next| (stream, ssn.wrapping_sub(*next)));
        Shelf {
            missing: keeping.come.contains(&1).then(|| keeping.point.wrapping_add(1)),
            held: in_order.filter_map(|place| ahead(place.stream, place.ssn)).collect(),
        }
    }

    /// A packet arrives: a verdict for each of its chunks, and what is to be answered at once is written to `out`.
    pub fn arrive(&mut self, packet: &[u8], lent: &Lent, echoed: Echoed, out: &mut [u8]) -> Answer<Arrived> {
        let values = library::Lent { tag: lent.tag, tsn: lent.tsn, streams: lent.streams, options: 0 };
        let answer = L::arrive(&mut self.record, &mut self.received, packet, values, &lent.cookie, echoed_for_c(echoed), out);
        let verdicts = answer.verdicts.iter().map(verdict_of).collect();
        answered(answer.number, Arrived { verdicts, reply: answer.length })
    }

    /// Asks the peer at this port for an association, with our tag, our first TSN and the streams wanted for sending: an INIT is written.
    pub fn associate(&mut self, tag: u32, tsn: u32, port: u16, streams: u16, out: &mut [u8]) -> Answer<usize> {
        sent(L::associate(&mut self.record, tag, tsn, port, streams, out))
    }

    /// The number of chunks that the message was cut into.
    pub fn hand_in(&mut self, message: &[u8], stream: u16, unordered: bool, ppid: u32) -> Answer<usize> {
        let answer = L::hand_in(&mut self.record, &mut self.to_send, message, stream, u8::from(unordered), ppid);
        answered(answer.number, answer.chunks)
    }

    /// A packet of DATA, as far as flight and the peer's window allow; of length 0 where nothing goes out.
    pub fn transmit(&mut self, out: &mut [u8]) -> Answer<Transmitted> {
        let answer = L::transmit(&mut self.record, &self.to_send, out);
        answered(answer.number, Transmitted { length: answer.length, resent: answer.resent, first: answer.first, last: answer.last })
    }

    /// The buffer may have any length.
    pub fn take(&mut self, out: &mut [u8]) -> Result<Taken, NotTaken> {
        let answer = L::take(&mut self.record, &self.received, out);
        match answer.number {
            0 => Ok(answer.message),
            ffi::SHORT => Err(NotTaken::Short(answer.message.length)),
            number => Err(NotTaken::Refused(Refusal(number))),
        }
    }

    /// Whether there is a message to take: one that is asked for with no room at all is named and stays.
    pub fn has_message(&mut self) -> bool {
        matches!(self.take(&mut []), Err(NotTaken::Short(_)))
    }

    /// How many messages could be taken one after the other.
    pub fn untaken(&self) -> usize {
        let mut copy =
            Association::<L> { record: self.record.clone(), received: self.received.clone(), to_send: Box::default(), library: PhantomData };
        let mut message = vec![0; MESSAGE_MOST];
        std::iter::from_fn(|| copy.take(&mut message).ok()).count()
    }

    /// The first TSN of the peer's that has not come.
    pub fn next_expected(&self) -> u32 {
        self.record.head.keeping.point.wrapping_add(1)
    }

    /// A SACK of what has come.
    pub fn sack(&mut self, out: &mut [u8]) -> Answer<Acknowledged> {
        let answer = L::sack(&mut self.record, out);
        answered(answer.number, Acknowledged { length: answer.length, window: answer.sack.window })
    }

    /// T1 has expired: INIT or COOKIE ECHO again.
    pub fn t1(&mut self, out: &mut [u8]) -> Answer<Expired> {
        expired(L::t1(&mut self.record, out))
    }

    /// T2 has expired: SHUTDOWN or SHUTDOWN ACK again.
    pub fn t2(&mut self, out: &mut [u8]) -> Answer<Expired> {
        expired(L::t2(&mut self.record, out))
    }

    /// T3 has expired: what is outstanding is marked, and `transmit` sends it again.
    pub fn t3(&mut self) -> Answer<Expired> {
        expired(L::t3(&mut self.record))
    }

    /// No more messages: a SHUTDOWN is written now, or when all is acknowledged.
    pub fn shutdown(&mut self, out: &mut [u8]) -> Answer<usize> {
        sent(L::shutdown(&mut self.record, out))
    }

    /// Closes at once; an ABORT is written, where the peer's tag is known.
    pub fn abort(&mut self, cause: Cause, out: &mut [u8]) -> Answer<usize> {
        let (number, tsn) = cause_for_c(cause);
        sent(L::abort(&mut self.record, number, tsn, out))
    }

    /// Tells the peer that a stream is not agreed.
    pub fn error_stream(&mut self, stream: u16, out: &mut [u8]) -> Answer<usize> {
        sent(L::error_stream(&mut self.record, stream, out))
    }

    /// Tells the peer at this port, with this tag, that its cookie came so many microseconds too late.
    pub fn error_stale(&mut self, port: u16, tag: u32, late: u32, out: &mut [u8]) -> Answer<usize> {
        sent(L::error_stale(&mut self.record, port, tag, late, out))
    }

    /// A HEARTBEAT with a value that the peer's answer brings back.
    pub fn heartbeat(&mut self, value: [u8; 8], out: &mut [u8]) -> Answer<usize> {
        sent(L::heartbeat(&mut self.record, value, out))
    }

    /// A round trip was measured.
    pub fn rtt(&mut self, sample: Duration) -> Answer<()> {
        let milliseconds = u32::try_from(sample.as_millis()).unwrap_or(u32::MAX);
        sent(L::rtt(&mut self.record, milliseconds)).map(|_| ())
    }
}

fn answered<T>(number: u8, value: T) -> Answer<T> {
    match number {
        0 => Ok(value),
        n => Err(Refusal(n)),
    }
}

/// The length of the packet that was written.
fn sent(answer: library::Answer) -> Answer<usize> {
    answered(answer.number, answer.length)
}

fn expired(answer: library::Answer) -> Answer<Expired> {
    sent(answer).map(|length| match answer.over {
        true => Expired::Over,
        false => Expired::TriedAgain(length),
    })
}

/// The state of a number. A record with any other number can do nothing: the core refuses it.
fn state_of(number: u8) -> State {
    match number {
        ffi::COOKIE_WAIT => State::CookieWait,
        ffi::COOKIE_ECHOED => State::CookieEchoed,
        ffi::ESTABLISHED => State::Established,
        ffi::SHUTDOWN_PENDING => State::ShutdownPending,
        ffi::SHUTDOWN_SENT => State::ShutdownSent,
        ffi::SHUTDOWN_RECEIVED => State::ShutdownReceived,
        ffi::SHUTDOWN_ACK_SENT => State::ShutdownAckSent,
        _ => State::Closed,
    }
}

fn echoed_for_c(echoed: Echoed) -> library::Echoed {
    let (word, made) = match echoed {
        Echoed::Bad => (ffi::BAD, Made::default()),
        Echoed::Stale(made) => (ffi::LATE, made),
        Echoed::Good(made) => (ffi::GOOD, made),
    };
    library::Echoed { word, made }
}

fn verdict_of(verdict: &library::Verdict) -> Verdict {
    Verdict {
        at: verdict.at,
        fate: match verdict.fate {
            ffi::ACCEPTED => Fate::Accepted,
            ffi::REFUSED => Fate::Refused(Refusal(verdict.number)),
            ffi::SKIPPED => Fate::Skipped { reported: false },
            ffi::SKIPPED_REPORTED => Fate::Skipped { reported: true },
            ffi::STOPPED => Fate::Stopped { reported: false },
            ffi::STOPPED_REPORTED => Fate::Stopped { reported: true },
            _ => Fate::Unread,
        },
        named: match verdict.cause {
            ffi::CAUSE_STREAM => Named::ErrorStream(verdict.value as u16),
            ffi::CAUSE_STALE => Named::ErrorStale,
            ffi::CAUSE_NO_DATA => Named::Abort(Cause::NoData(verdict.value)),
            ffi::CAUSE_VIOLATION => Named::Abort(Cause::Violation),
            _ => Named::NoCall,
        },
        turn: match verdict.event {
            ffi::UP => Turn::Up,
            ffi::DOWN_ABORT => Turn::Aborted,
            ffi::DOWN_STALE => Turn::StaleCookie,
            ffi::DOWN_HOST_NAME => Turn::HostName,
            ffi::DOWN_SHUT_DOWN => Turn::ShutDown,
            ffi::RESTARTED => Turn::Restarted,
            ffi::RETAGGED => Turn::Retagged,
            _ => Turn::None,
        },
    }
}

/// The number of a cause on the wire, and the TSN that goes with it.
fn cause_for_c(cause: Cause) -> (u8, u32) {
    match cause {
        Cause::User => (ffi::CAUSE_USER, 0),
        Cause::NoData(tsn) => (ffi::CAUSE_NO_DATA, tsn),
        Cause::Violation => (ffi::CAUSE_VIOLATION, 0),
    }
}
