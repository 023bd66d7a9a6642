//! The calls of the core, so that a driver can make them of any implementation. A record is changed where it lies.

use crate::record::*;
use crate::{arrive, association, calls};

/// What each call does and answers stands in `include/oilwhisper.h`.
pub trait Core {
    /// A closed record.
    fn closed(&self, port: u16, mode: u8) -> Association;
    /// A packet before it arrives.
    fn peek(&self, packet: &[u8]) -> Peeked;
    /// A packet arrives.
    #[allow(clippy::too_many_arguments)]
    fn arrive(&self, a: &mut Association, area: &mut [u8], packet: &[u8], lent: Lent, cookie: &[u8], echoed: Echoed, out: &mut [u8]) -> Arrived;
    /// Asks for an association.
    fn associate(&self, a: &mut Association, tag: u32, tsn: u32, port: u16, streams: u16, out: &mut [u8]) -> Answer;
    /// A message to send.
    #[allow(clippy::too_many_arguments)]
    fn hand_in(&self, a: &mut Association, area: &mut [u8], message: &[u8], stream: u16, unordered: u8, ppid: u32) -> HandedIn;
    /// A packet of DATA.
    fn transmit(&self, a: &mut Association, area: &[u8], out: &mut [u8]) -> Transmitted;
    /// The next message that came.
    fn take(&self, a: &mut Association, area: &[u8], out: &mut [u8]) -> Delivered;
    /// A SACK.
    fn sack(&self, a: &mut Association, out: &mut [u8]) -> Acknowledged;
    /// T1 has expired.
    fn t1(&self, a: &mut Association, out: &mut [u8]) -> Answer;
    /// T2 has expired.
    fn t2(&self, a: &mut Association, out: &mut [u8]) -> Answer;
    /// T3 has expired.
    fn t3(&self, a: &mut Association) -> Answer;
    /// A round trip of so many milliseconds.
    fn rtt(&self, a: &mut Association, sample: u32) -> Answer;
    /// No more messages.
    fn shutdown(&self, a: &mut Association, out: &mut [u8]) -> Answer;
    /// The end, at once.
    fn abort(&self, a: &mut Association, cause: u8, tsn: u32, out: &mut [u8]) -> Answer;
    /// An ERROR for a stream that is not agreed.
    fn error_stream(&self, a: &mut Association, stream: u16, out: &mut [u8]) -> Answer;
    /// An ERROR for a cookie that came too late.
    fn error_stale(&self, a: &mut Association, port: u16, tag: u32, late: u32, out: &mut [u8]) -> Answer;
    /// A HEARTBEAT.
    fn heartbeat(&self, a: &mut Association, value: [u8; 8], out: &mut [u8]) -> Answer;
}

/// The model.
#[derive(Clone, Copy, Debug, Default)]
pub struct Model;

impl Core for Model {
    fn closed(&self, port: u16, mode: u8) -> Association {
        association::closed(port, mode)
    }

    fn peek(&self, packet: &[u8]) -> Peeked {
        calls::peek(packet)
    }

    fn arrive(&self, a: &mut Association, area: &mut [u8], packet: &[u8], lent: Lent, cookie: &[u8], echoed: Echoed, out: &mut [u8]) -> Arrived {
        arrive::arrive(a, area, packet, lent, cookie, echoed, out)
    }

    fn associate(&self, a: &mut Association, tag: u32, tsn: u32, port: u16, streams: u16, out: &mut [u8]) -> Answer {
        calls::associate(a, tag, tsn, port, streams, out)
    }

    fn hand_in(&self, a: &mut Association, area: &mut [u8], message: &[u8], stream: u16, unordered: u8, ppid: u32) -> HandedIn {
        calls::hand_in(a, area, message, stream, unordered, ppid)
    }

    fn transmit(&self, a: &mut Association, area: &[u8], out: &mut [u8]) -> Transmitted {
        calls::transmit(a, area, out)
    }

    fn take(&self, a: &mut Association, area: &[u8], out: &mut [u8]) -> Delivered {
        calls::take(a, area, out)
    }

    fn sack(&self, a: &mut Association, out: &mut [u8]) -> Acknowledged {
        calls::sack(a, out)
    }

    fn t1(&self, a: &mut Association, out: &mut [u8]) -> Answer {
        calls::t1(a, out)
    }

    fn t2(&self, a: &mut Association, out: &mut [u8]) -> Answer {
        calls::t2(a, out)
    }

    fn t3(&self, a: &mut Association) -> Answer {
        calls::t3(a)
    }

    fn rtt(&self, a: &mut Association, sample: u32) -> Answer {
        calls::rtt(a, sample)
    }

    fn shutdown(&self, a: &mut Association, out: &mut [u8]) -> Answer {
        calls::shutdown(a, out)
    }

    fn abort(&self, a: &mut Association, cause: u8, tsn: u32, out: &mut [u8]) -> Answer {
        calls::abort(a, cause, tsn, out)
    }

    fn error_stream(&self, a: &mut Association, stream: u16, out: &mut [u8]) -> Answer {
        calls::error_stream(a, stream, out)
    }

    fn error_stale(&self, a: &mut Association, port: u16, tag: u32, late: u32, out: &mut [u8]) -> Answer {
        calls::error_stale(a, port, tag, late, out)
    }

    fn heartbeat(&self, a: &mut Association, value: [u8; 8], out: &mut [u8]) -> Answer {
        calls::heartbeat(a, value, out)
    }
}
