//! The model as a library, so that whatever runs on the proved one runs on it too.

pub mod alike;

use alike::{record_of, shown, store, Alike};
use model::record::Association;
use model::{Core, Model};
use oilwhisper::ffi::Record;
use oilwhisper::library::{Acknowledged, Answer, Arrived, Delivered, Echoed, HandedIn, Lent, Library, Peeked, Transmitted};

/// The model itself.
pub struct Modelled;

/// Runs each scenario on the model, and on the proved library where it is linked.
#[macro_export]
macro_rules! on_both {
    ($($scenario:ident)*) => {
        mod on_the_model {
            $(#[test]
            fn $scenario() {
                super::$scenario::<$crate::Modelled>();
            })*
        }

        #[cfg(feature = "proved")]
        mod on_the_proved_library {
            $(#[test]
            fn $scenario() {
                super::$scenario::<oilwhisper::library::Proved>();
            })*
        }
    };
}

/// The call is made of what the record shows.
fn lent<Theirs: Alike<Ours>, Ours>(record: &mut Record, call: impl FnOnce(&mut Association) -> Theirs) -> Ours {
    let mut a = shown(record);
    let answer = call(&mut a);
    store(&a, record);
    answer.alike()
}

impl Library for Modelled {
    fn closed(port: u16, mode: u8) -> Record {
        record_of(&Model.closed(port, mode))
    }

    fn peek(packet: &[u8]) -> Peeked {
        Model.peek(packet).alike()
    }

    fn arrive(record: &mut Record, area: &mut [u8], packet: &[u8], values: Lent, cookie: &[u8], echoed: Echoed, out: &mut [u8]) -> Arrived {
        lent(record, |a| Model.arrive(a, area, packet, values.alike(), cookie, echoed.alike(), out))
    }

    fn associate(record: &mut Record, tag: u32, tsn: u32, port: u16, streams: u16, out: &mut [u8]) -> Answer {
        lent(record, |a| Model.associate(a, tag, tsn, port, streams, out))
    }

    fn hand_in(record: &mut Record, area: &mut [u8], message: &[u8], stream: u16, unordered: u8, ppid: u32) -> HandedIn {
        lent(record, |a| Model.hand_in(a, area, message, stream, unordered, ppid))
    }

    fn transmit(record: &mut Record, area: &[u8], out: &mut [u8]) -> Transmitted {
        lent(record, |a| Model.transmit(a, area, out))
    }

    fn take(record: &mut Record, area: &[u8], out: &mut [u8]) -> Delivered {
        lent(record, |a| Model.take(a, area, out))
    }

    fn sack(record: &mut Record, out: &mut [u8]) -> Acknowledged {
        lent(record, |a| Model.sack(a, out))
    }

    fn t1(record: &mut Record, out: &mut [u8]) -> Answer {
        lent(record, |a| Model.t1(a, out))
    }

    fn t2(record: &mut Record, out: &mut [u8]) -> Answer {
        lent(record, |a| Model.t2(a, out))
    }

    fn t3(record: &mut Record) -> Answer {
        lent(record, |a| Model.t3(a))
    }

    fn rtt(record: &mut Record, sample: u32) -> Answer {
        lent(record, |a| Model.rtt(a, sample))
    }

    fn shutdown(record: &mut Record, out: &mut [u8]) -> Answer {
        lent(record, |a| Model.shutdown(a, out))
    }

    fn abort(record: &mut Record, cause: u8, tsn: u32, out: &mut [u8]) -> Answer {
        lent(record, |a| Model.abort(a, cause, tsn, out))
    }

    fn error_stream(record: &mut Record, stream: u16, out: &mut [u8]) -> Answer {
        lent(record, |a| Model.error_stream(a, stream, out))
    }

    fn error_stale(record: &mut Record, port: u16, tag: u32, late: u32, out: &mut [u8]) -> Answer {
        lent(record, |a| Model.error_stale(a, port, tag, late, out))
    }

    fn heartbeat(record: &mut Record, value: [u8; 8], out: &mut [u8]) -> Answer {
        lent(record, |a| Model.heartbeat(a, value, out))
    }
}
