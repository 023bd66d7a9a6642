//! The functions of the library over a whole record, with slices in place of pointers and counts. The proved library is one implementation; a model of it can be
//! another.

use crate::calls::{Init, Made, Taken};
use crate::ffi::{Record, BLOCKS, LISTED};

/// Of most calls.
#[derive(Clone, Copy, Debug, PartialEq, Eq)]
pub struct Answer {
    /// 0, or what refuses it.
    pub number: u8,
    /// Bytes of the packet that was written; 0 for none.
    pub length: usize,
    /// Whether an expiry closed the association.
    pub over: bool,
}

/// The first chunk of a packet; what does not belong to its kind is 0.
#[derive(Clone, Copy, Debug, PartialEq, Eq)]
pub struct Peeked {
    /// 0, or what refuses it.
    pub number: u8,
    /// `ffi::SAW_NOTHING`, `SAW_INIT` or `SAW_COOKIE_ECHO`.
    pub kind: u8,
    /// Of an INIT: its fields.
    pub init: Init,
    /// Of a COOKIE ECHO: the cookie's first byte.
    pub at: usize,
    /// Of a COOKIE ECHO: the cookie's bytes.
    pub len: usize,
}

/// For the INIT ACK that answers an INIT.
#[derive(Clone, Copy, Debug, Default, PartialEq, Eq)]
pub struct Lent {
    /// Our tag.
    pub tag: u32,
    /// Our first TSN.
    pub tsn: u32,
    /// The streams wanted for sending.
    pub streams: u16,
    /// Options: 0.
    pub options: u8,
}

/// The host's word on an echoed cookie.
#[derive(Clone, Copy, Debug, Default, PartialEq, Eq)]
pub struct Echoed {
    /// `ffi::BAD`, `LATE` or `GOOD`.
    pub word: u8,
    /// What the cookie was made from.
    pub made: Made,
}

/// What became of a chunk.
#[derive(Clone, Copy, Debug, PartialEq, Eq)]
pub struct Verdict {
    /// Its first byte in the packet.
    pub at: usize,
    /// The TSN or the stream that the named call takes.
    pub value: u32,
    /// One of the fates in `ffi`.
    pub fate: u8,
    /// 0, or what refuses it.
    pub number: u8,
    /// The call that it names.
    pub cause: u8,
    /// What it caused.
    pub event: u8,
}

/// A verdict for each chunk of the packet.
#[derive(Clone, Debug, PartialEq, Eq)]
pub struct Arrived {
    /// 0, or what refuses the packet.
    pub number: u8,
    /// In the order of the chunks.
    pub verdicts: Vec<Verdict>,
    /// Bytes of the reply; 0 for none.
    pub length: usize,
}

/// Of a message that was handed in.
#[derive(Clone, Copy, Debug, PartialEq, Eq)]
pub struct HandedIn {
    /// 0, or what refuses it.
    pub number: u8,
    /// Into how many it was cut.
    pub chunks: usize,
}

/// A packet of DATA.
#[derive(Clone, Copy, Debug, PartialEq, Eq)]
pub struct Transmitted {
    /// 0, or what refuses it.
    pub number: u8,
    /// Its bytes; 0 for none.
    pub length: usize,
    /// Whether a chunk in it was sent before.
    pub resent: bool,
    /// The TSN of its first chunk.
    pub first: u32,
    /// The TSN of its last chunk.
    pub last: u32,
}

/// Of a message that is taken.
#[derive(Clone, Copy, Debug, PartialEq, Eq)]
pub struct Delivered {
    /// 0, or what refuses it.
    pub number: u8,
    /// The message; for a buffer that is too short its length alone.
    pub message: Taken,
}

/// What a SACK says. Entries behind the first `blocks`, and the first `listed`, are 0.
#[derive(Clone, Copy, Debug, PartialEq, Eq)]
pub struct Sacked {
    /// All up to this TSN have come.
    pub point: u32,
    /// The window offered.
    pub window: u32,
    /// How many gap blocks there are.
    pub blocks: usize,
    /// Where each begins, from the point on.
    pub starts: [u16; BLOCKS],
    /// Where each ends.
    pub ends: [u16; BLOCKS],
    /// TSNs that came again.
    pub dups: [u32; LISTED],
    /// How many of them.
    pub listed: usize,
}

/// A SACK as a packet, and what it says.
#[derive(Clone, Copy, Debug, PartialEq, Eq)]
pub struct Acknowledged {
    /// 0, or what refuses it.
    pub number: u8,
    /// Bytes of the packet.
    pub length: usize,
    /// What it says.
    pub sack: Sacked,
}

/// What each call does and answers stands in `include/oilwhisper.h`.
pub trait Library {
    /// A closed record, in the mode of a book.
    fn closed(port: u16, mode: u8) -> Record;
    /// A packet before it arrives.
    fn peek(packet: &[u8]) -> Peeked;
    /// A packet arrives.
    fn arrive(record: &mut Record, area: &mut [u8], packet: &[u8], lent: Lent, cookie: &[u8], echoed: Echoed, out: &mut [u8]) -> Arrived;
    /// Asks for an association.
    fn associate(record: &mut Record, tag: u32, tsn: u32, port: u16, streams: u16, out: &mut [u8]) -> Answer;
    /// A message to send.
    fn hand_in(record: &mut Record, area: &mut [u8], message: &[u8], stream: u16, unordered: u8, ppid: u32) -> HandedIn;
    /// A packet of DATA.
    fn transmit(record: &mut Record, area: &[u8], out: &mut [u8]) -> Transmitted;
    /// The next message that came.
    fn take(record: &mut Record, area: &[u8], out: &mut [u8]) -> Delivered;
    /// A SACK.
    fn sack(record: &mut Record, out: &mut [u8]) -> Acknowledged;
    /// T1 has expired.
    fn t1(record: &mut Record, out: &mut [u8]) -> Answer;
    /// T2 has expired.
    fn t2(record: &mut Record, out: &mut [u8]) -> Answer;
    /// T3 has expired.
    fn t3(record: &mut Record) -> Answer;
    /// A round trip of so many milliseconds.
    fn rtt(record: &mut Record, sample: u32) -> Answer;
    /// No more messages.
    fn shutdown(record: &mut Record, out: &mut [u8]) -> Answer;
    /// The end, at once.
    fn abort(record: &mut Record, cause: u8, tsn: u32, out: &mut [u8]) -> Answer;
    /// An ERROR for a stream that is not agreed.
    fn error_stream(record: &mut Record, stream: u16, out: &mut [u8]) -> Answer;
    /// An ERROR for a cookie that came too late.
    fn error_stale(record: &mut Record, port: u16, tag: u32, late: u32, out: &mut [u8]) -> Answer;
    /// A HEARTBEAT.
    fn heartbeat(record: &mut Record, value: [u8; 8], out: &mut [u8]) -> Answer;
}

#[cfg(feature = "proved")]
pub use proved::Proved;

#[cfg(feature = "proved")]
mod proved {
    use super::*;
    use crate::ffi::{self, Head, COOKIE_MOST, HELD_WORDS, PLACES, PLACE_WORDS, STREAMS, VERDICTS, VERDICT_WORDS};
    use std::mem::{size_of, size_of_val, MaybeUninit};
    use std::sync::Once;

    /// The proved library itself.
    #[derive(Clone, Copy, Debug)]
    pub struct Proved;

    /// The library that is linked is the one that this crate was written for, and is lent as much as it takes.
    fn check_linked() {
        static CHECKED: Once = Once::new();
        CHECKED.call_once(|| {
            assert_eq!(unsafe { ffi::ow_version() }, ffi::VERSION, "the version of the library that is linked");
            let mut sizes = [0; 7];
            unsafe { ffi::ow_sizes(&mut sizes) };
            let Record { head, held, next_in, places, next_out, cookie } = &EMPTY;
            let ours = [
                size_of_val(head),
                size_of_val(held),
                size_of_val(next_in),
                size_of_val(places),
                size_of_val(next_out),
                size_of_val(cookie),
                size_of::<[u32; VERDICT_WORDS * VERDICTS]>(),
            ];
            assert_eq!(sizes, ours, "bytes of what the library is lent");
        });
    }

    /// What `ow_lent_close` writes over.
    const EMPTY: Record = Record {
        head: Head {
            state: 0,
            tries: 0,
            cookie_len: 0,
            ends: ffi::Ends { local_port: 0, peer_port: 0, my_tag: 0, peer_tag: 0, streams_in: 0, streams_out: 0, options: 0 },
            keeping: ffi::Keeping { point: 0, come: [0; PLACES], dups: [0; LISTED], listed: 0 },
            sender: ffi::Sender {
                acked: 0,
                next_tsn: 0,
                advertised: 0,
                oldest: 0,
                path: ffi::Path {
                    control: ffi::Control { cwnd: 0, ssthresh: 0, partial: 0 },
                    clock: ffi::Clock { sampled: 0, srtt: 0, rttvar: 0, rto: 0 },
                    flight: 0,
                    running: 0,
                    until: 0,
                    tries: 0,
                },
                mode: 0,
            },
        },
        held: [0; HELD_WORDS * PLACES],
        next_in: [0; STREAMS],
        places: [0; PLACE_WORDS * PLACES],
        next_out: [0; STREAMS],
        cookie: [0; COOKIE_MOST],
    };

    fn answered(call: impl FnOnce(&mut [usize; 2]) -> u32) -> Answer {
        let mut told = [0; 2];
        let number = call(&mut told) as u8;
        let [length, over] = told;
        Answer { number, length, over: over != 0 }
    }

    fn verdict(words: &[u32]) -> Verdict {
        Verdict {
            at: words[0] as usize,
            value: words[1],
            fate: (words[2] >> 8) as u8,
            number: words[2] as u8,
            cause: (words[3] >> 8) as u8,
            event: words[3] as u8,
        }
    }

    // Each `unsafe` rests on one thing: a reference is a pointer that is not null to a whole head or table, a slice one to as many bytes as its length says, and
    // Rust lets no `&mut` overlap another borrow. The header asks for no more.
    impl Library for Proved {
        fn closed(port: u16, mode: u8) -> Record {
            check_linked();
            let mut record = EMPTY;
            let Record { head, held, next_in, places, next_out, cookie } = &mut record;
            unsafe { ffi::ow_lent_close(head, held, next_in, places, next_out, cookie, port, mode) };
            record
        }

        fn peek(packet: &[u8]) -> Peeked {
            let mut told = [0; 10];
            let number = unsafe { ffi::ow_lent_peek(packet.as_ptr(), packet.len(), &mut told) } as u8;
            let [kind, source, tag, window, outs, ins, tsn, at, len, options] = told;
            let init = Init {
                source: source as u16,
                tag: tag as u32,
                window: window as u32,
                outs: outs as u16,
                ins: ins as u16,
                tsn: tsn as u32,
                options: options as u8,
            };
            Peeked { number, kind: kind as u8, init, at, len }
        }

        fn arrive(record: &mut Record, area: &mut [u8], packet: &[u8], lent: Lent, cookie: &[u8], echoed: Echoed, out: &mut [u8]) -> Arrived {
            let Record { head, held, next_in, places, next_out, cookie: kept_cookie } = record;
            let Echoed { word, made } = echoed;
            let mut verdicts = MaybeUninit::<[u32; VERDICT_WORDS * VERDICTS]>::uninit();
            let mut told = [0; 2];
            let number = unsafe {
                ffi::ow_lent_arrive(
                    head,
                    held,
                    next_in,
                    places,
                    next_out,
                    kept_cookie,
                    area.as_mut_ptr(),
                    area.len(),
                    verdicts.as_mut_ptr(),
                    packet.as_ptr(),
                    packet.len(),
                    lent.tag,
                    lent.tsn,
                    lent.streams,
                    lent.options,
                    cookie.as_ptr(),
                    cookie.len(),
                    word,
                    made.my_tag,
                    made.peer_tag,
                    made.streams_in,
                    made.streams_out,
                    made.my_tsn,
                    made.peer_tsn,
                    made.window,
                    made.my_tie,
                    made.peer_tie,
                    made.options,
                    out.as_mut_ptr(),
                    out.len(),
                    &mut told,
                )
            };
            let [count, length] = told;
            // So many verdicts were written, and the words behind them were not.
            let written = unsafe { std::slice::from_raw_parts(verdicts.as_ptr().cast(), VERDICT_WORDS * count) };
            Arrived { number: number as u8, verdicts: written.chunks_exact(VERDICT_WORDS).map(verdict).collect(), length }
        }

        fn associate(record: &mut Record, tag: u32, tsn: u32, port: u16, streams: u16, out: &mut [u8]) -> Answer {
            let Record { head, held, next_in, places, next_out, cookie } = record;
            answered(|told| unsafe {
                ffi::ow_lent_associate(head, held, next_in, places, next_out, cookie, tag, tsn, port, streams, out.as_mut_ptr(), out.len(), told)
            })
        }

        fn hand_in(record: &mut Record, area: &mut [u8], message: &[u8], stream: u16, unordered: u8, ppid: u32) -> HandedIn {
            let Record { head, held, places, .. } = record;
            let mut told = [0; 1];
            let number = unsafe {
                ffi::ow_lent_hand_in(
                    head,
                    held,
                    places,
                    area.as_mut_ptr(),
                    area.len(),
                    message.as_ptr(),
                    message.len(),
                    stream,
                    unordered,
                    ppid,
                    &mut told,
                )
            };
            HandedIn { number: number as u8, chunks: told[0] }
        }

        fn transmit(record: &mut Record, area: &[u8], out: &mut [u8]) -> Transmitted {
            let Record { head, held, places, next_out, .. } = record;
            let mut told = [0; 4];
            let number =
                unsafe { ffi::ow_lent_transmit(head, held, places, next_out, area.as_ptr(), area.len(), out.as_mut_ptr(), out.len(), &mut told) };
            let [length, resent, first, last] = told;
            Transmitted { number: number as u8, length, resent: resent != 0, first: first as u32, last: last as u32 }
        }

        fn take(record: &mut Record, area: &[u8], out: &mut [u8]) -> Delivered {
            let Record { head, held, next_in, places, .. } = record;
            let mut told = [0; 5];
            let number = unsafe { ffi::ow_lent_take(head, held, next_in, places, area.as_ptr(), area.len(), out.as_mut_ptr(), out.len(), &mut told) };
            let [length, stream, unordered, ssn, ppid] = told;
            let message = Taken { length, stream: stream as u16, unordered: unordered != 0, ssn: ssn as u16, ppid: ppid as u32 };
            Delivered { number: number as u8, message }
        }

        fn sack(record: &mut Record, out: &mut [u8]) -> Acknowledged {
            let Record { head, held, places, .. } = record;
            let (mut starts, mut ends, mut dups, mut told) = ([0; BLOCKS], [0; BLOCKS], [0; LISTED], [0; 5]);
            let number = unsafe { ffi::ow_lent_sack(head, held, places, out.as_mut_ptr(), out.len(), &mut starts, &mut ends, &mut dups, &mut told) };
            let [length, point, window, blocks, listed] = told;
            let sack = Sacked { point: point as u32, window: window as u32, blocks, starts, ends, dups, listed };
            Acknowledged { number: number as u8, length, sack }
        }

        fn t1(record: &mut Record, out: &mut [u8]) -> Answer {
            let Record { head, held, places, cookie, .. } = record;
            answered(|told| unsafe { ffi::ow_lent_t1(head, held, places, cookie, out.as_mut_ptr(), out.len(), told) })
        }

        fn t2(record: &mut Record, out: &mut [u8]) -> Answer {
            let Record { head, held, places, cookie, .. } = record;
            answered(|told| unsafe { ffi::ow_lent_t2(head, held, places, cookie, out.as_mut_ptr(), out.len(), told) })
        }

        fn t3(record: &mut Record) -> Answer {
            answered(|told| unsafe { ffi::ow_lent_t3(&mut record.head, &record.held, &mut record.places, told) })
        }

        fn rtt(record: &mut Record, sample: u32) -> Answer {
            answered(|told| unsafe { ffi::ow_lent_rtt(&mut record.head, &record.held, &record.places, sample, told) })
        }

        fn shutdown(record: &mut Record, out: &mut [u8]) -> Answer {
            let Record { head, held, places, .. } = record;
            answered(|told| unsafe { ffi::ow_lent_shutdown(head, held, places, out.as_mut_ptr(), out.len(), told) })
        }

        fn abort(record: &mut Record, cause: u8, tsn: u32, out: &mut [u8]) -> Answer {
            let Record { head, held, places, .. } = record;
            answered(|told| unsafe { ffi::ow_lent_abort(head, held, places, cause, tsn, out.as_mut_ptr(), out.len(), told) })
        }

        fn error_stream(record: &mut Record, stream: u16, out: &mut [u8]) -> Answer {
            let Record { head, held, places, .. } = record;
            answered(|told| unsafe { ffi::ow_lent_error_stream(head, held, places, stream, out.as_mut_ptr(), out.len(), told) })
        }

        fn error_stale(record: &mut Record, port: u16, tag: u32, late: u32, out: &mut [u8]) -> Answer {
            let Record { head, held, places, .. } = record;
            answered(|told| unsafe { ffi::ow_lent_error_stale(head, held, places, port, tag, late, out.as_mut_ptr(), out.len(), told) })
        }

        fn heartbeat(record: &mut Record, value: [u8; 8], out: &mut [u8]) -> Answer {
            let Record { head, held, places, .. } = record;
            answered(|told| unsafe { ffi::ow_lent_heartbeat(head, held, places, &value, out.as_mut_ptr(), out.len(), told) })
        }
    }
}
