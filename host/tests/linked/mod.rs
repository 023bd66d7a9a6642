//! A library as one of the model's cores, so that the model's driver can make its calls of it. Bits of the tables that are nobody's are random in each record that is
//! lent, and no call may read them: it leaves them, or clears them where it writes anew.

use model::random::Random;
use model::record::{self, Association};
use model::Core;
use modelled::alike::{record_of, shown, Alike};
use oilwhisper::ffi::{Record, HELD_WORDS, PLACE_WORDS};
use oilwhisper::library::{self, Library};
use std::marker::PhantomData;
use std::sync::atomic::{AtomicU64, Ordering};

/// Bits of a place's words that no field has.
const HELD_NOBODYS: [u32; HELD_WORDS] = [0, 0xffff_0000, 0, 0];
const PLACE_NOBODYS: [u32; PLACE_WORDS] = [0, 0, 0xffff_0000, 0, 0x8, 0xffff_0000, u32::MAX, u32::MAX];

pub struct Linked<L> {
    calls: AtomicU64,
    library: PhantomData<fn() -> L>,
}

trait Answered {
    fn number(&self) -> u8;
}

macro_rules! answered {
    ($($name:ident)*) => {$(
        impl Answered for library::$name {
            fn number(&self) -> u8 {
                self.number
            }
        }
    )*};
}

answered! { Answer Arrived HandedIn Transmitted Delivered Acknowledged }

impl<L> Linked<L> {
    pub fn new() -> Linked<L> {
        Linked { calls: AtomicU64::new(0), library: PhantomData }
    }

    fn lent<Theirs: Answered + Alike<Ours>, Ours>(&self, a: &mut Association, call: impl FnOnce(&mut Record) -> Theirs) -> Ours {
        let mut r = Random::new(self.calls.fetch_add(1, Ordering::Relaxed));
        let mut record = record_of(a);
        litter(&mut record.held, &HELD_NOBODYS, &mut r);
        litter(&mut record.places, &PLACE_NOBODYS, &mut r);
        let came = record.clone();
        let answer = call(&mut record);
        if answer.number() != 0 {
            assert!(record == came, "refused with {}, and the record changed", answer.number());
        }
        assert!(are_left(&came.held, &record.held, &HELD_NOBODYS), "bits of a held chunk that are nobody's changed");
        assert!(are_left(&came.places, &record.places, &PLACE_NOBODYS), "bits of a chunk to send that are nobody's changed");
        *a = shown(&record);
        answer.alike()
    }
}

fn litter(table: &mut [u32], nobodys: &[u32], r: &mut Random) {
    table.iter_mut().zip(nobodys.iter().cycle()).filter(|(_, bits)| **bits != 0).for_each(|(word, bits)| *word |= r.word() & bits);
}

/// Whether each word stands as it was, or has no bit that is nobody's. A word that is nobody's at all is cleared only with its whole table.
fn are_left(came: &[u32], left: &[u32], nobodys: &[u32]) -> bool {
    let is_cleared = left.iter().all(|word| *word == 0);
    let mut words = came.iter().zip(left).zip(nobodys.iter().cycle());
    words.all(|((came, left), bits)| left == came || left & bits == 0 && (*bits != u32::MAX || is_cleared))
}

impl<L: Library> Core for Linked<L> {
    fn closed(&self, port: u16, mode: u8) -> Association {
        shown(&L::closed(port, mode))
    }

    fn peek(&self, packet: &[u8]) -> record::Peeked {
        L::peek(packet).alike()
    }

    fn arrive(
        &self,
        a: &mut Association,
        area: &mut [u8],
        packet: &[u8],
        values: record::Lent,
        cookie: &[u8],
        echoed: record::Echoed,
        out: &mut [u8],
    ) -> record::Arrived {
        self.lent(a, |record| L::arrive(record, area, packet, values.alike(), cookie, echoed.alike(), out))
    }

    fn associate(&self, a: &mut Association, tag: u32, tsn: u32, port: u16, streams: u16, out: &mut [u8]) -> record::Answer {
        self.lent(a, |record| L::associate(record, tag, tsn, port, streams, out))
    }

    fn hand_in(&self, a: &mut Association, area: &mut [u8], message: &[u8], stream: u16, unordered: u8, ppid: u32) -> record::HandedIn {
        self.lent(a, |record| L::hand_in(record, area, message, stream, unordered, ppid))
    }

    fn transmit(&self, a: &mut Association, area: &[u8], out: &mut [u8]) -> record::Transmitted {
        self.lent(a, |record| L::transmit(record, area, out))
    }

    fn take(&self, a: &mut Association, area: &[u8], out: &mut [u8]) -> record::Delivered {
        self.lent(a, |record| L::take(record, area, out))
    }

    fn sack(&self, a: &mut Association, out: &mut [u8]) -> record::Acknowledged {
        self.lent(a, |record| L::sack(record, out))
    }

    fn t1(&self, a: &mut Association, out: &mut [u8]) -> record::Answer {
        self.lent(a, |record| L::t1(record, out))
    }

    fn t2(&self, a: &mut Association, out: &mut [u8]) -> record::Answer {
        self.lent(a, |record| L::t2(record, out))
    }

    fn t3(&self, a: &mut Association) -> record::Answer {
        self.lent(a, |record| L::t3(record))
    }

    fn rtt(&self, a: &mut Association, sample: u32) -> record::Answer {
        self.lent(a, |record| L::rtt(record, sample))
    }

    fn shutdown(&self, a: &mut Association, out: &mut [u8]) -> record::Answer {
        self.lent(a, |record| L::shutdown(record, out))
    }

    fn abort(&self, a: &mut Association, cause: u8, tsn: u32, out: &mut [u8]) -> record::Answer {
        self.lent(a, |record| L::abort(record, cause, tsn, out))
    }

    fn error_stream(&self, a: &mut Association, stream: u16, out: &mut [u8]) -> record::Answer {
        self.lent(a, |record| L::error_stream(record, stream, out))
    }

    fn error_stale(&self, a: &mut Association, port: u16, tag: u32, late: u32, out: &mut [u8]) -> record::Answer {
        self.lent(a, |record| L::error_stale(record, port, tag, late, out))
    }

    fn heartbeat(&self, a: &mut Association, value: [u8; 8], out: &mut [u8]) -> record::Answer {
        self.lent(a, |record| L::heartbeat(record, value, out))
    }
}

#[test]
fn a_call_that_writes_what_is_nobodys_is_found() {
    let nobodys = [0, 0xffff_0000, u32::MAX];
    let came = [1, 0x5_0002, 3, 4, 0x5_0005, 6];
    let is_left = |at: usize, word: u32| {
        let mut left = came;
        left[at] = word;
        are_left(&came, &left, &nobodys)
    };
    assert!(is_left(0, 7) && is_left(1, 2) && is_left(1, 8) && are_left(&came, &[0; 6], &nobodys));
    assert!(!is_left(1, 0x4_0002) && !is_left(1, 0x5_0003) && !is_left(2, 2) && !is_left(5, 0));
}
