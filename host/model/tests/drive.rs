//! The driver, with the model on both sides: what every core must keep is kept, what a drive should meet is met, and a core that is bent is found.

use model::call::{Buffers, Call, Maker, Reply};
use model::record::*;
use model::{drive, is_sound, read, Model};

const CALLS: usize = 300_000;
const SEED: u64 = 9260;

/// The model, and what 01 says of every call: "1 … leaves all", a refused call leaves record and areas, no byte but the answer's is written, bounds are kept.
/// No packet has port 0, and none but an INIT tag 0.
struct Watched;

impl Maker for Watched {
    fn make(&self, call: &Call, b: &mut Buffers) -> Reply {
        let a = b.a;
        let (out, receive, send) = (b.out.clone(), b.receive.clone(), b.send.clone());
        let reply = Model.make(call, b);
        if matches!(call, Call::Peek { .. }) {
            return reply;
        }
        let number = reply.number();
        assert_eq!(number == 1, !is_sound(&a) && !matches!(call, Call::Closed { .. }), "{call:?}");
        assert!(number == 0 || b.a == a, "refused, and the record changed: {call:?}");
        assert!(number == 0 || (b.receive == receive && b.send == send), "refused, and an area changed: {call:?}");
        // A mode that is no book is kept as it is given, and refused by the next call.
        let is_known = !matches!(call, Call::Closed { mode, .. } if *mode > BOOK_4960);
        assert!(number == 1 || is_sound(&b.a) == is_known, "bounds: {call:?}");
        let written = match &reply {
            Reply::Delivered(d) if number == 0 => d.message.length,
            _ => reply.length(),
        };
        assert_eq!(out[written..], b.out[written..], "{call:?}");
        assert!(number == 0 || written == 0);
        if reply.length() > 0 {
            let h = read::header(&b.out);
            assert!(h.source != 0 && h.destination != 0 && (h.tag != 0 || b.out[12] == read::INIT), "port 0 or tag 0 goes out: {call:?}");
        }
        reply
    }
}

#[test]
fn a_drive_meets_what_it_should() {
    let seen = drive(&Watched, &Model, SEED, CALLS).unwrap_or_else(|d| panic!("{d}"));
    println!("{seen}");
    assert_eq!(seen.missing(), [] as [String; 0]);
}

/// A core that is wrong in one place.
struct Bent(fn(&Call, &mut Buffers, &mut Reply));

impl Maker for Bent {
    fn make(&self, call: &Call, b: &mut Buffers) -> Reply {
        let mut reply = Model.make(call, b);
        (self.0)(call, b, &mut reply);
        reply
    }
}

fn is_found(what: &str, bend: fn(&Call, &mut Buffers, &mut Reply)) {
    is_found_beside(&Model, what, bend);
}

fn is_found_beside(other: &dyn Maker, what: &str, bend: fn(&Call, &mut Buffers, &mut Reply)) {
    let difference = drive(other, &Bent(bend), SEED, CALLS).err().unwrap_or_else(|| panic!("{what} was not found"));
    assert!(difference.what.contains(what), "{what} was expected: {difference}");
}

#[test]
fn a_bent_core_is_found() {
    is_found("answers", |_, _, reply| {
        if let Reply::Acknowledged(r) = reply {
            r.sack.window |= 512;
        }
    });
    is_found("records", |call, b, _| {
        if matches!(call, Call::Take { .. }) {
            b.a.receiving.keeping.come[7] = NO;
        }
    });
    is_found("out", |call, b, reply| {
        if matches!(call, Call::Arrive { .. }) && reply.number() == 3 {
            b.out[1_471] ^= 1;
        }
    });
    is_found("receive area", |call, b, reply| {
        if matches!(call, Call::Arrive { .. }) && reply.number() == 0 {
            b.receive[AREA - 1] ^= 1;
        }
    });
    is_found("send area", |call, b, reply| {
        if matches!(call, Call::HandIn { .. }) && reply.number() == 20 {
            b.send[0] ^= 1;
        }
    });
}

/// Also where both cores are wrong alike.
#[test]
fn a_refusal_that_changes_the_record_is_found() {
    let bend = |_: &Call, b: &mut Buffers, reply: &mut Reply| {
        if reply.number() == 7 {
            b.a.ends.local_port ^= 1;
        }
    };
    is_found("records", bend);
    is_found_beside(&Bent(bend), "refused, and the records", bend);
}
