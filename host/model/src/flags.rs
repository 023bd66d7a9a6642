//! The flags of a record and of a call, tried on a core: in a record a byte that is neither 0 nor 1 is outside its bounds, in a call every byte but 0 is a yes.

use crate::association;
use crate::born;
use crate::call::{Buffers, Bytes, Call, Maker, Reply};
use crate::random::Random;
use crate::record::*;

const COUNT: usize = PLACES + 2;

/// The flags of a record, but for those of its chunks.
fn flag(a: &mut Association, i: usize) -> &mut u8 {
    match i {
        PLACES => &mut a.sending.path.running,
        i if i > PLACES => &mut a.sending.path.clock.sampled,
        i => &mut a.receiving.keeping.come[i],
    }
}

/// Each call that is lent a record, with enough of everything.
fn calls() -> Vec<Call> {
    let out = OUTPUT;
    let area = AREA;
    vec![
        Call::Arrive { packet: Bytes(vec![0; 16]), lent: Lent::default(), cookie: Bytes(vec![1]), echoed: Echoed::default(), area, out },
        Call::Associate { tag: 1, tsn: 1, port: 1, streams: 1, out },
        Call::HandIn { message: Bytes(vec![1]), stream: 0, unordered: NO, ppid: 0, area },
        Call::Transmit { area, out },
        Call::Take { area, out },
        Call::Sack { out },
        Call::T1 { out },
        Call::T2 { out },
        Call::T3,
        Call::Rtt { sample: 1 },
        Call::Shutdown { out },
        Call::Abort { cause: 12, tsn: 0, out },
        Call::ErrorStream { stream: 0, out },
        Call::ErrorStale { port: 1, tag: 1, late: 1, out },
        Call::Heartbeat { value: [0; 8], out },
    ]
}

/// Where a record with junk in one flag is not refused with 1, or where it or a lent buffer does not come back as it was; and where a message goes in wrong order.
pub fn faults(core: &dyn Maker) -> Vec<String> {
    let mut faults = Vec::new();
    let mut r = Random::new(1);
    let mut b = Buffers::new(association::closed(1, BOOK_9260));
    for i in 0..COUNT {
        for junk in [2, 255] {
            let mut a = born::record(&mut r);
            *flag(&mut a, i) = junk;
            for call in calls() {
                b.a = a;
                let number = core.make(&call, &mut b).number();
                if number != 1 || b.a != a {
                    faults.push(format!("flag {i} is {junk}: {number} to {call:?}"));
                }
            }
            if [&b.receive, &b.send, &b.out].iter().any(|lent| lent.iter().any(|byte| *byte != 0)) {
                faults.push(format!("flag {i} is {junk}: a buffer was written"));
                b = Buffers::new(a);
            }
        }
    }
    for unordered in 0..=255 {
        b.a = established();
        let reply = core.make(&Call::HandIn { message: Bytes(vec![1]), stream: 0, unordered, ppid: 0, area: AREA }, &mut b);
        if reply != Reply::HandedIn(HandedIn { number: 0, chunks: 1 }) || b.a.sending.places[0].chunk.unordered != (unordered != NO) {
            faults.push(format!("a message is handed in, unordered {unordered}: {reply:?}"));
        }
    }
    faults
}

fn established() -> Association {
    let mut a = association::closed(1, BOOK_9260);
    a.state = ESTABLISHED;
    a.ends = Ends { local_port: 1, peer_port: 2, my_tag: 7, peer_tag: 9, streams_in: 1, streams_out: 1, options: 0 };
    a
}
