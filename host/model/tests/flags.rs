//! Flags that are neither 0 nor 1.

use model::call::{Buffers, Call, Maker, Reply};
use model::flags::faults;
use model::record::YES;
use model::Model;

#[test]
fn every_record_gets_an_answer() {
    assert_eq!(faults(&Model), [] as [String; 0]);
}

/// Takes every byte but 0 for a yes, as C's own `bool` would.
struct Lenient;

impl Maker for Lenient {
    fn make(&self, call: &Call, b: &mut Buffers) -> Reply {
        let path = &mut b.a.sending.path;
        path.running = path.running.min(YES);
        Model.make(call, b)
    }
}

#[test]
fn junk_that_is_let_pass_is_found() {
    let faults = faults(&Lenient);
    assert!(faults.iter().all(|fault| fault.starts_with("flag 128 is ")) && faults.len() >= 2 * 15, "{faults:?}");
}

/// Takes the lowest bit of the parameter alone.
struct Narrow;

impl Maker for Narrow {
    fn make(&self, call: &Call, b: &mut Buffers) -> Reply {
        let mut call = call.clone();
        if let Call::HandIn { unordered, .. } = &mut call {
            *unordered &= 1;
        }
        Model.make(&call, b)
    }
}

#[test]
fn an_unordered_message_that_is_sent_in_order_is_found() {
    let faults = faults(&Narrow);
    assert!(faults.len() == 127 && faults[0].starts_with("a message is handed in, unordered 2:"), "{faults:?}");
}
