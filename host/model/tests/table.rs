//! The state table, cell by cell.

use model::call::{Buffers, Call, Maker, Reply};
use model::record::{SHUTDOWN_PENDING, SHUTDOWN_SENT};
use model::Model;

#[test]
fn every_cell_is_as_the_paper_has_it() {
    let faults = model::table::faults(&Model);
    assert!(faults.is_empty(), "{}", faults.join("\n"));
}

/// Leaves SHUTDOWN-PENDING before its chunks are acknowledged.
struct Hasty;

impl Maker for Hasty {
    fn make(&self, call: &Call, b: &mut Buffers) -> Reply {
        let reply = Model.make(call, b);
        if matches!(call, Call::Arrive { .. }) && b.a.state == SHUTDOWN_PENDING {
            b.a.state = SHUTDOWN_SENT;
        }
        reply
    }
}

#[test]
fn a_wrong_cell_is_found() {
    let faults = model::table::faults(&Hasty);
    assert!(faults.iter().any(|f| f.starts_with("SACK of none in state 4")), "{faults:?}");
}
