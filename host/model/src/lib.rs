//! A plain model of the core, written from the scope paper ("01"), the requests that came later ("02"), their decisions, RFC 9260 and, for the older
//! book, RFC 4960, and a driver that holds two implementations of the core against each other.
//!
//! The rules are 01's and 02's. What 01 leaves open in the record's representation is taken from the core:
//!
//! - A freed place of the receiving side is all 0. A freed place of the sending side keeps its fields, its misses too, and has status 0.
//! - A chunk that waits has TSN 0, SSN 0 and misses 0; `order` counts the chunks handed in, on the circle of 2^32, and stays when it is sent.
//! - `oldest` is the order of the chunk that waits longest, or of the next to be handed in.
//! - T3 sets the misses of every place to 0, free ones too.
//! - The bounds of a free place of the sending side: its misses, at most 3. Nothing else of a free place is looked at.
//! - `until` stays when a recovery ends.
//! - A flag that is not of a chunk is a byte; one that is neither 0 nor 1 is outside the record's bounds.
//! - A SACK empties `dups` to 0; its values have `dups` as it stood, entries behind `listed` too.
//! - In COOKIE-WAIT `streams_in` is 128 and the peer's tag 0. An INIT always offers 128 streams in and a window of 65,536.
//! - An INIT ACK's cookie is kept with 0 behind it; a COOKIE ACK leaves it.
//! - In CLOSED neither tag, port nor stream is asked for; more than 128 streams are outside the bounds there too.
//! - `tries` of the association is 0 in a state that does not wait, else the record is outside its bounds.
//! - Values of a refused call are 0, but for the length that a take needs.

#![warn(missing_docs)]

mod arrive;
mod association;
mod bend;
mod born;
pub mod call;
mod calls;
mod cases;
pub mod channel;
pub mod checksum;
mod core;
pub mod coverage;
mod craft;
pub mod drive;
pub mod flags;
mod letting;
mod meeting;
pub mod numbers;
mod path;
pub mod random;
pub mod read;
mod receiving;
pub mod record;
mod sending;
pub mod soak;
pub mod table;
pub mod twin;
pub mod write;

pub use crate::association::is_sound;
pub use crate::core::{Core, Model};
pub use crate::drive::drive;
