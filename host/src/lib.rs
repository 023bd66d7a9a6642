//! A host of the proved SCTP core. From the top:
//!
//! - [`udp`]: an endpoint or a hub on a socket (RFC 6951), with a clock.
//! - [`hub`]: many associations, and [`endpoint`]: one after another. They have neither a socket nor a clock: packets and moments go in, packets and events come out.
//! - [`association`]: the core's own calls over one record, made safe; [`library`] is what they are made of, the proved library or another of its kind.
//!
//! What the core decides is proved. What it leaves to its host, which is all that this crate adds, is tested.

#![warn(missing_docs)]

mod acknowledging;
pub mod admission;
pub mod association;
pub mod calls;
pub mod checksum;
pub mod config;
mod cookie;
pub mod counts;
mod door;
pub mod endpoint;
pub mod event;
pub mod ffi;
mod front;
mod heartbeat;
pub mod hub;
mod last_word;
pub mod library;
mod outbox;
pub mod packet;
mod path;
pub mod pcap;
pub mod random;
mod round_trip;
mod session;
mod signature;
mod silence;
mod stray;
pub mod tickets;
mod timers;
pub mod udp;
