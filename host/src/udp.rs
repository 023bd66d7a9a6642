//! An endpoint or a hub on a UDP socket: each datagram is one SCTP packet (RFC 6951).
//!
#![cfg_attr(feature = "proved", doc = "```")]
#![cfg_attr(not(feature = "proved"), doc = "```ignore")]
//! use oilwhisper::endpoint::{Config, Endpoint};
//! use oilwhisper::hub::{Event, Hub, Settings};
//! use oilwhisper::library::Proved;
//! use oilwhisper::random::Random;
//! use oilwhisper::udp::{Line, Station};
//! use std::net::UdpSocket;
//! use std::time::{Duration, Instant};
//!
//! # fn main() -> Result<(), Box<dyn std::error::Error>> {
//! let (now, turn) = (Instant::now(), Duration::from_millis(1));
//! let hub = Hub::<Proved>::new(Settings::for_heads(Config::on_a_rail(5001), 64), Random::from_system()?, now);
//! let mut field = Station::new(hub, UdpSocket::bind("127.0.0.1:0")?, None);
//!
//! let mut head = Endpoint::<Proved>::new(Config::on_a_rail(5000), Random::from_system()?, now);
//! head.associate(field.wire.address()?, 5001, now)?;
//! let mut head = Line::new(head, UdpSocket::bind("127.0.0.1:0")?, None);
//!
//! let mut came = None;
//! while came.is_none() {
//!     // Refused until the association is up.
//!     if head.endpoint.counts().messages_in == 0 {
//!         let _ = head.endpoint.hand_in(b"painted rock", 0, false, 0);
//!     }
//!     head.turn(turn)?;
//!     field.turn(turn)?;
//!     while let Some((id, event)) = field.hub.event() {
//!         if event == Event::Readable {
//!             came = field.hub.take(id).map(|(_, message)| message.to_vec());
//!         }
//!     }
//! }
//! assert_eq!(came.as_deref(), Some(&b"painted rock"[..]));
//! # Ok(())
//! # }
//! ```

use crate::endpoint::Endpoint;
use crate::hub::Hub;
use crate::library::Library;
use crate::packet::Datagram;
use crate::pcap::Tap;
use std::io::{self, ErrorKind};
use std::net::{SocketAddr, UdpSocket};
use std::time::{Duration, Instant};

/// A datagram longer than the core reads is cut, and still too long for it.
const BUFFER: usize = 2048;
/// Timers are kept to within this.
const GRAIN: Duration = Duration::from_millis(1);

/// A socket, with a capture of what passes it.
pub struct Wire {
    socket: UdpSocket,
    tap: Option<Tap>,
    trouble: Option<io::Error>,
    patience: Option<Duration>,
    buffer: [u8; BUFFER],
}

impl Wire {
    /// A socket, and where what passes it is written down.
    pub fn new(socket: UdpSocket, tap: Option<Tap>) -> Wire {
        Wire { socket, tap, trouble: None, patience: None, buffer: [0; BUFFER] }
    }

    /// Where the socket stands.
    pub fn address(&self) -> io::Result<SocketAddr> {
        self.socket.local_addr()
    }

    /// Why the last packet could not be sent, or did not arrive, if none has come since. It counts as lost, so that no peer can stop this end by an address
    /// that nothing can be sent to.
    pub fn trouble(&self) -> Option<&io::Error> {
        self.trouble.as_ref()
    }

    fn send(&mut self, datagram: &Datagram) {
        if let Some(tap) = &self.tap {
            tap.sent(datagram.to, &datagram.packet);
        }
        self.trouble = self.socket.send_to(&datagram.packet, datagram.to).err();
    }

    /// Waits for one packet until this moment, but no longer than `longest`.
    fn receive(&mut self, moment: Option<Instant>, longest: Duration) -> io::Result<Option<(&[u8], SocketAddr)>> {
        let wait = moment.map_or(longest, |moment| moment.saturating_duration_since(Instant::now()).min(longest));
        let patience = Some(rounded_up(wait));
        if self.patience != patience {
            self.socket.set_read_timeout(patience)?;
            self.patience = patience;
        }
        match self.socket.recv_from(&mut self.buffer) {
            Ok((length, from)) => {
                self.trouble = None;
                let packet = self.buffer.get(..length).unwrap_or_default();
                if let Some(tap) = &self.tap {
                    tap.received(from, packet);
                }
                Ok(Some((packet, from)))
            }
            Err(e) if is_like_silence(&e) => Ok(None),
            Err(e) if is_trouble(&e) => {
                self.trouble = Some(e);
                Ok(None)
            }
            Err(e) => Err(e),
        }
    }
}

/// An endpoint on a socket.
pub struct Line<L> {
    /// The endpoint.
    pub endpoint: Endpoint<L>,
    /// Its socket.
    pub wire: Wire,
}

impl<L: Library> Line<L> {
    /// An endpoint on a socket, and where what passes is written down.
    pub fn new(endpoint: Endpoint<L>, socket: UdpSocket, tap: Option<Tap>) -> Line<L> {
        Line { endpoint, wire: Wire::new(socket, tap) }
    }

    /// Where its socket stands.
    pub fn address(&self) -> io::Result<SocketAddr> {
        self.wire.address()
    }

    /// See `Wire::trouble`.
    pub fn trouble(&self) -> Option<&io::Error> {
        self.wire.trouble()
    }

    /// Sends what is due, waits for one packet but no longer than `longest`, and does what a timer asks. Between two turns messages are taken and handed in.
    pub fn turn(&mut self, longest: Duration) -> io::Result<()> {
        self.endpoint.flush(Instant::now());
        self.send_all();
        if let Some((packet, from)) = self.wire.receive(self.endpoint.next_moment(), longest)? {
            self.endpoint.arrive(packet, from, Instant::now());
        }
        self.endpoint.expire(Instant::now());
        self.send_all();
        Ok(())
    }

    fn send_all(&mut self) {
        while let Some(datagram) = self.endpoint.outgoing() {
            self.wire.send(&datagram);
        }
    }
}

/// A hub on a socket.
pub struct Station<L> {
    /// The hub.
    pub hub: Hub<L>,
    /// Its socket.
    pub wire: Wire,
}

impl<L: Library> Station<L> {
    /// A hub on a socket, and where what passes is written down.
    pub fn new(hub: Hub<L>, socket: UdpSocket, tap: Option<Tap>) -> Station<L> {
        Station { hub, wire: Wire::new(socket, tap) }
    }

    /// As `Line::turn`.
    pub fn turn(&mut self, longest: Duration) -> io::Result<()> {
        self.hub.flush(Instant::now());
        self.send_all();
        if let Some((packet, from)) = self.wire.receive(self.hub.next_moment(), longest)? {
            self.hub.arrive(packet, from, Instant::now());
        }
        self.hub.expire(Instant::now());
        self.send_all();
        Ok(())
    }

    fn send_all(&mut self) {
        while let Some(datagram) = self.hub.outgoing() {
            self.wire.send(&datagram);
        }
    }
}

/// A wait in whole grains, since most waits are alike then and the socket is told only of others; never 0, which would mean for ever.
fn rounded_up(wait: Duration) -> Duration {
    let grains = (wait.as_millis() / GRAIN.as_millis()).min(1000) as u32 + 1;
    GRAIN * grains
}

/// What the protocol treats as no packet that came.
fn is_like_silence(e: &io::Error) -> bool {
    matches!(e.kind(), ErrorKind::WouldBlock | ErrorKind::TimedOut | ErrorKind::Interrupted)
}

/// Linux's numbers for a network that is down or unreachable, and for a host that is.
const UNREACHABLE: [i32; 4] = [100, 101, 112, 113];

/// What a network may get over: a packet of ours found nobody (a connected socket hears of it), or no network was there.
fn is_trouble(e: &io::Error) -> bool {
    e.kind() == ErrorKind::ConnectionRefused || e.raw_os_error().map_or(false, |number| UNREACHABLE.contains(&number))
}

#[cfg(test)]
mod tests {
    use super::*;

    #[test]
    fn a_network_that_is_down_or_a_closed_port_does_not_end_a_line() {
        let is_told = |number: i32| is_trouble(&io::Error::from_raw_os_error(number));
        // A network that is down or unreachable, a port that is closed, a host that is down or unreachable.
        assert!([100, 101, 111, 112, 113].into_iter().all(is_told));
        // No such socket.
        assert!(!is_told(9));
    }

    #[test]
    fn a_wait_is_whole_grains_and_never_for_ever() {
        assert_eq!(rounded_up(Duration::ZERO), GRAIN);
        assert_eq!(rounded_up(Duration::from_micros(1500)), GRAIN * 2);
        assert_eq!(rounded_up(Duration::from_secs(1_000_000)), GRAIN * 1001);
    }
}
