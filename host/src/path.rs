//! Where the peer is, and how a move is proved. A packet that shows our tag moves the UDP port of the peer's IP address at once (RFC 6951 section 5.4: a
//! translator gave it another). Another IP address is believed only when a HEARTBEAT that was sent there came back with its nonce; until then everything
//! goes where it went before.

use std::net::SocketAddr;
use std::time::{Duration, Instant};

/// Not more than one address is asked in so long.
pub const CHECK_EVERY: Duration = Duration::from_secs(1);

pub type Nonce = [u8; 8];

#[derive(Debug, Default)]
pub struct Path {
    peer: Option<SocketAddr>,
    asked: Option<(SocketAddr, Nonce)>,
    asked_at: Option<Instant>,
}

impl Path {
    /// An association begins with the address that was asked for it, or that echoed the cookie which was sent to it.
    pub fn start(&mut self, peer: SocketAddr) {
        self.peer = Some(peer);
        self.asked = None;
    }

    pub fn peer(&self) -> Option<SocketAddr> {
        self.peer
    }

    pub fn is_of_peer(&self, address: SocketAddr) -> bool {
        self.peer.map_or(false, |peer| peer.ip() == address.ip())
    }

    /// A packet of the peer's, which shows our tag, came from this address: whether it is to be asked for an answer now.
    pub fn showed(&mut self, from: SocketAddr, now: Instant) -> bool {
        if self.is_of_peer(from) {
            self.peer = Some(from);
            return false;
        }
        self.asked_at.map_or(true, |asked| now.saturating_duration_since(asked) >= CHECK_EVERY)
    }

    /// A HEARTBEAT with this nonce went to an address that is not believed yet.
    pub fn asks(&mut self, address: SocketAddr, nonce: Nonce, now: Instant) {
        self.asked = Some((address, nonce));
        self.asked_at = Some(now);
    }

    /// A HEARTBEAT ACK brought this value from there: whether it proves that the peer has moved.
    pub fn answered(&mut self, value: &[u8], from: SocketAddr) -> bool {
        match self.asked {
            Some((address, nonce)) if address == from && value == nonce => {
                self.peer = Some(address);
                self.asked = None;
                true
            }
            _ => false,
        }
    }
}

#[cfg(test)]
mod tests {
    use super::*;

    fn address(last: u8, port: u16) -> SocketAddr {
        SocketAddr::from(([10, 0, 0, last], port))
    }

    fn to(peer: SocketAddr) -> Path {
        let mut path = Path::default();
        path.start(peer);
        path
    }

    #[test]
    fn a_port_moves_at_once() {
        let mut path = to(address(1, 9899));
        assert!(!path.showed(address(1, 40_000), Instant::now()));
        assert_eq!(path.peer(), Some(address(1, 40_000)));
    }

    #[test]
    fn an_address_moves_when_its_nonce_comes_back_from_there() {
        let now = Instant::now();
        let mut path = to(address(1, 9899));
        assert!(path.showed(address(2, 9899), now));
        path.asks(address(2, 9899), [7; 8], now);
        assert_eq!(path.peer(), Some(address(1, 9899)));
        assert!(!path.answered(&[6; 8], address(2, 9899)));
        assert!(!path.answered(&[7; 8], address(3, 9899)));
        assert!(!path.answered(&[7; 7], address(2, 9899)));
        assert_eq!(path.peer(), Some(address(1, 9899)));
        assert!(path.answered(&[7; 8], address(2, 9899)));
        assert_eq!(path.peer(), Some(address(2, 9899)));
        assert!(!path.answered(&[7; 8], address(2, 9899)));
    }

    #[test]
    fn addresses_are_asked_once_a_second() {
        let now = Instant::now();
        let mut path = to(address(1, 9899));
        path.asks(address(2, 9899), [7; 8], now);
        assert!(!path.showed(address(3, 9899), now + CHECK_EVERY - Duration::from_millis(1)));
        path.start(address(1, 9899));
        assert!(!path.showed(address(3, 9899), now + CHECK_EVERY - Duration::from_millis(1)));
        assert!(!path.answered(&[7; 8], address(2, 9899)));
        assert!(path.showed(address(3, 9899), now + CHECK_EVERY));
    }
}
