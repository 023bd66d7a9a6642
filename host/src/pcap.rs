//! A capture that Wireshark reads: raw IP packets (LINKTYPE_RAW), each with one UDP datagram from or to the port that is SCTP's inside UDP.

use std::collections::HashMap;
use std::fs::File;
use std::io::{self, Write};
use std::net::{IpAddr, Ipv4Addr, Ipv6Addr, SocketAddr, UdpSocket};
use std::path::Path;
use std::sync::{Arc, Mutex};
use std::time::{Duration, SystemTime, UNIX_EPOCH};

/// RFC 6951 section 4.
pub const ENCAPSULATION: u16 = 9899;
const LINKTYPE_RAW: u32 = 101;
const UDP: u8 = 17;
const UDP_HEADER: usize = 8;
const HOPS: u8 = 64;

/// A capture.
pub struct Pcap<W: Write> {
    file: W,
    failed: Option<io::Error>,
}

impl Pcap<File> {
    /// A capture in a new file.
    pub fn create(path: &Path) -> io::Result<Pcap<File>> {
        Pcap::new(File::create(path)?)
    }
}

impl<W: Write> Pcap<W> {
    /// A capture that is written here: its head comes first.
    pub fn new(mut file: W) -> io::Result<Pcap<W>> {
        file.write_all(&0xa1b2_c3d4u32.to_le_bytes())?;
        file.write_all(&2u16.to_le_bytes())?;
        file.write_all(&4u16.to_le_bytes())?;
        file.write_all(&[0; 8])?;
        file.write_all(&65_535u32.to_le_bytes())?;
        file.write_all(&LINKTYPE_RAW.to_le_bytes())?;
        Ok(Pcap { file, failed: None })
    }

    /// Writes a packet down. The first failure is kept for `close`, so that a full disk does not stop an association.
    pub fn packet(&mut self, since_1970: Duration, from: SocketAddr, to: SocketAddr, sctp: &[u8]) {
        if self.failed.is_none() {
            self.failed = self.write_packet(since_1970, &framed(from, to, sctp)).err();
        }
    }

    /// The end: all is written when this has returned, or the first failure is told.
    pub fn close(&mut self) -> io::Result<()> {
        match self.failed.take() {
            Some(e) => Err(e),
            None => self.file.flush(),
        }
    }

    fn write_packet(&mut self, since_1970: Duration, frame: &[u8]) -> io::Result<()> {
        let length = (frame.len() as u32).to_le_bytes();
        let seconds = (since_1970.as_secs() as u32).to_le_bytes();
        let microseconds = since_1970.subsec_micros().to_le_bytes();
        // In one piece, so that a run that is interrupted leaves whole packets.
        self.file.write_all(&[&seconds, &microseconds, &length, &length, frame].concat())
    }
}

/// An SCTP packet in UDP in IP; IPv4 where both addresses are.
fn framed(from: SocketAddr, to: SocketAddr, sctp: &[u8]) -> Vec<u8> {
    let length = (UDP_HEADER + sctp.len()) as u16;
    let mut datagram = Vec::with_capacity(UDP_HEADER + sctp.len());
    let (source, destination) = ports(from.port(), to.port());
    datagram.extend_from_slice(&source.to_be_bytes());
    datagram.extend_from_slice(&destination.to_be_bytes());
    datagram.extend_from_slice(&length.to_be_bytes());
    datagram.extend_from_slice(&[0, 0]);
    datagram.extend_from_slice(sctp);
    let (mut frame, addresses) = match (as_four(from.ip()), as_four(to.ip())) {
        (IpAddr::V4(from), IpAddr::V4(to)) => (ipv4_header(from.octets(), to.octets(), length), [from.octets(), to.octets()].concat()),
        (from, to) => {
            let (from, to) = (as_six(from), as_six(to));
            (ipv6_header(from, to, length), [from.octets(), to.octets()].concat())
        }
    };
    let pseudo = [addresses, vec![0, UDP], length.to_be_bytes().to_vec()].concat();
    // RFC 768: a sum of 0 is sent as all ones.
    let sum = match internet_checksum(&[&pseudo, &datagram]) {
        0 => u16::MAX,
        sum => sum,
    };
    datagram[6..8].copy_from_slice(&sum.to_be_bytes());
    frame.extend_from_slice(&datagram);
    frame
}

/// The ports as they are shown. Where neither is SCTP's inside UDP, the lower, which is mostly the listener's, is shown as it, so that the capture is read as SCTP
/// unasked, and heads behind one address are told apart.
fn ports(source: u16, destination: u16) -> (u16, u16) {
    let lower = source.min(destination);
    let show = |port: u16| if port == lower { ENCAPSULATION } else { port };
    match source == ENCAPSULATION || destination == ENCAPSULATION {
        true => (source, destination),
        false => (show(source), show(destination)),
    }
}

/// An address of IPv4 that a socket for both kinds shows as one of IPv6.
fn as_four(address: IpAddr) -> IpAddr {
    match address {
        IpAddr::V6(six) => six.to_ipv4_mapped().map_or(address, IpAddr::V4),
        IpAddr::V4(_) => address,
    }
}

fn as_six(address: IpAddr) -> Ipv6Addr {
    match address {
        IpAddr::V4(four) => four.to_ipv6_mapped(),
        IpAddr::V6(six) => six,
    }
}

fn ipv4_header(from: [u8; 4], to: [u8; 4], datagram: u16) -> Vec<u8> {
    const LENGTH: u16 = 20;
    let mut header = vec![0x45, 0];
    header.extend_from_slice(&(LENGTH + datagram).to_be_bytes());
    header.extend_from_slice(&[0, 0, 0x40, 0, HOPS, UDP, 0, 0]);
    header.extend_from_slice(&from);
    header.extend_from_slice(&to);
    let sum = internet_checksum(&[&header]);
    header[10..12].copy_from_slice(&sum.to_be_bytes());
    header
}

fn ipv6_header(from: Ipv6Addr, to: Ipv6Addr, datagram: u16) -> Vec<u8> {
    let mut header = vec![0x60, 0, 0, 0];
    header.extend_from_slice(&datagram.to_be_bytes());
    header.extend_from_slice(&[UDP, HOPS]);
    header.extend_from_slice(&from.octets());
    header.extend_from_slice(&to.octets());
    header
}

/// RFC 1071, over parts of which all but the last have an even length.
fn internet_checksum(parts: &[&[u8]]) -> u16 {
    let words = parts.iter().flat_map(|part| part.chunks(2));
    let mut sum: u32 = words.map(|pair| u32::from(pair[0]) << 8 | pair.get(1).map_or(0, |low| u32::from(*low))).sum();
    while sum > 0xffff {
        sum = (sum & 0xffff) + (sum >> 16);
    }
    !(sum as u16)
}

/// A capture that several ends write to.
pub type Capture = Arc<Mutex<Pcap<File>>>;

/// One end's view of a capture. Several ends can share one.
#[derive(Clone)]
pub struct Tap {
    capture: Capture,
    here: SocketAddr,
    /// Which address of this machine each peer sees, where the socket stands at all of them.
    seen: Arc<Mutex<HashMap<IpAddr, IpAddr>>>,
    /// Whom each relay stands for.
    behind: HashMap<SocketAddr, SocketAddr>,
    writes_received: bool,
}

impl Tap {
    /// Writes down what this end sends.
    pub fn new(capture: Capture, here: SocketAddr) -> Tap {
        Tap { capture, here, seen: Arc::default(), behind: HashMap::new(), writes_received: false }
    }

    /// Shows this peer, where a relay stands between.
    pub fn shows_behind(mut self, relay: SocketAddr, peer: SocketAddr) -> Tap {
        self.behind.insert(relay, peer);
        self
    }

    /// Writes down what comes too, where no other end's tap does.
    pub fn writes_received(self) -> Tap {
        Tap { writes_received: true, ..self }
    }

    /// A packet went there.
    pub fn sent(&self, to: SocketAddr, packet: &[u8]) {
        self.write(self.here_for(to), self.behind.get(&to).copied().unwrap_or(to), packet);
    }

    /// A packet came from there.
    pub fn received(&self, from: SocketAddr, packet: &[u8]) {
        if self.writes_received {
            self.write(from, self.here_for(from), packet);
        }
    }

    fn here_for(&self, peer: SocketAddr) -> SocketAddr {
        if !self.here.ip().is_unspecified() {
            return self.here;
        }
        match self.seen.lock() {
            Ok(mut seen) => {
                let ip = *seen.entry(peer.ip()).or_insert_with(|| address_towards(peer).unwrap_or_else(|_| self.here.ip()));
                SocketAddr::new(ip, self.here.port())
            }
            Err(_) => self.here,
        }
    }

    fn write(&self, from: SocketAddr, to: SocketAddr, packet: &[u8]) {
        let since_1970 = SystemTime::now().duration_since(UNIX_EPOCH).unwrap_or_default();
        if let Ok(mut pcap) = self.capture.lock() {
            pcap.packet(since_1970, from, to, packet);
        }
    }
}

/// The address of this machine that its route to the peer begins at. Nothing is sent.
fn address_towards(peer: SocketAddr) -> io::Result<IpAddr> {
    let anywhere: IpAddr = match peer {
        SocketAddr::V4(_) => Ipv4Addr::UNSPECIFIED.into(),
        SocketAddr::V6(_) => Ipv6Addr::UNSPECIFIED.into(),
    };
    let socket = UdpSocket::bind((anywhere, 0))?;
    socket.connect(peer)?;
    socket.local_addr().map(|address| address.ip())
}

#[cfg(test)]
mod tests {
    use super::*;

    fn at(address: &str, port: u16) -> SocketAddr {
        SocketAddr::new(address.parse().unwrap(), port)
    }

    fn written(from: &str, to: &str, sctp: &[u8]) -> Vec<u8> {
        let mut pcap = Pcap::new(Vec::new()).unwrap();
        pcap.packet(Duration::new(1_600_000_000, 123_456_789), at(from, 9899), at(to, 40_000), sctp);
        pcap.close().unwrap();
        pcap.file
    }

    #[test]
    fn the_file_begins_with_the_header_of_raw_ip() {
        let file = written("127.0.0.1", "127.0.0.2", &[]);
        assert_eq!(file[..4], [0xd4, 0xc3, 0xb2, 0xa1]);
        assert_eq!(file[4..8], [2, 0, 4, 0]);
        assert_eq!(file[20..24], [101, 0, 0, 0]);
    }

    #[test]
    fn a_packet_stands_behind_its_time_lengths_and_headers() {
        let file = written("127.0.0.1", "127.0.0.2", b"sctp");
        let record = &file[24..];
        assert_eq!(record[..4], 1_600_000_000u32.to_le_bytes());
        assert_eq!(record[4..8], 123_456u32.to_le_bytes());
        assert_eq!(record[8..12], 32u32.to_le_bytes());
        assert_eq!(record[12..16], 32u32.to_le_bytes());
        let frame = &record[16..];
        assert_eq!(frame.len(), 32);
        assert_eq!(frame[..4], [0x45, 0, 0, 32]);
        assert_eq!(frame[9], UDP);
        assert_eq!(frame[12..20], [127, 0, 0, 1, 127, 0, 0, 2]);
        assert_eq!(frame[20..26], [0x26, 0xab, 0x9c, 0x40, 0, 12]);
        assert_eq!(&frame[28..], b"sctp");
    }

    #[test]
    fn the_sums_of_a_right_packet_come_out_as_zero() {
        for (from, to) in [("10.0.0.1", "10.9.8.7"), ("2001:db8::1", "2001:db8::2"), ("::1", "127.0.0.1")] {
            let frame = framed(at(from, 1), at(to, 2), b"twelve bytes");
            let header = if frame[0] >> 4 == 4 { 20 } else { 40 };
            let (addresses, datagram) = match header {
                20 => (&frame[12..20], &frame[20..]),
                _ => (&frame[8..40], &frame[40..]),
            };
            if header == 20 {
                assert_eq!(internet_checksum(&[&frame[..20]]), 0);
            }
            let pseudo = [addresses, &[0, UDP], &(datagram.len() as u16).to_be_bytes()].concat();
            assert_eq!(internet_checksum(&[&pseudo, datagram]), 0, "{} {}", from, to);
        }
    }

    #[test]
    fn one_port_is_sctp_s_and_the_other_tells_who_it_is() {
        assert_eq!(ports(9899, 40_000), (9899, 40_000));
        assert_eq!(ports(40_000, 9899), (40_000, 9899));
        assert_eq!(ports(40_000, 7000), (40_000, 9899));
        assert_eq!(ports(7000, 40_000), (9899, 40_000));
        assert_eq!(ports(7000, 7000), (9899, 9899));
    }

    #[test]
    fn an_address_of_four_is_shown_as_such() {
        let frame = framed(at("::ffff:10.0.0.1", 1), at("10.0.0.2", 2), b"");
        assert_eq!(frame[12..20], [10, 0, 0, 1, 10, 0, 0, 2]);
    }

    #[test]
    fn a_socket_at_all_addresses_is_shown_at_the_one_that_the_peer_sees() {
        assert_eq!(address_towards(at("127.0.0.9", 1)).unwrap(), IpAddr::from([127, 0, 0, 1]));
    }

    #[test]
    fn rfc_1071_has_this_example() {
        assert_eq!(internet_checksum(&[&[0x00, 0x01, 0xf2, 0x03, 0xf4, 0xf5, 0xf6, 0xf7]]), !0xddf2);
    }

    struct Full;

    impl Write for Full {
        fn write(&mut self, bytes: &[u8]) -> io::Result<usize> {
            match bytes.len() {
                0..=8 => Ok(bytes.len()),
                _ => Err(io::Error::new(io::ErrorKind::Other, "full")),
            }
        }

        fn flush(&mut self) -> io::Result<()> {
            Ok(())
        }
    }

    #[test]
    fn a_failure_is_told_at_the_end() {
        let mut pcap = Pcap::new(Full).unwrap();
        pcap.packet(Duration::ZERO, at("1.2.3.4", 1), at("1.2.3.5", 2), b"sctp");
        assert!(pcap.close().is_err());
    }
}
