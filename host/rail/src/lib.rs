//! The rail: heads hand in tiles of eight colour bands, a field computer takes them and keeps or compares them.

pub mod arguments;
pub mod demo;
pub mod lines;
pub mod load;
pub mod lone;
pub mod page;
pub mod parcel;
pub mod relay;
pub mod report;
pub mod sender;
pub mod source;
pub mod stop;
pub mod store;
pub mod swaps;
pub mod taker;
pub mod tiles;
pub mod view;

use oilwhisper::pcap::{Capture, Pcap};
use std::fmt;
use std::io::{self, ErrorKind};
use std::net::{Ipv4Addr, Ipv6Addr, SocketAddr, UdpSocket};
use std::path::Path;
use std::sync::{Arc, Mutex};

/// Why a run could not go on, in words for the one who started it.
#[derive(Clone, Debug, PartialEq, Eq)]
pub struct Failure(pub String);

impl fmt::Display for Failure {
    fn fmt(&self, f: &mut fmt::Formatter) -> fmt::Result {
        f.write_str(&self.0)
    }
}

impl std::error::Error for Failure {}

impl Failure {
    fn of_network(e: io::Error) -> Failure {
        Failure(format!("the network failed: {}", e))
    }
}

/// Where this is for all addresses of a machine that has none of IPv6, it is for all of IPv4.
pub fn bind(address: SocketAddr) -> Result<UdpSocket, Failure> {
    let bound = match UdpSocket::bind(address) {
        Err(e) if e.kind() != ErrorKind::AddrInUse && address.ip() == Ipv6Addr::UNSPECIFIED => {
            UdpSocket::bind((Ipv4Addr::UNSPECIFIED, address.port())).map_err(|_| e)
        }
        bound => bound,
    };
    bound.map_err(|e| unusable(address, &e))
}

fn unusable(address: SocketAddr, e: &io::Error) -> Failure {
    Failure(match e.kind() {
        ErrorKind::AddrInUse => format!("cannot use {}: the port is in use; stop the program that has it, or choose another port", address),
        ErrorKind::AddrNotAvailable => format!("cannot use {}: it is no address of this machine", address),
        ErrorKind::PermissionDenied => format!("cannot use {}: ports below 1024 need root; choose another port", address),
        _ => format!("cannot use {}: {}", address, e),
    })
}

pub fn start_capture(path: &Path) -> Result<Capture, Failure> {
    Pcap::create(path).map(|pcap| Arc::new(Mutex::new(pcap))).map_err(|e| unwritable(path, e))
}

pub fn end_capture(path: &Path, capture: &Capture) -> Result<(), Failure> {
    match capture.lock() {
        Ok(mut pcap) => pcap.close().map_err(|e| unwritable(path, e)),
        Err(_) => Err(Failure(format!("cannot write {}: a part of this program failed", path.display()))),
    }
}

fn unwritable(path: &Path, e: io::Error) -> Failure {
    Failure(format!("cannot write {}: {}", path.display(), e))
}
