//! The hub for C: include/oilwhisper_host.h says what each function does. Every `unsafe` rests on what the header asks of its caller: a pointer is not null, points
//! to a whole struct or to as many bytes as are said, and a hub is used by one thread at a time.

use oilwhisper::calls::{Answer, Cause, MESSAGE_MOST, OUTPUT};
use oilwhisper::config::Config;
use oilwhisper::event::Why;
use oilwhisper::hub::{Event, HeadId, Hub, Settings};
use oilwhisper::library::Proved;
use oilwhisper::random::Random;
use std::net::{IpAddr, Ipv4Addr, Ipv6Addr, SocketAddr, SocketAddrV6};
use std::slice::{from_raw_parts, from_raw_parts_mut};
use std::time::{Duration, Instant};

/// An address that is neither of IPv4 nor of IPv6.
const ADDRESS: i32 = 255;
/// Linux's numbers, and the bytes of its two structs.
const AF_INET: u16 = 2;
const AF_INET6: u16 = 10;
const OF_INET: usize = 16;
const OF_INET6: usize = 28;

pub struct OwhHub {
    hub: Hub<Proved>,
    /// The moment that the caller's clock calls 0.
    zero: Instant,
}

impl OwhHub {
    fn moment(&self, now: u64) -> Instant {
        self.zero + Duration::from_millis(now)
    }
}

#[repr(C)]
pub struct OwhSettings {
    port: u16,
    streams: u16,
    listens: u8,
    at_once: u32,
    heartbeat: u32,
    unanswered: u32,
}

#[derive(Clone, Copy, Default)]
#[repr(C)]
pub struct OwhEvent {
    head: u64,
    kind: u32,
    why: u32,
    streams: u16,
    ticket: u64,
    undelivered: u64,
    milliseconds: u64,
    before: u64,
}

#[repr(C)]
pub struct OwhMessage {
    length: usize,
    stream: u16,
    unordered: u8,
    ssn: u16,
    ppid: u32,
}

fn number(answer: Answer<()>) -> i32 {
    answer.map_or_else(|refusal| i32::from(refusal.0), |()| 0)
}

/// The address in the bytes of a `struct sockaddr_in` or `struct sockaddr_in6`.
fn address_in(bytes: &[u8]) -> Option<SocketAddr> {
    let family = u16::from_ne_bytes([*bytes.first()?, *bytes.get(1)?]);
    let port = u16::from_be_bytes([*bytes.get(2)?, *bytes.get(3)?]);
    match family {
        AF_INET => {
            let ip: [u8; 4] = bytes.get(4..8)?.try_into().ok()?;
            Some(SocketAddr::new(IpAddr::V4(Ipv4Addr::from(ip)), port))
        }
        AF_INET6 => {
            let ip: [u8; 16] = bytes.get(8..24)?.try_into().ok()?;
            let scope: [u8; 4] = bytes.get(24..28)?.try_into().ok()?;
            Some(SocketAddr::V6(SocketAddrV6::new(Ipv6Addr::from(ip), port, 0, u32::from_ne_bytes(scope))))
        }
        _ => None,
    }
}

/// The bytes of such a struct, and how many there are.
fn bytes_of(address: SocketAddr) -> ([u8; OF_INET6], usize) {
    let mut bytes = [0; OF_INET6];
    bytes[2..4].copy_from_slice(&address.port().to_be_bytes());
    match address {
        SocketAddr::V4(four) => {
            bytes[..2].copy_from_slice(&AF_INET.to_ne_bytes());
            bytes[4..8].copy_from_slice(&four.ip().octets());
            (bytes, OF_INET)
        }
        SocketAddr::V6(six) => {
            bytes[..2].copy_from_slice(&AF_INET6.to_ne_bytes());
            bytes[8..24].copy_from_slice(&six.ip().octets());
            bytes[24..28].copy_from_slice(&six.scope_id().to_ne_bytes());
            (bytes, OF_INET6)
        }
    }
}

/// # Safety
/// `at` has a whole `struct sockaddr_storage`.
unsafe fn write_address(address: SocketAddr, at: *mut u8, length: *mut u32) {
    let (bytes, count) = bytes_of(address);
    from_raw_parts_mut(at, count).copy_from_slice(&bytes[..count]);
    *length = count as u32;
}

fn told(head: HeadId, event: Event) -> OwhEvent {
    let plain = |kind| OwhEvent { head: head.number(), kind, ..OwhEvent::default() };
    match event {
        Event::Up { streams, .. } => OwhEvent { streams, ..plain(1) },
        Event::Readable => plain(2),
        Event::Writable => plain(3),
        Event::Delivered(ticket) => OwhEvent { ticket: ticket.0, ..plain(4) },
        Event::Quiet(silence) => OwhEvent { milliseconds: silence.as_millis() as u64, ..plain(5) },
        Event::Heard => plain(6),
        Event::Moved { .. } => plain(7),
        Event::Restarted { before } => OwhEvent { before: before.number(), ..plain(9) },
        // Messages are delivered in the order of their tickets, so that those which were not follow each other.
        Event::Down { why, undelivered } => OwhEvent {
            why: why_for_c(why),
            ticket: undelivered.first().map_or(0, |ticket| ticket.0),
            undelivered: undelivered.len() as u64,
            ..plain(8)
        },
    }
}

fn why_for_c(why: Why) -> u32 {
    match why {
        Why::ShutDown => 1,
        Why::PeerAborted => 2,
        Why::WeAborted(_) => 3,
        Why::StaleCookie => 4,
        Why::HostName => 5,
        Why::NoAnswer => 6,
        Why::BeganAnew => 7,
    }
}

/// # Safety
/// As the header says.
#[no_mangle]
pub unsafe extern "C" fn owh_new(settings: *const OwhSettings, now: u64) -> *mut OwhHub {
    let settings = &*settings;
    let common = Config {
        streams: settings.streams,
        listens: settings.listens != 0,
        heartbeat: Duration::from_secs(u64::from(settings.heartbeat)),
        unanswered: settings.unanswered,
        ..Config::at_port(settings.port)
    };
    let random = match Random::from_system() {
        Ok(random) => random,
        Err(_) => return std::ptr::null_mut(),
    };
    // A clock that shows more than this process has lived counts from later.
    let begun = Instant::now();
    let zero = begun.checked_sub(Duration::from_millis(now)).unwrap_or(begun);
    let mut host = OwhHub { hub: Hub::new(Settings::for_heads(common, settings.at_once as usize), random, begun), zero };
    host.hub.flush(begun);
    Box::into_raw(Box::new(host))
}

/// # Safety
/// As the header says.
#[no_mangle]
pub unsafe extern "C" fn owh_free(hub: *mut OwhHub) {
    if !hub.is_null() {
        drop(Box::from_raw(hub));
    }
}

/// # Safety
/// As the header says.
#[no_mangle]
pub unsafe extern "C" fn owh_connect(hub: *mut OwhHub, peer: *const u8, length: u32, port: u16, now: u64, head: *mut u64) -> i32 {
    let host = &mut *hub;
    let moment = host.moment(now);
    let peer = match address_in(from_raw_parts(peer, length as usize)) {
        Some(peer) => peer,
        None => return ADDRESS,
    };
    number(host.hub.connect(peer, port, moment).map(|id| *head = id.number()))
}

/// # Safety
/// As the header says.
#[no_mangle]
pub unsafe extern "C" fn owh_arrive(hub: *mut OwhHub, packet: *const u8, length: usize, from: *const u8, from_length: u32, now: u64) -> i32 {
    let host = &mut *hub;
    let moment = host.moment(now);
    match address_in(from_raw_parts(from, from_length as usize)) {
        Some(from) => {
            host.hub.arrive(from_raw_parts(packet, length), from, moment);
            0
        }
        None => ADDRESS,
    }
}

/// # Safety
/// As the header says.
#[no_mangle]
pub unsafe extern "C" fn owh_expire(hub: *mut OwhHub, now: u64) {
    let host = &mut *hub;
    let moment = host.moment(now);
    host.hub.expire(moment);
}

/// # Safety
/// As the header says.
#[no_mangle]
pub unsafe extern "C" fn owh_flush(hub: *mut OwhHub, now: u64) {
    let host = &mut *hub;
    let moment = host.moment(now);
    host.hub.flush(moment);
}

/// # Safety
/// As the header says.
#[no_mangle]
pub unsafe extern "C" fn owh_wait(hub: *const OwhHub, now: u64) -> i64 {
    let host = &*hub;
    match host.hub.next_moment() {
        // Rounded up, so that the moment has come when the time has passed.
        Some(moment) => {
            let wait = moment.saturating_duration_since(host.moment(now));
            i64::try_from(wait.as_millis()).unwrap_or(i64::MAX - 1) + i64::from(wait.subsec_nanos() % 1_000_000 > 0)
        }
        None => -1,
    }
}

/// # Safety
/// As the header says.
#[no_mangle]
pub unsafe extern "C" fn owh_outgoing(hub: *mut OwhHub, out: *mut u8, to: *mut u8, to_length: *mut u32) -> usize {
    match (*hub).hub.outgoing() {
        Some(datagram) => {
            let length = datagram.packet.len().min(OUTPUT);
            from_raw_parts_mut(out, length).copy_from_slice(&datagram.packet[..length]);
            write_address(datagram.to, to, to_length);
            length
        }
        None => 0,
    }
}

/// # Safety
/// As the header says.
#[no_mangle]
pub unsafe extern "C" fn owh_event(hub: *mut OwhHub, event: *mut OwhEvent) -> i32 {
    match (*hub).hub.event() {
        Some((head, happened)) => {
            *event = told(head, happened);
            1
        }
        None => 0,
    }
}

/// # Safety
/// As the header says.
#[no_mangle]
pub unsafe extern "C" fn owh_hand_in(
    hub: *mut OwhHub,
    head: u64,
    message: *const u8,
    length: usize,
    stream: u16,
    unordered: u8,
    ppid: u32,
    ticket: *mut u64,
) -> i32 {
    let message = from_raw_parts(message, length);
    number((*hub).hub.hand_in(HeadId::from_number(head), message, stream, unordered != 0, ppid).map(|given| *ticket = given.0))
}

/// # Safety
/// As the header says.
#[no_mangle]
pub unsafe extern "C" fn owh_take(hub: *mut OwhHub, head: u64, out: *mut u8, message: *mut OwhMessage) -> i32 {
    match (*hub).hub.take(HeadId::from_number(head)) {
        Some((taken, bytes)) => {
            let length = bytes.len().min(MESSAGE_MOST);
            from_raw_parts_mut(out, length).copy_from_slice(&bytes[..length]);
            *message = OwhMessage { length, stream: taken.stream, unordered: u8::from(taken.unordered), ssn: taken.ssn, ppid: taken.ppid };
            1
        }
        None => 0,
    }
}

/// # Safety
/// As the header says.
#[no_mangle]
pub unsafe extern "C" fn owh_shutdown(hub: *mut OwhHub, head: u64, now: u64) -> i32 {
    let host = &mut *hub;
    let moment = host.moment(now);
    number(host.hub.shutdown(HeadId::from_number(head), moment))
}

/// # Safety
/// As the header says.
#[no_mangle]
pub unsafe extern "C" fn owh_abort(hub: *mut OwhHub, head: u64, now: u64) -> i32 {
    let host = &mut *hub;
    let moment = host.moment(now);
    number(host.hub.abort(HeadId::from_number(head), Cause::User, moment))
}

/// # Safety
/// As the header says.
#[no_mangle]
pub unsafe extern "C" fn owh_peer(hub: *const OwhHub, head: u64, peer: *mut u8, length: *mut u32) -> i32 {
    match (*hub).hub.peer(HeadId::from_number(head)) {
        Some(address) => {
            write_address(address, peer, length);
            1
        }
        None => 0,
    }
}
