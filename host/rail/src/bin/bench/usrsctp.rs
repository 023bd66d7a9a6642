//! libusrsctp's two ends in one process: AF_CONN sockets whose packets go through memory, and timers that run only when they are asked to.

use crate::paths::{Pair, Wire, MESSAGE, PACKET};
use std::cell::RefCell;
use std::ffi::c_void;
use std::mem::size_of;
use std::ptr::{null, null_mut};

const AF_CONN: i32 = 123;
const SOCK_STREAM: i32 = 1;
const IPPROTO_SCTP: i32 = 132;
const SCTP_NODELAY: i32 = 4;
const SCTP_PEER_ADDR_PARAMS: i32 = 10;
const SPP_PMTUD_DISABLE: u32 = 16;
const NO_INFO: u32 = 0;
const PORTS: [u16; 2] = [5000, 5001];
/// Room for one message in a packet and not for two, as with ours.
const PATH_MTU: u32 = 548;
const DELAYED_SACK_MS: u32 = 250;

type Socket = *mut c_void;
type Output = extern "C" fn(*mut c_void, *mut c_void, usize, u8, u8) -> i32;

#[repr(C)]
struct ConnAddress {
    family: u16,
    port: u16,
    address: *mut c_void,
}

#[repr(C, align(8))]
struct PathParameters {
    address: [u8; 128],
    association: u32,
    heartbeat_interval: u32,
    path_mtu: u32,
    flags: u32,
    flow_label: u32,
    retransmissions: u16,
    dscp: u8,
}

extern "C" {
    fn refuse_threads(refuse: bool);
    fn usrsctp_init_nothreads(port: u16, output: Output, debug: *const c_void);
    fn usrsctp_register_address(address: *mut c_void);
    fn usrsctp_socket(
        domain: i32,
        kind: i32,
        protocol: i32,
        receive: *const c_void,
        send: *const c_void,
        threshold: u32,
        info: *mut c_void,
    ) -> Socket;
    fn usrsctp_set_non_blocking(socket: Socket, on: i32) -> i32;
    fn usrsctp_setsockopt(socket: Socket, level: i32, name: i32, value: *const c_void, length: u32) -> i32;
    fn usrsctp_bind(socket: Socket, name: *const ConnAddress, length: u32) -> i32;
    fn usrsctp_listen(socket: Socket, backlog: i32) -> i32;
    fn usrsctp_connect(socket: Socket, name: *const ConnAddress, length: u32) -> i32;
    fn usrsctp_accept(socket: Socket, name: *mut c_void, length: *mut u32) -> Socket;
    fn usrsctp_conninput(address: *mut c_void, bytes: *const u8, length: usize, ecn: u8);
    fn usrsctp_handle_timers(elapsed_ms: u32);
    fn usrsctp_sendv(
        socket: Socket,
        data: *const u8,
        length: usize,
        to: *const c_void,
        addresses: i32,
        info: *const c_void,
        info_length: u32,
        info_type: u32,
        flags: i32,
    ) -> isize;
    fn usrsctp_recvv(
        socket: Socket,
        data: *mut u8,
        length: usize,
        from: *mut c_void,
        from_length: *mut u32,
        info: *mut c_void,
        info_length: *mut u32,
        info_type: *mut u32,
        flags: *mut i32,
    ) -> isize;
}

thread_local! {
    /// What the sender, and what the receiver, has given out.
    static WIRES: RefCell<[Wire; 2]> = RefCell::default();
}

/// An end is known by an address that need not be one: the sender's is 1 and the receiver's 2.
fn address(end: usize) -> *mut c_void {
    (end + 1) as *mut c_void
}

extern "C" fn output(address: *mut c_void, bytes: *mut c_void, length: usize, _: u8, _: u8) -> i32 {
    let packet = unsafe { std::slice::from_raw_parts(bytes.cast::<u8>(), length) };
    WIRES.with(|wires| {
        let wire = &mut wires.borrow_mut()[address as usize - 1];
        wire.free()[..length].copy_from_slice(packet);
        wire.put(length);
    });
    0
}

/// What one end gave out arrives at the other, which does its part after each packet.
fn carry(from: usize, mut then: impl FnMut(&[u8])) {
    let sent = WIRES.with(|wires| std::mem::take(&mut wires.borrow_mut()[from]));
    for packet in sent.packets() {
        unsafe { usrsctp_conninput(address(1 - from), packet.as_ptr(), packet.len(), 0) };
        then(packet);
    }
    WIRES.with(|wires| {
        let wire = &mut wires.borrow_mut()[from];
        assert_eq!(wire.packets().count(), 0, "only the other end gave something out");
        *wire = sent;
        wire.clear();
    });
}

fn conn(end: usize, port: u16) -> ConnAddress {
    ConnAddress { family: AF_CONN as u16, port: port.to_be(), address: address(end) }
}

fn set<T>(socket: Socket, name: i32, value: &T) {
    let told = unsafe { usrsctp_setsockopt(socket, IPPROTO_SCTP, name, (value as *const T).cast(), size_of::<T>() as u32) };
    assert_eq!(told, 0, "libusrsctp takes option {}", name);
}

fn socket(end: usize) -> Socket {
    unsafe {
        usrsctp_register_address(address(end));
        let socket = usrsctp_socket(AF_CONN, SOCK_STREAM, IPPROTO_SCTP, null(), null(), 0, null_mut());
        assert!(!socket.is_null(), "libusrsctp gives a socket");
        assert_eq!(usrsctp_set_non_blocking(socket, 1), 0);
        set(socket, SCTP_NODELAY, &1i32);
        let path = PathParameters {
            address: [0; 128],
            association: 0,
            heartbeat_interval: 0,
            path_mtu: PATH_MTU,
            flags: SPP_PMTUD_DISABLE,
            flow_label: 0,
            retransmissions: 0,
            dscp: 0,
        };
        set(socket, SCTP_PEER_ADDR_PARAMS, &path);
        let here = conn(end, PORTS[end]);
        assert_eq!(usrsctp_bind(socket, &here, size_of::<ConnAddress>() as u32), 0);
        socket
    }
}

pub struct Theirs {
    sender: Socket,
    receiver: Socket,
    message: [u8; MESSAGE],
}

impl Theirs {
    /// The library keeps its own state in the process, so there is to be one pair only.
    pub fn new() -> Theirs {
        unsafe {
            refuse_threads(true);
            usrsctp_init_nothreads(0, output, null());
            refuse_threads(false);
            let (sender, listener) = (socket(0), socket(1));
            assert_eq!(usrsctp_listen(listener, 1), 0);
            // Not 0: it is under way, and the socket does not block.
            usrsctp_connect(sender, &conn(0, PORTS[1]), size_of::<ConnAddress>() as u32);
            for _ in 0..2 {
                carry(0, |_| ());
                carry(1, |_| ());
            }
            let receiver = usrsctp_accept(listener, null_mut(), null_mut());
            assert!(!receiver.is_null(), "the handshake is done");
            assert_eq!(usrsctp_set_non_blocking(receiver, 1), 0);
            Theirs { sender, receiver, message: [0x5a; MESSAGE] }
        }
    }
}

impl Pair for Theirs {
    fn send(&mut self, count: usize) {
        for _ in 0..count {
            let sent = unsafe { usrsctp_sendv(self.sender, self.message.as_ptr(), MESSAGE, null(), 0, null(), 0, NO_INFO, 0) };
            assert_eq!(sent, MESSAGE as isize);
        }
    }

    fn receive(&mut self) -> usize {
        let mut taken = 0;
        carry(0, |packet| {
            assert_eq!(packet.len(), PACKET, "a packet has one message");
            assert_eq!(take(self.receiver), MESSAGE as isize);
            taken += 1;
        });
        taken
    }

    fn acknowledge(&mut self) {
        carry(1, |_| ());
    }

    fn expire(&mut self) {
        unsafe { usrsctp_handle_timers(DELAYED_SACK_MS) };
    }
}

fn take(socket: Socket) -> isize {
    let mut message = [0; MESSAGE];
    let (mut from, mut info, mut kind, mut flags) = (0, 0, 0, 0);
    unsafe { usrsctp_recvv(socket, message.as_mut_ptr(), MESSAGE, null_mut(), &mut from, null_mut(), &mut info, &mut kind, &mut flags) }
}
