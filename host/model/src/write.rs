//! Writing: chunks as bytes (padding zero, flags 0 but those named), and packets.

use crate::checksum;
use crate::read::{self, padded};
use crate::record::{Chunk, Sacked, OUTPUT};

/// A chunk: its head, and its value; no padding yet.
pub fn chunk(kind: u8, flags: u8, value: &[u8]) -> Vec<u8> {
    let mut c = Vec::with_capacity(4 + value.len());
    c.extend_from_slice(&[kind, flags]);
    c.extend_from_slice(&((4 + value.len()) as u16).to_be_bytes());
    c.extend_from_slice(value);
    c
}

/// A parameter or a cause: type and length of 16 bits each, and its value.
pub fn item(kind: u16, value: &[u8]) -> Vec<u8> {
    let mut p = Vec::with_capacity(4 + value.len());
    p.extend_from_slice(&kind.to_be_bytes());
    p.extend_from_slice(&((4 + value.len()) as u16).to_be_bytes());
    p.extend_from_slice(value);
    p
}

/// Zeros up to a multiple of 4.
pub fn pad(bytes: &mut Vec<u8>) {
    bytes.resize(padded(bytes.len()), 0);
}

/// A DATA chunk.
pub fn data(c: &Chunk, payload: &[u8]) -> Vec<u8> {
    let mut v = Vec::with_capacity(12 + payload.len());
    v.extend_from_slice(&c.tsn.to_be_bytes());
    v.extend_from_slice(&c.stream.to_be_bytes());
    v.extend_from_slice(&c.ssn.to_be_bytes());
    v.extend_from_slice(&c.ppid.to_be_bytes());
    v.extend_from_slice(payload);
    let flags = u8::from(c.unordered) << 2 | u8::from(c.begin) << 1 | u8::from(c.end);
    chunk(read::DATA, flags, &v)
}

/// The fixed fields of an INIT or INIT ACK.
pub fn init_fields(i: read::Init) -> Vec<u8> {
    let mut v = Vec::with_capacity(16);
    v.extend_from_slice(&i.tag.to_be_bytes());
    v.extend_from_slice(&i.window.to_be_bytes());
    v.extend_from_slice(&i.outs.to_be_bytes());
    v.extend_from_slice(&i.ins.to_be_bytes());
    v.extend_from_slice(&i.tsn.to_be_bytes());
    v
}

/// The cookie, then a parameter 8 for each report that still fits a packet; the last one's padding is not counted.
pub fn init_ack(i: read::Init, cookie: &[u8], reports: &[&[u8]]) -> Vec<u8> {
    let mut v = init_fields(i);
    v.extend_from_slice(&item(read::STATE_COOKIE, cookie));
    for r in reports {
        if 12 + 4 + padded(v.len()) + 4 + r.len() <= OUTPUT {
            pad(&mut v);
            v.extend_from_slice(&item(8, r));
        }
    }
    chunk(read::INIT_ACK, 0, &v)
}

/// A SACK chunk.
pub fn sack(s: &Sacked) -> Vec<u8> {
    let mut v = Vec::with_capacity(336);
    v.extend_from_slice(&s.point.to_be_bytes());
    v.extend_from_slice(&s.window.to_be_bytes());
    v.extend_from_slice(&(s.blocks.count as u16).to_be_bytes());
    v.extend_from_slice(&(s.listed as u16).to_be_bytes());
    for i in 0..s.blocks.count {
        v.extend_from_slice(&s.blocks.starts[i].to_be_bytes());
        v.extend_from_slice(&s.blocks.ends[i].to_be_bytes());
    }
    for d in &s.dups[..s.listed] {
        v.extend_from_slice(&d.to_be_bytes());
    }
    chunk(read::SACK, 0, &v)
}

/// A SHUTDOWN chunk.
pub fn shutdown(point: u32) -> Vec<u8> {
    chunk(read::SHUTDOWN, 0, &point.to_be_bytes())
}

/// "Heartbeat Info": a parameter of type 1 with the host's value.
pub fn heartbeat(value: [u8; 8]) -> Vec<u8> {
    chunk(read::HEARTBEAT, 0, &item(1, &value))
}

/// An ABORT or an ERROR with one cause.
pub fn caused(kind: u8, cause: u16, value: &[u8]) -> Vec<u8> {
    chunk(kind, 0, &item(cause, value))
}

/// One cause 8 with all the parameters, padded between.
pub fn error_parameters(reports: &[&[u8]]) -> Vec<u8> {
    let mut v = Vec::new();
    for r in reports {
        pad(&mut v);
        v.extend_from_slice(r);
    }
    caused(read::ERROR, 8, &v)
}

/// Puts header, chunks (padded already) and checksum at the head of `out`, and nothing behind; answers how many bytes.
pub fn packet(out: &mut [u8], source: u16, destination: u16, tag: u32, body: &[u8]) -> usize {
    let length = 12 + body.len();
    let p = &mut out[..length];
    p[..2].copy_from_slice(&source.to_be_bytes());
    p[2..4].copy_from_slice(&destination.to_be_bytes());
    p[4..8].copy_from_slice(&tag.to_be_bytes());
    p[12..].copy_from_slice(body);
    checksum::seal(p);
    length
}
