//! One end, kept twice: every call is made of both implementations, and answers, records and buffers are compared.

use std::fmt;

use crate::call::{Buffers, Call, Maker, Reply, GUARD};
use crate::read;
use crate::record::{Association, ACCEPTED, MESSAGE_MOST};

/// The first difference: which call it was, and what differs.
#[derive(Debug)]
pub struct Difference {
    /// The seed of the run.
    pub seed: u64,
    /// Which call it was.
    pub number: usize,
    /// The call.
    pub call: String,
    /// What differs.
    pub what: String,
}

impl fmt::Display for Difference {
    fn fmt(&self, f: &mut fmt::Formatter<'_>) -> fmt::Result {
        write!(f, "seed {}, call {}: {}\n{}", self.seed, self.number, self.call, self.what)
    }
}

/// The end.
pub struct Twin<'m> {
    makers: [&'m dyn Maker; 2],
    sides: [Buffers; 2],
    /// Every so many calls that should leave an area as it is, the areas are compared; what differs there stays and is found then. 1: at each call.
    pub patience: usize,
    calls: usize,
}

impl<'m> Twin<'m> {
    /// An end that begins with this record, on two makers.
    pub fn new(left: &'m dyn Maker, right: &'m dyn Maker, a: Association) -> Twin<'m> {
        Twin { makers: [left, right], sides: [Buffers::new(a), Buffers::new(a)], patience: 1, calls: 0 }
    }

    /// Its record, which both have.
    pub fn record(&self) -> &Association {
        &self.sides[0].a
    }

    /// Both get the same record, whatever it is.
    pub fn lend(&mut self, a: &Association) {
        self.sides[0].a = *a;
        self.sides[1].a = *a;
    }

    /// The first bytes of what the last call wrote.
    pub fn out(&self, length: usize) -> &[u8] {
        &self.sides[0].out[..length]
    }

    /// Makes the call of both. On a difference, or where a refused call changed the record: what differs.
    pub fn call(&mut self, call: &Call) -> Result<Reply, String> {
        let [l, r] = &mut self.sides;
        let came = l.a;
        let left = self.makers[0].make(call, l);
        let right = self.makers[1].make(call, r);
        if left != right {
            return Err(unlike("the answers", &left, &right));
        }
        if l.a != r.a {
            return Err(unlike("the records", &l.a, &r.a));
        }
        if left.number() != 0 && l.a != came {
            return Err(unlike("refused, and the records before and after", &came, &l.a));
        }
        let out = lent_out(call);
        if l.out[..out] != r.out[..out] {
            return Err(first_byte("out", &l.out, &r.out));
        }
        self.calls += 1;
        if self.calls % self.patience == 0 {
            self.finish()?;
        } else if holds(call, &left) && l.receive != r.receive {
            return Err(first_byte("receive area", &l.receive, &r.receive));
        } else if matches!(left, Reply::HandedIn(h) if h.number == 0) && l.send != r.send {
            return Err(first_byte("send area", &l.send, &r.send));
        }
        Ok(left)
    }

    /// All of the buffers.
    pub fn finish(&self) -> Result<(), String> {
        let [l, r] = &self.sides;
        for (name, a, b) in [("receive area", &l.receive, &r.receive), ("send area", &l.send, &r.send), ("out", &l.out, &r.out)] {
            if a != b {
                return Err(first_byte(name, a, b));
            }
        }
        Ok(())
    }
}

/// Whether a payload went into the receive area.
fn holds(call: &Call, reply: &Reply) -> bool {
    match (call, reply) {
        (Call::Arrive { packet, .. }, Reply::Arrived(r)) => r.verdicts[..r.count].iter().any(|v| v.fate == ACCEPTED && packet[v.at] == read::DATA),
        _ => false,
    }
}

/// How many bytes of the output to compare: those lent, and some behind them.
fn lent_out(call: &Call) -> usize {
    match *call {
        Call::Closed { .. } | Call::Peek { .. } | Call::HandIn { .. } | Call::T3 | Call::Rtt { .. } => 0,
        Call::Arrive { out, .. }
        | Call::Associate { out, .. }
        | Call::Transmit { out, .. }
        | Call::Take { out, .. }
        | Call::Sack { out }
        | Call::T1 { out }
        | Call::T2 { out }
        | Call::Shutdown { out }
        | Call::Abort { out, .. }
        | Call::ErrorStream { out, .. }
        | Call::ErrorStale { out, .. }
        | Call::Heartbeat { out, .. } => (out + GUARD).min(MESSAGE_MOST + GUARD),
    }
}

fn first_byte(name: &str, a: &[u8], b: &[u8]) -> String {
    let at = a.iter().zip(b).position(|(x, y)| x != y).unwrap_or(0);
    let end = (at + 16).min(a.len());
    format!("{name} differs from byte {at} on: {:02x?} and {:02x?}", &a[at..end], &b[at..end])
}

/// The lines of the two values that differ, with the names of what they stand in.
fn unlike<T: fmt::Debug>(what: &str, left: &T, right: &T) -> String {
    let (left, right) = (format!("{left:#?}"), format!("{right:#?}"));
    let mut said = format!("{what} differ:");
    let mut names: Vec<&str> = Vec::new();
    for (i, (l, r)) in left.lines().zip(right.lines()).enumerate() {
        let depth = (l.len() - l.trim_start().len()) / 4;
        names.truncate(depth);
        names.push(l.trim());
        if l != r && said.len() < 4000 {
            said.extend(["\n  line ", &i.to_string(), ": ", &names.join(" "), " and ", r.trim()]);
        }
    }
    if left.lines().count() != right.lines().count() {
        said.extend(["\n  ", &left, "\n  and\n  ", &right]);
    }
    said
}
