//! The receive path and the send path: batches of messages from one end to the other, with the time of each end told apart.

use crate::clock::{copied, used};
use crate::ends::{open, End, Opened};
use oilwhisper::calls::{Echoed, Lent, OUTPUT};

pub const MESSAGE: usize = 512;
/// The bytes of a packet with one message: header, DATA header, payload.
pub const PACKET: usize = 12 + 16 + MESSAGE;
const BATCH: usize = 16;
const WARMING: usize = 200;
const BATCHES: usize = 40;
const ROUNDS: usize = 9;

/// Two ends of an association in one process.
pub trait Pair {
    /// The sender is handed so many messages, and sends what it may.
    fn send(&mut self, count: usize);
    /// What was sent arrives at the receiver, which takes the messages and acknowledges every second packet. The messages taken.
    fn receive(&mut self) -> usize;
    /// The acknowledgements arrive at the sender, which sends what it may then.
    fn acknowledge(&mut self);
    /// What the receiver's timer does for a packet that has no second.
    fn expire(&mut self);
}

/// What a packet costs on one path.
#[derive(Clone, Copy, Default)]
pub struct Cost {
    pub seconds: f64,
    pub copied: f64,
}

impl Cost {
    fn add<T>(&mut self, work: impl FnOnce() -> T) -> T {
        let (seconds, bytes) = (used(), copied());
        let answer = work();
        self.seconds += used() - seconds;
        self.copied += (copied() - bytes) as f64;
        answer
    }

    fn of_each(self, packets: usize) -> Cost {
        Cost { seconds: self.seconds / packets as f64, copied: self.copied / packets as f64 }
    }

    fn lesser(self, other: Cost) -> Cost {
        if other.seconds < self.seconds {
            other
        } else {
            self
        }
    }
}

#[derive(Clone, Copy, Default)]
pub struct Costs {
    pub receiving: Cost,
    pub sending: Cost,
}

/// The least of rounds in which the pairs take turns.
pub fn costs(pairs: &mut [&mut dyn Pair]) -> Vec<Costs> {
    for pair in pairs.iter_mut() {
        batches(*pair, WARMING);
    }
    let mut least: Vec<Costs> = pairs.iter_mut().map(|pair| batches(*pair, BATCHES)).collect();
    for _ in 1..ROUNDS {
        for (pair, least) in pairs.iter_mut().zip(&mut least) {
            let round = batches(*pair, BATCHES);
            *least = Costs { receiving: least.receiving.lesser(round.receiving), sending: least.sending.lesser(round.sending) };
        }
    }
    least
}

fn batches(pair: &mut dyn Pair, count: usize) -> Costs {
    let mut costs = Costs::default();
    for _ in 0..count {
        batch(pair, &mut costs);
    }
    Costs { receiving: costs.receiving.of_each(count * BATCH), sending: costs.sending.of_each(count * BATCH) }
}

/// A batch from beginning to end. It takes several turns only while the congestion window is smaller than it.
fn batch(pair: &mut dyn Pair, costs: &mut Costs) {
    let mut taken = 0;
    costs.sending.add(|| pair.send(BATCH));
    while taken < BATCH {
        let new = costs.receiving.add(|| pair.receive());
        costs.sending.add(|| pair.acknowledge());
        taken += new;
        if new == 0 {
            pair.expire();
        }
    }
    assert_eq!(taken, BATCH);
}

/// Packets on their way, in buffers that are used again and again.
#[derive(Default)]
pub struct Wire {
    buffers: Vec<[u8; OUTPUT]>,
    lengths: Vec<usize>,
}

impl Wire {
    /// The buffer that the next packet is written to.
    pub fn free(&mut self) -> &mut [u8] {
        if self.buffers.len() == self.lengths.len() {
            self.buffers.push([0; OUTPUT]);
        }
        &mut self.buffers[self.lengths.len()]
    }

    pub fn put(&mut self, length: usize) {
        self.lengths.push(length);
    }

    pub fn packets(&self) -> impl Iterator<Item = &[u8]> {
        self.buffers.iter().zip(&self.lengths).map(|(buffer, length)| &buffer[..*length])
    }

    pub fn clear(&mut self) {
        self.lengths.clear();
    }
}

pub struct Ours {
    sender: End,
    receiver: End,
    data: Wire,
    acknowledgements: Wire,
    message: [u8; MESSAGE],
    since: usize,
}

impl Ours {
    pub fn new() -> Ours {
        let Opened { sender, receiver, .. } = open();
        Ours { sender, receiver, data: Wire::default(), acknowledgements: Wire::default(), message: [0x5a; MESSAGE], since: 0 }
    }

    fn transmit(&mut self) {
        loop {
            let length = self.sender.transmit(self.data.free()).expect("an established record transmits").length;
            if length == 0 {
                return;
            }
            assert_eq!(length, PACKET);
            self.data.put(length);
        }
    }

    fn sack(&mut self) {
        let told = self.receiver.sack(self.acknowledgements.free()).expect("an established record acknowledges");
        self.acknowledgements.put(told.length);
        self.since = 0;
    }
}

impl Pair for Ours {
    fn send(&mut self, count: usize) {
        for _ in 0..count {
            self.sender.hand_in(&self.message, 0, false, 0).expect("the sender has room");
        }
        self.transmit();
    }

    fn receive(&mut self) -> usize {
        let data = std::mem::take(&mut self.data);
        let mut taken = 0;
        for packet in data.packets() {
            let mut message = [0; MESSAGE];
            self.receiver.arrive(packet, &Lent::default(), Echoed::Bad, self.acknowledgements.free()).expect("a packet of the sender is let in");
            let told = self.receiver.take(&mut message).expect("a message can be taken");
            assert_eq!(told.length, MESSAGE);
            taken += 1;
            self.since += 1;
            if self.since == 2 {
                self.sack();
            }
        }
        self.data = data;
        self.data.clear();
        taken
    }

    fn acknowledge(&mut self) {
        let mut out = [0; OUTPUT];
        for packet in self.acknowledgements.packets() {
            self.sender.arrive(packet, &Lent::default(), Echoed::Bad, &mut out).expect("a SACK is let in");
        }
        self.acknowledgements.clear();
        self.transmit();
    }

    fn expire(&mut self) {
        self.sack();
    }
}
