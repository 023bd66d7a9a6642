//! What a call costs as the record fills. A call changes the record that it is lent, so that before each the record is put back; what that costs is taken off.

use crate::clock;
use crate::ends::{open, Opened};
use crate::paths::MESSAGE;
use oilwhisper::calls::{AREA, OUTPUT, PAYLOAD};
use oilwhisper::ffi::Record;
use oilwhisper::library::{Echoed, Lent, Library, Proved};

pub const CALLS: [&str; 6] = ["arrive", "take", "sack", "hand_in", "transmit", "SACK arrives"];

/// Wide enough for every place.
const CWND: u32 = 2 * AREA as u32;

/// An end with buffers of its own.
#[derive(Clone)]
pub struct Lone {
    pub record: Record,
    pub area: Vec<u8>,
    pub out: [u8; OUTPUT],
}

impl Lone {
    pub fn new(record: Record) -> Lone {
        Lone { record, area: vec![0; AREA], out: [0; OUTPUT] }
    }

    pub fn arrive(&mut self, packet: &[u8]) {
        let answer = Proved::arrive(&mut self.record, &mut self.area, packet, Lent::default(), &[], Echoed::default(), &mut self.out);
        assert_eq!(answer.number, 0);
    }

    pub fn hand_in(&mut self) {
        let answer = Proved::hand_in(&mut self.record, &mut self.area, &[0x5a; MESSAGE], 0, 0, 0);
        assert_eq!(answer.number, 0);
    }

    /// The packet's length.
    pub fn transmit(&mut self) -> usize {
        let answer = Proved::transmit(&mut self.record, &self.area, &mut self.out);
        assert!(answer.number == 0 && answer.length > 0);
        answer.length
    }

    pub fn take(&mut self) {
        let answer = Proved::take(&mut self.record, &self.area, &mut self.out);
        assert_eq!((answer.number, answer.message.length), (0, MESSAGE));
    }

    /// The packet's length.
    pub fn sack(&mut self) -> usize {
        let answer = Proved::sack(&mut self.record, &mut self.out);
        assert_eq!(answer.number, 0);
        answer.length
    }
}

/// Both ends, as each is before every call of `CALLS`.
pub struct Filled {
    pub arriving: Lone,
    pub holding: Lone,
    pub handing_in: Lone,
    pub transmitting: Lone,
    pub sent: Lone,
    pub data: Vec<u8>,
    pub sack: Vec<u8>,
}

/// So many messages have come and were not taken, and as many are in flight; one more is on its way, and a SACK for the first two.
pub fn fill(count: usize) -> Filled {
    assert!(count < AREA / PAYLOAD);
    let Opened { sender, receiver, .. } = open();
    let (mut sender, mut receiver) = (Lone::new(sender.record().clone()), Lone::new(receiver.record().clone()));
    sender.record.head.sender.path.control.cwnd = CWND;
    let (mut handing_in, mut transmitting, mut arriving) = (sender.clone(), sender.clone(), receiver.clone());
    let mut packets = Vec::new();
    for _ in 0..=count {
        handing_in = sender.clone();
        sender.hand_in();
        transmitting = sender.clone();
        let length = sender.transmit();
        packets.push(sender.out[..length].to_vec());
    }
    let mut sack = Vec::new();
    for (n, packet) in packets.iter().enumerate() {
        arriving = receiver.clone();
        receiver.arrive(packet);
        if n < 2 {
            let mut telling = receiver.clone();
            let length = telling.sack();
            sack = telling.out[..length].to_vec();
        }
    }
    Filled { arriving, holding: receiver, handing_in, transmitting, sent: sender, data: packets.pop().unwrap_or_default(), sack }
}

/// An end that makes one call again and again.
struct Again {
    end: Lone,
    before: Record,
}

impl Again {
    fn new(end: &Lone) -> Again {
        Again { end: end.clone(), before: end.record.clone() }
    }

    /// The end as it was before the call.
    fn put_back(&mut self) -> &mut Lone {
        self.end.record.clone_from(&self.before);
        &mut self.end
    }
}

/// Seconds of each of `CALLS` when so many chunks are held, or in flight.
pub fn costs(count: usize) -> Vec<f64> {
    let filled = fill(count);
    let [mut arriving, mut taking, mut sacking] = [&filled.arriving, &filled.holding, &filled.holding].map(Again::new);
    let [mut handing_in, mut transmitting, mut sent] = [&filled.handing_in, &filled.transmitting, &filled.sent].map(Again::new);
    let mut idle = Again::new(&filled.sent);
    let mut times = clock::seconds(&mut [
        &mut || arriving.put_back().arrive(&filled.data),
        &mut || taking.put_back().take(),
        &mut || _ = sacking.put_back().sack(),
        &mut || handing_in.put_back().hand_in(),
        &mut || _ = transmitting.put_back().transmit(),
        &mut || sent.put_back().arrive(&filled.sack),
        &mut || _ = idle.put_back(),
    ]);
    let putting_back = times.pop().unwrap_or_default();
    times.iter().map(|time| time - putting_back).collect()
}
