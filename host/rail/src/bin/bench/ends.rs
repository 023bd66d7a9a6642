//! Two ends of an association in memory.

use oilwhisper::association::{peek, Association};
use oilwhisper::calls::{Echoed, Lent, Peeked, State, OUTPUT};
use oilwhisper::config::Book;
use oilwhisper::library::Proved;

const PORTS: [u16; 2] = [5000, 5001];
const FIRST_TSN: u32 = u32::MAX - 99;
const STREAMS: u16 = 8;

pub type End = Association<Proved>;

/// Both ends established, and the INIT that asked for it.
pub struct Opened {
    pub sender: End,
    pub receiver: End,
    pub init: Vec<u8>,
}

pub fn open() -> Opened {
    let (mut sender, mut receiver) = (End::closed(PORTS[0], Book::Rfc9260), End::closed(PORTS[1], Book::Rfc9260));
    let mut out = [0; OUTPUT];
    let length = sender.associate(1, FIRST_TSN, PORTS[1], STREAMS, &mut out).expect("a closed record can associate");
    let init = out[..length].to_vec();
    let fields = match peek::<Proved>(&init) {
        Peeked::Init(fields) => fields,
        seen => panic!("{:?} in place of an INIT", seen),
    };
    let lent = Lent { tag: 2, tsn: FIRST_TSN, streams: STREAMS, cookie: vec![7; 32] };
    let good = Echoed::Good(fields.agreed(lent.tag, lent.tsn, lent.streams));
    let init_ack = answered(&mut receiver, &init, &lent, Echoed::Bad);
    let echo = answered(&mut sender, &init_ack, &Lent::default(), Echoed::Bad);
    let ack = answered(&mut receiver, &echo, &lent, good);
    answered(&mut sender, &ack, &Lent::default(), Echoed::Bad);
    assert!([&sender, &receiver].iter().all(|end| end.standing().state == State::Established));
    Opened { sender, receiver, init }
}

fn answered(end: &mut End, packet: &[u8], lent: &Lent, echoed: Echoed) -> Vec<u8> {
    let mut out = [0; OUTPUT];
    let arrived = end.arrive(packet, lent, echoed, &mut out).expect("a packet of the handshake is let in");
    out[..arrived.reply].to_vec()
}
