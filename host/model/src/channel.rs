//! A channel that loses, repeats, reorders and damages packets.

use crate::random::Random;

/// Each number is "one in so many"; 0 is never.
#[derive(Clone, Copy, Debug)]
pub struct Faults {
    /// Packets that are lost.
    pub lose: usize,
    /// Packets that come twice.
    pub repeat: usize,
    /// Packets with a bit changed.
    pub damage: usize,
    /// Milliseconds, from and to: what comes later may overtake.
    pub delay: (usize, usize),
}

impl Faults {
    /// A good channel.
    pub const NONE: Faults = Faults { lose: 0, repeat: 0, damage: 0, delay: (1, 1) };
    /// A bad one.
    pub const MANY: Faults = Faults { lose: 12, repeat: 10, damage: 40, delay: (1, 60) };
}

/// What a channel brings: when, to which end, and the bytes.
#[derive(Clone, Debug)]
pub struct Carried {
    /// When it comes.
    pub at: u64,
    /// To which end.
    pub to: usize,
    /// The packet.
    pub packet: Vec<u8>,
}

/// What is under way, and what was done to it.
#[derive(Default)]
pub struct Channel {
    under_way: Vec<Carried>,
    /// How many were lost.
    pub lost: usize,
    /// How many were repeated.
    pub repeated: usize,
    /// How many were damaged.
    pub damaged: usize,
}

fn falls(random: &mut Random, one_in: usize) -> bool {
    one_in != 0 && random.one_in(one_in)
}

impl Channel {
    /// A packet goes to this end.
    pub fn send(&mut self, random: &mut Random, faults: Faults, now: u64, to: usize, packet: &[u8]) {
        if falls(random, faults.lose) {
            self.lost += 1;
            return;
        }
        self.carry(random, faults, now, to, packet);
        if falls(random, faults.repeat) {
            self.repeated += 1;
            self.carry(random, faults, now, to, packet);
        }
    }

    fn carry(&mut self, random: &mut Random, faults: Faults, now: u64, to: usize, packet: &[u8]) {
        let mut packet = packet.to_vec();
        if falls(random, faults.damage) {
            self.damaged += 1;
            let at = random.below(packet.len());
            packet[at] ^= 1 << random.below(8);
        }
        let at = now + random.within(faults.delay.0, faults.delay.1) as u64;
        self.under_way.push(Carried { at, to, packet });
    }

    /// When the next one comes.
    pub fn next_at(&self) -> Option<u64> {
        self.under_way.iter().map(|c| c.at).min()
    }

    /// The first that comes; of those that come at one time the first that was sent.
    pub fn take(&mut self) -> Option<Carried> {
        let at = self.next_at()?;
        let i = self.under_way.iter().position(|c| c.at == at)?;
        Some(self.under_way.remove(i))
    }
}
