//! What an endpoint did and was refused.

use crate::calls::Refusal;

const NUMBERS: usize = 28;

/// What an endpoint, an association or a hub did, in numbers.
#[derive(Clone, Copy, Debug, Default, PartialEq, Eq)]
pub struct Counts {
    /// Packets that went out.
    pub packets_sent: u64,
    /// Packets that came, refused ones too.
    pub packets_received: u64,
    /// Bytes of the packets that went out.
    pub bytes_sent: u64,
    /// Messages that were handed in.
    pub messages_in: u64,
    /// Messages that were taken.
    pub messages_out: u64,
    /// Packets with a chunk that was sent before.
    pub resent: u64,
    /// SACKs that went out.
    pub acknowledgements: u64,
    /// Timers that expired.
    pub expiries: u64,
    /// Replies of a handshake that were repeated.
    pub last_words: u64,
    /// INITs and cookies that nobody is asked about, since no association is taken up.
    pub turned_away: u64,
    /// Packets out of the blue that were answered.
    pub strays: u64,
    refused: [u64; NUMBERS],
}

impl Counts {
    /// One more of this number.
    pub fn refuse(&mut self, refusal: Refusal) {
        if let Some(count) = self.refused.get_mut(usize::from(refusal.0)) {
            *count += 1;
        }
    }

    /// The sum of both.
    pub fn and(&self, other: &Counts) -> Counts {
        let mut refused = self.refused;
        for (sum, more) in refused.iter_mut().zip(other.refused) {
            *sum += more;
        }
        Counts {
            packets_sent: self.packets_sent + other.packets_sent,
            packets_received: self.packets_received + other.packets_received,
            bytes_sent: self.bytes_sent + other.bytes_sent,
            messages_in: self.messages_in + other.messages_in,
            messages_out: self.messages_out + other.messages_out,
            resent: self.resent + other.resent,
            acknowledgements: self.acknowledgements + other.acknowledgements,
            expiries: self.expiries + other.expiries,
            last_words: self.last_words + other.last_words,
            turned_away: self.turned_away + other.turned_away,
            strays: self.strays + other.strays,
            refused,
        }
    }

    /// How often each number was answered, of those that were.
    pub fn refusals(&self) -> impl Iterator<Item = (Refusal, u64)> + '_ {
        (0u8..).zip(self.refused).filter(|(_, count)| *count > 0).map(|(number, count)| (Refusal(number), count))
    }
}

#[cfg(test)]
mod tests {
    use super::*;

    #[test]
    fn refusals_are_counted_by_number() {
        let mut counts = Counts::default();
        counts.refuse(Refusal(11));
        counts.refuse(Refusal(27));
        counts.refuse(Refusal(11));
        counts.refuse(Refusal(200));
        let told: Vec<_> = counts.refusals().collect();
        assert_eq!(told, [(Refusal(11), 2), (Refusal(27), 1)]);
    }
}
