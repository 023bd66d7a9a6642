//! Which of the messages that were handed in the peer has. Chunks go out in the order of handing in, each with the next TSN, so a message has come when as many
//! are acknowledged as were handed in up to its last.

use std::collections::VecDeque;

/// One message that was handed in, by its number within its association.
#[derive(Clone, Copy, Debug, PartialEq, Eq, PartialOrd, Ord, Hash)]
pub struct Ticket(pub u64);

#[derive(Debug)]
pub(crate) struct Tickets {
    next: u64,
    /// The TSN up to which the peer has all.
    point: u32,
    /// Chunks, counted from the association's beginning.
    handed_in: u64,
    acknowledged: u64,
    /// With the count of chunks up to its last.
    waiting: VecDeque<(Ticket, u64)>,
}

impl Tickets {
    /// Before anything was handed in, with the point that the association begins from.
    pub fn from(point: u32) -> Tickets {
        Tickets { next: 0, point, handed_in: 0, acknowledged: 0, waiting: VecDeque::new() }
    }

    /// A message was handed in and cut into so many chunks.
    pub fn hand_out(&mut self, chunks: usize) -> Ticket {
        let ticket = Ticket(self.next);
        self.next += 1;
        self.handed_in += chunks as u64;
        self.waiting.push_back((ticket, self.handed_in));
        ticket
    }

    /// The peer has all up to this TSN: whether that is more than before.
    pub fn acknowledge(&mut self, point: u32) -> bool {
        let more = point.wrapping_sub(self.point);
        self.point = point;
        self.acknowledged += u64::from(more);
        more != 0
    }

    /// The next message that the peer has.
    pub fn delivered(&mut self) -> Option<Ticket> {
        let (ticket, last) = *self.waiting.front()?;
        (last <= self.acknowledged).then(|| {
            self.waiting.pop_front();
            ticket
        })
    }

    /// The messages that the peer may not have, when nothing more will come.
    pub fn undelivered(&mut self) -> Vec<Ticket> {
        self.waiting.drain(..).map(|(ticket, _)| ticket).collect()
    }
}

#[cfg(test)]
mod tests {
    use super::*;

    #[test]
    fn a_message_is_delivered_with_its_last_chunk_across_the_wrap() {
        let mut tickets = Tickets::from(u32::MAX - 1);
        let (one, three, last) = (tickets.hand_out(1), tickets.hand_out(3), tickets.hand_out(1));
        assert_eq!(tickets.delivered(), None);
        assert!(tickets.acknowledge(u32::MAX));
        assert_eq!((tickets.delivered(), tickets.delivered()), (Some(one), None));
        assert!(tickets.acknowledge(1));
        assert!(!tickets.acknowledge(1));
        assert_eq!(tickets.delivered(), None);
        tickets.acknowledge(2);
        assert_eq!((tickets.delivered(), tickets.delivered()), (Some(three), None));
        assert_eq!(tickets.undelivered(), [last]);
        assert_eq!(tickets.undelivered(), []);
    }
}
