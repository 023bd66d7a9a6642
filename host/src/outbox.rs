//! What waits to be sent, and what was done and refused meanwhile.

use crate::calls::Answer;
use crate::counts::Counts;
use crate::packet::Datagram;
use std::collections::VecDeque;
use std::net::SocketAddr;

#[derive(Debug, Default)]
pub struct Outbox {
    pub counts: Counts,
    waiting: VecDeque<Datagram>,
}

impl Outbox {
    pub fn send(&mut self, to: SocketAddr, packet: Vec<u8>) {
        if !packet.is_empty() {
            self.counts.packets_sent += 1;
            self.counts.bytes_sent += packet.len() as u64;
            self.waiting.push_back(Datagram { to, packet });
        }
    }

    pub fn pop(&mut self) -> Option<Datagram> {
        self.waiting.pop_front()
    }

    pub fn is_empty(&self) -> bool {
        self.waiting.is_empty()
    }

    /// The answer, counted if it is a refusal.
    pub fn counted<T>(&mut self, answer: Answer<T>) -> Answer<T> {
        answer.map_err(|refusal| {
            self.counts.refuse(refusal);
            refusal
        })
    }
}
