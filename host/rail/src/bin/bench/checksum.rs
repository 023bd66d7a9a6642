//! The proved checksum against C sliced by 8 and against the processor's instruction. The library exports no checksum, so `ow_peek` stands for it, with a
//! packet that it refuses for its checksum (3): it has then looked at the packet's size and checksum, and at nothing else.

use crate::clock::{self, opaque};
use oilwhisper::library::{Library, Proved};

const CHECKSUM: u8 = 3;

extern "C" {
    fn sliced_ready();
    fn sliced_crc32c(bytes: *const u8, count: usize) -> u32;
    fn has_crc32c_instruction() -> bool;
    fn instruction_crc32c(bytes: *const u8, count: usize) -> u32;
}

/// Bytes per second.
pub struct Speeds {
    pub proved: f64,
    pub sliced: f64,
    /// None where the processor has no instruction for it.
    pub instruction: Option<f64>,
}

pub fn ready() {
    unsafe { sliced_ready() }
}

pub fn sliced(bytes: &[u8]) -> u32 {
    unsafe { sliced_crc32c(bytes.as_ptr(), bytes.len()) }
}

/// Only where the processor has one.
unsafe fn instruction(bytes: &[u8]) -> u32 {
    instruction_crc32c(bytes.as_ptr(), bytes.len())
}

/// A packet with one chunk of a type that `ow_peek` does not look into, sealed.
pub fn packet(length: usize) -> Vec<u8> {
    let mut packet: Vec<u8> = (0..length).map(|at| at as u8).collect();
    packet[12..16].copy_from_slice(&[6, 0, ((length - 12) >> 8) as u8, (length - 12) as u8]);
    packet[8..12].fill(0);
    let sum = sliced(&packet).to_le_bytes();
    packet[8..12].copy_from_slice(&sum);
    packet
}

pub fn speeds(length: usize) -> Speeds {
    let mut bytes = packet(length);
    assert_eq!(Proved::peek(&bytes).number, 0, "the sum of C is the one that the library asks for");
    bytes[8] ^= 1;
    assert_eq!(Proved::peek(&bytes).number, CHECKSUM);
    let has_instruction = unsafe { has_crc32c_instruction() };
    if has_instruction {
        assert_eq!(unsafe { instruction(&bytes) }, sliced(&bytes));
    }
    let mut proved = || _ = opaque(Proved::peek(opaque(&bytes)));
    let mut in_c = || _ = opaque(sliced(opaque(&bytes)));
    let mut by_processor = || _ = opaque(unsafe { instruction(opaque(&bytes)) });
    let mut works: Vec<&mut dyn FnMut()> = vec![&mut proved, &mut in_c];
    if has_instruction {
        works.push(&mut by_processor);
    }
    let times = clock::seconds(&mut works);
    let speed = |time: &f64| length as f64 / time;
    Speeds { proved: speed(&times[0]), sliced: speed(&times[1]), instruction: times.get(2).map(speed) }
}
