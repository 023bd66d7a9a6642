//! CRC32c as RFC 9260 Appendix A fixes it. `bitwise` is the definition, and `crc32c` the same eight bytes at a time.

const POLYNOMIAL: u32 = 0x82F6_3B78;

const fn step(mut c: u32, bits: u32) -> u32 {
    let mut i = 0;
    while i < bits {
        c = if c & 1 == 1 { (c >> 1) ^ POLYNOMIAL } else { c >> 1 };
        i += 1;
    }
    c
}

const fn table() -> [[u32; 256]; 8] {
    let mut t = [[0u32; 256]; 8];
    let mut k = 0;
    while k < 8 {
        let mut b = 0;
        while b < 256 {
            t[k][b] = if k == 0 { step(b as u32, 8) } else { step(t[k - 1][b], 8) };
            b += 1;
        }
        k += 1;
    }
    t
}

static TABLE: [[u32; 256]; 8] = table();

/// One bit at a time: the register starts with ones, is reflected, and is complemented at the end.
pub fn bitwise(bytes: &[u8]) -> u32 {
    !bytes.iter().fold(!0u32, |c, &b| step(c ^ u32::from(b), 8))
}

fn run(mut c: u32, bytes: &[u8]) -> u32 {
    let mut eights = bytes.chunks_exact(8);
    for e in &mut eights {
        let low = c ^ u32::from_le_bytes([e[0], e[1], e[2], e[3]]);
        c = TABLE[7][(low & 255) as usize]
            ^ TABLE[6][(low >> 8 & 255) as usize]
            ^ TABLE[5][(low >> 16 & 255) as usize]
            ^ TABLE[4][(low >> 24) as usize]
            ^ TABLE[3][e[4] as usize]
            ^ TABLE[2][e[5] as usize]
            ^ TABLE[1][e[6] as usize]
            ^ TABLE[0][e[7] as usize];
    }
    for &b in eights.remainder() {
        c = c >> 8 ^ TABLE[0][((c ^ u32::from(b)) & 255) as usize];
    }
    c
}

/// The checksum of these bytes.
pub fn crc32c(bytes: &[u8]) -> u32 {
    !run(!0, bytes)
}

/// "CRC32c over the packet with the checksum field zero". A packet has at least 12 bytes.
pub fn of_packet(packet: &[u8]) -> u32 {
    !run(run(run(!0, &packet[..8]), &[0; 4]), &packet[12..])
}

/// Byte 8 of the packet is the low byte of the register (RFC 3720 B.4 prints 32 zeros as AA 36 91 8A).
pub fn is_sealed(packet: &[u8]) -> bool {
    packet[8..12] == of_packet(packet).to_le_bytes()
}

/// Writes a packet's checksum into it.
pub fn seal(packet: &mut [u8]) {
    let sum = of_packet(packet);
    packet[8..12].copy_from_slice(&sum.to_le_bytes());
}
