//! CRC32c (RFC 9260 Appendix A), bit by bit, for the few packets that the core has no call for.

const POLYNOMIAL: u32 = 0x82f6_3b78;

fn crc32c(bytes: &[u8]) -> u32 {
    let one_bit = |register: u32| register >> 1 ^ (POLYNOMIAL * (register & 1));
    !bytes.iter().fold(!0, |register, byte| (0..8).fold(register ^ u32::from(*byte), |register, _| one_bit(register)))
}

/// Writes a packet's checksum into its field, lowest byte first.
pub fn seal(packet: &mut [u8]) {
    write(packet, 0);
    let sum = crc32c(packet);
    write(packet, sum);
}

fn write(packet: &mut [u8], sum: u32) {
    if let Some(field) = packet.get_mut(8..12) {
        field.copy_from_slice(&sum.to_le_bytes());
    }
}

#[cfg(test)]
mod tests {
    use super::*;

    #[test]
    fn published_checksums_come_out() {
        // RFC 3720 section B.4.
        assert_eq!(crc32c(&[0; 32]).to_le_bytes(), [0xaa, 0x36, 0x91, 0x8a]);
        assert_eq!(crc32c(&[0xff; 32]).to_le_bytes(), [0x43, 0xab, 0xa8, 0x62]);
        assert_eq!(crc32c(b"123456789"), 0xe306_9283);
    }

    #[test]
    fn a_packet_is_sealed_whatever_stood_in_the_field() {
        let mut packet = [7; 16];
        seal(&mut packet);
        let mut again = packet;
        seal(&mut again);
        assert_eq!(packet, again);
        assert_ne!(packet[8..12], [7; 4]);
        seal(&mut []);
    }
}
