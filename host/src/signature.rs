//! HMAC-SHA-256 (RFC 2104, FIPS 180-4): what signs a cookie, and what the numbers that nobody can guess are made of.

use hmac::{Hmac, Mac};
use sha2::Sha256;

/// The bytes of a signature, and of a key that has its strength.
pub const SIGNATURE: usize = 32;
pub type Key = [u8; SIGNATURE];

fn over(key: &[u8], message: &[u8]) -> Option<Hmac<Sha256>> {
    // HMAC takes a key of every length, so this is never none.
    Hmac::<Sha256>::new_from_slice(key).ok().map(|mac| mac.chain_update(message))
}

pub fn sign(key: &[u8], message: &[u8]) -> [u8; SIGNATURE] {
    over(key, message).map_or([0; SIGNATURE], |mac| mac.finalize().into_bytes().into())
}

/// Whether this is the message's signature, in a time that does not tell where it differs.
pub fn is_signed(key: &[u8], message: &[u8], signature: &[u8]) -> bool {
    over(key, message).map_or(false, |mac| mac.verify_slice(signature).is_ok())
}

#[cfg(test)]
mod tests {
    use super::*;

    fn hex(bytes: &[u8]) -> String {
        bytes.iter().map(|byte| format!("{:02x}", byte)).collect()
    }

    #[test]
    fn signatures_are_those_of_rfc_4231() {
        let cases: [(Vec<u8>, Vec<u8>, &str); 6] = [
            (vec![0x0b; 20], b"Hi There".to_vec(), "b0344c61d8db38535ca8afceaf0bf12b881dc200c9833da726e9376c2e32cff7"),
            (b"Jefe".to_vec(), b"what do ya want for nothing?".to_vec(), "5bdcc146bf60754e6a042426089575c75a003f089d2739839dec58b964ec3843"),
            (vec![0xaa; 20], vec![0xdd; 50], "773ea91e36800e46854db8ebd09181a72959098b3ef8c122d9635514ced565fe"),
            ((1..=25).collect(), vec![0xcd; 50], "82558a389a443c0ea4cc819899f2083a85f0faa3e578f8077a2e3ff46729665b"),
            (
                vec![0xaa; 131],
                b"Test Using Larger Than Block-Size Key - Hash Key First".to_vec(),
                "60e431591ee0b67f0d8a26aacbf5b77f8e0bc6213728c5140546040f0ee37f54",
            ),
            (
                vec![0xaa; 131],
                b"This is a test using a larger than block-size key and a larger than block-size data. \
                  The key needs to be hashed before being used by the HMAC algorithm."
                    .to_vec(),
                "9b09ffa71b942fcb27635fbcd5b0e944bfdc63644f0713938a7f51535c3a35e2",
            ),
        ];
        for (key, message, signature) in cases {
            let signed = sign(&key, &message);
            assert_eq!(hex(&signed), signature);
            assert!(is_signed(&key, &message, &signed));
        }
    }

    #[test]
    fn no_other_signature_passes() {
        let signed = sign(b"key", b"rail");
        for bit in 0..SIGNATURE * 8 {
            let mut other = signed;
            other[bit / 8] ^= 1 << (bit % 8);
            assert!(!is_signed(b"key", b"rail", &other), "bit {}", bit);
        }
        assert!(!is_signed(b"key", b"rain", &signed));
        assert!(!is_signed(b"kez", b"rail", &signed));
        assert!(!is_signed(b"key", b"rail", &signed[..SIGNATURE - 1]));
        assert!(!is_signed(b"key", b"rail", &[]));
    }
}
