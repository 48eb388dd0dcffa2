//! The check of a block: the frame check sequence of IEEE 802.15.4, bit by bit as the
//! standard draws it.

/// The generator x^16 + x^12 + x^5 + 1, mirrored: bit 0 of each byte comes first, so the
/// power 15 stands at bit 0 and the power 0 at bit 15.
const GENERATOR: u16 = 0x8408;

/// The check over bytes; of none it is 0.
pub fn check(bytes: &[u8]) -> u16 {
    bytes.iter().fold(0, |sum, byte| {
        (0..8).fold(sum ^ u16::from(*byte), |sum, _| match sum & 1 {
            1 => (sum >> 1) ^ GENERATOR,
            _ => sum >> 1,
        })
    })
}

#[cfg(test)]
mod tests {
    use super::check;

    #[test]
    fn the_vectors_are_met() {
        assert_eq!(check(b""), 0);
        assert_eq!(check(b"123456789"), 0x2189);
        // The remainder of a single bit is the generator's, moved: bit 7 of one byte is
        // the power 0, so x^16 leaves x^12 + x^5 + 1.
        assert_eq!(check(&[0x80]), 0x8408);
        assert_eq!(check(&[0, 0, 0]), 0);
        // The standard's example, an acknowledgement: the bits 0100 0000 0000 0000 0101
        // 0110 have the FCS 0010 0111 1001 1110, both with the first bit first.
        assert_eq!(check(&[0x02, 0x00, 0x6A]), 0x79E4);
    }

    #[test]
    fn the_check_behind_its_bytes_gives_zero() {
        let mut bytes = b"any bytes at all".to_vec();
        bytes.extend(check(&bytes).to_le_bytes());
        assert_eq!(check(&bytes), 0);
    }
}
