//! The 16-bit sum of page transfers.

const POLYNOMIAL: u16 = 0x1021;
const START: u16 = 0xFFFF;

/// What eight steps do to a register whose upper byte is the index, when zero bits follow. Since the sum is linear, one look in
/// here stands for eight single steps.
const TABLE: [u16; 256] = table();

const fn table() -> [u16; 256] {
    let mut table = [0; 256];
    let mut upper = 0;
    while upper < 256 {
        let mut register = (upper as u16) << 8;
        let mut bit = 0;
        while bit < 8 {
            let fell_out = register & 0x8000 != 0;
            register <<= 1;
            if fell_out {
                register ^= POLYNOMIAL;
            }
            bit += 1;
        }
        table[upper] = register;
        upper += 1;
    }
    table
}

/// The register after one more byte.
pub fn next(register: u16, byte: u8) -> u16 {
    register << 8 ^ TABLE[usize::from((register >> 8) as u8 ^ byte)]
}

/// The register after a whole message.
pub fn of(message: &[u8]) -> u16 {
    message.iter().fold(START, |register, &byte| next(register, byte))
}

/// The register of a page transfer after its address, which must already be reduced modulo N. The data bytes are to follow.
pub fn after_address(address: usize, address_bytes: usize) -> u16 {
    let bytes = (address as u32).to_be_bytes();
    of(&bytes[bytes.len() - address_bytes..])
}

#[cfg(test)]
mod tests {
    use super::*;

    /// One bit at a time, as the rule is worded.
    fn slow(message: &[u8]) -> u16 {
        let mut register = 0xFFFFu16;
        for byte in message {
            for place in (0..8).rev() {
                let fell_out = register >> 15;
                register <<= 1;
                if fell_out != u16::from(byte >> place & 1) {
                    register ^= 0x1021;
                }
            }
        }
        register
    }

    #[test]
    fn an_empty_message_leaves_the_start() {
        assert_eq!(of(&[]), 0xFFFF);
    }

    #[test]
    fn one_zero_byte_by_hand() {
        // FFFF shifts a one out 4 times: FFFE^1021=EFDF, DFBE^1021=CF9F, 9F3E^1021=8F1F, 1E3E^1021=0E1F; then 4 zeros: E1F0.
        assert_eq!(of(&[0x00]), 0xE1F0);
    }

    #[test]
    fn the_well_known_check_value() {
        assert_eq!(of(b"123456789"), 0x29B1);
    }

    #[test]
    fn the_table_does_what_single_bits_do() {
        let message: Vec<u8> = (0..=255u8).map(|i| i.wrapping_mul(37) ^ 0x5A).collect();
        for length in 0..=message.len() {
            assert_eq!(of(&message[..length]), slow(&message[..length]));
        }
    }

    #[test]
    fn an_address_counts_highest_byte_first() {
        assert_eq!(after_address(0x0012, 2), slow(&[0x00, 0x12]));
        assert_eq!(after_address(0x01_2345, 3), slow(&[0x01, 0x23, 0x45]));
    }
}
