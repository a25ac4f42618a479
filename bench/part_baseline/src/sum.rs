//! The sum, by whole bytes over a table of 256 entries.

pub const START: u16 = 0xFFFF;

const TABLE: [u16; 256] = table();

const fn table() -> [u16; 256] {
    let mut table = [0; 256];
    let mut i = 0;
    while i < 256 {
        let mut register = (i as u16) << 8;
        let mut bit = 0;
        while bit < 8 {
            register = if register & 0x8000 == 0 { register << 1 } else { register << 1 ^ 0x1021 };
            bit += 1;
        }
        table[i] = register;
        i += 1;
    }
    table
}

pub fn update(register: u16, message: &[u8]) -> u16 {
    message.iter().fold(register, |r, byte| r << 8 ^ TABLE[usize::from((r >> 8) as u8 ^ byte)])
}
