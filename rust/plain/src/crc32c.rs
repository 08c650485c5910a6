//! CRC32C (Castagnoli), eight bytes a step.

/// The polynomial 0x1EDC6F41 with its bits reversed, since the sum takes low bits first.
const POLYNOMIAL: u32 = 0x82F6_3B78;

/// `TABLES[0]` steps over one byte; `TABLES[k]` over a byte that `k` more bytes follow.
static TABLES: [[u32; 256]; 8] = tables();

const fn tables() -> [[u32; 256]; 8] {
    let mut tables = [[0; 256]; 8];
    let mut byte = 0;
    while byte < 256 {
        let mut rest = byte as u32;
        let mut bit = 0;
        while bit < 8 {
            rest = (rest >> 1) ^ (POLYNOMIAL * (rest & 1));
            bit += 1;
        }
        tables[0][byte] = rest;
        byte += 1;
    }
    let mut k = 1;
    while k < 8 {
        let mut byte = 0;
        while byte < 256 {
            let rest = tables[k - 1][byte];
            tables[k][byte] = (rest >> 8) ^ tables[0][(rest & 0xFF) as usize];
            byte += 1;
        }
        k += 1;
    }
    tables
}

/// A sum under way, so that what it runs over can come in parts.
#[derive(Clone, Copy)]
pub struct Crc32c(u32);

impl Crc32c {
    pub const fn new() -> Self {
        Self(u32::MAX)
    }

    /// The sum after `bytes` too.
    pub fn over(self, bytes: &[u8]) -> Self {
        let (eights, rest) = bytes.as_chunks::<8>();
        let sum = eights.iter().fold(self.0, |sum, eight| step_eight(sum, *eight));
        Self(rest.iter().fold(sum, |sum, byte| step(sum, *byte)))
    }

    pub const fn sum(self) -> u32 {
        !self.0
    }
}

fn step(sum: u32, byte: u8) -> u32 {
    (sum >> 8) ^ TABLES[0][usize::from(sum as u8 ^ byte)]
}

fn step_eight(sum: u32, eight: [u8; 8]) -> u32 {
    let mixed = (u64::from_le_bytes(eight) ^ u64::from(sum)).to_le_bytes();
    let mut next = 0;
    for (k, byte) in mixed.into_iter().enumerate() {
        next ^= TABLES[7 - k][usize::from(byte)];
    }
    next
}

/// The CRC32C of `bytes`, as RFC 3720 publishes examples of it.
pub fn crc32c(bytes: &[u8]) -> u32 {
    Crc32c::new().over(bytes).sum()
}
