//! Little-endian numbers in lent bytes (01, The page: "All numbers are little-endian").

/// The `N` bytes from `at` on.
#[inline]
fn part<const N: usize>(bytes: &[u8], at: usize) -> [u8; N] {
    let mut part = [0; N];
    part.copy_from_slice(&bytes[at..at + N]);
    part
}

#[inline]
pub fn u16_at(bytes: &[u8], at: usize) -> u16 {
    u16::from_le_bytes(part(bytes, at))
}

#[inline]
pub fn u32_at(bytes: &[u8], at: usize) -> u32 {
    u32::from_le_bytes(part(bytes, at))
}

#[inline]
pub fn u64_at(bytes: &[u8], at: usize) -> u64 {
    u64::from_le_bytes(part(bytes, at))
}

/// Writes `new` from `at` on.
#[inline]
pub fn put<const N: usize>(bytes: &mut [u8], at: usize, new: [u8; N]) {
    bytes[at..at + N].copy_from_slice(&new);
}
