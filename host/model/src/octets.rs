//! Big-endian numbers in byte slices, and the test for a run of zeros.

pub fn be16(bytes: &[u8], at: usize) -> u16 {
    u16::from_be_bytes([bytes[at], bytes[at + 1]])
}

pub fn be32(bytes: &[u8], at: usize) -> u32 {
    u32::from_be_bytes([bytes[at], bytes[at + 1], bytes[at + 2], bytes[at + 3]])
}

pub fn be64(bytes: &[u8], at: usize) -> u64 {
    u64::from(be32(bytes, at)) << 32 | u64::from(be32(bytes, at + 4))
}

pub fn put16(bytes: &mut [u8], at: usize, number: u16) {
    bytes[at..at + 2].copy_from_slice(&number.to_be_bytes());
}

pub fn put32(bytes: &mut [u8], at: usize, number: u32) {
    bytes[at..at + 4].copy_from_slice(&number.to_be_bytes());
}

pub fn put64(bytes: &mut [u8], at: usize, number: u64) {
    bytes[at..at + 8].copy_from_slice(&number.to_be_bytes());
}

/// True where every byte is zero; eight bytes at a time.
pub fn all_zero(bytes: &[u8]) -> bool {
    let eights = bytes.chunks_exact(8);
    let rest = eights.remainder().iter().fold(0, |all, byte| all | byte);
    let all = eights.fold(0u64, |all, eight| {
        let mut number = [0; 8];
        number.copy_from_slice(eight);
        all | u64::from_ne_bytes(number)
    });
    all == 0 && rest == 0
}
