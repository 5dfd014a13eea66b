//! The index's entries as the trials write and read them, by the paper's words: 1, length, two zeros, prefix with zeros
//! past its length; zeros for other FECs.

/// The entry of every FEC that is not one IPv4 prefix.
pub const NO_ENTRY: u64 = 0;

/// The entry of a prefix of so many bits, 0 to 32; bits past them are masked.
pub fn entry(length: u8, prefix: u32) -> u64 {
    let kept = (0..u32::from(length)).fold(0, |kept, bit| kept | 0x8000_0000 >> bit);
    u64::from_be_bytes([1, length, 0, 0, 0, 0, 0, 0]) | u64::from(prefix & kept)
}

/// The FEC TLV's value for a prefix of so many bits: as many bytes of it as these need, the last with all its bits.
pub fn fec(length: u8, prefix: u32) -> Vec<u8> {
    let bytes = usize::from(length).div_ceil(8);
    [&[2, 0, 1, length], &prefix.to_be_bytes()[..bytes]].concat()
}

/// The entry of a FEC TLV's value, looked for among all that a prefix may have.
pub fn entry_of(value: &[u8]) -> u64 {
    let mut padded = value.get(4..).unwrap_or_default().to_vec();
    padded.resize(4, 0);
    let prefix = padded.iter().fold(0, |prefix, byte| prefix << 8 | u32::from(*byte));
    (0..=32).find(|length| fec(*length, prefix) == value).map_or(NO_ENTRY, |length| entry(length, prefix))
}
