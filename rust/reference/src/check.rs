//! The block check: 'Archive blocks' in document 01.

/// Blocks are 512 bytes.
pub const BLOCK: usize = 512;

/// The check covers bytes 0 to 509 and stands in bytes 510 and 511.
pub const CHECKED: usize = 510;

/// (1 + the sum of (p + 1) × byte p, for p from 0 to 509) modulo 65,521.
///
/// Only the first 510 bytes are read; absent ones count as zero.
pub fn block_check(bytes: &[u8]) -> u16 {
    let sum: u64 = bytes
        .iter()
        .take(CHECKED)
        .enumerate()
        .map(|(p, &byte)| (p as u64 + 1) * u64::from(byte))
        .sum();
    ((1 + sum) % 65_521) as u16
}

/// Writes the check of a block into its last two bytes.
pub fn seal(block: &mut [u8; BLOCK]) {
    let check = block_check(&block[..]);
    block[CHECKED..].copy_from_slice(&check.to_le_bytes());
}

/// Whether these are 512 bytes whose stored check is the computed one.
pub fn is_sealed(block: &[u8]) -> bool {
    block.len() == BLOCK
        && u16::from_le_bytes([block[CHECKED], block[CHECKED + 1]]) == block_check(block)
}

/// Whether every byte is zero.
pub fn all_zero(bytes: &[u8]) -> bool {
    bytes.iter().fold(0, |all, &byte| all | byte) == 0
}
