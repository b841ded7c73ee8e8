//! Blocks and their checks.

use crate::bytes::{word, wrapping_sum};

/// "A block is 512 bytes"
pub const BLOCK: usize = 512;

/// "bytes 508..511 are its check"
pub const CHECK: usize = 508;

/// "the 32-bit wrapping sum of the block's number and its first 127 words"
pub fn block_check(block: &[u8; BLOCK], number: u32) -> u32 {
    wrapping_sum(number, &block[..CHECK])
}

/// Whether this is a block, and its check is true for that block number.
pub fn sealed(block: &[u8], number: u32) -> bool {
    match <&[u8; BLOCK]>::try_from(block) {
        Ok(block) => word(block, CHECK) == block_check(block, number),
        Err(_) => false,
    }
}

/// Sets the check. Bytes that are no block stay as they are, and the answer is
/// false.
pub fn seal(block: &mut [u8], number: u32) -> bool {
    match <&mut [u8; BLOCK]>::try_from(block) {
        Ok(block) => {
            let check = block_check(block, number);
            block[CHECK..].copy_from_slice(&check.to_be_bytes());
            true
        }
        Err(_) => false,
    }
}
