//! References that are no record number.
//!
//! "no record number reaches either": R is at most 65,535, and both lie far
//! above that.

/// "END. is 0x454E442E"
pub const END: u32 = 0x454E_442E;

/// "LKxx is its four characters"
pub fn lk(letters: [u8; 2]) -> u32 {
    u32::from_be_bytes([b'L', b'K', letters[0], letters[1]])
}
