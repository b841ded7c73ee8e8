//! "All numbers are big-endian."

/// The 32-bit word that starts at byte `at`.
pub fn word(bytes: &[u8], at: usize) -> u32 {
    u32::from_be_bytes([bytes[at], bytes[at + 1], bytes[at + 2], bytes[at + 3]])
}

/// The wrapping 32-bit sum of `start` and the words of `bytes`. Block checks
/// and homes are both made of it.
pub fn wrapping_sum(start: u32, bytes: &[u8]) -> u32 {
    bytes
        .chunks_exact(4)
        .map(|four| word(four, 0))
        .fold(start, u32::wrapping_add)
}

pub fn all_zero(bytes: &[u8]) -> bool {
    bytes.iter().all(|&byte| byte == 0)
}

/// "key all 0x20"
pub fn blank(key: &[u8]) -> bool {
    key.iter().all(|&byte| byte == 0x20)
}
