//! The vector file: calls with their answers, a line each.
//!
//! ```text
//! schema HEX                     the schema buffer from here on
//! base N                         the data base becomes N zero bytes
//! poke OFFSET HEX                bytes of the data base changed from outside
//! call OP SET REF PATH KEY AREA -> STATUS REF AREA HASH
//! ```
//!
//! `-` is an empty byte string, and `=` an area that the call leaves alone.

use crate::store::Call;

pub struct Step {
    pub line: usize,
    pub what: What,
}

pub enum What {
    Schema(Vec<u8>),
    Base(usize),
    Poke(usize, Vec<u8>),
    Call(Call, Expected),
}

pub struct Expected {
    pub status: u64,
    pub reference: u64,
    /// `None`: as it was.
    pub area: Option<Vec<u8>>,
    /// [`fnv`] of the data base after the call.
    pub hash: u64,
}

pub fn read(text: &str) -> Result<Vec<Step>, String> {
    let mut steps = Vec::new();
    for (index, text) in text.lines().enumerate() {
        let line = index + 1;
        if text.is_empty() || text.starts_with('#') {
            continue;
        }
        let words: Vec<&str> = text.split(' ').collect();
        let what = step(&words).ok_or_else(|| format!("line {line} cannot be read: {text}"))?;
        steps.push(Step { line, what });
    }
    Ok(steps)
}

fn step(words: &[&str]) -> Option<What> {
    Some(match *words {
        ["schema", schema] => What::Schema(hex(schema)?),
        ["base", length] => What::Base(length.parse().ok()?),
        ["poke", offset, bytes] => What::Poke(offset.parse().ok()?, hex(bytes)?),
        ["call", operation, set, reference, path, key, area, "->", status, after, area_after, hash] =>
        {
            let call = Call {
                operation: hex(operation)?,
                set: hex(set)?,
                reference: reference.parse().ok()?,
                path: hex(path)?,
                key: hex(key)?,
                area: hex(area)?,
            };
            let expected = Expected {
                status: status.parse().ok()?,
                reference: after.parse().ok()?,
                area: match area_after {
                    "=" => None,
                    area => Some(hex(area)?),
                },
                hash: u64::from_str_radix(hash, 16).ok()?,
            };
            What::Call(call, expected)
        }
        _ => return None,
    })
}

fn hex(text: &str) -> Option<Vec<u8>> {
    if text == "-" {
        return Some(Vec::new());
    }
    // An odd digit at the end is no pair, and the whole no byte string.
    let pair = |at| u8::from_str_radix(text.get(at..at + 2)?, 16).ok();
    (0..text.len()).step_by(2).map(pair).collect()
}

/// FNV-1a, 64 bits.
pub fn fnv(bytes: &[u8]) -> u64 {
    let step = |hash: u64, byte: &u8| (hash ^ u64::from(*byte)).wrapping_mul(0x100_0000_01b3);
    bytes.iter().fold(0xcbf2_9ce4_8422_2325, step)
}
