//! The vectors: calls written down with what they answer.
//!
//! Each line is one of
//!
//! ```text
//! schema HEX
//! base N
//! poke OFFSET HEX
//! call OP SET REF PATH KEY AREA -> STATUS REF AREA HASH
//! ```
//!
//! with byte strings in hex, `-` for an empty one, `=` for an area that the
//! call leaves as it was, and FNV-1a over the whole data base after the call.

use yarugota_model::Status;

use crate::Call;

/// How a run over the vectors went.
#[derive(Debug, Default)]
pub struct Replay {
    pub calls: usize,
    /// Where the store answers otherwise: line number, and what differs.
    pub differences: Vec<(usize, String)>,
}

/// Makes every call on `store` and compares. `Err` tells which line could not
/// be read.
pub fn replay(
    text: &str,
    mut store: impl FnMut(&mut Call, &[u8], &mut [u8]) -> (Status, u32),
) -> Result<Replay, String> {
    let mut replay = Replay::default();
    let mut schema = Vec::new();
    let mut base = Vec::new();
    for (number, line) in (1..).zip(text.lines()) {
        let step = Step::read(line).ok_or(format!("line {number} is not a vector"))?;
        match step {
            Step::Schema(bytes) => schema = bytes,
            Step::Base(length) => base = vec![0; length],
            Step::Poke(offset, bytes) => poke(&mut base, offset, &bytes)
                .ok_or(format!("line {number} pokes beside the data base"))?,
            Step::Call(mut call, expected) => {
                let answered = store(&mut call, &schema, &mut base);
                let answer = Expected::of(answered, call.area, &base);
                replay.calls += 1;
                if answer != expected {
                    let difference = format!("{answer:?} instead of {expected:?}");
                    replay.differences.push((number, difference));
                }
            }
        }
    }
    Ok(replay)
}

fn poke(base: &mut [u8], offset: usize, bytes: &[u8]) -> Option<()> {
    let end = offset.checked_add(bytes.len())?;
    base.get_mut(offset..end)?.copy_from_slice(bytes);
    Some(())
}

enum Step {
    Schema(Vec<u8>),
    Base(usize),
    Poke(usize, Vec<u8>),
    Call(Call, Expected),
}

#[derive(Debug, PartialEq, Eq)]
struct Expected {
    status: u32,
    reference: u32,
    area: Vec<u8>,
    hash: u64,
}

impl Expected {
    fn of((status, reference): (Status, u32), area: Vec<u8>, base: &[u8]) -> Expected {
        Expected {
            status: status.number(),
            reference,
            area,
            hash: fnv_1a(base),
        }
    }
}

impl Step {
    fn read(line: &str) -> Option<Step> {
        let words: Vec<&str> = line.split(' ').collect();
        match words[..] {
            ["schema", bytes] => Some(Step::Schema(hex(bytes)?)),
            ["base", length] => Some(Step::Base(length.parse().ok()?)),
            ["poke", offset, bytes] => Some(Step::Poke(offset.parse().ok()?, hex(bytes)?)),
            ["call", op, set, reference, path, key, area, "->", status, answered, after, hash] => {
                let call = Call {
                    op: hex(op)?.try_into().ok()?,
                    set: hex(set)?.try_into().ok()?,
                    reference: reference.parse().ok()?,
                    path: hex(path)?.try_into().ok()?,
                    key: hex(key)?,
                    area: hex(area)?,
                };
                let expected = Expected {
                    status: status.parse().ok()?,
                    reference: answered.parse().ok()?,
                    area: if after == "=" {
                        call.area.clone()
                    } else {
                        hex(after)?
                    },
                    hash: u64::from_str_radix(hash, 16).ok()?,
                };
                Some(Step::Call(call, expected))
            }
            _ => None,
        }
    }
}

/// Two digits a byte; `-` is no bytes.
fn hex(digits: &str) -> Option<Vec<u8>> {
    if digits == "-" {
        return Some(Vec::new());
    }
    let value = |digit: u8| char::from(digit).to_digit(16);
    let pairs = digits.as_bytes().chunks(2);
    pairs
        .map(|pair| match *pair {
            [high, low] => Some((value(high)? * 16 + value(low)?) as u8),
            _ => None,
        })
        .collect()
}

/// FNV-1a of 64 bits.
pub fn fnv_1a(bytes: &[u8]) -> u64 {
    bytes.iter().fold(0xcbf2_9ce4_8422_2325, |hash, &byte| {
        (hash ^ u64::from(byte)).wrapping_mul(0x0000_0100_0000_01b3)
    })
}
