//! The proved leaves behind their C entries, for comparison with the model.
//!
//! The entries are called by a driver in C (`driver.c`), a program for x86-64
//! like the proved library itself; requests and answers go through pipes. The
//! driver hands every buffer over between guard bytes: a leaf that writes
//! beside it, or into a buffer that it should only read, is found out there.

mod driver;

use driver::{ask, Entry};

/// T, or 0 where the schema breaks a rule.
pub fn schema_blocks(schema: &[u8]) -> u32 {
    ask(Entry::SchemaBlocks, 0, 0, schema) as u32
}

/// The byte of the data base where a record starts, if there is such a record.
pub fn record_place(schema: &[u8], entry: u32, record: u32) -> Option<u64> {
    let place = ask(Entry::RecordPlace, entry, record, schema);
    (place != u64::MAX).then_some(place)
}

/// 1 if the bytes are a block with a true check, else 0.
pub fn block_sealed(block: &[u8], number: u32) -> u32 {
    ask(Entry::BlockSealed, number, 0, block) as u32
}

/// The answer, and the bytes after it: 1 and the block with its check, or 0
/// and the bytes as they were.
pub fn block_seal(block: &[u8], number: u32) -> (u32, Vec<u8>) {
    let mut after = block.to_vec();
    let answer = driver::ask_writing(Entry::BlockSeal, number, 0, &mut after);
    (answer as u32, after)
}
