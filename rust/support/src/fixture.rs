//! A schema and a data base to make calls on.

use yarugota_model::{format, DataBase, Schema, Status, BLOCK};

use crate::damage::reseal;
use crate::{make, model, Answered, Call};

/// A store with its schema, its data base, and calls written short. The calls
/// go to the model.
#[derive(Clone)]
pub struct Fixture {
    pub schema: Vec<u8>,
    pub decoded: Schema,
    pub base: Vec<u8>,
}

impl Fixture {
    /// A formatted data base for a schema that keeps every rule.
    pub fn formatted(schema: &[u8]) -> Fixture {
        let decoded = Schema::decode(schema).expect("a schema that keeps every rule");
        let mut base = vec![0; decoded.base_length()];
        format(&mut base);
        Fixture {
            schema: schema.to_vec(),
            decoded,
            base,
        }
    }

    /// Makes a call, and tests that a refused one changes nothing.
    pub fn make(&mut self, call: &Call) -> Answered {
        make(model, call, &self.schema, &mut self.base)
    }

    /// A call on a master set, or one that names no path.
    pub fn on_set(
        &mut self,
        op: &str,
        set: &str,
        reference: u32,
        key: &[u8],
        area: &[u8],
    ) -> Answered {
        self.on_path(op, set, reference, "        ", key, area)
    }

    pub fn on_path(
        &mut self,
        op: &str,
        set: &str,
        reference: u32,
        path: &str,
        key: &[u8],
        area: &[u8],
    ) -> Answered {
        self.make(&Call {
            op: bytes(op),
            set: bytes(set),
            reference,
            path: bytes(path),
            key: key.to_vec(),
            area: area.to_vec(),
        })
    }

    pub fn sinon(&mut self) -> Status {
        self.make(&Call::plain(b"SINON")).status
    }

    pub fn view(&self) -> DataBase<'_> {
        DataBase {
            schema: &self.decoded,
            bytes: &self.base,
        }
    }

    pub fn entry(&self, set: &str) -> usize {
        self.decoded.entry_named(&bytes(set)).expect("a set")
    }

    /// Changes bytes of a record from outside, and sets the check right again.
    pub fn poke(&mut self, set: &str, record: u32, at: usize, with: &[u8]) {
        let entry = self.entry(set);
        let record = self.decoded.record_offset(entry, record);
        let offset = record.expect("a record") + at;
        self.base[offset..offset + with.len()].copy_from_slice(with);
        self.reseal(offset / BLOCK);
    }

    pub fn poke_pointer(&mut self, set: &str, record: u32, at: usize, pointer: u32) {
        self.poke(set, record, at, &pointer.to_be_bytes());
    }

    pub fn reseal(&mut self, block: usize) {
        reseal(&mut self.base, block);
    }

    /// Makes the check of the block that holds this record false.
    pub fn break_check(&mut self, set: &str, record: u32) {
        let entry = self.entry(set);
        let record = self.decoded.record_offset(entry, record);
        let block = record.expect("a record") / BLOCK;
        self.base[block * BLOCK + BLOCK - 1] ^= 1;
    }
}

/// A name of fixed length.
fn bytes<const N: usize>(name: &str) -> [u8; N] {
    name.as_bytes().try_into().expect("a name of that length")
}
