//! A schema written set by set.

use crate::{PathName, SetName, BLOCK};

/// What a block holds before its check.
const ROOM: u64 = 508;
const MOST_BLOCKS: u64 = 4096;

/// The sets of a data base, from which its schema's block is written.
///
/// A convenience: it is not proved, and it judges nothing. The store does, and
/// answers [`Schm`](crate::Status::Schm) where a rule is broken.
#[derive(Clone, Debug, Default, PartialEq, Eq)]
pub struct Schema {
    masters: Vec<Master>,
    variables: Vec<Variable>,
}

#[derive(Clone, Debug, PartialEq, Eq)]
struct Master {
    name: SetName,
    key: u8,
    data: u16,
    records: u32,
}

#[derive(Clone, Debug, PartialEq, Eq)]
struct Variable {
    name: SetName,
    data: u16,
    records: u32,
    paths: Vec<PathName>,
}

impl Schema {
    /// A schema without sets. A data base has one to four master sets and up
    /// to four variable sets.
    pub fn new() -> Schema {
        Schema::default()
    }

    /// One more master set: keys of `key` bytes (4, 8, 12 or 16), `data` bytes
    /// of data, room for `records` of them.
    pub fn master(mut self, name: SetName, key: u8, data: u16, records: u32) -> Schema {
        self.masters.push(Master {
            name,
            key,
            data,
            records,
        });
        self
    }

    /// One more variable set: `data` bytes of data, room for `records` of them,
    /// one to four paths. A path's name tells the master set that it leads to.
    pub fn variable(
        mut self,
        name: SetName,
        data: u16,
        records: u32,
        paths: &[PathName],
    ) -> Schema {
        self.variables.push(Variable {
            name,
            data,
            records,
            paths: paths.to_vec(),
        });
        self
    }

    /// The schema's block, with its check. Sets or paths that have no place in
    /// it are counted but not written, and a path to no master set gets the
    /// number of none; the store refuses such a block.
    pub fn block(&self) -> [u8; BLOCK] {
        let mut block = [0; BLOCK];
        block[0] = 1;
        block[1] = count(&self.masters);
        block[2] = count(&self.variables);
        let mut entries = block[16..400].chunks_exact_mut(48);
        for (master, entry) in self.masters.iter().zip(&mut entries) {
            write_set(entry, 1, master.name, master.data, master.records);
            entry[12] = master.key;
        }
        for (variable, entry) in self.variables.iter().zip(&mut entries) {
            write_set(entry, 2, variable.name, variable.data, variable.records);
            entry[5] = count(&variable.paths);
            for (path, slot) in variable.paths.iter().zip(entry[16..].chunks_exact_mut(8)) {
                slot[..2].copy_from_slice(&path.letters());
                let master = self.master_of(path);
                slot[2] = master.and_then(|at| at.try_into().ok()).unwrap_or(u8::MAX);
            }
        }
        let check = check(&block);
        block[508..].copy_from_slice(&check.to_be_bytes());
        block
    }

    /// How many blocks the data base has: T of document 01. 0 where it would
    /// have more than 4,096, or where a record is longer than 508 bytes; the
    /// store refuses such a schema.
    pub fn blocks(&self) -> usize {
        let masters = (0..self.masters.len()).map(|at| self.master_blocks(at));
        let variables = self.variables.iter().map(|set| self.variable_blocks(set));
        let all: Option<u64> = masters.chain(variables).sum();
        let all = all.filter(|&blocks| blocks <= MOST_BLOCKS);
        all.map_or(0, |blocks| blocks as usize)
    }

    /// State and ROOT pointers, key, first and last of each path, data.
    fn master_blocks(&self, at: usize) -> Option<u64> {
        let set = &self.masters[at];
        let paths = self.variables.iter().flat_map(|set| &set.paths);
        let to_it = paths.filter(|path| self.master_of(path) == Some(at));
        let length = 12 + u64::from(set.key) + 8 * to_it.count() as u64 + u64::from(set.data);
        blocks_of(set.records, length)
    }

    /// State, key and two pointers of each path, data.
    fn variable_blocks(&self, set: &Variable) -> Option<u64> {
        let masters = set.paths.iter().filter_map(|path| self.master_of(path));
        let paths = masters.map(|at| u64::from(self.masters[at].key) + 8);
        let length = 4 + paths.sum::<u64>() + u64::from(set.data);
        blocks_of(set.records, length)
    }

    /// Which master set a path leads to.
    fn master_of(&self, path: &PathName) -> Option<usize> {
        let named = |set: &Master| PathName::new(set.name, path.letters()) == *path;
        self.masters.iter().position(named)
    }
}

/// As the block counts sets and paths, in a byte.
fn count<T>(list: &[T]) -> u8 {
    list.len().try_into().unwrap_or(u8::MAX)
}

/// What entries of both kinds have.
fn write_set(entry: &mut [u8], kind: u8, name: SetName, data: u16, records: u32) {
    entry[..4].copy_from_slice(&name.0);
    entry[4] = kind;
    entry[6..8].copy_from_slice(&data.to_be_bytes());
    entry[8..12].copy_from_slice(&records.to_be_bytes());
}

/// Whole records to a block, and each set from a fresh one.
fn blocks_of(records: u32, length: u64) -> Option<u64> {
    let to_a_block = ROOM / length;
    (to_a_block > 0).then(|| u64::from(records).div_ceil(to_a_block))
}

/// The check of block 0: the sum of its words.
fn check(block: &[u8; BLOCK]) -> u32 {
    let words = block[..508].chunks_exact(4);
    let words = words.map(|word| u32::from_be_bytes([word[0], word[1], word[2], word[3]]));
    words.fold(0, u32::wrapping_add)
}
