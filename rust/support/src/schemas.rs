//! Schemas written as lists, and random ones.

use yarugota_model::{seal, BLOCK};

use crate::Random;

/// A schema before it is written into its block. It may break rules.
#[derive(Clone, Debug, Default)]
pub struct Draft {
    pub masters: Vec<Master>,
    pub variables: Vec<Variable>,
}

#[derive(Clone, Debug)]
pub struct Master {
    pub name: [u8; 4],
    pub key_length: u8,
    pub data_length: u16,
    pub records: u32,
}

#[derive(Clone, Debug)]
pub struct Variable {
    pub name: [u8; 4],
    pub data_length: u16,
    pub records: u32,
    pub paths: Vec<Path>,
}

#[derive(Clone, Copy, Debug, PartialEq, Eq)]
pub struct Path {
    pub letters: [u8; 2],
    pub master: u8,
}

/// Room in a block before its check.
const ROOM: usize = 508;
const MOST_BLOCKS: usize = 4096;
const MOST_RECORDS: usize = 65_535;

impl Draft {
    /// The schema's block, with its check.
    pub fn encode(&self) -> Vec<u8> {
        let mut block = vec![0; BLOCK];
        block[0] = 1;
        block[1] = self.masters.len() as u8;
        block[2] = self.variables.len() as u8;
        let mut entries = block[16..].chunks_exact_mut(48);
        for (master, entry) in self.masters.iter().zip(&mut entries) {
            entry[..4].copy_from_slice(&master.name);
            entry[4] = 1;
            entry[6..8].copy_from_slice(&master.data_length.to_be_bytes());
            entry[8..12].copy_from_slice(&master.records.to_be_bytes());
            entry[12] = master.key_length;
        }
        for (variable, entry) in self.variables.iter().zip(&mut entries) {
            entry[..4].copy_from_slice(&variable.name);
            entry[4] = 2;
            entry[5] = variable.paths.len() as u8;
            entry[6..8].copy_from_slice(&variable.data_length.to_be_bytes());
            entry[8..12].copy_from_slice(&variable.records.to_be_bytes());
            for (path, slot) in variable.paths.iter().zip(entry[16..].chunks_exact_mut(8)) {
                slot[..2].copy_from_slice(&path.letters);
                slot[2] = path.master;
            }
        }
        seal(&mut block, 0);
        block
    }

    /// A master record's length without its D bytes.
    fn master_fixed(&self, master: usize) -> usize {
        let paths = self.variables.iter().flat_map(|variable| &variable.paths);
        let to_it = paths.filter(|path| usize::from(path.master) == master);
        12 + usize::from(self.masters[master].key_length) + 8 * to_it.count()
    }

    /// A variable record's length without its D bytes.
    fn variable_fixed(&self, variable: usize) -> usize {
        let paths = self.variables[variable].paths.iter();
        let keys = paths.map(|path| self.masters[usize::from(path.master)].key_length);
        4 + keys.map(|length| usize::from(length) + 8).sum::<usize>()
    }

    /// L and R of each set.
    fn sizes(&self) -> Vec<(usize, usize)> {
        let masters = self.masters.iter().enumerate().map(|(at, master)| {
            let length = self.master_fixed(at) + usize::from(master.data_length);
            (length, master.records as usize)
        });
        let variables = self.variables.iter().enumerate().map(|(at, variable)| {
            let length = self.variable_fixed(at) + usize::from(variable.data_length);
            (length, variable.records as usize)
        });
        masters.chain(variables).collect()
    }

    /// T, if every record fits into a block.
    pub fn blocks(&self) -> usize {
        let sizes = self.sizes().into_iter();
        sizes
            .map(|(length, records)| records.div_ceil(ROOM / length))
            .sum()
    }

    fn set_data_length(&mut self, entry: usize, length: usize) {
        let length = length as u16;
        match entry.checked_sub(self.masters.len()) {
            None => self.masters[entry].data_length = length,
            Some(variable) => self.variables[variable].data_length = length,
        }
    }

    fn set_records(&mut self, entry: usize, records: usize) {
        let records = records as u32;
        match entry.checked_sub(self.masters.len()) {
            None => self.masters[entry].records = records,
            Some(variable) => self.variables[variable].records = records,
        }
    }
}

/// A random schema with few records a set, so that sets fill up and keys meet
/// at one home.
pub fn small(random: &mut Random) -> Draft {
    let mut draft = shape(random);
    for entry in 0..draft.sizes().len() {
        let records = if random.once_in(3) {
            random.between(1, 3)
        } else {
            random.between(2, 12)
        };
        draft.set_records(entry, records);
    }
    draft
}

/// A random schema of any size up to T = 4,096.
pub fn any(random: &mut Random) -> Draft {
    let mut draft = shape(random);
    let sizes = draft.sizes();
    let mut room = MOST_BLOCKS;
    for (entry, &(length, _)) in sizes.iter().enumerate() {
        let left_for_others = sizes.len() - entry - 1;
        let most = ((room - left_for_others) * (ROOM / length)).min(MOST_RECORDS);
        let records = match random.below(4) {
            0 => random.between(1, most.min(8)),
            1 => random.between(1, most.min(300)),
            2 => random.between(1, most),
            _ => most,
        };
        draft.set_records(entry, records);
        room -= records.div_ceil(ROOM / length);
    }
    draft
}

/// Sets, paths, keys and D bytes, with one record a set.
fn shape(random: &mut Random) -> Draft {
    let mut draft = Draft::default();
    let (masters, variables) = (random.between(1, 4), random.below(5));
    let mut names = names(random, masters + variables).into_iter();
    for name in names.by_ref().take(masters) {
        draft.masters.push(Master {
            name,
            key_length: *random.pick(&[4, 8, 12, 16]),
            data_length: 0,
            records: 1,
        });
    }
    for name in names {
        let paths = paths(random, &draft);
        draft.variables.push(Variable {
            name,
            data_length: 0,
            records: 1,
            paths,
        });
    }
    for (entry, (fixed, _)) in draft.sizes().into_iter().enumerate() {
        let length = match random.below(8) {
            0 | 1 => 0,
            2 => random.between(0, ROOM - fixed),
            3 => ROOM - fixed,
            _ => random.between(1, 12),
        };
        draft.set_data_length(entry, length);
    }
    draft
}

fn capital(random: &mut Random) -> u8 {
    *random.pick(b"ABLKMYZ")
}

fn capital_or_digit(random: &mut Random) -> u8 {
    *random.pick(b"ABKLYZ0189")
}

fn names(random: &mut Random, count: usize) -> Vec<[u8; 4]> {
    let mut names = Vec::new();
    while names.len() < count {
        let mut name = [0; 4].map(|_| capital_or_digit(random));
        name[0] = capital(random);
        if !names.contains(&name) {
            names.push(name);
        }
    }
    names
}

/// Paths for one more variable set. Several of them often lead to one master.
fn paths(random: &mut Random, draft: &Draft) -> Vec<Path> {
    let mut paths: Vec<Path> = Vec::new();
    let count = random.between(1, 4);
    while paths.len() < count {
        let master = match paths.last() {
            Some(before) if random.once_in(2) => before.master,
            _ => random.below(draft.masters.len()) as u8,
        };
        let letters = [capital_or_digit(random), capital_or_digit(random)];
        let others = draft.variables.iter().flat_map(|variable| &variable.paths);
        let taken = paths.iter().any(|path| path.letters == letters)
            || others
                .into_iter()
                .any(|&path| path == Path { letters, master });
        if !taken {
            paths.push(Path { letters, master });
        }
    }
    paths
}
