//! Requests to the driver, and what it answers.

/// Requests that go to the driver together.
#[derive(Clone, Debug, Default)]
pub struct Batch {
    pub(crate) requests: Vec<u8>,
    /// The area's length of each call, which the answers do not repeat.
    pub(crate) areas: Vec<usize>,
}

impl Batch {
    pub fn new() -> Batch {
        Batch::default()
    }

    /// The schema of the calls that follow.
    pub fn schema(&mut self, bytes: &[u8]) {
        self.requests.push(b'S');
        self.counted(bytes);
    }

    /// The data base of the calls that follow. Each call finds it as the one
    /// before has left it.
    pub fn base(&mut self, bytes: &[u8]) {
        self.requests.push(b'B');
        self.counted(bytes);
    }

    /// The data base as the last [`Batch::base`] gave it.
    pub fn base_again(&mut self) {
        self.requests.push(b'R');
    }

    /// The next call's key lies in its area, from this byte on: the call is made
    /// by the header's `yarugota_call_key_in_area`.
    pub fn key_in_area(&mut self, from: u32) {
        self.requests.push(b'K');
        self.requests.extend(from.to_be_bytes());
    }

    pub fn call(
        &mut self,
        op: &[u8; 5],
        set: &[u8; 4],
        reference: u32,
        path: &[u8; 8],
        key: &[u8],
        area: &[u8],
    ) {
        self.requests.push(b'C');
        self.requests.extend(op);
        self.requests.extend(set);
        self.requests.extend(reference.to_be_bytes());
        self.requests.extend(path);
        self.counted(key);
        self.counted(area);
        self.areas.push(area.len());
    }

    fn counted(&mut self, bytes: &[u8]) {
        let length = u32::try_from(bytes.len()).expect("a buffer below 4 GB");
        self.requests.extend(length.to_be_bytes());
        self.requests.extend(bytes);
    }
}

/// What one call came to.
#[derive(Clone, Debug, PartialEq, Eq)]
pub struct Answer {
    /// The status's number.
    pub status: u32,
    pub reference: u32,
    /// The area after the call.
    pub area: Vec<u8>,
    /// What the call changed in the data base, in order. The data base after a
    /// call is the one before it with these changes: nothing is left out.
    pub changes: Vec<Change>,
}

/// Neighbouring bytes that are not what they were.
#[derive(Clone, Debug, PartialEq, Eq)]
pub struct Change {
    pub offset: usize,
    pub bytes: Vec<u8>,
}

impl Change {
    /// All changes from one data base to another of the same length, each as
    /// long as neighbouring bytes differ.
    pub fn between(before: &[u8], after: &[u8]) -> Vec<Change> {
        const BLOCK: usize = 512;
        assert_eq!(before.len(), after.len(), "a data base keeps its length");
        let mut changes: Vec<Change> = Vec::new();
        let blocks = before.chunks(BLOCK).zip(after.chunks(BLOCK));
        for (number, (old, new)) in blocks.enumerate().filter(|(_, (old, new))| old != new) {
            for (at, (&old, &new)) in old.iter().zip(new).enumerate() {
                let offset = number * BLOCK + at;
                if old == new {
                    continue;
                }
                match changes.last_mut() {
                    Some(run) if run.offset + run.bytes.len() == offset => run.bytes.push(new),
                    _ => changes.push(Change {
                        offset,
                        bytes: vec![new],
                    }),
                }
            }
        }
        changes
    }

    pub fn apply(&self, base: &mut [u8]) {
        base[self.offset..self.offset + self.bytes.len()].copy_from_slice(&self.bytes);
    }
}

#[cfg(test)]
mod tests {
    use super::Change;

    #[test]
    fn changes_lead_from_one_data_base_to_the_other() {
        let before = vec![0; 1536];
        let mut after = before.clone();
        after[0] = 1;
        after[5] = 2;
        after[510..515].fill(3);
        after[1535] = 4;
        let changes = Change::between(&before, &after);
        let places: Vec<(usize, usize)> = changes
            .iter()
            .map(|change| (change.offset, change.bytes.len()))
            .collect();
        assert_eq!(places, [(0, 1), (5, 1), (510, 5), (1535, 1)]);
        let mut made = before;
        changes.iter().for_each(|change| change.apply(&mut made));
        assert_eq!(made, after);
    }
}
