//! Names of sets and of paths.

use std::fmt;

use crate::Reference;

/// A set's name: a capital letter, then three capitals or digits.
#[derive(Clone, Copy, PartialEq, Eq, PartialOrd, Ord, Hash)]
pub struct SetName(pub [u8; 4]);

impl SetName {
    /// For calls that name no set.
    pub const BLANK: SetName = SetName(*b"    ");
}

/// A path's name: mmmmLKxx, mmmm the master set.
#[derive(Clone, Copy, PartialEq, Eq, PartialOrd, Ord, Hash)]
pub struct PathName(pub [u8; 8]);

impl PathName {
    /// For calls that name no path.
    pub const BLANK: PathName = PathName(*b"        ");

    /// The path to this master set with these letters.
    pub const fn new(master: SetName, letters: [u8; 2]) -> PathName {
        let [a, b, c, d] = master.0;
        let [x, y] = letters;
        PathName([a, b, c, d, b'L', b'K', x, y])
    }

    /// xx
    pub const fn letters(self) -> [u8; 2] {
        let [_, _, _, _, _, _, x, y] = self.0;
        [x, y]
    }

    /// The path's reference LKxx.
    pub const fn link(self) -> Reference {
        Reference::link(self.letters())
    }
}

impl fmt::Display for SetName {
    fn fmt(&self, f: &mut fmt::Formatter) -> fmt::Result {
        write!(f, "{}", self.0.escape_ascii())
    }
}

impl fmt::Debug for SetName {
    fn fmt(&self, f: &mut fmt::Formatter) -> fmt::Result {
        write!(f, "{self}")
    }
}

impl fmt::Display for PathName {
    fn fmt(&self, f: &mut fmt::Formatter) -> fmt::Result {
        write!(f, "{}", self.0.escape_ascii())
    }
}

impl fmt::Debug for PathName {
    fn fmt(&self, f: &mut fmt::Formatter) -> fmt::Result {
        write!(f, "{self}")
    }
}
