//! The operations.

use std::fmt;

/// The sixteen operations of document 01.
#[derive(Clone, Copy, Debug, PartialEq, Eq, PartialOrd, Ord, Hash)]
pub enum Operation {
    /// Zeroes everything and sets the checks.
    Formt,
    /// Judges whether the data base is sound.
    Sinon,
    /// Adds a master.
    AddM,
    /// Deletes a master that has no chains.
    DelM,
    /// Reads a master.
    Readm,
    /// Replaces a master's D bytes.
    Writm,
    /// Gives a key's home.
    Rqloc,
    /// Reads the next live record of a set of either kind.
    Rdnxt,
    /// Reads forward along a path.
    Readv,
    /// Reads backward along a path.
    Readr,
    /// Reads the numbered record.
    Readd,
    /// Replaces a variable record's D bytes.
    Writv,
    /// Adds a variable record, last on every path.
    Addvc,
    /// Adds one before the reference on the named path.
    Addvb,
    /// Adds one after the reference on the named path.
    Addva,
    /// Deletes a variable record.
    Delvd,
}

impl Operation {
    /// All of them.
    pub const ALL: [Operation; 16] = [
        Operation::Formt,
        Operation::Sinon,
        Operation::AddM,
        Operation::DelM,
        Operation::Readm,
        Operation::Writm,
        Operation::Rqloc,
        Operation::Rdnxt,
        Operation::Readv,
        Operation::Readr,
        Operation::Readd,
        Operation::Writv,
        Operation::Addvc,
        Operation::Addvb,
        Operation::Addva,
        Operation::Delvd,
    ];

    /// The five bytes that name it.
    pub const fn name(self) -> &'static [u8; 5] {
        match self {
            Operation::Formt => b"FORMT",
            Operation::Sinon => b"SINON",
            Operation::AddM => b"ADD-M",
            Operation::DelM => b"DEL-M",
            Operation::Readm => b"READM",
            Operation::Writm => b"WRITM",
            Operation::Rqloc => b"RQLOC",
            Operation::Rdnxt => b"RDNXT",
            Operation::Readv => b"READV",
            Operation::Readr => b"READR",
            Operation::Readd => b"READD",
            Operation::Writv => b"WRITV",
            Operation::Addvc => b"ADDVC",
            Operation::Addvb => b"ADDVB",
            Operation::Addva => b"ADDVA",
            Operation::Delvd => b"DELVD",
        }
    }
}

impl fmt::Display for Operation {
    fn fmt(&self, f: &mut fmt::Formatter) -> fmt::Result {
        write!(f, "{}", self.name().escape_ascii())
    }
}
