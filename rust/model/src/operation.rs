//! "The calls we buy".

/// The sixteen operations.
#[derive(Clone, Copy, Debug, PartialEq, Eq, PartialOrd, Ord, Hash)]
pub enum Operation {
    Formt,
    Sinon,
    AddM,
    DelM,
    Readm,
    Writm,
    Rqloc,
    Rdnxt,
    Readv,
    Readr,
    Readd,
    Writv,
    Addvc,
    Addvb,
    Addva,
    Delvd,
}

impl Operation {
    pub const ALL: [Operation; 16] = [
        Operation::Formt,
        Operation::Sinon,
        Operation::AddM,
        Operation::DelM,
        Operation::Readm,
        Operation::Writm,
        Operation::Rqloc,
        Operation::Rdnxt,
        Operation::Readv,
        Operation::Readr,
        Operation::Readd,
        Operation::Writv,
        Operation::Addvc,
        Operation::Addvb,
        Operation::Addva,
        Operation::Delvd,
    ];

    pub fn name(self) -> &'static [u8; 5] {
        match self {
            Operation::Formt => b"FORMT",
            Operation::Sinon => b"SINON",
            Operation::AddM => b"ADD-M",
            Operation::DelM => b"DEL-M",
            Operation::Readm => b"READM",
            Operation::Writm => b"WRITM",
            Operation::Rqloc => b"RQLOC",
            Operation::Rdnxt => b"RDNXT",
            Operation::Readv => b"READV",
            Operation::Readr => b"READR",
            Operation::Readd => b"READD",
            Operation::Writv => b"WRITV",
            Operation::Addvc => b"ADDVC",
            Operation::Addvb => b"ADDVB",
            Operation::Addva => b"ADDVA",
            Operation::Delvd => b"DELVD",
        }
    }

    /// `None` is FUNC, "unknown operation".
    pub fn named(name: &[u8; 5]) -> Option<Operation> {
        Operation::ALL
            .into_iter()
            .find(|operation| operation.name() == name)
    }

    /// The calls that link a new variable record.
    pub fn is_add(self) -> bool {
        matches!(self, Operation::Addvc | Operation::Addvb | Operation::Addva)
    }

    /// The calls that hand a record over in the area.
    pub fn is_read(self) -> bool {
        matches!(
            self,
            Operation::Readm
                | Operation::Rdnxt
                | Operation::Readv
                | Operation::Readr
                | Operation::Readd
        )
    }

    /// "7 (not DEL-M, DELVD, RQLOC, which ignore the area)". FORMT and SINON
    /// never come so far.
    pub fn looks_at_area(self) -> bool {
        !matches!(
            self,
            Operation::Formt
                | Operation::Sinon
                | Operation::DelM
                | Operation::Delvd
                | Operation::Rqloc
        )
    }
}
