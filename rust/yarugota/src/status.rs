//! What a call answers.

use std::fmt;

/// The statuses in the order of document 01's table.
#[derive(Clone, Copy, Debug, PartialEq, Eq, PartialOrd, Ord, Hash)]
pub enum Status {
    /// `****`, the call is done.
    Done,
    /// The schema breaks a rule.
    Schm,
    /// The data base's length is wrong.
    Size,
    /// The operation is not known. No call of this wrapper is answered so: an
    /// [`Operation`](crate::Operation) is a known one.
    Func,
    /// There is no set of that name.
    Fntf,
    /// A master call on a variable set, or the reverse.
    Kind,
    /// The set has no such path.
    Path,
    /// The area's length is wrong.
    Area,
    /// The key's length is wrong.
    Klen,
    /// A key is all blanks.
    Bctl,
    /// A key of the area differs.
    Keys,
    /// The reference is bad.
    Ivrp,
    /// There is no such master.
    Mrnf,
    /// The master is there already.
    Dupm,
    /// The master has a first or a last that is not 0.
    Imdl,
    /// The set has no free record.
    Full,
    /// Damage was met.
    Damg,
}

impl Status {
    /// All of them; each one's place is its number.
    pub const ALL: [Status; 17] = [
        Status::Done,
        Status::Schm,
        Status::Size,
        Status::Func,
        Status::Fntf,
        Status::Kind,
        Status::Path,
        Status::Area,
        Status::Klen,
        Status::Bctl,
        Status::Keys,
        Status::Ivrp,
        Status::Mrnf,
        Status::Dupm,
        Status::Imdl,
        Status::Full,
        Status::Damg,
    ];

    /// The number in the table.
    pub const fn number(self) -> u32 {
        self as u32
    }

    /// The status of that number.
    pub fn numbered(number: u32) -> Option<Status> {
        Status::ALL.get(usize::try_from(number).ok()?).copied()
    }

    /// The code in the table.
    pub const fn code(self) -> &'static str {
        match self {
            Status::Done => "****",
            Status::Schm => "SCHM",
            Status::Size => "SIZE",
            Status::Func => "FUNC",
            Status::Fntf => "FNTF",
            Status::Kind => "KIND",
            Status::Path => "PATH",
            Status::Area => "AREA",
            Status::Klen => "KLEN",
            Status::Bctl => "BCTL",
            Status::Keys => "KEYS",
            Status::Ivrp => "IVRP",
            Status::Mrnf => "MRNF",
            Status::Dupm => "DUPM",
            Status::Imdl => "IMDL",
            Status::Full => "FULL",
            Status::Damg => "DAMG",
        }
    }
}

/// Shown by its code.
impl fmt::Display for Status {
    fn fmt(&self, f: &mut fmt::Formatter) -> fmt::Result {
        f.write_str(self.code())
    }
}

/// The error of a refused call, by [`Answer::done`](crate::Answer::done).
impl std::error::Error for Status {}

#[cfg(test)]
mod tests {
    use super::Status;

    #[test]
    fn numbers_lead_back() {
        for status in Status::ALL {
            assert_eq!(Status::numbered(status.number()), Some(status));
        }
        assert_eq!(Status::numbered(17), None);
        assert_eq!(Status::Damg.number(), 16);
    }
}
