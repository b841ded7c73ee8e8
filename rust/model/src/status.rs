//! "Status numbers": what a call answers.

/// The statuses in the order of document 01's table, so that a status's place
/// here is its number.
#[derive(Clone, Copy, Debug, PartialEq, Eq, PartialOrd, Ord, Hash)]
pub enum Status {
    Done,
    Schm,
    Size,
    Func,
    Fntf,
    Kind,
    Path,
    Area,
    Klen,
    Bctl,
    Keys,
    Ivrp,
    Mrnf,
    Dupm,
    Imdl,
    Full,
    Damg,
}

impl Status {
    pub const ALL: [Status; 17] = [
        Status::Done,
        Status::Schm,
        Status::Size,
        Status::Func,
        Status::Fntf,
        Status::Kind,
        Status::Path,
        Status::Area,
        Status::Klen,
        Status::Bctl,
        Status::Keys,
        Status::Ivrp,
        Status::Mrnf,
        Status::Dupm,
        Status::Imdl,
        Status::Full,
        Status::Damg,
    ];

    /// The table's column "No".
    pub fn number(self) -> u32 {
        self as u32
    }

    /// The table's column "Code".
    pub fn code(self) -> &'static str {
        match self {
            Status::Done => "****",
            Status::Schm => "SCHM",
            Status::Size => "SIZE",
            Status::Func => "FUNC",
            Status::Fntf => "FNTF",
            Status::Kind => "KIND",
            Status::Path => "PATH",
            Status::Area => "AREA",
            Status::Klen => "KLEN",
            Status::Bctl => "BCTL",
            Status::Keys => "KEYS",
            Status::Ivrp => "IVRP",
            Status::Mrnf => "MRNF",
            Status::Dupm => "DUPM",
            Status::Imdl => "IMDL",
            Status::Full => "FULL",
            Status::Damg => "DAMG",
        }
    }
}
