//! Mistakes. [`call_with`](crate::call_with) makes one of them, to try the tests
//! by: they must notice. With none it is the model.
//!
//! The mistake rides in the schema that a call decodes, since sets and records
//! are reached from there.

use crate::bytes::word;
use crate::database::Set;
use crate::schema::Entry;

/// Lists the mistakes once: their names, and what is done wrong.
macro_rules! faults {
    ($(#[doc = $what:literal] $name:ident,)+) => {
        #[derive(Clone, Copy, Debug, PartialEq, Eq)]
        pub enum Fault {
            $(#[doc = $what] $name,)+
        }

        impl Fault {
            pub const ALL: &[Fault] = &[$(Fault::$name,)+];

            /// What is done wrong.
            pub fn what(self) -> &'static str {
                match self {
                    $(Fault::$name => $what.trim_start(),)+
                }
            }
        }
    };
}

faults! {
    /// what led to a moved stranger still leads to its old place
    StrangerPriorSide,
    /// what comes after a moved stranger still leads back to its old place
    StrangerNextSide,
    /// full as soon as record R is live
    FullTooSoon,
    /// only the first block stored into gets its check
    OneCheckSet,
    /// KLEN is tested before AREA
    KeyBeforeArea,
    /// an add leaves the prior of the record after the new one
    NoNextSide,
    /// DELVD of a first record gives 0
    ZeroForLink,
    /// SINON follows chains without looking back
    SoundForwardOnly,
    /// an add links the named path and pretends on the others
    NamedPathOnly,
    /// two paths of a set to one master share one pair of first and last
    OneLinkage,
    /// a synonym that moves home keeps its ROOT prior
    SynonymKeepsPrior,
    /// what comes after such a synonym still leads back to its old place
    SynonymNextSide,
    /// DEL-M away from home takes a ROOT prior of 0
    DeletedPriorZero,
    /// ADD-M takes a stranger with a ROOT prior of 0
    StrangerPriorZero,
    /// every state but 0 is live
    AnyStateLive,
    /// a pointer may be R + 1
    OneAboveR,
    /// a read that meets a record of another key has already filled the area
    AreaOfRefused,
    /// of an add's area keys only the named path's is tested for blanks
    OneBlankKey,
    /// WRITV compares the named path's key only
    WritvNamedKey,
    /// a block with a false check is stored into
    CheckNotTested,
    /// a chain of R masters is called damage
    ChainOfR,
    /// READV and READR with LKxx do not mind a first without a last
    EndsNotTested,
    /// a read writes one byte too many
    BesideTheArea,
    /// DELVD with an absent master on another path answers MRNF
    AbsentIs12,
    /// RDNXT never gives record R
    SweepEndsEarly,
    /// SINON does not look at the room after record R
    NoLeftovers,
    /// ADD-M over a stranger tests its pointers before FULL
    DamageBeforeFull,
    /// one xx may lead to one master from two sets
    LettersOfTwoSets,
    /// the sum of a key's words has more than 32 bits
    SumNotWrapped,
    /// WRITM and WRITV with D 0 do not look at the check
    NoCheckForNoD,
    /// a pointer into another master's chain is followed
    OtherKeyTaken,
    /// a record that leads to itself is called damage by DELVD
    SelfPointerDamage,
    /// DELVD leaves first and last of the other paths
    OtherPathsStay,
    /// RQLOC tests the area's length
    RqlocTestsArea,
    /// DEL-M writes into the control key
    KeyWritten,
    /// the stores are made last to first, which shows where two meet
    StoresBackward,
    /// DEL-M looks at every first and at no last
    ImdlFirstsOnly,
    /// a master of another home on the way to a key is called damage
    HomeOnTheWay,
    /// WRITV ends the whole program
    BroughtDown,
}

impl Fault {
    pub fn name(self) -> String {
        format!("{self:?}")
    }

    /// The mistake that `YARUGOTA_FAULT` names, if any. Panics at a name that is
    /// not in the list.
    pub fn chosen() -> Option<Fault> {
        let name = std::env::var("YARUGOTA_FAULT").unwrap_or_default();
        let mut all = Fault::ALL.iter().copied();
        let fault = all.find(|fault| fault.name() == name);
        let known = fault.is_some() || name.is_empty();
        assert!(known, "YARUGOTA_FAULT is `{name}`, which is no mistake");
        fault
    }

    /// Whether it is done to the caller, beside the answer. Rust does not let
    /// the model do that: `rust/driver/driver.c` and `fuzz/model` do it round a
    /// store that is right.
    pub fn is_beside_the_answer(self) -> bool {
        matches!(
            self,
            Fault::BesideTheArea | Fault::KeyWritten | Fault::BroughtDown
        )
    }
}

/// For [`Fault::OneLinkage`].
pub(crate) fn share_linkages(entries: &mut [Entry]) {
    for Entry { paths, .. } in entries {
        for slot in 1..paths.len() {
            if paths[slot].master == paths[slot - 1].master {
                paths[slot].linkage = paths[slot - 1].linkage;
            }
        }
    }
}

/// For [`Fault::SumNotWrapped`].
pub(crate) fn unwrapped_home(key: &[u8], records: u32) -> u32 {
    let words = key.chunks_exact(4).map(|four| u64::from(word(four, 0)));
    1 + (words.sum::<u64>() % u64::from(records)) as u32
}

/// For [`Fault::OneAboveR`]: whether this is R + 1, and the last block has room
/// for such a record.
pub(crate) fn is_one_above(set: &Set, pointer: u32) -> bool {
    let records = set.entry.records;
    let full = (records as usize).is_multiple_of(set.place.records_per_block);
    pointer == records + 1 && !full
}
