//! The proved store from Rust.
//!
//! A data base is a buffer of bytes, and so is its schema; whoever calls owns
//! both. [`call`] is the whole interface: one operation on one data base. It
//! takes buffers of any length and contents, and refuses what is bad by its
//! [`Status`]. [`Schema`] helps to write a schema.
//!
//! ```
//! use yarugota::{call, Call, Operation, PathName, Reference, Schema, SetName, Status, BLOCK};
//!
//! // The small store of document 01: bottles, and points along one path.
//! let bottles = SetName(*b"BOTL");
//! let points = SetName(*b"PNTS");
//! let path = PathName(*b"BOTLLKPT");
//! let sets = Schema::new().master(bottles, 4, 4, 5).variable(points, 4, 6, &[path]);
//! let schema = sets.block();
//! let mut base = vec![0; BLOCK * sets.blocks()];
//!
//! call(&Call::new(Operation::Formt), &mut [], &schema, &mut base).done()?;
//!
//! let bottle = Call { set: bottles, key: b"B001", ..Call::new(Operation::AddM) };
//! call(&bottle, &mut b"B001NECK".to_owned(), &schema, &mut base).done()?;
//!
//! let point = Call { set: points, path, key: b"B001", ..Call::new(Operation::Addvc) };
//! let added = call(&point, &mut b"B001p001".to_owned(), &schema, &mut base).done()?;
//! assert_eq!(added, Reference::number(1));
//!
//! // From the first point on.
//! let mut area = [0; 8];
//! let first = Call { operation: Operation::Readv, reference: path.link(), ..point };
//! let read = call(&first, &mut area, &schema, &mut base).done()?;
//! assert_eq!((read, &area), (Reference::number(1), b"B001p001"));
//! let next = Call { reference: read, ..first };
//! assert_eq!(call(&next, &mut area, &schema, &mut base).done(), Ok(Reference::END));
//!
//! // A bottle with points stays.
//! let gone = Call { operation: Operation::DelM, ..bottle };
//! assert_eq!(call(&gone, &mut [], &schema, &mut base).done(), Err(Status::Imdl));
//! # Ok::<(), Status>(())
//! ```
//!
//! The proved library is for x86-64, and is linked in. The repository's
//! `tools/archives` must have built it; where it has not, the first call panics
//! and says so.

mod names;
mod operation;
mod raw;
mod reference;
mod schema;
mod status;

pub use names::{PathName, SetName};
pub use operation::Operation;
pub use raw::LINKED;
pub use reference::Reference;
pub use schema::Schema;
pub use status::Status;

/// Bytes of a block. The schema is one block, a data base as many as
/// [`Schema::blocks`] tells.
pub const BLOCK: usize = 512;

/// What a call is given, apart from its buffers. A parameter that the
/// operation does not use may hold anything.
#[derive(Clone, Copy, Debug, PartialEq, Eq)]
pub struct Call<'a> {
    pub operation: Operation,
    pub set: SetName,
    pub reference: Reference,
    pub path: PathName,
    /// The control key. It cannot lie in the area of [`call`], which is borrowed
    /// to be written.
    pub key: &'a [u8],
}

impl Call<'_> {
    /// A call with blank names, reference 0 and no key.
    pub fn new(operation: Operation) -> Self {
        Call {
            operation,
            set: SetName::BLANK,
            reference: Reference::number(0),
            path: PathName::BLANK,
            key: &[],
        }
    }
}

/// What a call came to.
#[derive(Clone, Copy, Debug, PartialEq, Eq)]
#[must_use = "the call may have been refused"]
pub struct Answer {
    pub status: Status,
    /// Of a refused call, the reference that was given.
    pub reference: Reference,
}

impl Answer {
    /// The reference of a call that is done, or the status of a refused one;
    /// so an `Err` is never [`Status::Done`].
    pub fn done(self) -> Result<Reference, Status> {
        match self.status {
            Status::Done => Ok(self.reference),
            refused => Err(refused),
        }
    }
}

/// Makes one call. A refused call leaves area and data base as they were; a
/// read that gives a record replaces the whole area, and nothing else changes
/// it.
pub fn call(call: &Call, area: &mut [u8], schema: &[u8], base: &mut [u8]) -> Answer {
    let operation = call.operation.name();
    let (set, path) = (&call.set.0, &call.path.0);
    let reference = call.reference.bits();
    let answer = raw::call(
        operation, set, reference, path, call.key, area, schema, base,
    );
    let status = (answer >> 32) as u32;
    Answer {
        status: Status::numbered(status).expect("a status of the table"),
        reference: Reference::from_bits(answer as u32),
    }
}
