//! The store under load, with faults put between the calls.
//!
//! A round is the life of one data base: it is formatted and then called again
//! and again. Before most calls, faults come in: the same call is first made on
//! a copy of the data base that is damaged in some places, or on one of another
//! length, or with rubbish for its schema. Then the round goes on from the data
//! base as it was.
//!
//! Each call is made on the store and on the model, [beside each
//! other](yarugota_differential::Beside). A watch ends a store that does not
//! answer, so a call without an end fails the run too.

mod faults;
mod load;
mod tally;
mod watch;

pub use faults::Kind;
pub use load::Load;
pub use tally::Tally;
