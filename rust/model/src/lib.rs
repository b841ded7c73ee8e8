//! A model of document 01 in plain Rust, written from the document and, where it
//! leaves room, from docs/DECISIONS.md.
//!
//! It is meant to be read beside the document: the modules follow its
//! sections and use its words. Speed comes second. The model is worth
//! something as a second opinion, so it shares nothing with the proved store.
//!
//! [`call`] is the whole interface of the store. Each call works on a data
//! base that it can only read, and gives back either a status or an answer
//! with a list of stores; one place carries the list out. So a refused call
//! cannot have changed anything.
//!
//! So that tests can be tried, the model can be told to make one mistake
//! ([`Fault`]). `Some(Fault::..)` marks the place of each; whoever reads the
//! model beside the document passes over it.

mod block;
mod bytes;
mod call;
mod chains;
pub mod console;
mod database;
mod fault;
mod home;
mod ladder;
mod layout;
mod links;
mod masters;
mod operation;
pub mod reference;
mod schema;
mod sound;
mod status;
mod stores;
mod sweep;
mod variables;

pub use block::{block_check, seal, sealed, BLOCK};
pub use call::{call, call_with, format};
pub use database::{DataBase, Record, Set};
pub use fault::Fault;
pub use home::{find, home, Search};
pub use layout::{Layout, Place, MASTER_KEY, ROOT_NEXT, ROOT_PRIOR, STATE};
pub use operation::Operation;
pub use schema::{Entry, Kind, Path, Schema};
pub use sound::sound;
pub use status::Status;
