//! What tests of a store share, whichever store it is: a random generator,
//! makers of schemas, calls and damage, the vectors, and plain lists that say
//! what a sound store should answer.
//!
//! The makers only need a schema and a data base. A store is anything with the
//! signature of [`model`].

mod call;
pub mod calls;
pub mod damage;
mod fixture;
pub mod lists;
pub mod random;
pub mod rules;
pub mod runs;
pub mod schemas;
pub mod stock;
pub mod vectors;

pub use call::{make, model, model_with, Answered, Call};
pub use fixture::Fixture;
pub use random::{Random, Trace};
