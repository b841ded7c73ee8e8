//! The proved store beside the model.
//!
//! Every call is made on both, with the same schema and data base. Status,
//! reference, area and every byte of the data base are compared, and guard
//! bytes stand round every buffer of the store ([`Beside`]). The [`suites`]
//! say which calls are made; a suite and a seed always give the same calls.

mod beside;
mod case;
mod damages;
mod direct;
mod largest;
mod parameters;
mod store;
pub mod suites;
mod targets;

pub use beside::{Beside, Origin, Summary};
pub use case::Difference;
pub use direct::Direct;
pub use store::Store;
pub use targets::calls_on;
