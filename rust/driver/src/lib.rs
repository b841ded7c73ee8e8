//! Calls the store in a process of its own.
//!
//! A program in C (`driver.c`) is linked with the proved library and served
//! through pipes. It hands every buffer over between guard bytes and tells what
//! a call changed.
//!
//! Many calls go over in one [`Batch`].

mod batch;
mod process;

pub use batch::{Answer, Batch, Change};
pub use process::{Driver, Ender, Failure};
