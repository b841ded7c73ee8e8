//! Runs the definitions themselves.
//!
//! The contracts of the store cite definitions, and the code is proved against
//! them. A proof cannot tell whether they say what document 01 says; running
//! them on calls with known answers can. So this package reads the definition
//! files, evaluates `outcome` on each call of a vector file and compares.
//!
//! It knows nothing of the store. Only the library functions under the
//! definitions (numbers, truth values, lists) are written in Rust here;
//! everything of document 01 comes from the files.
//!
//! From the bottom up: [`rooms`] (where the files are), [`lexer`], [`source`]
//! (a file's declarations), [`parser`], [`library`], [`program`] (definitions
//! with their names resolved), [`compiler`], [`values`], [`evaluator`],
//! [`store`] (a call and its outcome), [`vectors`] (the file of calls) and
//! [`replay`].

pub mod compiler;
pub mod evaluator;
pub mod lexer;
pub mod library;
mod natives;
pub mod parser;
pub mod program;
pub mod replay;
pub mod rooms;
pub mod source;
pub mod store;
pub mod values;
pub mod vectors;

use std::path::{Path, PathBuf};

/// The vector file of this repository.
pub fn vector_file() -> PathBuf {
    Path::new(env!("CARGO_MANIFEST_DIR")).join("../vectors/calls-3000.txt")
}
