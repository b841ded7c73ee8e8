//! The program of "Small store, worked" over the model: calls from standard
//! input, answers to standard output.

use std::io::{self, Read, Write};

fn main() -> io::Result<()> {
    let mut input = Vec::new();
    io::stdin().read_to_end(&mut input)?;
    io::stdout().write_all(&yarugota_model::console::run(&input))
}
