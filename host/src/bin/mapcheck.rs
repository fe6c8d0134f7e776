//! The Rust program that does what the verified program mapcheck does: a map file
//! on standard input, the report or the refusal on standard output.

use host::reference::{printed, MAX_TEXT};
use std::io::{stdin, stdout, Read, Write};

fn main() -> std::io::Result<()> {
    let mut text = Vec::new();
    // One byte more than a text may have tells that it is too long.
    stdin().lock().take(MAX_TEXT as u64 + 1).read_to_end(&mut text)?;
    stdout().lock().write_all(&printed(&text))
}
