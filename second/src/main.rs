//! The display program: prints the run of the files `book` and `board` of the folder it is run in.

use std::fs;
use std::io::{self, ErrorKind, Write};

/// A file's bytes; a missing one is empty.
fn read_file(name: &str) -> io::Result<Vec<u8>> {
    match fs::read(name) {
        Err(error) if error.kind() == ErrorKind::NotFound => Ok(Vec::new()),
        other => other,
    }
}

/// Reads the two files and prints the text.
fn main() -> io::Result<()> {
    let book = read_file("book")?;
    let board = read_file("board")?;
    let text = second::display::display(&book, &board);
    io::stdout().write_all(text.as_bytes())
}
