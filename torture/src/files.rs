//! The files that are tortured: the examples, and the longest ones.

use samples::agreement::translated;
use samples::longest::*;
use std::path::Path;
use std::{fs, io};

/// A book with a board and its strip, which is empty if the book is refused.
pub struct Files {
    pub name: String,
    pub book: Vec<u8>,
    pub board: Vec<u8>,
    pub strip: Vec<u8>,
}

impl Files {
    fn new(name: &str, book: Vec<u8>, board: Vec<u8>) -> Files {
        Files {
            name: name.into(),
            strip: translated(&book).unwrap_or_default(),
            book,
            board,
        }
    }
}

/// The examples of a folder, by name.
pub fn examples(folder: &Path) -> io::Result<Vec<Files>> {
    let mut examples = Vec::new();
    for entry in fs::read_dir(folder)? {
        let path = entry?.path();
        let name = path
            .file_name()
            .unwrap_or_default()
            .to_string_lossy()
            .into_owned();
        examples.push(Files::new(
            &name,
            fs::read(path.join("book"))?,
            fs::read(path.join("board"))?,
        ));
    }
    examples.sort_by(|one, other| one.name.cmp(&other.name));
    Ok(examples)
}

/// The longest book and strip, on a board that they fire on, and the longest board.
pub fn longest() -> [Files; 2] {
    [
        Files::new("longest book", longest_book(), board_of_longest_book(4)),
        Files::new("longest board", book_of_longest_board(), longest_board()),
    ]
}
