//! The display program's text for a book and a board.

use crate::board::{read_board, Fact};
use crate::book::read_book;
use crate::numbers::Refused;
use crate::run::{run, Ended};
use crate::sizes::DISPLAY_LIMIT;

/// What the display program prints: the run's end and each row, or the one line of a refusal.
pub fn display(book: &[u8], board: &[u8]) -> String {
    match run_for_display(book, board) {
        Ok(ended) => show_end(&ended),
        Err(refused) => format!(
            "refused {} {} {}\n",
            refused.file.name(),
            refused.refusal as u8,
            refused.place
        ),
    }
}

/// The run that is shown, or the first refusal.
fn run_for_display(book: &[u8], board: &[u8]) -> Result<Ended, Refused> {
    let book = read_book(book)?;
    let board = read_board(&book.kinds, board)?;
    Ok(run(&book, &board, DISPLAY_LIMIT))
}

/// The line of the end, then a line for each row.
fn show_end(ended: &Ended) -> String {
    let end = ended.end as u8;
    let mut text = format!("fired {} end {} rule {}\n", ended.firings, end, ended.rule);
    for card in &ended.board.cards {
        text += &show_row("card", card);
    }
    for notice in &ended.board.notices {
        text += &show_row("notice", notice);
    }
    text
}

/// A row's class, kind and numbers with single spaces between them.
fn show_row(class: &str, fact: &Fact) -> String {
    let mut line = format!("{class} {}", fact.kind);
    for number in &fact.numbers {
        line += &format!(" {number}");
    }
    line + "\n"
}
