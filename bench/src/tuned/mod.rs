//! The tuned implementation: the same files and answers as the engine, written for speed.
//!
//! Book and strip are decoded once; rows stand in arrays, a row's four numbers in one 64-bit word;
//! rows of a kind are found by an index; tests are made as soon as their variables are bound; the
//! board after a firing is made by moving the stretches of rows that stay.

pub(crate) mod answers;
mod atoms;
pub(crate) mod board;
mod book;
mod cursor;
mod index;
mod machine;
mod plain;
pub(crate) mod read_board;
pub(crate) mod read_book;
pub(crate) mod sizes;
pub(crate) mod strip;
pub mod tally;
mod translate;

use answers::*;
use board::Board;
use llwybrenu::Answer;
use machine::Attempted;
use plain::{Look, Runner};
use read_board::read_board;
use read_book::{read_book, Judge};
use sizes::*;
use strip::read_strip;

/// Judges a book.
pub fn check_book(book: &[u8]) -> Answer {
    match read_book(book, &mut Judge) {
        Ok(_) => accepted(0),
        Err(refused) => refused.of(BOOK),
    }
}

/// Judges a book, then a board of it.
pub fn check_board(book: &[u8], board: &[u8]) -> Answer {
    let kinds = match read_book(book, &mut Judge) {
        Ok(kinds) => kinds,
        Err(refused) => return refused.of(BOOK),
    };
    match read_board(&kinds, board, &mut read_board::Judge) {
        Ok(()) => accepted(0),
        Err(refused) => refused.of(BOARD),
    }
}

/// Judges a strip.
pub fn check_strip(strip: &[u8]) -> Answer {
    match read_strip(strip, |_| {}) {
        Ok(_) => accepted(0),
        Err(refused) => refused.of(STRIP_FILE),
    }
}

/// Runs a book on a board and writes the board as of the last completed firing.
pub fn run_book(book: &[u8], board: &[u8], limit: u16, out: &mut [u8]) -> Answer {
    let mut pages = book::Book::new();
    let kinds = match read_book(book, &mut pages) {
        Ok(kinds) => kinds,
        Err(refused) => return refused.of(BOOK),
    };
    let mut rows = Board::new();
    if let Err(refused) = read_board(&kinds, board, &mut rows) {
        return refused.of(BOARD);
    }
    if out.len() < LONGEST_BOARD {
        return refused(SHORT, OUTPUT, 0);
    }
    let mut runner = Runner::new(&pages, &kinds, &mut rows);
    let mut firings = 0;
    let mut rule = NO_RULE;
    let end = loop {
        if firings == limit {
            break LIMIT;
        }
        match runner.look() {
            Look::Quiet => break QUIET,
            Look::Full => break FULL,
            Look::Fired(fired) => {
                firings += 1;
                rule = fired;
            }
        }
    };
    let length = rows.write(&kinds, out);
    ended(end, firings, rule, length)
}

/// Translates a book and writes the strip.
pub fn translate(book: &[u8], out: &mut [u8]) -> Answer {
    let kinds = match read_book(book, &mut Judge) {
        Ok(kinds) => kinds,
        Err(refused) => return refused.of(BOOK),
    };
    if out.len() < LONGEST_STRIP {
        return refused(SHORT, OUTPUT, 0);
    }
    accepted(translate::translate(&kinds, book, out))
}

/// Runs a strip on a board and writes the board as of the last completed firing.
pub fn run_strip(strip: &[u8], board: &[u8], limit: u16, allowance: u64, out: &mut [u8]) -> Answer {
    run_strip_counting(strip, board, limit, allowance, out, &mut ())
}

/// The same, with a tally of the steps and of the rows that SEEK lands on.
pub fn run_strip_counting(
    strip: &[u8],
    board: &[u8],
    limit: u16,
    allowance: u64,
    out: &mut [u8],
    tally: &mut impl tally::Tally,
) -> Answer {
    let mut words = Vec::with_capacity(strip.len() / WORD_BYTES);
    let kinds = match read_strip(strip, |word| words.push(word)) {
        Ok(kinds) => kinds,
        Err(refused) => return refused.of(STRIP_FILE),
    };
    let mut rows = Board::new();
    if let Err(refused) = read_board(&kinds, board, &mut rows) {
        return refused.of(BOARD);
    }
    if out.len() < LONGEST_BOARD {
        return refused(SHORT, OUTPUT, 0);
    }
    let mut machine = machine::Machine::new(&kinds, &words, &mut rows);
    let mut firings = 0;
    let mut rule = NO_RULE;
    let end = loop {
        if firings == limit {
            break LIMIT;
        }
        match machine.attempt(allowance, tally) {
            Attempted::Fired(fired) => {
                firings += 1;
                rule = fired;
            }
            Attempted::Ended(end) => break end,
        }
    };
    let length = rows.write(&kinds, out);
    ended(end, firings, rule, length)
}
