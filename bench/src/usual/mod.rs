//! Rust as one would usually write it, no yardstick: state changed in place, rows of a kind by an index that is made for each firing, tests made as soon as their
//! variables are bound. The files are read by the tuned program's readers; only the runs are its own.

mod book;
mod rows;
mod strip;

use crate::tuned::answers::*;
use crate::tuned::board::Kinds;
use crate::tuned::read_board::read_board;
use crate::tuned::read_book::read_book;
use crate::tuned::sizes::*;
use crate::tuned::strip::read_strip;
use llwybrenu::Answer;
use rows::Rows;

/// What a look at the board gives: a firing's rule, or how the run ends.
pub enum Look {
    Fired(u8),
    Ended(u8),
}

/// Runs a book on a board and writes the board as of the last completed firing.
pub fn run_book(file: &[u8], board: &[u8], limit: u16, out: &mut [u8]) -> Answer {
    let mut book = book::Book::default();
    let kinds = match read_book(file, &mut book) {
        Ok(kinds) => kinds,
        Err(refused) => return refused.of(BOOK),
    };
    let mut scratch = book::Scratch::new();
    run(&kinds, board, limit, out, |rows| {
        book::look(&book, rows, &mut scratch)
    })
}

/// Runs a strip on a board and writes the board as of the last completed firing.
pub fn run_strip(file: &[u8], board: &[u8], limit: u16, allowance: u64, out: &mut [u8]) -> Answer {
    let mut words = Vec::with_capacity(file.len() / WORD_BYTES);
    let kinds = match read_strip(file, |word| words.push(word)) {
        Ok(kinds) => kinds,
        Err(refused) => return refused.of(STRIP_FILE),
    };
    let mut state = strip::State::new();
    run(&kinds, board, limit, out, |rows| {
        strip::look(&kinds, &words, rows, allowance, &mut state)
    })
}

/// Reads the board, looks at it until an end, and writes it.
fn run(
    kinds: &Kinds,
    board: &[u8],
    limit: u16,
    out: &mut [u8],
    mut look: impl FnMut(&mut Rows) -> Look,
) -> Answer {
    let mut rows = Rows::default();
    if let Err(refused) = read_board(kinds, board, &mut rows) {
        return refused.of(BOARD);
    }
    if out.len() < LONGEST_BOARD {
        return refused(SHORT, OUTPUT, 0);
    }
    let mut firings = 0;
    let mut rule = NO_RULE;
    let end = loop {
        if firings == limit {
            break LIMIT;
        }
        match look(&mut rows) {
            Look::Fired(fired) => {
                firings += 1;
                rule = fired;
            }
            Look::Ended(end) => break end,
        }
    };
    let length = rows.write(kinds, out);
    ended(end, firings, rule, length)
}
