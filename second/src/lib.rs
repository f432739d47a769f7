//! The second program of the Llwybrenu rule engine: a plain reading of document 01, written apart
//! from the proved engine, so that the two can be compared. It has the engine's six entries.

pub mod board;
pub mod book;
pub mod display;
pub mod machine;
pub mod numbers;
mod records;
pub mod run;
pub mod samples;
pub mod sizes;
pub mod strip;
pub mod translate;

use board::{read_board, write_board};
use book::read_book;
use machine::Attempted;
use numbers::{Answer, End, File, Refusal, Refused};
use run::Ended;
use sizes::{LONGEST_BOARD, LONGEST_STRIP};
use strip::{read_strip, write_strip};

/// Judges a book.
pub fn check_book(book: &[u8]) -> Answer {
    answer(read_book(book).map(|_| Answer::accepted()))
}

/// Judges a book, then a board of it.
pub fn check_board(book: &[u8], board: &[u8]) -> Answer {
    let judged = read_book(book).and_then(|book| read_board(&book.kinds, board));
    answer(judged.map(|_| Answer::accepted()))
}

/// Judges a strip.
pub fn check_strip(strip: &[u8]) -> Answer {
    answer(read_strip(strip).map(|_| Answer::accepted()))
}

/// Runs a book on a board and writes the board as of the last completed firing.
pub fn run_book(book: &[u8], board: &[u8], limit: u16, out: &mut [u8]) -> Answer {
    answer((|| {
        let book = read_book(book)?;
        let board = read_board(&book.kinds, board)?;
        judge_room(out, LONGEST_BOARD)?;
        Ok(write_end(run::run(&book, &board, limit), out))
    })())
}

/// Translates a book and writes the strip.
pub fn translate(book: &[u8], out: &mut [u8]) -> Answer {
    answer((|| {
        let book = read_book(book)?;
        judge_room(out, LONGEST_STRIP)?;
        let strip = write_strip(&translate::translate(&book));
        out[..strip.len()].copy_from_slice(&strip);
        Ok(Answer::translated(strip.len()))
    })())
}

/// Runs a strip on a board and writes the board as of the last completed firing.
pub fn run_strip(strip: &[u8], board: &[u8], limit: u16, allowance: u64, out: &mut [u8]) -> Answer {
    answer((|| {
        let strip = read_strip(strip)?;
        let board = read_board(&strip.kinds, board)?;
        judge_room(out, LONGEST_BOARD)?;
        Ok(write_end(
            machine::run(&strip, &board, limit, allowance),
            out,
        ))
    })())
}

/// How many steps the first attempt of a strip on a board takes; none if a file is refused or the
/// attempt doesn't end within the most steps given.
pub fn attempt_steps(strip: &[u8], board: &[u8], most: u64) -> Option<u64> {
    let strip = read_strip(strip).ok()?;
    let board = read_board(&strip.kinds, board).ok()?;
    match machine::attempt(&strip, &board, most) {
        (Attempted::Ended(End::Spent), _) => None,
        (_, steps) => Some(steps),
    }
}

/// SHORT: an output smaller than the longest file that may be written there.
fn judge_room(out: &[u8], longest: usize) -> Result<(), Refused> {
    if out.len() < longest {
        return Err(Refused {
            refusal: Refusal::Short,
            file: File::Output,
            place: 0,
        });
    }
    Ok(())
}

/// Writes the board of a run's end, keeps the bytes past it, and gives the answer.
fn write_end(ended: Ended, out: &mut [u8]) -> Answer {
    let board = write_board(&ended.board);
    out[..board.len()].copy_from_slice(&board);
    Answer::ended(ended.end, ended.firings, ended.rule, board.len())
}

/// The answer of an entry: its own, or that of the refusal met first.
fn answer(result: Result<Answer, Refused>) -> Answer {
    result.unwrap_or_else(Answer::refused)
}
