//! The programs that are compared, each with the same six entries.

use llwybrenu::Answer;
use samples::sides::told;

type RunBook = fn(&[u8], &[u8], u16, &mut [u8]) -> Answer;
type RunStrip = fn(&[u8], &[u8], u16, u64, &mut [u8]) -> Answer;

/// A program with the six entries.
pub struct Program {
    pub name: &'static str,
    pub check_book: fn(&[u8]) -> Answer,
    pub check_board: fn(&[u8], &[u8]) -> Answer,
    pub check_strip: fn(&[u8]) -> Answer,
    pub run_book: RunBook,
    pub translate: fn(&[u8], &mut [u8]) -> Answer,
    pub run_strip: RunStrip,
}

/// The tuned implementation.
pub const TUNED: Program = Program {
    name: "tuned",
    check_book: crate::tuned::check_book,
    check_board: crate::tuned::check_board,
    check_strip: crate::tuned::check_strip,
    run_book: crate::tuned::run_book,
    translate: crate::tuned::translate,
    run_strip: crate::tuned::run_strip,
};

/// The usual implementation, with the tuned one's readers.
pub const USUAL: Program = Program {
    name: "usual",
    run_book: crate::usual::run_book,
    run_strip: crate::usual::run_strip,
    ..TUNED
};

/// The proved engine.
pub const ENGINE: Program = Program {
    name: "engine",
    check_book: llwybrenu::check_book,
    check_board: llwybrenu::check_board,
    check_strip: llwybrenu::check_strip,
    run_book: llwybrenu::run_book,
    translate: llwybrenu::translate,
    run_strip: llwybrenu::run_strip,
};

/// The second program.
pub const SECOND: Program = Program {
    name: "second",
    check_book: |book| told(second::check_book(book)),
    check_board: |book, board| told(second::check_board(book, board)),
    check_strip: |strip| told(second::check_strip(strip)),
    run_book: |book, board, limit, out| told(second::run_book(book, board, limit, out)),
    translate: |book, out| told(second::translate(book, out)),
    run_strip: |strip, board, limit, allowance, out| {
        told(second::run_strip(strip, board, limit, allowance, out))
    },
};

/// All programs; the tuned one is first.
pub const PROGRAMS: [Program; 4] = [TUNED, USUAL, ENGINE, SECOND];
