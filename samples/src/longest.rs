//! The longest book and board, and files to run them with.

use crate::writing::Term::{C, V};
use crate::writing::{Board, Book};

/// Kinds and rules of the longest book.
const KINDS: u8 = 32;

/// The longest book: 32 kinds with 4 numbers, 32 rules of the largest size. Rule r has atoms of the
/// kinds from r on; its heads make again what its body uses.
pub fn longest_book() -> Vec<u8> {
    let mut book = Book::default();
    for _ in 0..KINDS {
        book.card(4);
    }
    for rule in 0..KINDS {
        book.rule();
        group(&mut book, rule, 6);
        for _ in 0..2 {
            book.sweep();
            group(&mut book, rule, 4);
        }
    }
    book.finish()
}

/// As many body atoms, tests and heads.
fn group(book: &mut Book, rule: u8, size: u8) {
    let kind = |i| (rule + i) % KINDS;
    let terms = |i: u8| [0, 3, 6, 9].map(|first| V(first + u16::from(i % 3)));
    (0..size).for_each(|i| book.body(kind(i), &terms(i)));
    (0..size).for_each(|i| book.test(i % 4, V(u16::from(i % 3)), C(1_000 + u16::from(i))));
    (0..size).for_each(|i| book.head(kind(i), &terms(i)));
}

/// A board on which the longest book's last rule fires without end, its sweeps each time taking so many
/// choices.
pub fn board_of_longest_book(choices: usize) -> Vec<u8> {
    let mut board = Board::default();
    let mut put = |i: u8| {
        let third = i % 3;
        // of v0, v1 and v2, values that pass the tests; of the others any
        let first = [1_000, 1_004, 5][usize::from(third)];
        let [b, c, d] = [3, 6, 9].map(|variable| variable + u16::from(third));
        board.card((KINDS - 1 + i) % KINDS, &[first, b, c, d]);
    };
    (0..6).for_each(&mut put);
    for _ in 0..choices {
        (0..4).for_each(&mut put);
    }
    board.finish()
}

/// A book of two kinds with 4 numbers, cards and notices, and no rule.
pub fn book_of_longest_board() -> Vec<u8> {
    let mut book = Book::default();
    book.card(4);
    book.notice(4);
    book.finish()
}

/// The longest board: 256 cards and 128 notices with 4 numbers.
pub fn longest_board() -> Vec<u8> {
    let mut board = Board::default();
    (0..256).for_each(|i| board.card(0, &[i, 2 * i, 3 * i, 4 * i]));
    (0..128).for_each(|i| board.notice(1, &[i, 2 * i, 3 * i, 4 * i]));
    board.finish()
}
