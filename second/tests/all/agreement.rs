//! Book and translated strip agree on generated samples, also where the allowance is spent; the
//! readers and writers agree with each other.

use crate::pieces::*;
use second::board::{read_board, write_board};
use second::book::{read_book, write_book};
use second::numbers::End;
use second::samples::boards::board;
use second::samples::calls::{book_and_board, quick_limit};
use second::samples::dice::Dice;
use second::samples::strips::{bent_strip, free_strip};
use second::strip::{read_strip, write_strip};

/// The answers of a strip's run are those of its book.
#[test]
fn strip_and_book_agree() {
    for seed in 0..3_000 {
        let mut dice = Dice::new(seed);
        let (book, board) = book_and_board(&mut dice);
        let limit = quick_limit(&mut dice, &book, &board);
        let by_book = run(&book, &board, limit);
        let by_strip = run_strip(&strip_of(&book), &board, limit, u64::MAX);
        assert_eq!(by_book, by_strip, "seed {seed}");
        assert!(by_book.0.number != End::Stuck as u8, "seed {seed}");
    }
}

/// SPENT comes exactly when an attempt takes more steps than allowed, with the board of the
/// firings completed; at n - 1 steps SPENT and at n not.
#[test]
fn spent_exactly_when_an_attempt_takes_more() {
    for seed in 10_000..10_600 {
        let mut dice = Dice::new(seed);
        let (book, before) = book_and_board(&mut dice);
        let limit = quick_limit(&mut dice, &book, &before).min(6);
        let strip = strip_of(&book);
        let attempts = attempts_of(&book, &strip, &before, limit);
        for (_, steps) in &attempts {
            for allowance in [steps - 1, *steps] {
                let by_strip = run_strip(&strip, &before, limit, allowance);
                let first = attempts.iter().position(|(_, steps)| *steps > allowance);
                let expected = match first {
                    None => run(&book, &before, limit),
                    Some(firings) => {
                        let (answer, _) = run(&book, &before, firings as u16);
                        let board = attempts[firings].0.clone();
                        let rule = answer.rule;
                        (ended(End::Spent, firings as u16, rule, &board), board)
                    }
                };
                assert_eq!(by_strip, expected, "seed {seed} allowance {allowance}");
            }
        }
    }
}

/// The board before each attempt of a run and the steps the attempt takes.
fn attempts_of(book: &[u8], strip: &[u8], board: &[u8], limit: u16) -> Vec<(Vec<u8>, u64)> {
    let mut attempts = Vec::new();
    for firings in 0..limit {
        let (answer, before) = run(book, board, firings);
        if answer.firings < firings {
            break;
        }
        let steps = second::attempt_steps(strip, &before, u64::MAX).unwrap();
        attempts.push((before, steps));
    }
    attempts
}

/// A run in pieces is the run as a whole.
#[test]
fn firing_by_firing() {
    for seed in 20_000..20_300 {
        let mut dice = Dice::new(seed);
        let (book, mut board) = book_and_board(&mut dice);
        let limit = quick_limit(&mut dice, &book, &board);
        let (whole, after) = run(&book, &board, limit);
        let mut rule = 255;
        for _ in 0..whole.firings {
            let (answer, next) = run(&book, &board, 1);
            assert_eq!((answer.number, answer.firings), (21, 1), "seed {seed}");
            rule = answer.rule;
            board = next;
        }
        assert_eq!((board, rule), (after, whole.rule), "seed {seed}");
    }
}

/// What is read and written again is the same bytes: a file has one encoding.
#[test]
fn reading_and_writing_agree() {
    for seed in 30_000..30_500 {
        let mut dice = Dice::new(seed);
        let (book_bytes, board_bytes) = book_and_board(&mut dice);
        let book = read_book(&book_bytes).unwrap();
        assert_eq!(write_book(&book), book_bytes);
        let board = read_board(&book.kinds, &board_bytes).unwrap();
        assert_eq!(write_board(&board), board_bytes);
        for strip_bytes in [
            strip_of(&book_bytes),
            bent_strip(&mut dice, &book_bytes),
            free_strip(&mut dice),
        ] {
            let strip = read_strip(&strip_bytes).unwrap();
            assert_eq!(write_strip(&strip.words), strip_bytes);
        }
    }
}

/// The board that a run writes is accepted, and quiet where the end was QUIET.
#[test]
fn written_boards_are_accepted() {
    for seed in 40_000..40_500 {
        let mut dice = Dice::new(seed);
        let (book, before) = book_and_board(&mut dice);
        let limit = quick_limit(&mut dice, &book, &before);
        let (answer, after) = run(&book, &before, limit);
        assert_eq!(second::check_board(&book, &after), accepted());
        if answer.number == End::Quiet as u8 {
            let quiet = (ended(End::Quiet, 0, 255, &after), after.clone());
            assert_eq!(run(&book, &after, 7), quiet);
        }
    }
}

/// Full boards occur: 256 cards and 128 notices.
#[test]
fn full_boards_occur() {
    let (mut full_of_cards, mut full_of_notices) = (0, 0);
    for seed in 50_000..50_500 {
        let mut dice = Dice::new(seed);
        let (book_bytes, _) = book_and_board(&mut dice);
        let book = read_book(&book_bytes).unwrap();
        let board = read_board(&book.kinds, &board(&mut dice, &book_bytes)).unwrap();
        full_of_cards += usize::from(board.cards.len() == 256);
        full_of_notices += usize::from(board.notices.len() == 128);
    }
    assert!(full_of_cards > 10 && full_of_notices > 10);
}
