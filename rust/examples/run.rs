//! Runs a book on a board and shows the end and the rows after it, or the refusal:
//! `cargo run --example run -- ../examples/hat/book ../examples/hat/board`
//! With an allowance as a third word the book is translated first, and its strip is run.

use llwybrenu::{Answer, LONGEST_BOARD, LONGEST_STRIP};

/// The firing limit of the display.
const LIMIT: u16 = 100;

fn main() {
    let words: Vec<String> = std::env::args().skip(1).collect();
    let (book, board, allowance) = match words.as_slice() {
        [book, board] => (book, board, None),
        [book, board, allowance] => (
            book,
            board,
            Some(allowance.parse().expect("the allowance is a number")),
        ),
        _ => {
            eprintln!("usage: run BOOK BOARD [ALLOWANCE]");
            std::process::exit(2);
        }
    };
    // a missing file is empty
    let book = std::fs::read(book).unwrap_or_default();
    let board = std::fs::read(board).unwrap_or_default();
    let mut out = [0; LONGEST_BOARD];
    let answer = match allowance {
        None => llwybrenu::run_book(&book, &board, LIMIT, &mut out),
        Some(allowance) => run_as_strip(&book, &board, allowance, &mut out),
    };
    if answer.is_refusal() {
        println!(
            "refused {} {} {}",
            answer.file_name(),
            answer.number,
            answer.place
        );
        std::process::exit(1);
    }
    println!(
        "fired {} end {} rule {}",
        answer.firings, answer.number, answer.rule
    );
    show_rows(&book, &out[..answer.length as usize]);
}

/// Translates the book and runs its strip; a bad book is refused by the translation.
fn run_as_strip(book: &[u8], board: &[u8], allowance: u64, out: &mut [u8]) -> Answer {
    let mut strip = vec![0; LONGEST_STRIP];
    let translated = llwybrenu::translate(book, &mut strip);
    if translated.is_refusal() {
        return translated;
    }
    strip.truncate(translated.length as usize);
    llwybrenu::run_strip(&strip, board, LIMIT, allowance, out)
}

/// Prints a line for each row of a board that the engine wrote. Kinds stand first in a book, four bytes each, the arity last.
fn show_rows(book: &[u8], mut rest: &[u8]) {
    while rest[..2] != *b"en" {
        let kind = usize::from(rest[2]);
        let end = 3 + 2 * usize::from(book[4 * kind + 3]);
        print!(
            "{} {kind}",
            if rest[..2] == *b"ca" {
                "card"
            } else {
                "notice"
            }
        );
        for number in rest[3..end].chunks(2) {
            print!(" {}", u16::from_le_bytes([number[0], number[1]]));
        }
        println!();
        rest = &rest[end..];
    }
}
