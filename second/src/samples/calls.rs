//! Whole calls of the six entries, with files, limit, allowance and room for the output.

use super::boards::{board, board_of_kinds};
use super::books::book;
use super::damage::{damaged_board, damaged_book};
use super::dice::Dice;
use super::strips::{bent_strip, faulty_strip, free_strip, translated_strip};
use crate::numbers::{Answer, End};
use crate::sizes::*;
use crate::strip::read_strip;

/// The steps that one attempt of a sound sample takes at most, so that comparing stays quick.
pub const MOST_STEPS: u64 = 20_000;

/// Which entry is called.
#[derive(Clone, Copy, Debug, PartialEq, Eq)]
pub enum Entry {
    CheckBook,
    CheckBoard,
    CheckStrip,
    RunBook,
    Translate,
    RunStrip,
}

/// A call: the book or strip, the board and the rest; an entry leaves aside what it doesn't take.
#[derive(Clone, Debug, PartialEq, Eq)]
pub struct Call {
    pub entry: Entry,
    /// The book; for the strip's entries the strip.
    pub source: Vec<u8>,
    pub board: Vec<u8>,
    pub limit: u16,
    pub allowance: u64,
    /// The bytes of the output lent.
    pub room: usize,
}

impl Call {
    /// Makes the call on this program with output of the call's room.
    pub fn answer(&self, out: &mut [u8]) -> Answer {
        match self.entry {
            Entry::CheckBook => crate::check_book(&self.source),
            Entry::CheckBoard => crate::check_board(&self.source, &self.board),
            Entry::CheckStrip => crate::check_strip(&self.source),
            Entry::RunBook => crate::run_book(&self.source, &self.board, self.limit, out),
            Entry::Translate => crate::translate(&self.source, out),
            Entry::RunStrip => {
                crate::run_strip(&self.source, &self.board, self.limit, self.allowance, out)
            }
        }
    }
}

/// The call of a seed: sound ones and damaged ones of every sort.
pub fn call(seed: u64) -> Call {
    let mut dice = Dice::new(seed);
    let dice = &mut dice;
    let mut call = match dice.weighted(&[28, 20, 14, 12, 12, 8, 6]) {
        0 => sound_call(dice, Entry::RunBook),
        1 => sound_call(dice, Entry::RunStrip),
        2 => free_call(dice),
        3 => bent_call(dice),
        4 => bad_book_call(dice),
        5 => bad_board_call(dice),
        _ => bad_strip_call(dice),
    };
    if dice.chance(3) {
        call.room = dice.one_of(&[0, LONGEST_BOARD - 1, LONGEST_STRIP - 1]);
    }
    call
}

/// A sound book and a sound board of it.
pub fn book_and_board(dice: &mut Dice) -> (Vec<u8>, Vec<u8>) {
    let book = book(dice);
    let board = board(dice, &book);
    (book, board)
}

/// A limit under which no attempt of a sound book's run takes more than the most steps; the board
/// may be any file.
pub fn quick_limit(dice: &mut Dice, book: &[u8], board: &[u8]) -> u16 {
    let limit = match dice.weighted(&[3, 20, 77]) {
        0 => 0,
        1 => 1,
        _ => dice.between(2, 40) as u16,
    };
    let mut out = vec![0; LONGEST_BOARD];
    let strip = translated_strip(book);
    let answer = crate::run_strip(&strip, board, limit, MOST_STEPS, &mut out);
    match answer.number == End::Spent as u8 {
        true => answer.firings,
        false => limit,
    }
}

/// A sound book with its board, run as a book or as a strip, or else only checked.
fn sound_call(dice: &mut Dice, entry: Entry) -> Call {
    let (book, board) = book_and_board(dice);
    let limit = quick_limit(dice, &book, &board);
    let (mut entry, mut source) = (entry, book);
    if entry == Entry::RunStrip {
        source = translated_strip(&source);
        entry = match dice.chance(5) {
            true => Entry::CheckStrip,
            false => entry,
        };
    } else if dice.chance(15) {
        entry = dice.one_of(&[Entry::CheckBook, Entry::CheckBoard, Entry::Translate]);
    }
    let allowance = match dice.weighted(&[50, 15, 15, 20]) {
        0 => dice.one_of(&[MOST_STEPS, u64::MAX]),
        1 => dice.below(40) as u64,
        2 => dice.below(400) as u64,
        _ => just_enough(&source, &board) - dice.below(2) as u64,
    };
    with_room(entry, source, board, limit, allowance)
}

/// The steps of a strip's first attempt; of another file, or of a long attempt, the most steps.
fn just_enough(strip: &[u8], board: &[u8]) -> u64 {
    crate::attempt_steps(strip, board, MOST_STEPS).unwrap_or(MOST_STEPS)
}

/// A free strip on a board of its kinds, under an allowance that ends loops soon.
pub fn free_call(dice: &mut Dice) -> Call {
    let strip = free_strip(dice);
    let kinds = read_strip(&strip).expect("a sound strip").kinds;
    let board = board_of_kinds(dice, &kinds);
    let allowance = dice.one_of(&[0, 5, 100, 2_000, 2_000, 2_000]);
    let limit = dice.below(30) as u16;
    with_room(Entry::RunStrip, strip, board, limit, allowance)
}

/// A bent strip on a board of its book.
fn bent_call(dice: &mut Dice) -> Call {
    let (book, board) = book_and_board(dice);
    let strip = bent_strip(dice, &book);
    let limit = dice.below(30) as u16;
    with_room(Entry::RunStrip, strip, board, limit, 2_000)
}

/// A damaged book with any board; if it's sound all the same, with a board of its own.
fn bad_book_call(dice: &mut Dice) -> Call {
    let book = damaged_book(dice);
    let (board, limit) = match crate::check_book(&book).number {
        0 => {
            let board = board(dice, &book);
            let limit = quick_limit(dice, &book, &board);
            (board, limit)
        }
        _ => (book_and_board(dice).1, 5),
    };
    let entries = [
        Entry::CheckBook,
        Entry::CheckBoard,
        Entry::RunBook,
        Entry::Translate,
    ];
    let entry = dice.one_of(&entries);
    with_room(entry, book, board, limit, 0)
}

/// A damaged board of a sound book or of its strip.
fn bad_board_call(dice: &mut Dice) -> Call {
    let book = book(dice);
    let board = damaged_board(dice, &book);
    let strip = translated_strip(&book);
    let limit = quick_limit(dice, &book, &board);
    match dice.below(3) {
        0 => with_room(Entry::CheckBoard, book, board, 0, 0),
        1 => with_room(Entry::RunBook, book, board, limit, 0),
        _ => with_room(Entry::RunStrip, strip, board, 5, 2_000),
    }
}

/// A faulty strip.
fn bad_strip_call(dice: &mut Dice) -> Call {
    let strip = faulty_strip(dice);
    let entry = dice.one_of(&[Entry::CheckStrip, Entry::RunStrip]);
    with_room(entry, strip, b"en".to_vec(), 5, 2_000)
}

/// The call with as much room as its entry asks for.
fn with_room(entry: Entry, source: Vec<u8>, board: Vec<u8>, limit: u16, allowance: u64) -> Call {
    let room = match entry {
        Entry::Translate => LONGEST_STRIP,
        _ => LONGEST_BOARD,
    };
    Call {
        entry,
        source,
        board,
        limit,
        allowance,
        room,
    }
}
