//! The calls that torture the engine: cuts, changed bytes, noise, outputs of every length about the needed one.

use crate::files::Files;
use llwybrenu::{LONGEST_BOARD, LONGEST_STRIP};
use samples::calls::{calls_of, ENTRIES};
use second::samples::calls::{Call, Entry};
use second::samples::dice::Dice;
use std::ops::RangeInclusive;

/// Enough for each example, and little enough for a file that a change has sent round in circles.
const LIMIT: u16 = 20;
const ALLOWANCE: u64 = 5_000;

/// The entries that a book, a board or a strip goes through.
const OF_BOOK: [Entry; 4] = [
    Entry::CheckBook,
    Entry::CheckBoard,
    Entry::Translate,
    Entry::RunBook,
];
const OF_BOARD: [Entry; 2] = [Entry::CheckBoard, Entry::RunBook];
const OF_STRIP: [Entry; 2] = [Entry::CheckStrip, Entry::RunStrip];

/// The bytes of output that an entry asks for.
fn least_room(entry: Entry) -> usize {
    match entry {
        Entry::Translate => LONGEST_STRIP,
        _ => LONGEST_BOARD,
    }
}

fn call(entry: Entry, source: &[u8], board: &[u8]) -> Call {
    let (source, board) = (source.to_vec(), board.to_vec());
    Call {
        entry,
        source,
        board,
        limit: LIMIT,
        allowance: ALLOWANCE,
        room: least_room(entry),
    }
}

/// The calls of files of which the book, the board or the strip is another.
fn with_book<'a>(files: &'a Files, book: Vec<u8>) -> impl Iterator<Item = Call> + 'a {
    OF_BOOK
        .into_iter()
        .map(move |entry| call(entry, &book, &files.board))
}

fn with_board<'a>(files: &'a Files, board: Vec<u8>) -> impl Iterator<Item = Call> + 'a {
    let by_strip = call(Entry::RunStrip, &files.strip, &board);
    OF_BOARD
        .into_iter()
        .map(move |entry| call(entry, &files.book, &board))
        .chain([by_strip])
}

fn with_strip<'a>(files: &'a Files, strip: Vec<u8>) -> impl Iterator<Item = Call> + 'a {
    OF_STRIP
        .into_iter()
        .map(move |entry| call(entry, &strip, &files.board))
}

/// All six entries on the files as they are.
pub fn whole(files: &Files) -> impl Iterator<Item = Call> + '_ {
    with_book(files, files.book.clone()).chain(with_strip(files, files.strip.clone()))
}

/// Every cut of each file: from no byte to all.
pub fn cuts(files: &Files) -> impl Iterator<Item = Call> + '_ {
    let cuts = |file: &Vec<u8>| 0..=file.len();
    let books = cuts(&files.book).flat_map(|cut| with_book(files, files.book[..cut].to_vec()));
    let boards = cuts(&files.board).flat_map(|cut| with_board(files, files.board[..cut].to_vec()));
    let strips = cuts(&files.strip).flat_map(|cut| with_strip(files, files.strip[..cut].to_vec()));
    books.chain(boards).chain(strips)
}

/// Every cut of each file, through its check alone: for files so long that a run of each cut takes minutes.
pub fn checked_cuts(files: &Files) -> impl Iterator<Item = Call> + '_ {
    let books = (0..=files.book.len()).map(|cut| call(Entry::CheckBook, &files.book[..cut], &[]));
    let boards = (0..=files.board.len())
        .map(|cut| call(Entry::CheckBoard, &files.book, &files.board[..cut]));
    let strips =
        (0..=files.strip.len()).map(|cut| call(Entry::CheckStrip, &files.strip[..cut], &[]));
    books.chain(boards).chain(strips)
}

/// Every single byte of each file changed, into each other byte.
pub fn changes(files: &Files) -> impl Iterator<Item = Call> + '_ {
    let books = changed(&files.book).flat_map(|book| with_book(files, book));
    let boards = changed(&files.board).flat_map(|board| with_board(files, board));
    let strips = changed(&files.strip).flat_map(|strip| with_strip(files, strip));
    books.chain(boards).chain(strips)
}

fn changed(file: &[u8]) -> impl Iterator<Item = Vec<u8>> + '_ {
    (0..file.len()).flat_map(move |at| {
        (1..=255).map(move |by| {
            let mut other = file.to_vec();
            other[at] ^= by;
            other
        })
    })
}

/// Outputs of every length about the least one, and of hardly any.
pub fn lengths(files: &Files) -> impl Iterator<Item = Call> + '_ {
    let about = |least: usize| -> RangeInclusive<usize> { least - 40..=least + 40 };
    let writing = [Entry::Translate, Entry::RunBook, Entry::RunStrip];
    writing.into_iter().flat_map(move |entry| {
        let source = if entry == Entry::RunStrip {
            &files.strip
        } else {
            &files.book
        };
        (0..40)
            .chain(about(least_room(entry)))
            .map(move |room| Call {
                room,
                ..call(entry, source, &files.board)
            })
    })
}

/// Noise of a seed through all six entries: any bytes, records in any order, words in any order.
pub fn noise(seed: u64) -> impl Iterator<Item = Call> {
    let mut dice = Dice::new(seed);
    let [source, board] = [(); 2].map(|_| match seed % 3 {
        0 => any_bytes(&mut dice),
        1 => any_records(&mut dice),
        _ => any_words(&mut dice),
    });
    ENTRIES
        .into_iter()
        .map(move |entry| call(entry, &source, &board))
}

/// Seldom longer than any file may be.
fn any_bytes(dice: &mut Dice) -> Vec<u8> {
    let length = dice.weighted(&[90, 9, 1]);
    let length = dice.below([300, 5_000, LONGEST_STRIP + 1_000][length]);
    (0..length).map(|_| dice.roll() as u8).collect()
}

fn any_records(dice: &mut Dice) -> Vec<u8> {
    let marks = [
        b"kd", b"kd", b"ru", b"ba", b"ba", b"te", b"he", b"sw", b"en", b"ca", b"no",
    ];
    let mut file = Vec::new();
    for _ in 0..dice.below(60) {
        file.extend(dice.one_of(&marks));
        (0..dice.below(14)).for_each(|_| file.push(dice.below(5) as u8));
    }
    file
}

fn any_words(dice: &mut Dice) -> Vec<u8> {
    let kinds = dice.below(5);
    let mut strip = [0, 0, 2, 0, 0, 0, 0, 0].repeat(kinds);
    for _ in 0..dice.below(60) {
        strip.push(dice.below(14) as u8);
        (0..7).for_each(|_| {
            strip.push(if dice.chance(70) {
                0
            } else {
                dice.below(15) as u8
            })
        });
    }
    strip
}

/// The samples of a seed.
pub fn samples(seed: u64) -> impl Iterator<Item = Call> {
    calls_of(seed).into_iter()
}
