//! Damaged books and boards of every sort: torn, bent, swapped, doubled, loose, one over a size.

use super::boards::invent_board;
use super::books::invent_book;
use super::dice::Dice;
use crate::board::board_records;
use crate::book::{book_records, read_book, write_book, Atom, Book, Part, Term, Test};
use crate::sizes::*;

/// A book with some damage; now and then it's sound all the same.
pub fn damaged_book(dice: &mut Dice) -> Vec<u8> {
    let mut book = invent_book(dice);
    match dice.weighted(&[45, 14, 10, 16, 6, 9]) {
        0 => damage_records(dice, book_records(&book)),
        1 => {
            change_terms(dice, &mut book);
            write_book(&book)
        }
        2 => {
            change_kinds(dice, &mut book);
            write_book(&book)
        }
        3 => {
            empty_a_body(dice, &mut book);
            write_book(&book)
        }
        4 => {
            book.kinds.truncate(dice.below(book.kinds.len()));
            write_book(&book)
        }
        _ => one_over_a_size(dice, book),
    }
}

/// A board of a sound book with some damage; now and then it's sound all the same.
pub fn damaged_board(dice: &mut Dice, book: &[u8]) -> Vec<u8> {
    let book = read_book(book).expect("a sound book");
    let mut board = invent_board(dice, &book);
    if dice.chance(10) {
        for rows in [&mut board.cards, &mut board.notices] {
            let most = dice.one_of(&[CARDS, CARDS + 1, NOTICES, NOTICES + 1]);
            *rows = rows.iter().cycle().take(most).cloned().collect();
        }
        return board_records(&board).concat();
    }
    if dice.chance(10) {
        std::mem::swap(&mut board.cards, &mut board.notices);
    }
    damage_records(dice, board_records(&board))
}

/// Damage that knows records but not what they say.
pub fn damage_records(dice: &mut Dice, mut records: Vec<Vec<u8>>) -> Vec<u8> {
    let chosen = dice.below(records.len());
    match dice.weighted(&[1, 1, 1, 4, 1, 1, 1, 1, 1, 1, 1, 1]) {
        0 => return cut(dice, records.concat()),
        1 => return flip_bits(dice, records.concat()),
        2 => return trail(dice, records.concat()),
        3 => {
            let other = dice.below(records.len());
            records.swap(chosen, other);
        }
        4 => records.insert(chosen, records[chosen].clone()),
        5 => {
            records.remove(chosen);
        }
        6 => change_mark(dice, &mut records[chosen]),
        7 => {
            records[chosen].pop();
        }
        8 => {
            let times = dice.one_of(&[3, 5, 7, 33, 129, 257]);
            records[chosen] = records[chosen].repeat(times);
        }
        9 => records.truncate(chosen),
        10 => return noise(dice),
        _ => change_field(dice, &mut records[chosen]),
    }
    records.concat()
}

/// The file torn off after any byte.
pub fn cut(dice: &mut Dice, mut bytes: Vec<u8>) -> Vec<u8> {
    bytes.truncate(dice.below(bytes.len() + 1));
    bytes
}

/// One to three bits turned over.
pub fn flip_bits(dice: &mut Dice, mut bytes: Vec<u8>) -> Vec<u8> {
    if bytes.is_empty() {
        return bytes;
    }
    for _ in 0..dice.between(1, 3) {
        let at = dice.below(bytes.len());
        bytes[at] ^= 1 << dice.below(8);
    }
    bytes
}

/// Some bytes after the end.
pub fn trail(dice: &mut Dice, mut bytes: Vec<u8>) -> Vec<u8> {
    for _ in 0..dice.between(1, 9) {
        bytes.push(dice.roll() as u8);
    }
    bytes
}

/// Bytes that are no file at all, or begin like one.
fn noise(dice: &mut Dice) -> Vec<u8> {
    let begin = dice.one_of(&["", "", "kd", "ru", "ca", "no"]);
    trail(dice, begin.as_bytes().to_vec())
}

/// Another file's mark, another mark of this file, or none at all.
fn change_mark(dice: &mut Dice, record: &mut [u8]) {
    let marks = [
        b"kd", b"ru", b"ba", b"te", b"he", b"sw", b"en", b"ca", b"no", b"cf", b"KD", b"\0\0",
    ];
    let mark = dice.one_of(&marks);
    record[..2].copy_from_slice(mark);
}

/// One byte after the mark changed, if there is one.
fn change_field(dice: &mut Dice, record: &mut [u8]) {
    if record.len() > 2 {
        let at = dice.between(2, record.len() - 1);
        let any = dice.roll() as u8;
        record[at] = dice.one_of(&[0, 1, 2, 3, 4, 5, 6, 11, 12, 31, 32, 255, any]);
    }
}

/// All parts of a book: the rules' own and their sweeps.
fn parts(book: &mut Book) -> Vec<&mut Part> {
    let mut parts = Vec::new();
    for rule in &mut book.rules {
        parts.push(&mut rule.own);
        parts.extend(rule.sweeps.iter_mut());
    }
    parts
}

/// Variables of a head or test that may be bound nowhere, and variables out of range.
fn change_terms(dice: &mut Dice, book: &mut Book) {
    let mut terms: Vec<&mut Term> = Vec::new();
    for part in parts(book) {
        for Test { left, right, .. } in &mut part.tests {
            terms.extend([left, right]);
        }
        terms.extend(part.heads.iter_mut().flat_map(|atom| &mut atom.terms));
    }
    if terms.is_empty() {
        return;
    }
    for _ in 0..dice.between(1, 2) {
        let chosen = dice.below(terms.len());
        let any = dice.roll() as u16;
        let last = VARIABLES as u16;
        let variable = dice.one_of(&[0, 1, 2, 3, 4, 5, 6, 7, 8, 9, 10, 11, last, 256, any]);
        *terms[chosen] = Term::Variable(variable);
    }
}

/// An atom of another kind, which may be undeclared or of another arity.
fn change_kinds(dice: &mut Dice, book: &mut Book) {
    let kinds = book.kinds.len();
    let mut atoms: Vec<&mut Atom> = Vec::new();
    for part in parts(book) {
        atoms.extend(part.body.iter_mut().chain(&mut part.heads));
    }
    if atoms.is_empty() {
        return;
    }
    let chosen = dice.below(atoms.len());
    atoms[chosen].kind = match dice.chance(50) {
        true => dice.below(kinds) as u8,
        false => dice.one_of(&[kinds as u8, kinds as u8 + 1, 31, 32, 255]),
    };
}

/// A body without its atoms, or without its first one.
fn empty_a_body(dice: &mut Dice, book: &mut Book) {
    let mut parts = parts(book);
    if parts.is_empty() {
        return;
    }
    let chosen = dice.below(parts.len());
    let part = &mut parts[chosen];
    match dice.chance(60) {
        true => part.body.clear(),
        false => drop(part.body.remove(0)),
    }
    if dice.chance(50) {
        part.tests.clear();
        part.heads.clear();
    }
}

/// A group filled up to its size or one over it.
fn one_over_a_size(dice: &mut Dice, mut book: Book) -> Vec<u8> {
    let over = dice.below(2);
    if book.rules.is_empty() || dice.chance(15) {
        let kinds = book.kinds.iter().cycle().take(KINDS + over);
        book.kinds = kinds.cloned().collect();
        return write_book(&book);
    }
    if dice.chance(15) {
        let rules = book.rules.iter().cycle().take(RULES + over);
        book.rules = rules.cloned().collect();
        return write_book(&book);
    }
    let chosen = dice.below(book.rules.len());
    let rule = &mut book.rules[chosen];
    match rule.sweeps.last().cloned() {
        Some(sweep) if dice.chance(30) => rule.sweeps = vec![sweep; SWEEPS + over],
        Some(_) if dice.chance(50) => {
            let sweep = dice.below(rule.sweeps.len());
            let sizes = [SWEEP_BODY_ATOMS, SWEEP_TESTS, SWEEP_HEAD_ATOMS];
            fill_part(dice, &mut rule.sweeps[sweep], sizes, over);
        }
        _ => fill_part(dice, &mut rule.own, [BODY_ATOMS, TESTS, HEAD_ATOMS], over),
    }
    write_book(&book)
}

/// One group of a part filled up to its size or one over it, if it has a record to repeat.
fn fill_part(dice: &mut Dice, part: &mut Part, sizes: [usize; 3], over: usize) {
    let group = dice.below(3);
    let most = sizes[group] + over;
    match group {
        0 => part.body = part.body.iter().cycle().take(most).cloned().collect(),
        1 => part.tests = part.tests.iter().cycle().take(most).cloned().collect(),
        _ => part.heads = part.heads.iter().cycle().take(most).cloned().collect(),
    }
}
