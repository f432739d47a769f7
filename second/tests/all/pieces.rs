//! Pieces of files, written here byte by byte: the tests don't lean on the program's writers.

use second::numbers::{Answer, End, Refusal};
use second::sizes::{LONGEST_BOARD, LONGEST_STRIP};

/// The byte that fills output before a call.
pub const KEPT: u8 = 0xA5;

/// A variable term.
pub fn v(variable: u16) -> Vec<u8> {
    let [low, high] = variable.to_le_bytes();
    vec![1, low, high]
}

/// A constant term.
pub fn c(value: u16) -> Vec<u8> {
    let [low, high] = value.to_le_bytes();
    vec![0, low, high]
}

/// A card kind.
pub fn card(arity: u8) -> Vec<u8> {
    vec![b'k', b'd', 0, arity]
}

/// A notice kind.
pub fn notice(arity: u8) -> Vec<u8> {
    vec![b'k', b'd', 1, arity]
}

pub fn ru() -> Vec<u8> {
    b"ru".to_vec()
}

pub fn sw() -> Vec<u8> {
    b"sw".to_vec()
}

pub fn en() -> Vec<u8> {
    b"en".to_vec()
}

pub fn ba(kind: u8, terms: &[Vec<u8>]) -> Vec<u8> {
    [b"ba".to_vec(), vec![kind], terms.concat()].concat()
}

pub fn he(kind: u8, terms: &[Vec<u8>]) -> Vec<u8> {
    [b"he".to_vec(), vec![kind], terms.concat()].concat()
}

pub fn te(test: u8, left: Vec<u8>, right: Vec<u8>) -> Vec<u8> {
    [b"te".to_vec(), vec![test], left, right].concat()
}

pub fn ca(kind: u8, numbers: &[u16]) -> Vec<u8> {
    fact(b"ca", kind, numbers)
}

pub fn no(kind: u8, numbers: &[u16]) -> Vec<u8> {
    fact(b"no", kind, numbers)
}

fn fact(mark: &[u8; 2], kind: u8, numbers: &[u16]) -> Vec<u8> {
    let mut record = mark.to_vec();
    record.push(kind);
    for number in numbers {
        record.extend(number.to_le_bytes());
    }
    record
}

/// A file of these records and `en`.
pub fn file(records: &[Vec<u8>]) -> Vec<u8> {
    [records.concat(), en()].concat()
}

/// The same record that many times.
pub fn times(number: usize, record: Vec<u8>) -> Vec<u8> {
    record.repeat(number)
}

/// A strip's word.
pub fn word(code: u8, a: u8, b: u8, c: u8, value: u16, target: u16) -> Vec<u8> {
    let [value_low, value_high] = value.to_le_bytes();
    let [target_low, target_high] = target.to_le_bytes();
    vec![
        code,
        a,
        b,
        c,
        value_low,
        value_high,
        target_low,
        target_high,
    ]
}

/// Runs a book; gives the answer and the board written.
pub fn run(book: &[u8], board: &[u8], limit: u16) -> (Answer, Vec<u8>) {
    let mut out = vec![KEPT; LONGEST_BOARD];
    let answer = second::run_book(book, board, limit, &mut out);
    (answer, written(answer, out))
}

/// Runs a strip; gives the answer and the board written.
pub fn run_strip(strip: &[u8], board: &[u8], limit: u16, allowance: u64) -> (Answer, Vec<u8>) {
    let mut out = vec![KEPT; LONGEST_BOARD];
    let answer = second::run_strip(strip, board, limit, allowance, &mut out);
    (answer, written(answer, out))
}

/// Translates an accepted book.
pub fn strip_of(book: &[u8]) -> Vec<u8> {
    let mut out = vec![KEPT; LONGEST_STRIP];
    let answer = second::translate(book, &mut out);
    assert_eq!((answer.number, answer.file, answer.place), (0, 0, 0));
    assert_eq!((answer.rule, answer.firings), (255, 0));
    written(answer, out)
}

/// The bytes written; all past them must be as they were.
pub fn written(answer: Answer, mut out: Vec<u8>) -> Vec<u8> {
    let length = answer.length as usize;
    assert!(out[length..].iter().all(|byte| *byte == KEPT));
    out.truncate(length);
    out
}

/// The answer of a run's end.
pub fn ended(end: End, firings: u16, rule: u8, board: &[u8]) -> Answer {
    Answer {
        number: end as u8,
        file: 0,
        rule,
        firings,
        place: 0,
        length: board.len() as u32,
    }
}

/// The answer of a refusal; files are 1 book, 2 strip, 3 board, 4 output.
pub fn refused(refusal: Refusal, file: u8, place: usize) -> Answer {
    Answer {
        number: refusal as u8,
        file,
        rule: 255,
        firings: 0,
        place: place as u32,
        length: 0,
    }
}

/// The answer of a check that accepts.
pub fn accepted() -> Answer {
    Answer {
        number: 0,
        file: 0,
        rule: 255,
        firings: 0,
        place: 0,
        length: 0,
    }
}

/// Asserts that book and translated strip end the same way with the same board.
pub fn ends_both(
    book: &[u8],
    board: &[u8],
    limit: u16,
    end: End,
    firings: u16,
    rule: u8,
    after: &[u8],
) {
    let expected = (ended(end, firings, rule, after), after.to_vec());
    assert_eq!(run(book, board, limit), expected, "the plain run");
    let strip = strip_of(book);
    let by_strip = run_strip(&strip, board, limit, u64::MAX);
    assert_eq!(by_strip, expected, "the strip's run");
}

/// The hat book: kinds order/2, free/1, suits/2 (notice), start/3 and its one rule.
pub fn hat_book() -> Vec<u8> {
    file(&[
        card(2),
        card(1),
        notice(2),
        card(3),
        ru(),
        ba(0, &[v(0), v(1)]),
        ba(1, &[v(2)]),
        ba(2, &[v(2), v(0)]),
        he(3, &[v(2), v(0), v(1)]),
    ])
}

/// The hat board.
pub fn hat_board() -> Vec<u8> {
    file(&[
        ca(0, &[7, 40]),
        ca(0, &[7, 40]),
        ca(1, &[1]),
        ca(1, &[2]),
        no(2, &[2, 7]),
    ])
}

/// The hat board after its one firing.
pub fn hat_board_after() -> Vec<u8> {
    file(&[
        ca(0, &[7, 40]),
        ca(1, &[1]),
        ca(3, &[2, 7, 40]),
        no(2, &[2, 7]),
    ])
}
