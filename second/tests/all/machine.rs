//! The strip machine word by word, on strips that no translation makes.

use crate::pieces::*;
use second::numbers::End;

/// Kinds 0 card/1, 1 notice/2, 2 card/0; word 3 is the first executed.
fn strip(words: &[Vec<u8>]) -> Vec<u8> {
    let kinds = [
        word(0, 0, 1, 0, 0, 0),
        word(0, 1, 2, 0, 0, 0),
        word(0, 0, 0, 0, 0, 0),
    ];
    [kinds.concat(), words.concat()].concat()
}

fn board() -> Vec<u8> {
    file(&[
        ca(0, &[10]),
        ca(2, &[]),
        ca(0, &[11]),
        ca(0, &[12]),
        no(1, &[20, 21]),
        no(1, &[22, 23]),
        no(1, &[24, 25]),
    ])
}

fn open(cursor: u8) -> Vec<u8> {
    word(1, cursor, 0, 0, 0, 0)
}

fn seek(cursor: u8, kind: u8, target: u16) -> Vec<u8> {
    word(2, cursor, kind, 0, 0, target)
}

fn bind(cursor: u8, argument: u8, register: u8) -> Vec<u8> {
    word(3, cursor, argument, register, 0, 0)
}

fn keep() -> Vec<u8> {
    word(7, 0, 0, 0, 0, 0)
}

fn put(kind: u8) -> Vec<u8> {
    word(8, kind, 0, 0, 0, 0)
}

fn arg(position: u8, register: u16) -> Vec<u8> {
    word(9, position, 1, 0, register, 0)
}

fn jump(target: u16) -> Vec<u8> {
    word(10, 0, 0, 0, 0, target)
}

fn fire(rule: u8) -> Vec<u8> {
    word(11, rule, 0, 0, 0, 0)
}

fn quiet() -> Vec<u8> {
    word(12, 0, 0, 0, 0, 0)
}

/// Asserts one firing of rule 5 that leaves the board with these records.
fn fires(words: &[Vec<u8>], after: &[Vec<u8>]) {
    let after = file(after);
    let answer = run_strip(&strip(words), &board(), 1, 1_000);
    assert_eq!(answer, (ended(End::Limit, 1, 5, &after), after));
}

/// Asserts an end without a firing.
fn ends(words: &[Vec<u8>], end: End) {
    let answer = run_strip(&strip(words), &board(), 1, 1_000);
    assert_eq!(answer, (ended(end, 0, 255, &board()), board()));
}

fn notices() -> Vec<u8> {
    let rows = [no(1, &[20, 21]), no(1, &[22, 23]), no(1, &[24, 25])];
    rows.concat()
}

fn old_cards() -> Vec<u8> {
    [ca(0, &[10]), ca(2, &[]), ca(0, &[11]), ca(0, &[12])].concat()
}

#[test]
fn registers_start_at_zero() {
    let words = [put(0), arg(0, 11), fire(5)];
    fires(&words, &[old_cards(), ca(0, &[0]), notices()]);
}

#[test]
fn seek_passes_over_other_kinds_and_held_rows() {
    let words = [
        seek(0, 0, 0),
        seek(13, 0, 0),
        bind(13, 0, 3),
        put(0),
        arg(0, 3),
        fire(5),
    ];
    fires(&words, &[old_cards(), ca(0, &[11]), notices()]);
}

#[test]
fn seek_may_take_a_row_let_go() {
    let words = [
        seek(0, 0, 0),
        seek(0, 0, 0),
        seek(1, 0, 0),
        bind(1, 0, 3),
        keep(),
        put(0),
        arg(0, 3),
        fire(5),
    ];
    let after = [ca(2, &[]), ca(0, &[12]), ca(0, &[10]), notices()];
    fires(&words, &after);
}

#[test]
fn open_lets_go_and_keep_uses_held_rows_alone() {
    let words = [seek(0, 0, 0), open(0), keep(), seek(0, 2, 0), fire(5)];
    fires(&words, &[old_cards(), notices()]);
    let words = [seek(0, 0, 0), keep(), open(0), seek(0, 0, 0), fire(5)];
    let after = [ca(2, &[]), ca(0, &[11]), ca(0, &[12]), notices()];
    fires(&words, &after);
}

/// After KEEP a cursor stays on its used row: it can still be read and the next SEEK goes on.
#[test]
fn cursors_stay_after_keep() {
    let words = [
        seek(0, 0, 0),
        keep(),
        bind(0, 0, 1),
        put(0),
        arg(0, 1),
        seek(0, 0, 0),
        bind(0, 0, 1),
        put(0),
        arg(0, 1),
        fire(5),
    ];
    let after = [
        ca(2, &[]),
        ca(0, &[11]),
        ca(0, &[12]),
        ca(0, &[10]),
        ca(0, &[11]),
        notices(),
    ];
    fires(&words, &after);
}

/// The place is a row number, kept when a SEEK changes class.
#[test]
fn place_is_kept_across_classes() {
    let words = [
        seek(0, 2, 0),
        seek(0, 1, 0),
        bind(0, 1, 0),
        put(0),
        arg(0, 0),
        keep(),
        fire(5),
    ];
    fires(&words, &[old_cards(), ca(0, &[25]), notices()]);
    let words = [seek(0, 1, 0), seek(0, 1, 0), seek(0, 0, 0), keep(), fire(5)];
    let after = [ca(0, &[10]), ca(2, &[]), ca(0, &[12]), notices()];
    fires(&words, &after);
}

/// Past the end it stays so for every kind until OPEN.
#[test]
fn past_the_end_until_open() {
    // Words 3 to 8: two cards of kind 2 sought, the second leads past the end.
    let words = [
        seek(0, 2, 0),
        seek(0, 2, 6),
        quiet(),
        seek(0, 1, 8),
        quiet(),
        open(0),
        seek(0, 1, 7),
        bind(0, 0, 0),
        put(0),
        arg(0, 0),
        fire(5),
    ];
    fires(&words, &[old_cards(), ca(0, &[20]), notices()]);
}

#[test]
fn notices_are_held_by_nobody() {
    let words = [
        seek(0, 1, 0),
        seek(1, 1, 0),
        bind(1, 0, 0),
        put(0),
        arg(0, 0),
        keep(),
        fire(5),
    ];
    fires(&words, &[old_cards(), ca(0, &[20]), notices()]);
}

#[test]
fn tests_compare_terms() {
    // 4 × test + 2 × left tag + right tag; register 1 is 10, register 0 is 0.
    let table = [
        (0b0000, 7, 7, true),
        (0b0000, 7, 8, false),
        (0b0100, 7, 8, true),
        (0b0100, 8, 8, false),
        (0b1000, 300, 301, true),
        (0b1000, 301, 300, false),
        (0b1000, 300, 300, false),
        (0b1100, 300, 300, true),
        (0b1100, 301, 300, false),
        (0b0010, 1, 10, true),
        (0b0001, 10, 1, true),
        (0b0011, 1, 1, true),
        (0b0011, 1, 0, false),
        (0b1011, 0, 1, true),
        (0b1011, 1, 0, false),
        (0b0001, 1, 1, false),
        (0b1000, 65_280, 65_535, true),
    ];
    for (code, left, right, holds) in table {
        let [low, high] = u16::to_le_bytes(left);
        let words = [
            seek(0, 0, 0),
            bind(0, 0, 1),
            word(6, code, low, high, right, 7),
            fire(5),
            quiet(),
        ];
        match holds {
            true => fires(&words, &[old_cards(), notices()]),
            false => ends(&words, End::Quiet),
        }
    }
}

#[test]
fn same_and_lit_go_to_their_target_when_they_differ() {
    let lit = |value| [seek(0, 0, 0), word(5, 0, 0, 0, value, 6), fire(5), quiet()];
    fires(&lit(10), &[old_cards(), notices()]);
    ends(&lit(11), End::Quiet);
    let same = |register| {
        let bind = bind(0, 0, 4);
        let same = word(4, 0, 0, register, 0, 7);
        [seek(0, 0, 0), bind, same, fire(5), quiet()]
    };
    fires(&same(4), &[old_cards(), notices()]);
    ends(&same(5), End::Quiet);
}

#[test]
fn stuck_on_no_row() {
    for word in [
        bind(0, 0, 0),
        word(4, 0, 0, 0, 0, 4),
        word(5, 0, 0, 0, 0, 4),
    ] {
        ends(&[word.clone(), quiet()], End::Stuck);
        ends(&[seek(1, 0, 0), word.clone(), quiet()], End::Stuck);
        ends(&[seek(0, 0, 0), open(0), word.clone(), quiet()], End::Stuck);
        let past = [seek(0, 2, 0), seek(0, 2, 5), word, quiet()];
        ends(&past, End::Stuck);
    }
}

#[test]
fn stuck_on_an_argument_the_row_lacks() {
    for argument in 1..4 {
        let words = [
            bind(0, argument, 0),
            word(4, 0, argument, 0, 0, 5),
            word(5, 0, argument, 0, 0, 5),
        ];
        for word in words {
            ends(&[seek(0, 0, 0), word, quiet()], End::Stuck);
        }
    }
    ends(&[seek(0, 1, 0), bind(0, 2, 0), quiet()], End::Stuck);
    ends(&[seek(0, 1, 0), bind(0, 1, 0), quiet()], End::Quiet);
}

#[test]
fn stuck_on_arg() {
    ends(&[arg(0, 0), quiet()], End::Stuck);
    ends(&[put(0), arg(1, 0), quiet()], End::Stuck);
    ends(&[put(1), put(2), arg(0, 0), quiet()], End::Stuck);
    ends(&[put(2), put(1), arg(1, 0), quiet()], End::Quiet);
}

/// The made fact is all zeros until ARG; ARG sets the last one and may set it again.
#[test]
fn put_and_arg() {
    let constant = |position, value| word(9, position, 0, 0, value, 0);
    let words = [
        put(1),
        put(1),
        constant(1, 8),
        constant(1, 9),
        put(2),
        fire(5),
    ];
    let made = [no(1, &[0, 0]), no(1, &[0, 9])].concat();
    fires(&words, &[old_cards(), ca(2, &[]), notices(), made]);
}

#[test]
fn fire_without_keep_uses_nothing() {
    let words = [seek(0, 0, 0), seek(1, 2, 0), put(2), fire(5)];
    fires(&words, &[old_cards(), ca(2, &[]), notices()]);
}

/// Each word executed is one step, KIND included; JUMP to itself is SPENT at any allowance.
#[test]
fn steps_are_counted() {
    let steps = |words: &[Vec<u8>]| second::attempt_steps(&strip(words), &board(), 1_000);
    assert_eq!(steps(&[quiet()]), Some(1));
    assert_eq!(steps(&[jump(4), quiet()]), Some(2));
    // From word 3 past the end of kind 2 to word 0: three KINDs, then the SEEK again, and so on.
    let words = [seek(0, 2, 5), jump(1), quiet()];
    assert_eq!(steps(&words), Some(6));
    assert_eq!(steps(&[jump(3)]), None);
    ends(&[jump(3)], End::Spent);
}

/// PUT of a 257th made card or 129th made notice is FULL at once, in that step.
#[test]
fn full_at_put() {
    let loop_of = |kind| [put(kind), jump(3)];
    let empty = b"en".to_vec();
    for (kind, most) in [(0, 256), (1, 128), (2, 256)] {
        let strip = strip(&loop_of(kind));
        let steps = second::attempt_steps(&strip, &empty, 10_000);
        assert_eq!(steps, Some(2 * most + 1));
        let full = (ended(End::Full, 0, 255, &empty), empty.clone());
        assert_eq!(run_strip(&strip, &empty, 1, 2 * most + 1), full);
        let spent = (ended(End::Spent, 0, 255, &empty), empty.clone());
        assert_eq!(run_strip(&strip, &empty, 1, 2 * most), spent);
    }
}

/// PUT counts made facts alone: 256 of them may be made on a board whose cards are used up.
#[test]
fn fire_judges_the_boards_size() {
    let words = [times(253, put(2)), fire(5)];
    let answer = run_strip(&strip(&words), &board(), 1, 1_000).0;
    assert_eq!(answer, ended(End::Full, 0, 255, &board()));
    let words = [times(252, put(2)), fire(5)];
    fires(&words, &[old_cards(), times(252, ca(2, &[])), notices()]);
    let words = [seek(0, 0, 0), keep(), times(253, put(2)), fire(5)];
    let left = [ca(2, &[]), ca(0, &[11]), ca(0, &[12])].concat();
    fires(&words, &[left, times(253, ca(2, &[])), notices()]);
}

/// Every attempt starts afresh and has the full allowance.
#[test]
fn attempts_start_afresh() {
    let words = [seek(0, 0, 7), keep(), put(2), fire(9), quiet()];
    let after = file(&[times(4, ca(2, &[])), notices()]);
    let answer = run_strip(&strip(&words), &board(), 100, 4);
    assert_eq!(answer, (ended(End::Quiet, 3, 9, &after), after));
}

/// A KIND executed changes nothing: registers, cursors and made facts stay.
#[test]
fn jump_to_a_kind_word() {
    let words = [
        seek(0, 0, 10),
        bind(0, 0, 0),
        word(6, 0b0010, 0, 0, 12, 0),
        put(0),
        arg(0, 0),
        keep(),
        fire(5),
        quiet(),
    ];
    let after = [
        ca(0, &[10]),
        ca(2, &[]),
        ca(0, &[11]),
        ca(0, &[12]),
        notices(),
    ];
    fires(&words, &after);
    let strip = strip(&words);
    assert_eq!(second::attempt_steps(&strip, &board(), 99), Some(19));
}
