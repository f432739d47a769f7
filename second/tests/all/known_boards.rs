//! Known boards K1 to K10 of document 01, with every figure.

use crate::pieces::*;
use second::board::read_board;
use second::book::read_book;
use second::display::display;
use second::numbers::{End, Refusal};
use second::run::{look, Look};

#[test]
fn hat_files_have_the_named_lengths() {
    assert_eq!(hat_book().len(), 56);
    assert_eq!(hat_board().len(), 33);
    assert_eq!(strip_of(&hat_book()).len(), 22 * 8);
    assert_eq!(second::check_book(&hat_book()), accepted());
    assert_eq!(second::check_board(&hat_book(), &hat_board()), accepted());
    assert_eq!(second::check_strip(&strip_of(&hat_book())), accepted());
}

#[test]
fn hat_strip_word_by_word() {
    let expected = [
        word(0, 0, 2, 0, 0, 0),
        word(0, 0, 1, 0, 0, 0),
        word(0, 1, 2, 0, 0, 0),
        word(0, 0, 3, 0, 0, 0),
        word(1, 0, 0, 0, 0, 0),
        word(2, 0, 0, 0, 0, 21),
        word(3, 0, 0, 0, 0, 0),
        word(3, 0, 1, 1, 0, 0),
        word(1, 1, 0, 0, 0, 0),
        word(2, 1, 1, 0, 0, 5),
        word(3, 1, 0, 2, 0, 0),
        word(1, 2, 0, 0, 0, 0),
        word(2, 2, 2, 0, 0, 9),
        word(4, 2, 0, 2, 0, 12),
        word(4, 2, 1, 0, 0, 12),
        word(7, 0, 0, 0, 0, 0),
        word(8, 3, 0, 0, 0, 0),
        word(9, 0, 1, 0, 2, 0),
        word(9, 1, 1, 0, 0, 0),
        word(9, 2, 1, 0, 1, 0),
        word(11, 0, 0, 0, 0, 0),
        word(12, 0, 0, 0, 0, 0),
    ];
    assert_eq!(strip_of(&hat_book()), expected.concat());
}

#[test]
fn k1_first_fit() {
    let book = read_book(&hat_book()).unwrap();
    let board = read_board(&book.kinds, &hat_board()).unwrap();
    let Look::Fired(firing) = look(&book, &board) else {
        panic!("the hat rule fits");
    };
    assert_eq!((firing.rule, firing.choice), (0, vec![0, 3, 0]));
    assert!(firing.taken.is_empty());
}

#[test]
fn k2_the_board_after_is_quiet() {
    let after = hat_board_after();
    ends_both(&hat_book(), &after, 1, End::Quiet, 0, 255, &after);
}

#[test]
fn k3_steps() {
    let strip = strip_of(&hat_book());
    let (before, after) = (hat_board(), hat_board_after());
    assert_eq!(second::attempt_steps(&strip, &before, 1_000), Some(23));
    let spent = (ended(End::Spent, 0, 255, &before), before.clone());
    assert_eq!(run_strip(&strip, &before, 1, 22), spent);
    let fires = (ended(End::Limit, 1, 0, &after), after.clone());
    assert_eq!(run_strip(&strip, &before, 1, 23), fires);
    assert_eq!(second::attempt_steps(&strip, &after, 1_000), Some(14));
    let spent = (ended(End::Spent, 0, 255, &after), after.clone());
    assert_eq!(run_strip(&strip, &after, 1, 13), spent);
    let quiet = (ended(End::Quiet, 0, 255, &after), after.clone());
    assert_eq!(run_strip(&strip, &after, 1, 14), quiet);
}

#[test]
fn k4_limits() {
    let (book, before, after) = (hat_book(), hat_board(), hat_board_after());
    ends_both(&book, &before, 0, End::Limit, 0, 255, &before);
    ends_both(&book, &before, 1, End::Limit, 1, 0, &after);
    ends_both(&book, &before, 2, End::Quiet, 1, 0, &after);
}

#[test]
fn k5_two_atoms_need_two_cards() {
    let book = file(&[card(1), ru(), ba(0, &[v(0)]), ba(0, &[v(0)])]);
    let one = file(&[ca(0, &[9])]);
    ends_both(&book, &one, 5, End::Quiet, 0, 255, &one);
    let two = file(&[ca(0, &[9]), ca(0, &[9])]);
    ends_both(&book, &two, 1, End::Limit, 1, 0, b"en");
    ends_both(&book, &two, 2, End::Quiet, 1, 0, b"en");
}

/// tidy/1, tally/2, ledger/2, all cards.
fn tidy_book() -> Vec<u8> {
    file(&[
        card(1),
        card(2),
        card(2),
        ru(),
        ba(0, &[v(0)]),
        sw(),
        ba(1, &[v(0), v(1)]),
        he(2, &[v(0), v(1)]),
    ])
}

#[test]
fn k6_a_sweep_under_the_body() {
    let before = file(&[ca(0, &[3]), ca(1, &[3, 5]), ca(1, &[3, 5]), ca(1, &[4, 1])]);
    let after = file(&[ca(1, &[4, 1]), ca(2, &[3, 5]), ca(2, &[3, 5])]);
    ends_both(&tidy_book(), &before, 1, End::Limit, 1, 0, &after);
    ends_both(&tidy_book(), &before, 9, End::Quiet, 1, 0, &after);
}

/// go/0, a/1, b/1, p/2, all cards.
fn pairing_book() -> Vec<u8> {
    file(&[
        card(0),
        card(1),
        card(1),
        card(2),
        ru(),
        ba(0, &[]),
        sw(),
        ba(1, &[v(0)]),
        ba(2, &[v(1)]),
        he(3, &[v(0), v(1)]),
    ])
}

#[test]
fn k7_a_card_is_swept_once() {
    let before = file(&[ca(0, &[]), ca(1, &[1]), ca(2, &[5]), ca(2, &[6])]);
    let after = file(&[ca(2, &[6]), ca(3, &[1, 5])]);
    ends_both(&pairing_book(), &before, 9, End::Quiet, 1, 0, &after);
}

#[test]
fn k8_pairs() {
    let before = file(&[
        ca(0, &[]),
        ca(1, &[1]),
        ca(1, &[2]),
        ca(2, &[5]),
        ca(2, &[6]),
    ]);
    let after = file(&[ca(3, &[1, 5]), ca(3, &[2, 6])]);
    ends_both(&pairing_book(), &before, 9, End::Quiet, 1, 0, &after);
}

#[test]
fn k9_full() {
    let book = file(&[card(0), card(0), ru(), ba(0, &[]), he(0, &[]), he(1, &[])]);
    let full = file(&[ca(0, &[]), times(255, ca(1, &[]))]);
    ends_both(&book, &full, 1, End::Full, 0, 255, &full);
    let nearly = file(&[ca(0, &[]), times(254, ca(1, &[]))]);
    let after = file(&[times(254, ca(1, &[])), ca(0, &[]), ca(1, &[])]);
    ends_both(&book, &nearly, 1, End::Limit, 1, 0, &after);
    ends_both(&book, &nearly, 2, End::Full, 1, 0, &after);
}

#[test]
fn k10_smallest_books() {
    assert_eq!(second::check_book(b""), refused(Refusal::Cut, 1, 0));
    assert_eq!(second::check_book(b"en"), accepted());
    assert_eq!(second::check_book(b"enx"), refused(Refusal::Trail, 1, 2));
}

#[test]
fn display_to_the_letter() {
    let text = "fired 1 end 20 rule 0\n\
                card 0 7 40\n\
                card 1 1\n\
                card 3 2 7 40\n\
                notice 2 2 7\n";
    assert_eq!(display(&hat_book(), &hat_board()), text);
    assert_eq!(display(b"", b""), "refused book 1 0\n");
    assert_eq!(display(b"enx", b""), "refused book 9 2\n");
    assert_eq!(display(b"en", b""), "refused board 1 0\n");
    assert_eq!(display(b"en", b"en"), "fired 0 end 20 rule 255\n");
    let book = file(&[card(0), notice(0)]);
    let board = file(&[ca(0, &[]), no(1, &[])]);
    let text = "fired 0 end 20 rule 255\ncard 0\nnotice 1\n";
    assert_eq!(display(&book, &board), text);
}

#[test]
fn display_stops_at_limit_100() {
    let book = file(&[card(0), ru(), ba(0, &[]), he(0, &[])]);
    let board = file(&[ca(0, &[])]);
    let text = "fired 100 end 21 rule 0\ncard 0\n";
    assert_eq!(display(&book, &board), text);
}
