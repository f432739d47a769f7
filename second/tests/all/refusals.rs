//! Every refusal of books and boards with its place.

use crate::pieces::*;
use second::numbers::Refusal;

/// Asserts that the records refuse the book at the number-th of them.
fn book_refused(records: &[Vec<u8>], refusal: Refusal, record: usize) {
    let place = records[..record].concat().len();
    let answer = second::check_book(&records.concat());
    assert_eq!(answer, refused(refusal, 1, place));
}

/// Asserts that the records refuse the board at the number-th of them.
fn board_refused(book: &[u8], records: &[Vec<u8>], refusal: Refusal, record: usize) {
    let place = records[..record].concat().len();
    let answer = second::check_board(book, &records.concat());
    assert_eq!(answer, refused(refusal, 3, place));
}

fn bytes(text: &str) -> Vec<u8> {
    text.as_bytes().to_vec()
}

/// A book with every mark, and with notices, constants and variables.
fn varied_book() -> Vec<u8> {
    file(&[
        card(2),
        notice(1),
        card(0),
        ru(),
        ba(0, &[v(0), c(3)]),
        ba(1, &[v(1)]),
        te(2, v(0), c(9)),
        he(2, &[]),
        he(1, &[v(1)]),
        sw(),
        ba(0, &[v(0), v(5)]),
        te(0, v(5), v(1)),
        he(0, &[v(5), c(1)]),
        sw(),
        ba(1, &[v(5)]),
        ru(),
        ba(2, &[]),
    ])
}

/// A full board of the varied book.
fn varied_board() -> Vec<u8> {
    file(&[ca(0, &[1, 2]), ca(2, &[]), no(1, &[7]), no(1, &[7])])
}

#[test]
fn cut_at_every_byte_of_a_book() {
    let book = varied_book();
    assert_eq!(second::check_book(&book), accepted());
    for length in 0..book.len() {
        let expected = refused(Refusal::Cut, 1, length);
        assert_eq!(second::check_book(&book[..length]), expected);
    }
}

#[test]
fn cut_at_every_byte_of_a_board() {
    let (book, board) = (varied_book(), varied_board());
    assert_eq!(second::check_board(&book, &board), accepted());
    for length in 0..board.len() {
        let expected = refused(Refusal::Cut, 3, length);
        assert_eq!(second::check_board(&book, &board[..length]), expected);
    }
}

#[test]
fn mark_unknown_to_books() {
    for mark in ["ca", "no", "KD", "dk", "xx", "  ", "\0\0", "ek"] {
        book_refused(&[card(1), bytes(mark)], Refusal::Mark, 1);
    }
}

#[test]
fn mark_unknown_to_boards() {
    let book = varied_book();
    for mark in ["kd", "ru", "ba", "te", "he", "sw", "CA", "ac", "cf"] {
        board_refused(&book, &[ca(2, &[]), bytes(mark)], Refusal::Mark, 1);
    }
}

/// Which marks may follow which: rows are where the book stands, columns the next record.
#[test]
fn place_in_books_for_every_pair() {
    let start = vec![card(0)];
    let rule = [start.clone(), vec![ru(), ba(0, &[])]].concat();
    let test = [rule.clone(), vec![te(0, c(1), c(1))]].concat();
    let head = [test.clone(), vec![he(0, &[])]].concat();
    let sweep = [head.clone(), vec![sw(), ba(0, &[])]].concat();
    let sweep_test = [sweep.clone(), vec![te(0, c(1), c(1))]].concat();
    let sweep_head = [sweep_test.clone(), vec![he(0, &[])]].concat();
    let next = [
        card(0),
        ru(),
        ba(0, &[]),
        te(0, c(1), c(1)),
        he(0, &[]),
        sw(),
        en(),
    ];
    let table = [
        (vec![], "kd ru en"),
        (start, "kd ru en"),
        (rule, "ru ba te he sw en"),
        (test, "ru te he sw en"),
        (head, "ru he sw en"),
        (sweep, "ru ba te he sw en"),
        (sweep_test, "ru te he sw en"),
        (sweep_head, "ru he sw en"),
    ];
    for (before, allowed) in table {
        for record in &next {
            let mark = String::from_utf8(record[..2].to_vec()).unwrap();
            let records = [before.clone(), vec![record.clone()]].concat();
            let answer = second::check_book(&records.concat());
            let place = before.concat().len();
            let is_place = answer == refused(Refusal::Place, 1, place);
            assert_eq!(is_place, !allowed.contains(&mark), "{mark} at {place}");
        }
    }
}

/// Right after `ru` or `sw` every group may be empty for PLACE.
#[test]
fn empty_groups_are_no_place() {
    for record in [te(0, c(1), c(1)), he(0, &[]), sw(), ru(), en()] {
        book_refused(&[card(0), ru(), record.clone()], Refusal::NoCard, 2);
        let records = [card(0), ru(), ba(0, &[]), sw(), record];
        book_refused(&records, Refusal::Bare, 4);
    }
}

#[test]
fn place_in_boards() {
    let book = file(&[card(0), notice(0)]);
    board_refused(&book, &[no(1, &[]), ca(0, &[])], Refusal::Place, 1);
    let records = [ca(0, &[]), no(1, &[]), no(1, &[]), ca(0, &[])];
    board_refused(&book, &records, Refusal::Place, 3);
}

#[test]
fn nocard_for_a_body_of_notices() {
    for record in [te(0, c(1), c(1)), he(0, &[]), sw(), ru(), en()] {
        let records = [notice(0), ru(), ba(0, &[]), ba(0, &[]), record];
        book_refused(&records, Refusal::NoCard, 4);
    }
}

#[test]
fn a_sweep_may_be_all_notices() {
    let book = file(&[card(0), notice(0), ru(), ba(0, &[]), sw(), ba(1, &[])]);
    assert_eq!(second::check_book(&book), accepted());
}

#[test]
fn bare_in_the_second_sweep() {
    let records = [card(0), ru(), ba(0, &[]), sw(), ba(0, &[]), sw(), en()];
    book_refused(&records, Refusal::Bare, 6);
}

#[test]
fn field_of_a_kind() {
    book_refused(&[vec![b'k', b'd', 2, 0], en()], Refusal::Field, 0);
    book_refused(&[vec![b'k', b'd', 0, 5], en()], Refusal::Field, 0);
    book_refused(&[card(1), vec![b'k', b'd', 255, 0]], Refusal::Field, 1);
}

#[test]
fn field_of_atoms_and_tests() {
    let opening = [card(1), ru(), ba(0, &[v(0)])];
    let tries = [
        ba(1, &[v(0)]),
        ba(255, &[]),
        ba(0, &[vec![2, 0, 0]]),
        ba(0, &[v(12)]),
        ba(0, &[v(256)]),
        te(4, v(0), v(0)),
        te(0, vec![2, 0, 0], v(0)),
        te(0, v(0), vec![255, 0, 0]),
        te(0, v(12), v(0)),
        te(0, v(0), v(65_535)),
        he(1, &[v(0)]),
        he(0, &[vec![2, 0, 0]]),
        he(0, &[v(12)]),
        he(0, &[v(0x0B00)]),
    ];
    for record in tries {
        let records = [opening.to_vec(), vec![record, en()]].concat();
        book_refused(&records, Refusal::Field, 3);
        let sweep = [opening.to_vec(), vec![sw(), ba(0, &[v(1)])]].concat();
        let records = [sweep, vec![records[3].clone(), en()]].concat();
        book_refused(&records, Refusal::Field, 5);
    }
}

#[test]
fn field_of_board_rows() {
    let book = file(&[card(0), notice(0)]);
    board_refused(&book, &[ca(2, &[]), en()], Refusal::Field, 0);
    board_refused(&book, &[ca(0, &[]), ca(1, &[])], Refusal::Field, 1);
    board_refused(&book, &[ca(0, &[]), no(0, &[])], Refusal::Field, 1);
    board_refused(&book, &[no(2, &[]), en()], Refusal::Field, 0);
    board_refused(b"en", &[ca(0, &[]), en()], Refusal::Field, 0);
}

#[test]
fn loose_in_a_rule() {
    let opening = [card(1), ru(), ba(0, &[v(0)])];
    for record in [te(0, v(1), v(0)), te(0, v(0), v(1)), he(0, &[v(1)])] {
        let records = [opening.to_vec(), vec![record, en()]].concat();
        book_refused(&records, Refusal::Loose, 3);
    }
}

/// A sweep's own variable is loose in the next sweep and in the next rule.
#[test]
fn loose_after_a_sweep() {
    let sweep = [
        card(1),
        ru(),
        ba(0, &[v(0)]),
        sw(),
        ba(0, &[v(1)]),
        he(0, &[v(1)]),
    ];
    assert_eq!(second::check_book(&file(&sweep)), accepted());
    for record in [te(0, v(1), v(0)), he(0, &[v(1)])] {
        let next = [sw(), ba(0, &[v(2)]), record.clone(), en()];
        let records = [sweep.to_vec(), next.to_vec()].concat();
        book_refused(&records, Refusal::Loose, 8);
        let next = [ru(), ba(0, &[v(0)]), record, en()];
        let records = [sweep.to_vec(), next.to_vec()].concat();
        book_refused(&records, Refusal::Loose, 8);
    }
}

#[test]
fn a_rules_variables_are_bound_in_its_sweeps() {
    let book = file(&[
        card(1),
        ru(),
        ba(0, &[v(0)]),
        sw(),
        ba(0, &[v(1)]),
        te(1, v(0), v(1)),
        he(0, &[v(0)]),
        sw(),
        ba(0, &[v(2)]),
        he(0, &[v(0)]),
    ]);
    assert_eq!(second::check_book(&book), accepted());
}

#[test]
fn trail_in_books_and_boards() {
    let place = varied_book().len();
    let book = [varied_book(), vec![0]].concat();
    assert_eq!(second::check_book(&book), refused(Refusal::Trail, 1, place));
    let book = [varied_book(), en()].concat();
    assert_eq!(second::check_book(&book), refused(Refusal::Trail, 1, place));
    let place = varied_board().len();
    let board = [varied_board(), vec![0, 1, 2]].concat();
    let answer = second::check_board(&varied_book(), &board);
    assert_eq!(answer, refused(Refusal::Trail, 3, place));
}

#[test]
fn any_number_is_a_constant_or_a_boards_number() {
    let book = file(&[card(1), ru(), ba(0, &[c(65_535)]), he(0, &[c(12)])]);
    assert_eq!(second::check_book(&book), accepted());
    let board = file(&[ca(0, &[65_535])]);
    assert_eq!(second::check_board(&book, &board), accepted());
}
