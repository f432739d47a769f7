//! The judging order: for each neighbouring pair a file that has both faults.

use crate::pieces::*;
use second::numbers::Refusal;

/// Asserts what the last of the records, which starts the fault, is refused with.
fn last_refused(records: &[Vec<u8>], refusal: Refusal) {
    let place = records[..records.len() - 1].concat().len();
    let answer = second::check_book(&records.concat());
    assert_eq!(answer, refused(refusal, 1, place));
}

/// Asserts CUT at the end of the records.
fn cut(records: &[Vec<u8>]) {
    let book = records.concat();
    let expected = refused(Refusal::Cut, 1, book.len());
    assert_eq!(second::check_book(&book), expected);
}

#[test]
fn records_are_judged_in_order() {
    last_refused(&[vec![b'k', b'd', 2, 9]], Refusal::Field);
    let answer = second::check_book(&[vec![b'k', b'd', 2, 9], b"xx".to_vec()].concat());
    assert_eq!(answer, refused(Refusal::Field, 1, 0));
    let answer = second::check_book(b"xxx");
    assert_eq!(answer, refused(Refusal::Mark, 1, 0));
}

#[test]
fn mark_cut_before_mark_and_before_nocard() {
    cut(&[b"x".to_vec()]);
    cut(&[card(0), ru(), b"h".to_vec()]);
    cut(&[card(0), ru(), b"?".to_vec()]);
    let board = second::check_board(b"en", b"x");
    assert_eq!(board, refused(Refusal::Cut, 3, 1));
}

/// MARK and PLACE can't both be given for one record; MARK comes before NOCARD, BARE and MANY.
#[test]
fn mark_before_nocard_and_bare() {
    last_refused(&[card(0), ru(), b"xx".to_vec()], Refusal::Mark);
    let records = [card(0), ru(), ba(0, &[]), sw(), b"xx".to_vec()];
    last_refused(&records, Refusal::Mark);
}

#[test]
fn place_before_nocard_and_bare() {
    last_refused(&[card(0), ru(), card(0)], Refusal::Place);
    let records = [card(0), ru(), ba(0, &[]), sw(), card(0)];
    last_refused(&records, Refusal::Place);
}

#[test]
fn place_before_many_and_fields() {
    let records = [times(32, card(0)), ru(), ba(0, &[]), card(9)];
    last_refused(&records, Refusal::Place);
    let book = file(&[card(0), notice(0)]);
    let board = [times(256, ca(0, &[])), no(1, &[]), ca(7, &[])].concat();
    let answer = second::check_board(&book, &board);
    assert_eq!(answer, refused(Refusal::Place, 3, 257 * 3));
}

#[test]
fn nocard_before_many() {
    let rules = times(31, [ru(), ba(0, &[])].concat());
    let records = [card(0), rules.clone(), ru(), ru()];
    last_refused(&records, Refusal::NoCard);
    let records = [card(0), rules, ru(), ba(0, &[]), ru()];
    last_refused(&records, Refusal::Many);
}

#[test]
fn bare_before_many() {
    let opening = [card(0), ru(), ba(0, &[]), sw(), ba(0, &[]), sw()];
    let records = [opening.to_vec(), vec![sw()]].concat();
    last_refused(&records, Refusal::Bare);
    let records = [opening.to_vec(), vec![ba(0, &[]), sw()]].concat();
    last_refused(&records, Refusal::Many);
}

#[test]
fn nocard_and_bare_before_fields() {
    for record in [te(9, c(0), c(0)), he(9, &[]), b"te".to_vec()] {
        last_refused(&[card(0), ru(), record.clone()], Refusal::NoCard);
        let records = [card(0), ru(), ba(0, &[]), sw(), record];
        last_refused(&records, Refusal::Bare);
    }
}

#[test]
fn nocard_and_bare_before_trail() {
    let book = [card(0), ru(), b"enx".to_vec()].concat();
    assert_eq!(second::check_book(&book), refused(Refusal::NoCard, 1, 6));
    let book = [card(0), ru(), ba(0, &[]), sw(), b"enx".to_vec()].concat();
    assert_eq!(second::check_book(&book), refused(Refusal::Bare, 1, 11));
}

/// Six notice atoms and a seventh: MANY, not NOCARD.
#[test]
fn seventh_notice_atom_is_many() {
    let records = [notice(0), ru(), times(6, ba(0, &[])), ba(0, &[])];
    last_refused(&records, Refusal::Many);
}

#[test]
fn many_before_cut_field_and_loose() {
    let body = [card(1), ru(), times(6, ba(0, &[v(0)]))];
    for record in [b"ba".to_vec(), ba(9, &[]), ba(0, &[v(12)])] {
        last_refused(&[body.to_vec(), vec![record]].concat(), Refusal::Many);
    }
    let heads = [body.to_vec(), vec![times(6, he(0, &[v(0)]))]].concat();
    for record in [b"he".to_vec(), he(9, &[]), he(0, &[v(5)])] {
        last_refused(&[heads.clone(), vec![record]].concat(), Refusal::Many);
    }
    last_refused(&[times(32, card(0)), b"kd".to_vec()], Refusal::Many);
    last_refused(&[times(32, card(0)), card(9)], Refusal::Many);
    let book = file(&[card(0), notice(0)]);
    for row in [b"ca".to_vec(), ca(9, &[])] {
        let board = [times(256, ca(0, &[])), row].concat();
        let answer = second::check_board(&book, &board);
        assert_eq!(answer, refused(Refusal::Many, 3, 256 * 3));
    }
}

/// Fields from left to right, in each CUT before FIELD: a bad field comes before a later one's cut.
#[test]
fn fields_from_left_to_right() {
    last_refused(&[vec![b'k', b'd', 2]], Refusal::Field);
    cut(&[b"kd".to_vec()]);
    cut(&[vec![b'k', b'd', 1]]);
    let opening = [card(2), ru(), ba(0, &[v(0), v(1)])];
    let with = |record: Vec<u8>| [opening.to_vec(), vec![record]].concat();
    last_refused(&with(vec![b'b', b'a', 1]), Refusal::Field);
    cut(&with(vec![b'b', b'a', 0]));
    last_refused(&with(vec![b'b', b'a', 0, 2]), Refusal::Field);
    cut(&with(vec![b'b', b'a', 0, 1]));
    cut(&with(vec![b'b', b'a', 0, 1, 12]));
    last_refused(&with(vec![b'b', b'a', 0, 1, 12, 0]), Refusal::Field);
    last_refused(&with(vec![b't', b'e', 4]), Refusal::Field);
    cut(&with(vec![b't', b'e', 3]));
    let board = second::check_board(&file(&[card(2)]), b"ca\x01");
    assert_eq!(board, refused(Refusal::Field, 3, 0));
    let board = second::check_board(&file(&[card(2)]), b"ca\x00\x01\x00\x02");
    assert_eq!(board, refused(Refusal::Cut, 3, 6));
}

/// In one field CUT before FIELD before LOOSE; between fields the left one first.
#[test]
fn loose_among_the_fields() {
    let opening = [card(2), ru(), ba(0, &[v(0), v(1)])];
    let with = |record: Vec<u8>| [opening.to_vec(), vec![record]].concat();
    cut(&with(vec![b'h', b'e', 0, 1, 2]));
    last_refused(&with(vec![b'h', b'e', 0, 1, 2, 0]), Refusal::Loose);
    last_refused(&with(he(0, &[v(12), v(2)])), Refusal::Field);
    last_refused(&with(he(0, &[v(2), v(12)])), Refusal::Loose);
    last_refused(&with(he(0, &[v(2), vec![2, 0, 0]])), Refusal::Loose);
    last_refused(&with(te(0, v(2), vec![])), Refusal::Loose);
    last_refused(&with(te(0, v(2), vec![7])), Refusal::Loose);
    last_refused(&with(te(0, vec![7], v(2))), Refusal::Field);
    last_refused(&with(te(7, v(2), v(2))), Refusal::Field);
}

/// A term's tag and value are two fields: a bad tag comes before its cut value.
#[test]
fn bad_tag_before_its_cut_value() {
    let opening = [card(1), ru(), ba(0, &[v(0)])];
    let with = |record: Vec<u8>| [opening.to_vec(), vec![record]].concat();
    last_refused(&with(vec![b'h', b'e', 0, 2, 0]), Refusal::Field);
    last_refused(&with(vec![b't', b'e', 0, 3]), Refusal::Field);
}

/// A variable is bound by the whole body, also by an atom that stands later.
#[test]
fn the_whole_body_binds() {
    let book = file(&[
        card(1),
        ru(),
        ba(0, &[v(0)]),
        ba(0, &[v(1)]),
        te(0, v(1), v(0)),
    ]);
    assert_eq!(second::check_book(&book), accepted());
}
