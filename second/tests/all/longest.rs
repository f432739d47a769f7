//! The longest book, board and strip, and one over each size.

use crate::pieces::*;
use second::numbers::Refusal;
use second::sizes::{LONGEST_BOARD, LONGEST_BOOK, LONGEST_STRIP};

/// Four different variables.
fn four() -> Vec<Vec<u8>> {
    vec![v(0), v(1), v(2), v(11)]
}

/// A largest rule with these numbers of records, over the card kind 0 of arity 4.
struct Rule {
    body: usize,
    tests: usize,
    heads: usize,
    sweeps: Vec<[usize; 3]>,
}

impl Rule {
    fn largest() -> Rule {
        Rule {
            body: 6,
            tests: 6,
            heads: 6,
            sweeps: vec![[4, 4, 4]; 2],
        }
    }

    fn records(&self) -> Vec<Vec<u8>> {
        let mut parts = vec![(ru(), [self.body, self.tests, self.heads])];
        parts.extend(self.sweeps.iter().map(|sizes| (sw(), *sizes)));
        let mut records = Vec::new();
        for (opening, [body, tests, heads]) in parts {
            records.push(opening);
            records.extend(vec![ba(0, &four()); body]);
            records.extend(vec![te(3, v(0), v(0)); tests]);
            records.extend(vec![he(0, &four()); heads]);
        }
        records
    }
}

/// A book of card kinds and then these rules.
fn book(kinds: usize, rules: &[Rule]) -> Vec<u8> {
    let rules: Vec<u8> = rules
        .iter()
        .flat_map(|rule| rule.records())
        .flatten()
        .collect();
    file(&[times(kinds, card(4)), rules])
}

fn longest_book() -> Vec<u8> {
    let rules: Vec<Rule> = (0..32).map(|_| Rule::largest()).collect();
    book(32, &rules)
}

/// Asserts MANY at the number-th record of that mark, counted from 0.
fn many_at(book: &[u8], mark: &[u8; 2], number: usize) {
    let starts = record_starts(book);
    let of_mark: Vec<usize> = starts
        .into_iter()
        .filter(|at| &book[*at..*at + 2] == mark)
        .collect();
    let expected = refused(Refusal::Many, 1, of_mark[number]);
    assert_eq!(second::check_book(book), expected);
}

/// Where the records of a book over kinds of arity 4 start.
fn record_starts(book: &[u8]) -> Vec<usize> {
    let mut starts = Vec::new();
    let mut at = 0;
    while at < book.len() {
        starts.push(at);
        at += match &book[at..at + 2] {
            b"kd" => 4,
            b"ba" | b"he" => 15,
            b"te" => 9,
            _ => 2,
        };
    }
    starts
}

#[test]
fn longest_book_is_accepted() {
    assert_eq!(LONGEST_BOOK, 17_794);
    assert_eq!(longest_book().len(), LONGEST_BOOK);
    assert_eq!(second::check_book(&longest_book()), accepted());
}

#[test]
fn longest_strip_is_that_of_the_longest_book() {
    assert_eq!(LONGEST_STRIP, 44_808);
    let strip = strip_of(&longest_book());
    assert_eq!(strip.len(), LONGEST_STRIP);
    assert_eq!(strip.len() / 8, 32 + 32 * 174 + 1);
    assert_eq!(second::check_strip(&strip), accepted());
}

#[test]
fn strip_one_word_over_is_refused() {
    let mut strip = strip_of(&longest_book());
    strip.extend(word(12, 0, 0, 0, 0, 0));
    assert_eq!(second::check_strip(&strip), refused(Refusal::Strip, 2, 0));
}

#[test]
fn longest_board_is_accepted() {
    assert_eq!(LONGEST_BOARD, 4_226);
    let book = file(&[card(4), notice(4)]);
    let board = file(&[
        times(256, ca(0, &[1, 2, 3, 4])),
        times(128, no(1, &[5, 6, 7, 8])),
    ]);
    assert_eq!(board.len(), LONGEST_BOARD);
    assert_eq!(second::check_board(&book, &board), accepted());
    let (answer, written) = run(&book, &board, 1);
    assert_eq!((answer.number, answer.length), (20, 4_226));
    assert_eq!(written, board);
}

#[test]
fn one_card_or_notice_over() {
    let book = file(&[card(4), notice(4)]);
    let numbers = [1, 2, 3, 4];
    let cards = file(&[times(257, ca(0, &numbers))]);
    let expected = refused(Refusal::Many, 3, 256 * 11);
    assert_eq!(second::check_board(&book, &cards), expected);
    let notices = file(&[times(256, ca(0, &numbers)), times(129, no(1, &numbers))]);
    let expected = refused(Refusal::Many, 3, (256 + 128) * 11);
    assert_eq!(second::check_board(&book, &notices), expected);
}

#[test]
fn one_kind_over() {
    many_at(&book(33, &[]), b"kd", 32);
}

#[test]
fn one_rule_over() {
    let rules: Vec<Rule> = (0..33).map(|_| Rule::largest()).collect();
    many_at(&book(32, &rules), b"ru", 32);
}

#[test]
fn one_body_atom_test_or_head_over() {
    let changed = |change: fn(&mut Rule)| {
        let mut rule = Rule::largest();
        change(&mut rule);
        book(1, &[Rule::largest(), rule])
    };
    let before = 6 + 2 * 4;
    many_at(&changed(|rule| rule.body = 7), b"ba", before + 6);
    many_at(&changed(|rule| rule.tests = 7), b"te", before + 6);
    many_at(&changed(|rule| rule.heads = 7), b"he", before + 6);
}

#[test]
fn one_sweep_over() {
    let mut rule = Rule::largest();
    rule.sweeps.push([4, 4, 4]);
    many_at(&book(1, &[Rule::largest(), rule]), b"sw", 4);
}

#[test]
fn one_sweep_atom_test_or_head_over() {
    for sweep in 0..2 {
        for (group, mark) in [b"ba", b"te", b"he"].into_iter().enumerate() {
            let mut rule = Rule::largest();
            rule.sweeps[sweep][group] = 5;
            many_at(&book(1, &[rule]), mark, 6 + 4 * sweep + 4);
        }
    }
}

#[test]
fn arity_5_and_variable_12_are_out_of_range() {
    let book = file(&[card(4), card(5)]);
    assert_eq!(second::check_book(&book), refused(Refusal::Field, 1, 4));
    let book = file(&[card(1), ru(), ba(0, &[v(12)])]);
    assert_eq!(second::check_book(&book), refused(Refusal::Field, 1, 6));
    let book = file(&[card(4), ru(), ba(0, &four())]);
    assert_eq!(second::check_book(&book), accepted());
}

#[test]
fn many_is_counted_within_one_group() {
    let rules = [Rule::largest(), Rule::largest()];
    assert_eq!(second::check_book(&book(1, &rules)), accepted());
}

#[test]
fn thirty_third_kind_word_is_refused() {
    let kinds = times(32, word(0, 0, 4, 0, 0, 0));
    let quiet = word(12, 0, 0, 0, 0, 0);
    let strip = [kinds.clone(), quiet.clone()].concat();
    assert_eq!(second::check_strip(&strip), accepted());
    let strip = [kinds, word(0, 0, 4, 0, 0, 0), quiet].concat();
    assert_eq!(second::check_strip(&strip), refused(Refusal::Strip, 2, 32));
}
