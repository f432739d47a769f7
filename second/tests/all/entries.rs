//! The six entries: which file is judged first, SHORT, and what happens to the lent output.

use crate::pieces::*;
use second::numbers::{Answer, End, Refusal};
use second::sizes::{LONGEST_BOARD, LONGEST_STRIP};

/// Asserts a refusal that leaves the output as it was.
fn keeps(room: usize, expected: Answer, entry: impl Fn(&mut [u8]) -> Answer) {
    let mut out = vec![KEPT; room];
    assert_eq!(entry(&mut out), expected);
    assert!(out.iter().all(|byte| *byte == KEPT));
}

#[test]
fn book_before_board_before_short() {
    let run = |book: &'static [u8], board: &'static [u8]| {
        move |out: &mut [u8]| second::run_book(book, board, 5, out)
    };
    keeps(0, refused(Refusal::Cut, 1, 0), run(b"", b""));
    keeps(0, refused(Refusal::Cut, 3, 1), run(b"en", b"x"));
    keeps(0, refused(Refusal::Short, 4, 0), run(b"en", b"en"));
    let room = LONGEST_BOARD - 1;
    keeps(room, refused(Refusal::Short, 4, 0), run(b"en", b"en"));
    let room = LONGEST_BOARD;
    keeps(room, refused(Refusal::Trail, 3, 2), run(b"en", b"en "));
    let answer = second::check_board(b"x", b"x");
    assert_eq!(answer, refused(Refusal::Cut, 1, 1));
}

#[test]
fn strip_before_board_before_short() {
    let quiet = word(12, 0, 0, 0, 0, 0);
    let run = |strip: Vec<u8>, board: &'static [u8]| {
        move |out: &mut [u8]| second::run_strip(&strip, board, 5, 5, out)
    };
    keeps(0, refused(Refusal::Strip, 2, 0), run(vec![], b""));
    keeps(0, refused(Refusal::Cut, 3, 0), run(quiet.clone(), b""));
    let room = LONGEST_BOARD - 1;
    let short = refused(Refusal::Short, 4, 0);
    keeps(room, short, run(quiet.clone(), b"en"));
    let room = LONGEST_BOARD;
    keeps(room, refused(Refusal::Mark, 3, 0), run(quiet, b"kd"));
}

#[test]
fn book_before_short_in_a_translation() {
    let translate = |book: &'static [u8]| move |out: &mut [u8]| second::translate(book, out);
    keeps(0, refused(Refusal::Mark, 1, 0), translate(b"no"));
    keeps(0, refused(Refusal::Short, 4, 0), translate(b"en"));
    let room = LONGEST_STRIP - 1;
    keeps(room, refused(Refusal::Short, 4, 0), translate(b"en"));
}

/// Limit and allowance change no refusal: short output is refused also for limit 0.
#[test]
fn short_comes_before_any_end() {
    let run = |out: &mut [u8]| second::run_book(b"en", b"en", 0, out);
    keeps(4_225, refused(Refusal::Short, 4, 0), run);
}

#[test]
fn ends_keep_the_bytes_past_the_board() {
    let mut out = vec![KEPT; LONGEST_BOARD + 100];
    let answer = second::run_book(&hat_book(), &hat_board(), 1, &mut out);
    let after = hat_board_after();
    assert_eq!(answer, ended(End::Limit, 1, 0, &after));
    assert_eq!(out[..after.len()], after);
    assert!(out[after.len()..].iter().all(|byte| *byte == KEPT));
}

#[test]
fn a_translation_keeps_the_bytes_past_the_strip() {
    let mut out = vec![KEPT; LONGEST_STRIP + 1];
    let answer = second::translate(b"en", &mut out);
    let expected = Answer {
        length: 8,
        ..accepted()
    };
    assert_eq!(answer, expected);
    assert_eq!(out[..8], word(12, 0, 0, 0, 0, 0));
    assert!(out[8..].iter().all(|byte| *byte == KEPT));
}

#[test]
fn limits_and_allowances_at_their_ends() {
    let strip = strip_of(&hat_book());
    let before = hat_board();
    let limit = (ended(End::Limit, 0, 255, &before), before.clone());
    assert_eq!(run_strip(&strip, &before, 0, 0), limit);
    let spent = (ended(End::Spent, 0, 255, &before), before.clone());
    assert_eq!(run_strip(&strip, &before, 1, 0), spent);
    let book = file(&[card(0), ru(), ba(0, &[]), he(0, &[])]);
    let board = file(&[ca(0, &[])]);
    ends_both(&book, &board, 65_535, End::Limit, 65_535, 0, &board);
}

/// SPENT in the second attempt leaves the board of the first firing.
#[test]
fn spent_keeps_the_completed_firings() {
    let book = file(&[
        card(1),
        card(1),
        ru(),
        ba(0, &[c(1)]),
        he(1, &[c(7)]),
        ru(),
        ba(0, &[c(2)]),
    ]);
    let strip = strip_of(&book);
    let before = file(&[ca(0, &[1]), ca(0, &[2])]);
    let between = file(&[ca(0, &[2]), ca(1, &[7])]);
    let after = file(&[ca(1, &[7])]);
    let first = second::attempt_steps(&strip, &before, 99).unwrap();
    let next = second::attempt_steps(&strip, &between, 99).unwrap();
    assert!(first < next);
    let spent = (ended(End::Spent, 1, 0, &between), between.clone());
    assert_eq!(run_strip(&strip, &before, 2, next - 1), spent);
    let limit = (ended(End::Limit, 2, 1, &after), after.clone());
    assert_eq!(run_strip(&strip, &before, 2, next), limit);
}

/// The display program itself, run in a folder of its own: a missing file is empty.
#[test]
fn the_display_program_reads_its_folder() {
    let folder = std::path::Path::new(env!("CARGO_TARGET_TMPDIR")).join("display");
    std::fs::remove_dir_all(&folder).ok();
    std::fs::create_dir_all(&folder).unwrap();
    let display = || {
        let mut program = std::process::Command::new(env!("CARGO_BIN_EXE_second"));
        let output = program.current_dir(&folder).output().unwrap();
        assert!(output.status.success());
        String::from_utf8(output.stdout).unwrap()
    };
    assert_eq!(display(), "refused book 1 0\n");
    std::fs::write(folder.join("book"), hat_book()).unwrap();
    assert_eq!(display(), "refused board 1 0\n");
    std::fs::write(folder.join("board"), hat_board()).unwrap();
    let text = "fired 1 end 20 rule 0\n\
                card 0 7 40\n\
                card 1 1\n\
                card 3 2 7 40\n\
                notice 2 2 7\n";
    assert_eq!(display(), text);
}
