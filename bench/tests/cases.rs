//! The benchmark cases do what their names say, and the tuned implementation answers them as the
//! second program does.

use bench::case_files::{longest_strip, Files};
use bench::cases::CASES;
use bench::programs::{SECOND, TUNED};
use bench::tuned::run_strip_counting;
use bench::tuned::tally::Count;
use llwybrenu::Answer;
use samples::longest::{longest_board, longest_book};
use second::sizes::{LONGEST_BOARD, LONGEST_BOOK, LONGEST_STRIP};

/// The files of the case of that name at the number of rows that it is named for.
fn named(name: &str) -> Files {
    let case = CASES.iter().find(|case| case.name == name);
    let case = case.expect("a case of that name");
    (case.files)(case.rows)
}

/// The answer of a case's strip, with its steps and rows.
fn counted(files: &Files) -> (Answer, Count) {
    let mut out = vec![0; LONGEST_BOARD];
    let mut count = Count::default();
    let (strip, board) = (&files.strip, &files.board);
    let answer = run_strip_counting(strip, board, files.limit, u64::MAX, &mut out, &mut count);
    (answer, count)
}

/// The number and firings of the case of that name.
fn end_of(name: &str) -> (u8, u16) {
    let (answer, _) = counted(&named(name));
    (answer.number, answer.firings)
}

#[test]
fn equal_answers_at_every_size() {
    for case in &CASES {
        for rows in case.sizes.iter().chain([&case.rows]) {
            let mut files = (case.files)(*rows);
            files.limit = files.limit.min(300);
            let mut outs = [vec![0xA5; LONGEST_BOARD], vec![0xA5; LONGEST_BOARD]];
            let [tuned, second] = &mut outs;
            let (book, board, limit) = (&files.book, &files.board, files.limit);
            let expected = (SECOND.run_book)(book, board, limit, second);
            assert_eq!((TUNED.run_book)(book, board, limit, tuned), expected);
            assert!(tuned == second, "book's output in {}", case.name);
            tuned.fill(0xA5);
            let by_strip = (TUNED.run_strip)(&files.strip, board, limit, u64::MAX, tuned);
            assert_eq!(by_strip, expected);
            assert!(tuned == second, "strip's output in {}", case.name);
        }
    }
}

#[test]
fn ends() {
    assert_eq!(end_of("join of 3, fits late"), (21, 1));
    assert_eq!(end_of("join of 3, never fits"), (20, 0));
    assert_eq!(end_of("join of 3 by tests"), (20, 0));
    assert_eq!(end_of("join of 4, never fits"), (20, 0));
    assert_eq!(end_of("ring of 4, quiet"), (20, 0));
    assert_eq!(end_of("sweep, all taken"), (20, 1));
    assert_eq!(end_of("sweep, none taken"), (20, 1));
    assert_eq!(end_of("notice sweep"), (20, 1));
    assert_eq!(end_of("firings of 1 card"), (21, 4_000));
    assert_eq!(end_of("firings of 2 cards"), (21, 4_000));
    assert_eq!(end_of("firings of card, notice"), (21, 4_000));
    assert_eq!(end_of("hat firings"), (20, 100));
}

#[test]
fn seven_steps_an_attempt() {
    let (answer, count) = counted(&named("short attempts"));
    assert_eq!(count.steps, 7 * u64::from(answer.firings));
}

#[test]
fn longest_files() {
    assert_eq!(longest_book().len(), LONGEST_BOOK);
    assert_eq!(longest_board().len(), LONGEST_BOARD);
    assert_eq!(longest_strip().len(), LONGEST_STRIP);
}
