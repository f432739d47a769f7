//! The files of each case, for any number of rows.

use samples::longest::longest_book;
use samples::writing::Term::V;
use samples::writing::{Board, Book, LESS};

/// The files of a case at one number of rows.
pub struct Files {
    pub book: Vec<u8>,
    pub board: Vec<u8>,
    pub strip: Vec<u8>,
    pub limit: u16,
}

/// The limit of the runs that go round without end.
const ROUNDS: u16 = 4_000;

/// x(A,B), y(B,C), z(C,A) over a third of the rows each: for each x an eighth of the y's fit, and
/// for none or only for the last pair a z.
pub fn join_of_three(rows: usize, fits: bool) -> Files {
    let third = (rows / 3) as u16;
    let mut book = Book::default();
    let [x, y, z, done] = [book.card(2), book.card(2), book.card(2), book.card(1)];
    book.rule();
    book.body(x, &[V(0), V(1)]);
    book.body(y, &[V(1), V(2)]);
    book.body(z, &[V(2), V(0)]);
    book.head(done, &[V(0)]);
    let mut board = Board::default();
    for i in 0..third {
        board.card(x, &[i, i % 8]);
    }
    for i in 0..third {
        board.card(y, &[i % 8, 1_000 + i]);
    }
    for i in 0..third {
        let closes = fits && i + 1 == third;
        board.card(z, &[1_000 + i, if closes { third - 1 } else { 2_000 }]);
    }
    files(book, board, 1)
}

/// x(A), y(B), z(C) with A < B, B < C, C < A over a third of the rows each: never.
pub fn join_by_tests(rows: usize) -> Files {
    let third = (rows / 3) as u16;
    let mut book = Book::default();
    let [x, y, z, done] = [book.card(1), book.card(1), book.card(1), book.card(0)];
    book.rule();
    book.body(x, &[V(0)]);
    book.body(y, &[V(1)]);
    book.body(z, &[V(2)]);
    book.test(LESS, V(0), V(1));
    book.test(LESS, V(1), V(2));
    book.test(LESS, V(2), V(0));
    book.head(done, &[]);
    let mut board = Board::default();
    for kind in [x, y, z] {
        (0..third).for_each(|i| board.card(kind, &[i]));
    }
    files(book, board, 1)
}

/// w(A,B), x(B,C), y(C,D), z(D,A) over a quarter of the rows each: at every depth an eighth of the
/// rows fit, but no z at the end.
pub fn join_of_four(rows: usize) -> Files {
    let mut book = Book::default();
    let kinds = [(); 4].map(|_| book.card(2));
    let done = book.card(0);
    book.rule();
    for i in 0..4 {
        book.body(kinds[usize::from(i)], &[V(i), V((i + 1) % 4)]);
    }
    book.head(done, &[]);
    let mut board = Board::default();
    for (place, kind) in kinds.into_iter().enumerate() {
        let last = if place == 3 { 2_000 } else { 0 };
        (0..(rows / 4) as u16).for_each(|i| board.card(kind, &[i % 8, last + i / 8 % 8]));
    }
    files(book, board, 1)
}

/// x(A,B), x(B,C), x(C,D), x(D,A) over a chain that doesn't close: quiet.
pub fn ring_of_four(rows: usize) -> Files {
    let mut book = Book::default();
    let [x, done] = [book.card(2), book.card(0)];
    book.rule();
    for i in 0..4 {
        book.body(x, &[V(i), V((i + 1) % 4)]);
    }
    book.head(done, &[]);
    let mut board = Board::default();
    for i in 0..rows as u16 {
        board.card(x, &[i, i + 1]);
    }
    files(book, board, 1)
}

/// go() with sweep a(X,K), b(K,Y) to p(X,Y) over half of the rows each; the b's stand in the
/// opposite order, or have other keys.
pub fn card_sweep(rows: usize, taken: bool) -> Files {
    // At 256 rows go() needs one of them.
    let half = (rows / 2).min(127) as u16;
    let mut book = Book::default();
    let [go, a, b] = [book.card(0), book.card(2), book.card(2)];
    let [p, done] = [book.card(2), book.card(0)];
    book.rule();
    book.body(go, &[]);
    book.head(done, &[]);
    book.sweep();
    book.body(a, &[V(0), V(1)]);
    book.body(b, &[V(1), V(2)]);
    book.head(p, &[V(0), V(2)]);
    let mut board = Board::default();
    board.card(go, &[]);
    for i in 0..half {
        board.card(a, &[1_000 + i, i]);
    }
    for i in 0..half {
        let key = half - 1 - i;
        board.card(b, &[if taken { key } else { key + half }, 2_000 + i]);
    }
    files(book, board, 10)
}

/// go() with sweep n(X,K), n(K,Y) to found(X,Y) over the notices; four choices are taken.
pub fn notice_sweep(rows: usize) -> Files {
    let mut book = Book::default();
    let [go, n, found] = [book.card(0), book.notice(2), book.card(2)];
    book.rule();
    book.body(go, &[]);
    book.sweep();
    book.body(n, &[V(0), V(1)]);
    book.body(n, &[V(1), V(2)]);
    book.head(found, &[V(0), V(2)]);
    let mut board = Board::default();
    board.card(go, &[]);
    let rows = rows as u16;
    for i in 0..rows {
        let links = i % (rows / 4) == 3;
        board.notice(n, &[i, if links { rows - 1 - i } else { 1_000 + i }]);
    }
    files(book, board, 10)
}

/// Counters that go round through three kinds, one card a firing.
pub fn one_card_firings(rows: usize) -> Files {
    let mut book = Book::default();
    let kinds = [book.card(1), book.card(1), book.card(1)];
    for i in 0..3 {
        book.rule();
        book.body(kinds[i], &[V(0)]);
        book.head(kinds[(i + 1) % 3], &[V(0)]);
    }
    let mut board = Board::default();
    (0..rows as u16).for_each(|i| board.card(kinds[0], &[i]));
    files(book, board, ROUNDS)
}

/// Pairs of cards with one key that exchange their counters for ever.
pub fn two_card_firings(rows: usize) -> Files {
    let mut book = Book::default();
    let [a, b] = [book.card(2), book.card(2)];
    book.rule();
    book.body(a, &[V(0), V(1)]);
    book.body(b, &[V(0), V(2)]);
    book.head(a, &[V(0), V(2)]);
    book.head(b, &[V(0), V(1)]);
    let mut board = Board::default();
    let half = (rows / 2) as u16;
    (0..half).for_each(|i| board.card(a, &[i, 1]));
    (0..half).for_each(|i| board.card(b, &[half - 1 - i, 2]));
    files(book, board, ROUNDS)
}

/// Counters that go round by a table of 60 notices.
pub fn card_and_notice_firings(rows: usize) -> Files {
    let mut book = Book::default();
    let [counter, next] = [book.card(1), book.notice(2)];
    book.rule();
    book.body(counter, &[V(0)]);
    book.body(next, &[V(0), V(1)]);
    book.head(counter, &[V(1)]);
    let mut board = Board::default();
    (0..rows as u16).for_each(|i| board.card(counter, &[i % 60]));
    (0..60).for_each(|i| board.notice(next, &[i, (i + 1) % 60]));
    files(book, board, ROUNDS)
}

/// c(N) makes c(N): seven steps for each attempt.
pub fn short_attempts(rows: usize) -> Files {
    let mut book = Book::default();
    let c = book.card(1);
    book.rule();
    book.body(c, &[V(0)]);
    book.head(c, &[V(0)]);
    let mut board = Board::default();
    (0..rows as u16).for_each(|i| board.card(c, &[i]));
    files(book, board, ROUNDS)
}

/// The hat book: half of the rows orders, half free machines, and a notice for each pair.
pub fn hat_firings(rows: usize) -> Files {
    let mut book = Book::default();
    let [order, free] = [book.card(2), book.card(1)];
    let [suits, start] = [book.notice(2), book.card(3)];
    book.rule();
    book.body(order, &[V(0), V(1)]);
    book.body(free, &[V(2)]);
    book.body(suits, &[V(2), V(0)]);
    book.head(start, &[V(2), V(0), V(1)]);
    let mut board = Board::default();
    let half = (rows / 2) as u16;
    (0..half).for_each(|i| board.card(order, &[i, 40]));
    (0..half).for_each(|i| board.card(free, &[i]));
    (0..half).for_each(|i| board.notice(suits, &[i, i]));
    files(book, board, 1_000)
}

/// The longest strip: the longest book's.
pub fn longest_strip() -> Vec<u8> {
    strip_of(&longest_book())
}

/// The files of a case.
fn files(book: Book, board: Board, limit: u16) -> Files {
    let book = book.finish();
    Files {
        strip: strip_of(&book),
        board: board.finish(),
        book,
        limit,
    }
}

/// The strip of a book.
fn strip_of(book: &[u8]) -> Vec<u8> {
    let mut strip = vec![0; second::sizes::LONGEST_STRIP];
    let answer = second::translate(book, &mut strip);
    assert_eq!(answer.number, 0, "a case's book is accepted");
    strip.truncate(answer.length as usize);
    strip
}
