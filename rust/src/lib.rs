//! The Llwybrenu engine, proved correct, as a safe Rust library. Every function takes any bytes, torn files too, and judges them itself.
//!
//! ```
//! // a book that ends at once is accepted; one that ends too early is refused by number and place
//! assert!(llwybrenu::check_book(b"en").is_accepted());
//! let answer = llwybrenu::check_book(b"kd");
//! assert_eq!((answer.name(), answer.file_name(), answer.place), ("CUT", "book", 2));
//! ```

mod answer;
mod engine;

pub use answer::Answer;

/// The longest rule book, in bytes. A longer file is refused.
pub const LONGEST_BOOK: usize = 17_794;
/// The longest board, in bytes: a run whose output has fewer bytes is refused as SHORT, whatever the board.
pub const LONGEST_BOARD: usize = 4_226;
/// The longest rule strip, in bytes: a translation whose output has fewer bytes is refused as SHORT, whatever the book.
pub const LONGEST_STRIP: usize = 44_808;

// Every call below is safe for one reason: pointer and length are a slice's own, the engine reads inside the files and writes inside the
// output, and keeps no pointer.

/// Is it a rule book?
pub fn check_book(book: &[u8]) -> Answer {
    unsafe { engine::llwybrenu_check_book(book.as_ptr(), book.len()) }
}

/// Is it a board of that book? The book is judged first.
///
/// ```
/// let book = b"kd\x00\x01en"; // one kind: cards with one number
/// assert!(llwybrenu::check_board(book, b"ca\x00\x07\x00en").is_accepted());
/// let torn = llwybrenu::check_board(book, b"ca\x00\x07");
/// assert_eq!((torn.name(), torn.file_name(), torn.place), ("CUT", "board", 4));
/// ```
pub fn check_board(book: &[u8], board: &[u8]) -> Answer {
    unsafe { engine::llwybrenu_check_board(book.as_ptr(), book.len(), board.as_ptr(), board.len()) }
}

/// Is it a rule strip?
pub fn check_strip(strip: &[u8]) -> Answer {
    unsafe { engine::llwybrenu_check_strip(strip.as_ptr(), strip.len()) }
}

/// Translates a rule book into a rule strip, from the start of the output. A refusal leaves every byte of the output as it was; so does an
/// acceptance past the length that it answers.
///
/// ```
/// let mut out = vec![7; llwybrenu::LONGEST_STRIP];
/// let answer = llwybrenu::translate(b"en", &mut out);
/// assert!(answer.is_accepted());
/// assert!(llwybrenu::check_strip(&out[..answer.length as usize]).is_accepted());
/// assert_eq!(out[answer.length as usize], 7);
/// ```
pub fn translate(book: &[u8], out: &mut [u8]) -> Answer {
    unsafe { engine::llwybrenu_translate(book.as_ptr(), book.len(), out.as_mut_ptr(), out.len()) }
}

/// Runs a rule book on a board, for at most `limit` firings, and writes the board as of the last completed firing from the start of the
/// output. A refusal leaves every byte of the output as it was; an end keeps those past the length that it answers.
///
/// ```
/// // kind 0 is used up and makes kind 1: x(A) -o y(A)
/// let book = b"kd\x00\x01kd\x00\x01ruba\x00\x01\x00\x00he\x01\x01\x00\x00en";
/// let mut out = [0; llwybrenu::LONGEST_BOARD];
/// let answer = llwybrenu::run_book(book, b"ca\x00\x09\x00ca\x00\x09\x00en", 100, &mut out);
/// assert_eq!((answer.name(), answer.firings, answer.rule), ("QUIET", 2, 0));
/// assert_eq!(&out[..answer.length as usize], b"ca\x01\x09\x00ca\x01\x09\x00en");
/// ```
pub fn run_book(book: &[u8], board: &[u8], limit: u16, out: &mut [u8]) -> Answer {
    unsafe {
        engine::llwybrenu_run_book(
            book.as_ptr(),
            book.len(),
            board.as_ptr(),
            board.len(),
            limit,
            out.as_mut_ptr(),
            out.len(),
        )
    }
}

/// Runs a rule strip on a board as [`run_book`] runs a book, with at most `allowance` steps for each attempt at a firing. A translated
/// strip ends with its book's answer and board, unless it answers SPENT.
///
/// ```
/// let book = b"kd\x00\x01kd\x00\x01ruba\x00\x01\x00\x00he\x01\x01\x00\x00en";
/// let mut strip = vec![0; llwybrenu::LONGEST_STRIP];
/// let translated = llwybrenu::translate(book, &mut strip);
/// let strip = &strip[..translated.length as usize];
/// let mut out = [0; llwybrenu::LONGEST_BOARD];
/// // a firing of this strip takes seven steps
/// assert_eq!(llwybrenu::run_strip(strip, b"ca\x00\x09\x00en", 1, 6, &mut out).name(), "SPENT");
/// assert_eq!(llwybrenu::run_strip(strip, b"ca\x00\x09\x00en", 1, 7, &mut out).name(), "LIMIT");
/// ```
pub fn run_strip(strip: &[u8], board: &[u8], limit: u16, allowance: u64, out: &mut [u8]) -> Answer {
    unsafe {
        engine::llwybrenu_run_strip(
            strip.as_ptr(),
            strip.len(),
            board.as_ptr(),
            board.len(),
            limit,
            allowance,
            out.as_mut_ptr(),
            out.len(),
        )
    }
}
