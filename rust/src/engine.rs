//! crates/engine as C sees it: a slice is a pointer and a length.

use crate::Answer;

extern "C" {
    pub fn llwybrenu_check_book(book: *const u8, book_len: usize) -> Answer;
    pub fn llwybrenu_check_board(
        book: *const u8,
        book_len: usize,
        board: *const u8,
        board_len: usize,
    ) -> Answer;
    pub fn llwybrenu_check_strip(strip: *const u8, strip_len: usize) -> Answer;
    pub fn llwybrenu_translate(
        book: *const u8,
        book_len: usize,
        out: *mut u8,
        out_len: usize,
    ) -> Answer;
    pub fn llwybrenu_run_book(
        book: *const u8,
        book_len: usize,
        board: *const u8,
        board_len: usize,
        limit: u16,
        out: *mut u8,
        out_len: usize,
    ) -> Answer;
    pub fn llwybrenu_run_strip(
        strip: *const u8,
        strip_len: usize,
        board: *const u8,
        board_len: usize,
        limit: u16,
        allowance: u64,
        out: *mut u8,
        out_len: usize,
    ) -> Answer;
}
