/* The Llwybrenu engine for C. Every function takes any bytes, torn files too: it judges the files itself, reads nothing past the lengths
   given, and writes nothing but the output's first `length` bytes. It keeps nothing between calls, so calls on several threads are fine.
   Files and output must not overlap. */
#ifndef LLWYBRENU_H
#define LLWYBRENU_H

#include <stddef.h>
#include <stdint.h>

#ifdef __cplusplus
extern "C" {
#endif

/* The longest files, in bytes. A run needs an output of the longest board, a translation one of the longest strip, whatever the files:
   with fewer bytes they are refused as SHORT. */
#define LLWYBRENU_LONGEST_BOOK 17794
#define LLWYBRENU_LONGEST_BOARD 4226
#define LLWYBRENU_LONGEST_STRIP 44808

/* The numbers of an answer. Those from CUT to STRIP are refusals: nothing was written. */
enum {
    LLWYBRENU_ACCEPTED = 0,
    LLWYBRENU_CUT = 1,
    LLWYBRENU_MARK = 2,
    LLWYBRENU_PLACE = 3,
    LLWYBRENU_NOCARD = 4,
    LLWYBRENU_BARE = 5,
    LLWYBRENU_MANY = 6,
    LLWYBRENU_FIELD = 7,
    LLWYBRENU_LOOSE = 8,
    LLWYBRENU_TRAIL = 9,
    LLWYBRENU_SHORT = 10,
    LLWYBRENU_STRIP = 11,
    LLWYBRENU_QUIET = 20,
    LLWYBRENU_LIMIT = 21,
    LLWYBRENU_FULL = 22,
    LLWYBRENU_SPENT = 23,
    LLWYBRENU_STUCK = 24
};

/* What every function answers. number: above. file: which one a refusal is about: 0 none, 1 book, 2 strip, 3 board, 4 output.
   rule: the last fired rule, 255 if none. firings: those done. place: the byte in that file, for a strip the word. length: the bytes
   written. */
typedef struct {
    uint8_t number, file, rule;
    uint16_t firings;
    uint32_t place, length;
} llwybrenu_answer;

/* Is it a rule book? */
llwybrenu_answer llwybrenu_check_book(const uint8_t *book, size_t book_len);

/* Is it a board of that book? The book is judged first. */
llwybrenu_answer llwybrenu_check_board(const uint8_t *book, size_t book_len, const uint8_t *board, size_t board_len);

/* Is it a rule strip? */
llwybrenu_answer llwybrenu_check_strip(const uint8_t *strip, size_t strip_len);

/* Translates a rule book into a rule strip, from the start of the output. A refusal leaves every byte of the output as it was; so does an
   acceptance past the length that it answers. */
llwybrenu_answer llwybrenu_translate(const uint8_t *book, size_t book_len, uint8_t *out, size_t out_len);

/* Runs a rule book on a board, for at most `limit` firings, and writes the board as of the last completed firing from the start of the
   output. A refusal leaves every byte of the output as it was; an end keeps those past the length that it answers. */
llwybrenu_answer llwybrenu_run_book(const uint8_t *book, size_t book_len, const uint8_t *board, size_t board_len, uint16_t limit, uint8_t *out,
                                    size_t out_len);

/* Runs a rule strip on a board in the same way, with at most `allowance` steps for each attempt at a firing. A translated strip ends with
   its book's answer and board, unless it answers SPENT. */
llwybrenu_answer llwybrenu_run_strip(const uint8_t *strip, size_t strip_len, const uint8_t *board, size_t board_len, uint16_t limit,
                                     uint64_t allowance, uint8_t *out, size_t out_len);

#ifdef __cplusplus
}
#endif

#endif
