/* Runs a book on a board and shows the end and the rows after it, or the refusal:
       cc c/example.c target/staticlib/libengine.a -o run && ./run examples/hat/book examples/hat/board
   With an allowance as a third word the book is translated first, and its strip is run. */
#include "llwybrenu.h"
#include <stdio.h>
#include <stdlib.h>

/* The firing limit of the display. */
enum { LIMIT = 100 };

/* One byte more than the longest file each: what is longer than that is refused all the same. */
static uint8_t book[LLWYBRENU_LONGEST_BOOK + 1], board[LLWYBRENU_LONGEST_BOARD + 1];
static uint8_t strip[LLWYBRENU_LONGEST_STRIP], out[LLWYBRENU_LONGEST_BOARD];

/* Reads a file as far as there is room, and gives its length. */
static size_t load(const char *name, uint8_t *bytes, size_t room) {
    FILE *file = fopen(name, "rb");
    if (!file) return 0; /* a missing file is empty */
    size_t length = fread(bytes, 1, room, file);
    fclose(file);
    return length;
}

/* Translates the book and runs its strip; a bad book is refused by the translation. */
static llwybrenu_answer run_as_strip(size_t book_length, size_t board_length, uint64_t allowance) {
    llwybrenu_answer translated = llwybrenu_translate(book, book_length, strip, sizeof strip);
    if (translated.number != LLWYBRENU_ACCEPTED) return translated;
    return llwybrenu_run_strip(strip, translated.length, board, board_length, LIMIT, allowance, out, sizeof out);
}

/* Prints a line for each row of the board that the engine wrote. Kinds stand first in a book, four bytes each, the arity last. */
static void show_rows(void) {
    const uint8_t *row = out;
    while (row[0] != 'e') {
        unsigned kind = row[2], arity = book[4 * kind + 3];
        printf("%s %u", row[0] == 'c' ? "card" : "notice", kind);
        row += 3;
        for (; arity > 0; arity--, row += 2) printf(" %u", row[0] + 256u * row[1]);
        printf("\n");
    }
}

int main(int count, char **words) {
    static const char *const files[] = {"", "book", "strip", "board", "output"};
    if (count != 3 && count != 4) {
        fprintf(stderr, "usage: %s BOOK BOARD [ALLOWANCE]\n", words[0]);
        return 2;
    }
    size_t book_length = load(words[1], book, sizeof book);
    size_t board_length = load(words[2], board, sizeof board);
    llwybrenu_answer answer = count == 4
                                  ? run_as_strip(book_length, board_length, strtoull(words[3], NULL, 10))
                                  : llwybrenu_run_book(book, book_length, board, board_length, LIMIT, out, sizeof out);
    if (answer.number <= LLWYBRENU_STRIP) {
        printf("refused %s %u %u\n", files[answer.file], answer.number, (unsigned)answer.place);
        return 1;
    }
    printf("fired %u end %u rule %u\n", answer.firings, answer.number, answer.rule);
    show_rows();
    return 0;
}
