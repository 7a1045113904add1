/* cells: asks the three calls on one cell, for oracle/cells.py, which has the words of its input and output. */
#include <stdbool.h>
#include <stdio.h>
#include <stdlib.h>

#include "shorgavel.h"

enum { DATABASE = 1, ASK = 2 };

static void fail(const char *why) {
    fprintf(stderr, "cells: %s\n", why);
    exit(2);
}

static bool get(void *to, size_t count) { return count == 0 || fread(to, 1, count, stdin) == count; }

static void put_word(uint64_t word) {
    if (fwrite(&word, sizeof word, 1, stdout) != 1) fail("the answers cannot be written");
}

static void put_cell(shorgavel_cell c) {
    put_word(c.refused.number);
    put_word(c.refused.mark);
    put_word(c.refused.page);
    put_word(c.refused.cell);
    put_word(c.refused.column);
    put_word((uint64_t)c.row);
    put_word(c.columns);
    put_word(c.along.at);
    put_word(c.along.stop);
    put_word(c.along.value);
    put_word(c.along.end);
    put_word(c.shortest);
}

/* Pages count from 1; old's from 0. */
static void answer(const uint8_t *db, size_t length, uint32_t page, size_t cell) {
    put_cell(shorgavel_old_cell(db, length, page - 1, cell));
    put_cell(shorgavel_file_cell(db, length, page, cell));
    put_cell(shorgavel_guarded_cell(db, length, page, cell));
}

int main(void) {
    uint64_t what, length = 0;
    uint8_t *db = NULL;
    static char written[1 << 20];
    setvbuf(stdout, written, _IOFBF, sizeof written);
    while (get(&what, sizeof what)) {
        uint64_t asked[2];
        if (what == DATABASE) {
            if (!get(&length, sizeof length)) fail("a database is cut short");
            /* An allocation of its own, so that a read behind its end is one behind the allocation. */
            free(db);
            db = malloc(length > 0 ? length : 1);
            if (!db || !get(db, length)) fail("a database is cut short");
        } else if (what == ASK) {
            if (!get(asked, sizeof asked)) fail("a question is cut short");
            answer(db, length, (uint32_t)asked[0], asked[1]);
        } else {
            fail("no such word");
        }
    }
    free(db);
    return fflush(stdout) == 0 ? 0 : 2;
}
