/* A table whose root leads to two leaves, and a list of its rows, for the tests of the calls on a whole table. */
#ifndef TREE_H
#define TREE_H

#include <string.h>

#include "check.h"

enum { SIZE = 512, PAGES = 6, ROOT = 2, ROWS = 4, ROW = 3, WORDS = 32 };

static uint8_t db[PAGES * SIZE];
static int64_t list[WORDS];

static inline uint8_t *page_at(uint32_t page) { return db + (page - 1) * SIZE; }

static inline void put(uint8_t *at, const char *bytes, size_t count) { memcpy(at, bytes, count); }

/* All pages but the leaves 4 and 3: page 2 is an interior page with the key 2, and leads to them; page 1 has no row. */
static inline void write_root(void) {
    memset(db, 0, sizeof db);
    put(db, "SQLite format 3", 16);
    put(db + 16, "\x02\x00\x01\x01\x00\x40\x20\x20", 8);
    db[59] = 1;
    put(db + 100, "\x0d\0\0\0\0\x02\0\0", 8);
    put(page_at(2), "\x05\0\0\0\x01\x01\xfb\0\0\0\0\x03\x01\xfb", 14);
    put(page_at(2) + 507, "\0\0\0\x04\x02", 5);
}

static inline void fresh(void) { memset(list, 0xee, sizeof list); }

/* So many words, and behind them what was there. */
static inline int holds(const int64_t *words, size_t count) {
    int64_t blank;
    memset(&blank, 0xee, sizeof blank);
    for (size_t i = count; i < WORDS; i++) {
        if (list[i] != blank) return 0;
    }
    return memcmp(list, words, count * sizeof *words) == 0;
}

#endif
