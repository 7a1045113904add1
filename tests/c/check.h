/* What the tests of the calls check with. */
#ifndef CHECK_H
#define CHECK_H

#include <stdio.h>

#include "shorgavel.h"

static int failed;

#define CHECK(what) check((what), #what, __LINE__)

static inline void check(int holds, const char *what, int line) {
    if (!holds) {
        printf("line %d: not so: %s\n", line, what);
        failed = 1;
    }
}

/* WHAT IS EXPECTED, field by field: structs have padding, which no call fills */

static inline int refused(shorgavel_refused r, int number, int mark, uint32_t page, size_t cell, size_t column) {
    return r.number == number && r.mark == mark && r.page == page && r.cell == cell && r.column == column;
}

static inline int same_refused(shorgavel_refused a, shorgavel_refused b) {
    return refused(a, b.number, b.mark, b.page, b.cell, b.column);
}

static inline int accepted(shorgavel_refused r) { return refused(r, 0, 0, 0, 0, 0); }

static inline int value(shorgavel_value v, int kind, int width, int64_t integer, uint64_t bits, size_t at, size_t len) {
    return v.kind == kind && v.width == width && v.integer == integer && v.bits == bits && v.at == at && v.len == len;
}

static inline int same_value(shorgavel_value a, shorgavel_value b) {
    return value(a, b.kind, b.width, b.integer, b.bits, b.at, b.len);
}

static inline int integer(shorgavel_value v, int width, int64_t z) {
    return value(v, SHORGAVEL_INTEGER, width, z, 0, 0, 0);
}

static inline int nothing(shorgavel_value v) { return value(v, SHORGAVEL_NULL, 0, 0, 0, 0, 0); }

static inline int along(shorgavel_along a, size_t at, size_t stop, size_t v, size_t end) {
    return a.at == at && a.stop == stop && a.value == v && a.end == end;
}

static inline int same_along(shorgavel_along a, shorgavel_along b) { return along(a, b.at, b.stop, b.value, b.end); }

/* TABLES, blank where nothing is stored */

/* More places than most rows here have columns. */
enum { PLACES = 9 };

static const shorgavel_value blank = {.kind = 255, .width = 7, .integer = 7, .bits = 7, .at = 7, .len = 7};

static inline int is_blank(shorgavel_value v) { return same_value(v, blank); }

static inline void make_blank(shorgavel_value *table) {
    for (size_t i = 0; i < PLACES; i++) table[i] = blank;
}

static inline int same_values(const shorgavel_value *a, const shorgavel_value *b, size_t count) {
    for (size_t i = 0; i < count; i++) {
        if (!same_value(a[i], b[i])) return 0;
    }
    return 1;
}

static inline int all_blank(const shorgavel_value *table) {
    for (size_t i = 0; i < PLACES; i++) {
        if (!is_blank(table[i])) return 0;
    }
    return 1;
}

/* DAMAGE */

/* A byte that looks drawn by lot, one time in three one that says something as a type, a length or an end. */
static inline uint8_t lot(void) {
    static const uint8_t telling[] = {0, 1, 7, 8, 9, 10, 11, 12, 13, 14, 15, 127, 128, 129, 255};
    static uint32_t state = 1;
    state = state * 1664525 + 1013904223;
    uint8_t byte = (uint8_t)(state >> 24);
    return (state >> 16) % 3 == 0 ? telling[byte % sizeof telling] : byte;
}

#endif
