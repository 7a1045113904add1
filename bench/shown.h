/* What a reader was shown of a database, folded into four numbers, in whatever order its rows come; but for a walk, whose row
 * numbers are folded in their order.
 *
 * bench/shown.rs does the same, but for walks. */
#ifndef SHOWN_H
#define SHOWN_H

#include <inttypes.h>
#include <stdint.h>
#include <stdio.h>

typedef struct {
    uint64_t rows;
    uint64_t values;
    uint64_t sum;
    uint64_t bits;
} shown;

static inline void show_row(shown *s, int64_t number) {
    s->rows++;
    s->sum += (uint64_t)number;
}

static inline void show_listed(shown *s, int64_t number) {
    s->rows++;
    s->sum = 3 * s->sum + (uint64_t)number;
}

static inline void show_integer(shown *s, int64_t number) { s->sum += (uint64_t)number; }

static inline void show_real(shown *s, uint64_t bits) { s->bits ^= bits; }

static inline void show_bytes(shown *s, const uint8_t *bytes, size_t len) { s->sum += len + (len > 0 ? bytes[0] : 0); }

static inline void print_shown(shown s) {
    printf("%" PRIu64 " rows, %" PRIu64 " values, sum %" PRIx64 ", bits %" PRIx64 "\n", s.rows, s.values, s.sum, s.bits);
}

#endif
