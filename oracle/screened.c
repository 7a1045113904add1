/* screened: asks for a screenful, and for values one by one, for oracle/screened.py, which has the words of its input and output. */
#include <stdbool.h>
#include <stdio.h>
#include <stdlib.h>

#include "shorgavel.h"

enum { DATABASE = 1, SCREEN = 2, SINGLE = 3, BEHIND = 16 };

typedef struct {
    uint8_t *bytes;
    uint64_t length;
} database;

static void fail(const char *why) {
    fprintf(stderr, "screened: %s\n", why);
    exit(2);
}

static bool get(void *to, size_t count) { return count == 0 || fread(to, 1, count, stdin) == count; }

static void put(const void *from, size_t count) {
    if (count > 0 && fwrite(from, 1, count, stdout) != count) fail("the answers cannot be written");
}

static void *room(size_t bytes) {
    void *got = malloc(bytes > 0 ? bytes : 1);
    if (!got) fail("there is no memory");
    return got;
}

static void get_database(database *d) {
    free(d->bytes);
    if (!get(&d->length, sizeof d->length)) fail("a database is cut short");
    /* An allocation of its own, so that a read behind its end is one behind the allocation. */
    d->bytes = room(d->length);
    if (!get(d->bytes, d->length)) fail("a database is cut short");
}

/* What a word of the list of answers holds before the call: no two are alike. */
static uint64_t fill(size_t at) { return UINT64_C(0x9e3779b97f4a7c15) * (at + 1); }

/* The words of the list are told as they lie there, and those behind it, which the call may not touch. */
static void screen(const database *d) {
    uint64_t asked[3];
    if (!get(asked, sizeof asked)) fail("a screen is cut short");
    size_t told = asked[2] + BEHIND;
    void *addresses = room(asked[1] * sizeof(uint64_t));
    uint64_t *answers = room(told * sizeof *answers);
    if (!get(addresses, asked[1] * sizeof(uint64_t))) fail("a list of addresses is cut short");
    for (size_t i = 0; i < told; i++) answers[i] = fill(i);
    shorgavel_screen_answer s =
        shorgavel_screen(d->bytes, d->length, (uint8_t)asked[0], addresses, asked[1], (shorgavel_shown *)(void *)answers, asked[2]);
    uint64_t words[] = {s.refused.number, s.refused.mark, s.refused.page, s.refused.cell, s.refused.column, s.count};
    put(words, sizeof words);
    put(answers, told * sizeof *answers);
    free(answers);
    free(addresses);
}

static shorgavel_shown one(const database *d, uint64_t reading, uint32_t page, size_t cell, size_t column) {
    if (reading == SHORGAVEL_OLD) return shorgavel_old_value(d->bytes, d->length, page, cell, column);
    if (reading == SHORGAVEL_GUARDED) return shorgavel_guarded_value(d->bytes, d->length, page, cell, column);
    return shorgavel_file_value(d->bytes, d->length, page, cell, column);
}

static void single(const database *d) {
    uint64_t asked[4];
    if (!get(asked, sizeof asked)) fail("a question is cut short");
    shorgavel_shown s = one(d, asked[0], (uint32_t)asked[1], asked[2], asked[3]);
    uint64_t words[] = {s.refused.number, s.refused.mark,           s.refused.page, s.refused.cell, s.refused.column, s.value.kind,
                        s.value.width,    (uint64_t)s.value.integer, s.value.bits,   s.value.at,     s.value.len};
    put(words, sizeof words);
}

int main(void) {
    uint64_t what;
    database d = {room(0), 0};
    static char written[1 << 20];
    setvbuf(stdout, written, _IOFBF, sizeof written);
    while (get(&what, sizeof what)) {
        if (what == DATABASE)
            get_database(&d);
        else if (what == SCREEN)
            screen(&d);
        else if (what == SINGLE)
            single(&d);
        else
            fail("no such word");
    }
    return fflush(stdout) == 0 ? 0 : 2;
}
