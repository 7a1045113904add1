/* listed: asks the calls for all rows of a table, and those for a table that both readings show alike, for oracle/listed.py, which
 * has the words of its input and output. */
#include <stdbool.h>
#include <stdio.h>
#include <stdlib.h>
#include <string.h>

#include "shorgavel.h"

enum { DATABASE = 1, ROWS = 2, TRUSTED = 3, ROW = sizeof(shorgavel_place) / sizeof(int64_t), BEHIND = 6 };

/* What a list is filled with before a call: no page, no cell and no row of the databases here. */
static const int64_t FILL = INT64_C(-0x5a5a5a5a5a5a5a5b);

static void fail(const char *why) {
    fprintf(stderr, "listed: %s\n", why);
    exit(2);
}

static bool get(void *to, size_t count) { return count == 0 || fread(to, 1, count, stdin) == count; }

static void put(const void *from, size_t count) {
    if (count > 0 && fwrite(from, 1, count, stdout) != count) fail("the answers cannot be written");
}

static void put_word(uint64_t word) { put(&word, sizeof word); }

static void put_answer(shorgavel_rows_answer a) {
    put_word(a.refused.number);
    put_word(a.refused.mark);
    put_word(a.refused.page);
    put_word(a.refused.cell);
    put_word(a.refused.column);
    put_word(a.count);
}

static bool is_filled(const int64_t *from, const int64_t *to) {
    while (from < to && *from == FILL) from++;
    return from == to;
}

/* A call that counts rows, and the one that lists them. */
typedef struct {
    shorgavel_rows_answer (*count)(const uint8_t *db, size_t length, uint32_t root);
    shorgavel_rows_answer (*rows)(const uint8_t *db, size_t length, uint32_t root, int64_t *list, size_t words);
} calls;

static calls named(uint64_t what) {
    if (what == ROWS) return (calls){shorgavel_table_count, shorgavel_table_rows};
    if (what != TRUSTED) fail("no such word");
    return (calls){shorgavel_trusted_count, shorgavel_trusted_rows};
}

/* The list has as many words as the rows of the walk take, and `more`; its words behind those are watched too. */
static void answer(calls ask, const uint8_t *db, size_t length, uint32_t root, int64_t more) {
    shorgavel_rows_answer counted = ask.count(db, length, root);
    int64_t room = (int64_t)shorgavel_table_count(db, length, root).count * ROW + more;
    size_t words = room > 0 ? (size_t)room : 0;
    int64_t *list = malloc((words + BEHIND) * sizeof *list);
    if (!list) fail("there is no memory");
    for (size_t i = 0; i < words + BEHIND; i++) list[i] = FILL;
    shorgavel_rows_answer listed = ask.rows(db, length, root, list, words);
    size_t written = listed.refused.number == 0 ? listed.count * ROW : 0;
    if (written > words) fail("there are more rows than the list has places");
    put_answer(counted);
    put_answer(listed);
    put_word(is_filled(list + written, list + words + BEHIND));
    put(list, written * sizeof *list);
    free(list);
}

int main(void) {
    uint64_t what, length = 0;
    uint8_t *db = NULL;
    static char written[1 << 20];
    setvbuf(stdout, written, _IOFBF, sizeof written);
    while (get(&what, sizeof what)) {
        int64_t asked[2];
        if (what == DATABASE) {
            if (!get(&length, sizeof length)) fail("a database is cut short");
            /* An allocation of its own, so that a read behind its end is one behind the allocation. */
            free(db);
            db = malloc(length > 0 ? length : 1);
            if (!db || !get(db, length)) fail("a database is cut short");
        } else {
            if (!get(asked, sizeof asked)) fail("a question is cut short");
            answer(named(what), db, length, (uint32_t)asked[0], asked[1]);
        }
    }
    free(db);
    return fflush(stdout) == 0 ? 0 : 2;
}
