/* ours old|file|guarded|lent FILE PASSES: all values of all rows of all table leaves, PASSES times, by the calls for C.
 * ours walk|list|trusted FILE PASSES: the places and numbers of all rows of the table, whose root is page 2.
 *
 * `lent` is the file reading with a gather buffer lent, so that rows that spill are shown too; `walk` counts the rows and then
 * lists them, `list` lists them into a list that is known to be long enough, and `trusted` does so where all readings show every row
 * alike. It prints what the last pass was shown; with
 * no pass, it does everything but the work that is counted. */
#include <stdbool.h>
#include <stdlib.h>
#include <string.h>

#include "shorgavel.h"
#include "shown.h"

/* A row comes by one call with all of its columns, up to so many; more places cost nothing where they are not filled, and
 * neither does more room. LENT is no reading's number. */
enum { TABLE_LEAF = 13, PLACES = 64, ROOM = 65536, LENT = 3, ROOT = 2, ROW = sizeof(shorgavel_place) / sizeof(int64_t) };

typedef uint8_t reading;

static uint8_t gathered[ROOM];

/* Each reading has a pass of its own, with its calls in it, so that no row asks which reading it is. */
#define FOR_EACH_READING static inline __attribute__((always_inline))

static void fail(const char *why) {
    fprintf(stderr, "ours: %s\n", why);
    exit(2);
}

static reading named(const char *name) {
    if (strcmp(name, "old") == 0) return SHORGAVEL_OLD;
    if (strcmp(name, "file") == 0) return SHORGAVEL_FILE;
    if (strcmp(name, "lent") == 0) return LENT;
    if (strcmp(name, "guarded") != 0) fail("the readings are old, file, guarded and lent, the walks walk, list and trusted");
    return SHORGAVEL_GUARDED;
}

static uint8_t *load(const char *name, size_t *length) {
    FILE *file = fopen(name, "rb");
    if (!file || fseek(file, 0, SEEK_END) != 0) fail("the file cannot be opened");
    *length = (size_t)ftell(file);
    uint8_t *db = malloc(*length + 1);
    rewind(file);
    if (!db || fread(db, 1, *length, file) != *length) fail("the file cannot be read");
    fclose(file);
    return db;
}

static inline void show_value(shown *s, const uint8_t *db, const shorgavel_value *v) {
    s->values++;
    switch (v->kind) {
    case SHORGAVEL_INTEGER: show_integer(s, v->integer); break;
    case SHORGAVEL_REAL: show_real(s, v->bits); break;
    case SHORGAVEL_TEXT:
    case SHORGAVEL_BLOB: show_bytes(s, db + v->at, v->len); break;
    }
}

FOR_EACH_READING shorgavel_filled fill(reading r, const uint8_t *db, size_t length, shorgavel_along along,
                                       shorgavel_value *table) {
    if (r == SHORGAVEL_OLD) return shorgavel_old_values(db, length, along, table, SHORGAVEL_WORDS(PLACES));
    return shorgavel_file_values(db, length, along, table, SHORGAVEL_WORDS(PLACES));
}

static inline void show_values(shown *s, const uint8_t *db, const shorgavel_value *table, size_t count) {
    for (size_t i = 0; i < count; i++) show_value(s, db, &table[i]);
}

/* A row whose first columns are in the table; the others follow, table by table. */
FOR_EACH_READING void show_cell(reading r, shown *s, const uint8_t *db, size_t length, const shorgavel_row *row,
                                shorgavel_value *table) {
    show_row(s, row->number);
    show_values(s, db, table, row->count);
    shorgavel_along along = row->along;
    for (size_t left = row->columns - row->count; left > 0;) {
        shorgavel_filled f = fill(r, db, length, along, table);
        show_values(s, db, table, f.count);
        along = f.along;
        left -= f.count;
    }
}

FOR_EACH_READING shown pass(reading r, const uint8_t *db, size_t length, uint32_t pages) {
    uint32_t first = r == SHORGAVEL_OLD ? 0 : 1;
    shown s = {0, 0, 0, 0};
    shorgavel_value table[PLACES];
    for (uint32_t page = first; page < first + pages; page++) {
        shorgavel_opening o = shorgavel_open(db, length, r, page);
        if (o.refused.number != 0 || o.opened.kind != TABLE_LEAF) continue;
        for (size_t i = 0; i < o.opened.cells; i++) {
            shorgavel_row row = shorgavel_row_in(db, length, o.opened, i, table, SHORGAVEL_WORDS(PLACES));
            if (row.refused.number == 0) show_cell(r, &s, db, length, &row, table);
        }
    }
    return s;
}

/* Where the payload spills, the places of a row's values count in the buffer. */
static shown pass_lent(const uint8_t *db, size_t length, uint32_t pages) {
    shown s = {0, 0, 0, 0};
    shorgavel_value table[PLACES];
    for (uint32_t page = 1; page <= pages; page++) {
        shorgavel_opening o = shorgavel_open(db, length, SHORGAVEL_FILE, page);
        if (o.refused.number != 0 || o.opened.kind != TABLE_LEAF) continue;
        for (size_t i = 0; i < o.opened.cells; i++) {
            shorgavel_lent_row lent =
                shorgavel_row_lent(db, length, o.opened, i, table, SHORGAVEL_WORDS(PLACES), gathered, ROOM);
            if (lent.row.refused.number != 0) continue;
            if (lent.source) show_cell(SHORGAVEL_FILE, &s, gathered, ROOM, &lent.row, table);
            else show_cell(SHORGAVEL_FILE, &s, db, length, &lent.row, table);
        }
    }
    return s;
}

/* Only the row numbers are folded, since SQLite tells no places. */
static shown pass_list(bool trusts, const uint8_t *db, size_t length, int64_t *list, size_t words) {
    shown s = {0, 0, 0, 0};
    shorgavel_rows_answer listed = trusts ? shorgavel_trusted_rows(db, length, ROOT, list, words)
                                          : shorgavel_table_rows(db, length, ROOT, list, words);
    for (size_t i = 0; i < listed.count; i++) show_listed(&s, list[ROW * i + 2]);
    return s;
}

static shown walk(const char *how, const uint8_t *db, size_t length, int passes) {
    bool counts = strcmp(how, "walk") == 0, trusts = strcmp(how, "trusted") == 0;
    size_t words = ROW * shorgavel_table_count(db, length, ROOT).count;
    int64_t *list = malloc((words + 1) * sizeof *list);
    if (!list) fail("there is no memory");
    memset(list, 0, (words + 1) * sizeof *list);
    shown s = {0, 0, 0, 0};
    for (; passes > 0; passes--) {
        if (counts) words = ROW * shorgavel_table_count(db, length, ROOT).count;
        s = pass_list(trusts, db, length, list, words);
    }
    free(list);
    return s;
}

static bool is_walk(const char *how) {
    return strcmp(how, "walk") == 0 || strcmp(how, "list") == 0 || strcmp(how, "trusted") == 0;
}

static shown pass_of(reading r, const uint8_t *db, size_t length, uint32_t pages) {
    switch (r) {
    case SHORGAVEL_OLD: return pass(SHORGAVEL_OLD, db, length, pages);
    case SHORGAVEL_FILE: return pass(SHORGAVEL_FILE, db, length, pages);
    case LENT: return pass_lent(db, length, pages);
    default: return pass(SHORGAVEL_GUARDED, db, length, pages);
    }
}

int main(int count, char **words) {
    if (count != 4) fail("the words are a reading or a walk, a file and a number of passes");
    size_t length;
    uint8_t *db = load(words[2], &length);
    if (is_walk(words[1])) {
        print_shown(walk(words[1], db, length, atoi(words[3])));
        free(db);
        return 0;
    }
    reading r = named(words[1]);
    shorgavel_pages_answer pages = shorgavel_pages(db, length, r == LENT ? SHORGAVEL_FILE : r);
    if (pages.refused.number != 0) fail("the header is refused");
    shown s = {0, 0, 0, 0};
    for (int left = atoi(words[3]); left > 0; left--) s = pass_of(r, db, length, (uint32_t)pages.present);
    print_shown(s);
    free(db);
    return 0;
}
