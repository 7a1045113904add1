/* Answers what the calls that are lent a gather buffer show of cells. oracle/lent.py says what comes on standard input and
 * what is written: words of 64 bits, and bytes.
 *
 * Each cell is asked for as a row, column by column from its cursor on, and by one column. The buffer and the table have
 * places behind them that no call may touch, and what is told of them is as true of the bytes inside. */
#include <stdbool.h>
#include <stdio.h>
#include <stdlib.h>
#include <string.h>

#include "shorgavel.h"

enum { BEHIND = 64, UNTOUCHED = 0xee, DATABASE = 1, ASK = 2 };

typedef struct {
    uint64_t reading, page, cell, column, room, places, fill;
} asked;

typedef struct {
    uint8_t *bytes;
    size_t room;
} bytes;

static void fail(const char *why) {
    fprintf(stderr, "lent: %s\n", why);
    exit(2);
}

/* STREAMS */

static bool get(void *into, size_t count) { return fread(into, 1, count, stdin) == count; }

static void put(const void *from, size_t count) {
    if (fwrite(from, 1, count, stdout) != count) fail("the answers cannot be written");
}

static void put_word(uint64_t word) { put(&word, sizeof word); }

static void put_refused(shorgavel_refused r) {
    put_word(r.number);
    put_word(r.mark);
    put_word(r.page);
    put_word(r.cell);
    put_word(r.column);
}

static void put_value(const shorgavel_value *v) {
    put_word(v->kind);
    put_word(v->width);
    put_word((uint64_t)v->integer);
    put_word(v->bits);
    put_word(v->at);
    put_word(v->len);
}

/* LENT THINGS */

static void need(bytes *b, size_t room) {
    if (b->bytes && b->room >= room) return;
    free(b->bytes);
    b->bytes = malloc(room);
    b->room = room;
    if (!b->bytes) fail("there is no memory");
}

static bool all(const uint8_t *from, size_t count, uint8_t byte) {
    return count == 0 || (from[0] == byte && memcmp(from, from + 1, count - 1) == 0);
}

/* How many bytes of a buffer there are up to the last that is not the one it was filled with. */
static size_t touched(const uint8_t *buffer, size_t room, uint8_t fill) {
    while (room > 0 && buffer[room - 1] == fill) room--;
    return room;
}

static void fill_buffer(bytes *buffer, const asked *a) {
    need(buffer, a->room + BEHIND);
    memset(buffer->bytes, (int)a->fill, a->room + BEHIND);
}

/* A table with one place behind it. */
static shorgavel_value *fill_table(bytes *table, size_t places) {
    need(table, (places + 1) * sizeof(shorgavel_value));
    memset(table->bytes, UNTOUCHED, (places + 1) * sizeof(shorgavel_value));
    return (shorgavel_value *)(void *)table->bytes;
}

static bool kept_behind(const shorgavel_value *table, size_t count, size_t places) {
    return all((const uint8_t *)(table + count), (places + 1 - count) * sizeof *table, UNTOUCHED);
}

/* THE CALLS */

static bool same_refused(shorgavel_refused a, shorgavel_refused b) {
    return a.number == b.number && a.mark == b.mark && a.page == b.page && a.cell == b.cell && a.column == b.column;
}

static bool same_row(const shorgavel_row *a, const shorgavel_row *b) {
    return same_refused(a->refused, b->refused) && a->number == b->number && a->columns == b->columns &&
           a->count == b->count && memcmp(&a->along, &b->along, sizeof a->along) == 0;
}

static bool same_value(const shorgavel_value *a, const shorgavel_value *b) {
    return a->kind == b->kind && a->width == b->width && a->integer == b->integer && a->bits == b->bits &&
           a->at == b->at && a->len == b->len;
}

/* The other columns of a row, from its cursor on. */
static size_t put_rest(const uint8_t *from, size_t length, const shorgavel_row *row, bytes *values, bool old) {
    size_t sent = row->count, places = row->count > 0 ? row->count : 1;
    shorgavel_along along = row->along;
    while (sent < row->columns) {
        shorgavel_value *table = fill_table(values, places);
        shorgavel_filled f = old ? shorgavel_old_values(from, length, along, table, SHORGAVEL_WORDS(places))
                                 : shorgavel_file_values(from, length, along, table, SHORGAVEL_WORDS(places));
        if (f.count == 0 || !kept_behind(table, f.count, places)) break;
        for (size_t i = 0; i < f.count; i++) put_value(&table[i]);
        sent += f.count;
        along = f.along;
    }
    return sent;
}

/* The old reading's value call takes no buffer. */
static shorgavel_lent_value column_lent(const uint8_t *db, size_t length, const asked *a, uint8_t *buffer) {
    if (a->reading == SHORGAVEL_OLD) {
        shorgavel_shown old = shorgavel_old_value(db, length, (uint32_t)a->page, a->cell, a->column);
        return (shorgavel_lent_value){.refused = old.refused, .value = old.value};
    }
    if (a->reading == SHORGAVEL_GUARDED)
        return shorgavel_guarded_value_lent(db, length, (uint32_t)a->page, a->cell, a->column, buffer, a->room);
    return shorgavel_file_value_lent(db, length, (uint32_t)a->page, a->cell, a->column, buffer, a->room);
}

/* What the calls say that are lent no buffer: of the cell, of its column, and of the row. */
static shorgavel_row put_plain(const uint8_t *db, size_t length, const asked *a, const shorgavel_opening *o, bytes *plain) {
    bool guarded = a->reading == SHORGAVEL_GUARDED;
    uint32_t page = (uint32_t)a->page;
    shorgavel_cell c =
        guarded ? shorgavel_guarded_cell(db, length, page, a->cell) : shorgavel_file_cell(db, length, page, a->cell);
    shorgavel_shown s = guarded ? shorgavel_guarded_value(db, length, page, a->cell, a->column)
                                : shorgavel_file_value(db, length, page, a->cell, a->column);
    put_refused(c.refused);
    put_refused(s.refused);
    shorgavel_row row = {0};
    shorgavel_value *table = fill_table(plain, a->places);
    if (o->refused.number == 0) row = shorgavel_row_in(db, length, o->opened, a->cell, table, SHORGAVEL_WORDS(a->places));
    put_refused(row.refused);
    return row;
}

static void put_column(const uint8_t *db, size_t length, const asked *a, const bytes *buffer, bytes *other) {
    fill_buffer(other, a);
    shorgavel_lent_value v = column_lent(db, length, a, other->bytes);
    put_refused(v.refused);
    put_value(&v.value);
    put_word(v.source);
    put_word(memcmp(buffer->bytes, other->bytes, a->room + BEHIND) == 0);
}

static void answer(const uint8_t *db, size_t length, const asked *a) {
    static bytes buffer, other, values, plain;
    bool old = a->reading == SHORGAVEL_OLD;
    shorgavel_opening o = shorgavel_open(db, length, (uint8_t)a->reading, (uint32_t)a->page);
    shorgavel_lent_row lent = {0};
    fill_buffer(&buffer, a);
    shorgavel_value *table = fill_table(&values, a->places);
    if (o.refused.number == 0)
        lent = shorgavel_row_lent(db, length, o.opened, a->cell, table, SHORGAVEL_WORDS(a->places), buffer.bytes, a->room);
    const shorgavel_row *row = &lent.row;
    put_refused(o.refused);
    put_refused(row->refused);
    put_word((uint64_t)row->number);
    put_word(row->columns);
    put_word(row->count);
    put(&row->along, sizeof row->along);
    put_word(lent.source);
    put_column(db, length, a, &buffer, &other);
    shorgavel_row in = put_plain(db, length, a, &o, &plain);
    const shorgavel_value *held = (const shorgavel_value *)(void *)plain.bytes;
    bool as_in = same_row(row, &in);
    for (size_t i = 0; as_in && i < in.count; i++) as_in = same_value(&table[i], &held[i]);
    put_word(as_in);
    put_word(kept_behind(table, row->count, a->places));
    put_word(all(buffer.bytes + a->room, BEHIND, (uint8_t)a->fill));
    size_t prefix = touched(buffer.bytes, a->room, (uint8_t)a->fill);
    put_word(prefix);
    put(buffer.bytes, prefix);
    put_word(row->columns);
    for (size_t i = 0; i < row->count; i++) put_value(&table[i]);
    size_t sent = put_rest(lent.source ? buffer.bytes : db, lent.source ? a->room : length, row, &values, old);
    shorgavel_value missing = {.kind = UNTOUCHED};
    for (; sent < row->columns; sent++) put_value(&missing);
}

int main(void) {
    uint64_t what, length = 0;
    bytes db = {0};
    static char written[1 << 20];
    setvbuf(stdout, written, _IOFBF, sizeof written);
    while (get(&what, sizeof what)) {
        asked a;
        if (what == DATABASE) {
            if (!get(&length, sizeof length)) fail("a database is cut short");
            /* An allocation of its own, so that a read behind its end is one behind the allocation. */
            free(db.bytes);
            db.bytes = NULL;
            need(&db, length > 0 ? length : 1);
            if (!get(db.bytes, length)) fail("a database is cut short");
        } else if (what == ASK) {
            if (!get(&a, sizeof a)) fail("a question is cut short");
            answer(db.bytes, length, &a);
        } else {
            fail("no such word");
        }
    }
    return fflush(stdout) == 0 ? 0 : 2;
}
