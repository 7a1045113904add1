/* Calls every function of include/shorgavel.h that is lent a gather buffer, and checks every number that it answers and every
 * byte of the buffer.
 *
 * The database has nine pages of 512 bytes: page 2 is a table leaf, page 7 a leaf index and page 9 an interior index, with
 * cells that spill; the others are the overflow pages. Where a payload lies is worked by hand.
 */
#include <string.h>

#include "check.h"
#include "shorgavel.h"

enum { SIZE = 512, PAGES = 9, ROOM = 1100 };

static uint8_t db[PAGES * SIZE];
static size_t length = sizeof db;

/* The payload of the cell that is looked at, and the buffer that it is to be gathered in. */
static uint8_t note[ROOM];
static uint8_t buffer[ROOM];

static void fresh(void) { memset(buffer, 0xee, ROOM); }

/* So many bytes of the payload, and behind them what was there. */
static int holds(size_t count) {
    for (size_t i = count; i < ROOM; i++) {
        if (buffer[i] != 0xee) return 0;
    }
    return memcmp(buffer, note, count) == 0;
}

/* THE DATABASE */

/* A cell that spills: where it stands, what stands before its payload, how many bytes are kept of that, and its chain. */
typedef struct {
    uint32_t page;
    size_t cell, at, head, payload, kept;
    uint32_t chain[3];
} spilled;

/* At 512 bytes M is 39, and K is kept where it is at most 477 on a table leaf and 102 on an index. The first cell ends where its
 * page ends, so the number of its overflow page just fits. */
static const spilled spills[] = {
    {2, 0, 413, 3, 600, 92, {3}},    {2, 1, 367, 3, 478, 39, {4}},    {2, 2, 321, 3, 987, 39, {6, 5}},
    {7, 0, 467, 2, 200, 39, {8}},    {9, 0, 463, 6, 200, 39, {8}},
};
enum { SPILLS = sizeof spills / sizeof *spills, WHOLE = 3 };

static const spilled *const long_chain = &spills[2];

static int in_table(const spilled *s) { return s->page == 2; }

static uint8_t *page_at(uint32_t page) { return db + (size_t)(page - 1) * SIZE; }

static uint8_t *payload_at(const spilled *s) { return page_at(s->page) + s->at + s->head; }

static void put_number(uint8_t *at, uint32_t number) {
    for (int i = 3; i >= 0; i--, number >>= 8) at[i] = (uint8_t)number;
}

/* The columns 5, a text, null and a blob of two bytes: types 1, one of two bytes, 0 and 16. */
static void write_note(size_t payload) {
    size_t type = 13 + 2 * (payload - 9);
    memcpy(note, (uint8_t[]){6, 1, (uint8_t)(128 | type >> 7), type & 127, 0, 16, 5}, 7);
    for (size_t i = 7; i < payload; i++) note[i] = (uint8_t)('a' + i % 23);
}

/* The cell, and the note in what is kept of it and along its chain. */
static void lay(const spilled *s) {
    uint8_t *cell = page_at(s->page) + s->at;
    if (s->head == 6) put_number(cell, 1);
    uint8_t *size = s->head == 6 ? cell + 4 : cell;
    size[0] = (uint8_t)(128 | s->payload >> 7);
    size[1] = s->payload & 127;
    if (s->head == 3) cell[2] = (uint8_t)(s->cell + 1);
    memcpy(payload_at(s), note, s->kept);
    put_number(payload_at(s) + s->kept, s->chain[0]);
    size_t width = SIZE - db[20] - 4;
    for (size_t i = 0, done = s->kept; done < s->payload; i++, done += width) {
        put_number(page_at(s->chain[i]), s->chain[i + 1]);
        memcpy(page_at(s->chain[i]) + 4, note + done, s->payload - done < width ? s->payload - done : width);
    }
}

static void write_head(uint32_t page, uint8_t kind, uint8_t cells) {
    uint8_t *head = page_at(page) + (page == 1 ? 100 : 0);
    head[0] = kind;
    head[4] = cells;
}

static void write_pointer(uint32_t page, size_t cell, size_t at) {
    uint8_t *pointers = page_at(page) + (page == 9 ? 12 : 8);
    pointers[2 * cell] = (uint8_t)(at >> 8);
    pointers[2 * cell + 1] = at & 255;
}

static void write_opening(uint8_t reserved) {
    memset(db, 0, sizeof db);
    memcpy(db, "SQLite format 3", 16);
    memcpy(db + 16, (uint8_t[]){2, 0, 1, 1, reserved, 64, 32, 32}, 8);
    db[59] = 1;
    write_head(1, 13, 0);
}

/* The cells that spill, and one on page 2 that is whole: row 4, a 7. */
static void write_database(void) {
    write_opening(0);
    write_head(2, 13, 4);
    write_head(7, 10, 1);
    write_head(9, 2, 1);
    for (size_t i = 0; i < SPILLS; i++) {
        write_note(spills[i].payload);
        lay(&spills[i]);
        write_pointer(spills[i].page, spills[i].cell, spills[i].at);
    }
    write_pointer(2, WHOLE, 316);
    memcpy(page_at(2) + 316, "\x03\x04\x02\x01\x07", 5);
}

/* THE CALLS, each on a fresh buffer */

typedef shorgavel_lent_value value_call(const uint8_t *, size_t, uint32_t, size_t, size_t, uint8_t *, size_t);

static shorgavel_lent_value value_by(value_call *call, const spilled *s, size_t column, size_t room) {
    fresh();
    return call(db, length, s->page, s->cell, column, buffer, room);
}

static shorgavel_opened opened(uint8_t reading, uint32_t page) {
    return shorgavel_open(db, length, reading, reading == SHORGAVEL_OLD ? page - 1 : page).opened;
}

/* With a blank table of so many places. */
static shorgavel_lent_row row_by(shorgavel_opened page, size_t cell, shorgavel_value *table, size_t places, size_t room) {
    make_blank(table);
    fresh();
    return shorgavel_row_lent(db, length, page, cell, table, SHORGAVEL_WORDS(places), buffer, room);
}

static int value_refused(shorgavel_lent_value v, shorgavel_refused why, size_t held) {
    return same_refused(v.refused, why) && nothing(v.value) && v.source == 0 && holds(held);
}

/* On a refusal all else is 0, and the table is left as it was. */
static int row_refused(shorgavel_opened page, size_t cell, size_t room, shorgavel_refused why, size_t held) {
    shorgavel_value table[PLACES];
    shorgavel_lent_row r = row_by(page, cell, table, PLACES, room);
    return same_refused(r.row.refused, why) && r.source == 0 && r.row.number == 0 && r.row.columns == 0 && r.row.count == 0 &&
           along(r.row.along, 0, 0, 0, 0) && all_blank(table) && holds(held);
}

/* By every call, with so much of the payload in the buffer. */
static void all_refuse(const spilled *s, size_t room, int number, size_t column, size_t held) {
    shorgavel_refused why = {.number = (uint8_t)number, .page = s->page, .cell = s->cell, .column = column};
    CHECK(value_refused(value_by(shorgavel_file_value_lent, s, 0, room), why, held));
    CHECK(row_refused(opened(SHORGAVEL_FILE, s->page), s->cell, room, why, held));
    if (!in_table(s)) return;
    CHECK(value_refused(value_by(shorgavel_guarded_value_lent, s, 0, room), why, held));
    CHECK(row_refused(opened(SHORGAVEL_GUARDED, s->page), s->cell, room, why, held));
}

/* WHAT SPILLS IS SHOWN */

static int is_column(shorgavel_value v, size_t column, size_t payload) {
    switch (column) {
    case 0: return integer(v, 0, 5);
    case 1: return value(v, SHORGAVEL_TEXT, 0, 0, 0, 7, payload - 9);
    case 2: return nothing(v);
    default: return value(v, SHORGAVEL_BLOB, 0, 0, 0, payload - 2, 2);
    }
}

static void values_are_shown(const spilled *s, size_t room) {
    for (size_t column = 0; column < 4; column++) {
        shorgavel_lent_value v = value_by(shorgavel_file_value_lent, s, column, room);
        CHECK(accepted(v.refused) && is_column(v.value, column, s->payload) && v.source == 1 && holds(s->payload));
    }
    shorgavel_refused why = {.number = 20, .page = s->page};
    CHECK(value_refused(value_by(shorgavel_file_value_lent, s, 4, room), why, s->payload));
    CHECK(value_refused(value_by(shorgavel_file_value_lent, s, SIZE_MAX, room), why, s->payload));
}

/* With tables of every size; from the cursor on, the buffer has the others. */
static void row_is_shown(const spilled *s, size_t room) {
    shorgavel_value table[PLACES], rest[PLACES];
    for (size_t places = 0; places <= PLACES; places++) {
        shorgavel_lent_row r = row_by(opened(SHORGAVEL_FILE, s->page), s->cell, table, places, room);
        CHECK(accepted(r.row.refused) && r.source == 1 && holds(s->payload));
        CHECK(r.row.number == (in_table(s) ? (int64_t)s->cell + 1 : 0) && r.row.columns == 4);
        CHECK(r.row.count == (places < 4 ? places : 4));
        CHECK(places > 0 || along(r.row.along, 1, 6, 6, s->payload));
        for (size_t i = 0; i < PLACES; i++) {
            CHECK(i < r.row.count ? is_column(table[i], i, s->payload) : is_blank(table[i]));
        }
        shorgavel_filled f = shorgavel_file_values(buffer, room, r.row.along, rest, SHORGAVEL_WORDS(PLACES));
        CHECK(r.row.count + f.count == 4 && along(f.along, 6, 6, s->payload, s->payload));
        for (size_t i = 0; i < f.count; i++) CHECK(is_column(rest[i], r.row.count + i, s->payload));
    }
}

/* Guarded tells the mark; of an index it has nothing. */
static void guarded_refuses(const spilled *s, size_t room, uint8_t mark) {
    shorgavel_lent_value v = value_by(shorgavel_guarded_value_lent, s, 0, room);
    if (!in_table(s)) {
        CHECK(value_refused(v, (shorgavel_refused){.number = 10, .page = s->page}, 0));
        return;
    }
    shorgavel_refused why = {.number = 21, .mark = mark, .page = s->page, .cell = s->cell};
    CHECK(value_refused(v, why, s->payload));
    v = value_by(shorgavel_guarded_value_lent, s, 4, room);
    CHECK(value_refused(v, why, s->payload));
    CHECK(row_refused(opened(SHORGAVEL_GUARDED, s->page), s->cell, room, why, s->payload));
}

static void notes_are_shown(void) {
    CHECK(sizeof(shorgavel_lent_value) == 72 && sizeof(shorgavel_lent_row) == 88);
    for (const spilled *s = spills; s < spills + SPILLS; s++) {
        write_note(s->payload);
        for (size_t room = s->payload; room <= ROOM; room += ROOM - s->payload) {
            values_are_shown(s, room);
            row_is_shown(s, room);
            guarded_refuses(s, room, 5);
        }
        all_refuse(s, s->payload - 1, 24, 0, 0);
        all_refuse(s, 0, 24, 0, 0);
        CHECK(refused(shorgavel_file_value(db, length, s->page, s->cell, 0).refused, 18, 0, s->page, s->cell, 0));
        CHECK(refused(shorgavel_file_cell(db, length, s->page, s->cell).refused, 18, 0, s->page, s->cell, 0));
    }
}

/* WHAT IS WHOLE, and what the old reading shows, comes as with no buffer */

static void row_is_plain(uint8_t reading, uint32_t page, size_t cell) {
    shorgavel_value table[PLACES], expected[PLACES];
    make_blank(expected);
    shorgavel_lent_row r = row_by(opened(reading, page), cell, table, PLACES, ROOM);
    shorgavel_row row = shorgavel_row_in(db, length, opened(reading, page), cell, expected, SHORGAVEL_WORDS(PLACES));
    CHECK(same_refused(r.row.refused, row.refused) && r.row.number == row.number && r.row.columns == row.columns);
    CHECK(r.row.count == row.count && same_along(r.row.along, row.along) && same_values(table, expected, PLACES));
    CHECK(r.source == 0 && holds(0));
}

static void whole_rows(void) {
    static const spilled whole = {.page = 2, .cell = WHOLE}, absent = {.page = 2, .cell = WHOLE + 1};
    value_call *calls[] = {shorgavel_file_value_lent, shorgavel_guarded_value_lent};
    for (size_t c = 0; c < 2; c++) {
        shorgavel_lent_value v = value_by(calls[c], &whole, 0, ROOM);
        CHECK(accepted(v.refused) && integer(v.value, 0, 7) && v.source == 0 && holds(0));
        CHECK(value_refused(value_by(calls[c], &whole, 1, ROOM), (shorgavel_refused){.number = 20, .page = 2}, 0));
        CHECK(value_refused(value_by(calls[c], &absent, 0, ROOM), (shorgavel_refused){.number = 20, .page = 2}, 0));
    }
    for (uint8_t reading = SHORGAVEL_OLD; reading <= SHORGAVEL_GUARDED; reading++) {
        row_is_plain(reading, 2, WHOLE);
        row_is_plain(reading, 2, WHOLE + 1);
    }
    for (size_t i = 0; i < SPILLS; i++) row_is_plain(SHORGAVEL_OLD, spills[i].page, spills[i].cell);
}

/* Pages that no call opened. */
static void made_up_pages(void) {
    for (uint8_t r = SHORGAVEL_OLD; r <= SHORGAVEL_GUARDED; r++) {
        shorgavel_opened none = {r, 13, UINT32_MAX, UINT32_MAX, SIZE_MAX, SIZE_MAX, SIZE_MAX, SIZE_MAX};
        CHECK(row_refused(none, 0, ROOM, (shorgavel_refused){.number = 8, .page = UINT32_MAX}, 0));
    }
    shorgavel_opened index = opened(SHORGAVEL_FILE, 7);
    index.reading = SHORGAVEL_GUARDED;
    CHECK(row_refused(index, 0, ROOM, (shorgavel_refused){.number = 10, .page = 7}, 0));
}

/* CHAINS THAT ARE NOT SOUND: 23, and the buffer is left as it was */

static void chain_is_refused(uint8_t *at, uint32_t number) {
    put_number(at, number);
    all_refuse(long_chain, ROOM, 23, 0, 0);
    all_refuse(long_chain, long_chain->payload - 1, 24, 0, 0);
    write_database();
}

static void chains(void) {
    /* Outside of the file: at once, on the way, and where the file is cut. */
    uint8_t *first = payload_at(long_chain) + long_chain->kept;
    uint8_t *second = page_at(long_chain->chain[0]), *last = page_at(long_chain->chain[1]);
    chain_is_refused(first, PAGES + 1);
    chain_is_refused(first, UINT32_MAX);
    chain_is_refused(first, long_chain->page);
    chain_is_refused(second, PAGES + 1);
    length = 6 * SIZE - 1;
    all_refuse(long_chain, ROOM, 23, 0, 0);
    length = sizeof db;

    /* It ends early. */
    chain_is_refused(first, 0);
    chain_is_refused(first, long_chain->chain[1]);
    chain_is_refused(second, 0);

    /* It goes on, or in a circle. */
    chain_is_refused(last, 3);
    chain_is_refused(last, PAGES + 1);
    chain_is_refused(second, long_chain->chain[0]);
    chain_is_refused(last, long_chain->chain[0]);
}

/* What is kept passes the end by one byte of the overflow page's number: that is told before the chain is looked at. */
static void cut_short(void) {
    uint8_t *cell = page_at(2) + spills[0].at;
    memmove(cell + 1, cell, SIZE - spills[0].at - 1);
    write_pointer(2, 0, spills[0].at + 1);
    all_refuse(&spills[0], ROOM, 13, 0, 0);
    put_number(page_at(spills[0].chain[0]), 3);
    all_refuse(&spills[0], ROOM, 13, 0, 0);
    all_refuse(&spills[0], spills[0].payload - 1, 24, 0, 0);
    write_database();
}

/* WHAT IS GATHERED may be refused: the payload is in the buffer then */

static void spoil(size_t at, uint8_t byte) {
    write_note(spills[0].payload);
    note[at] = byte;
    lay(&spills[0]);
}

static void records(void) {
    const spilled *s = &spills[0];
    spoil(0, 3); /* the types do not end with the header */
    all_refuse(s, ROOM, 14, 0, s->payload);
    spoil(1, 10); /* a reserved type */
    all_refuse(s, ROOM, 15, 0, s->payload);
    spoil(3, note[3] + 2); /* the text is a byte longer, so the blob passes the end */
    all_refuse(s, ROOM, 16, 3, s->payload);
    spoil(5, 14); /* the blob is a byte shorter, so one is left over */
    all_refuse(s, ROOM, 16, 4, s->payload);

    /* The lowest mark is told. */
    spoil(4, 9);
    guarded_refuses(s, ROOM, 3);
    CHECK(integer(value_by(shorgavel_file_value_lent, s, 2, ROOM).value, 0, 1));
    spoil(4, 12);
    guarded_refuses(s, ROOM, 4);
    write_database();
}

/* A row of 300 columns, whose types spill as well. It is gone on with in the buffer, seven values at a time. */
static void many_columns(void) {
    static const spilled wide = {2, 0, 411, 3, 602, 94, {3}};
    enum { COLUMNS = 300, STEP = 7 };
    memcpy(note, "\x82\x2e", 2);
    for (size_t i = 0; i < COLUMNS; i++) {
        note[2 + i] = 1;
        note[2 + COLUMNS + i] = i % 100;
    }
    lay(&wide);
    write_pointer(2, 0, wide.at);
    shorgavel_value table[PLACES];
    shorgavel_lent_row r = row_by(opened(SHORGAVEL_FILE, 2), 0, table, STEP, ROOM);
    CHECK(accepted(r.row.refused) && r.source == 1 && r.row.number == 1 && r.row.columns == COLUMNS && holds(wide.payload));
    shorgavel_filled f = {r.row.count, r.row.along};
    size_t seen = 0;
    for (; f.count > 0; f = shorgavel_file_values(buffer, wide.payload, f.along, table, SHORGAVEL_WORDS(STEP))) {
        for (size_t i = 0; i < f.count; i++, seen++) CHECK(integer(table[i], 0, (int64_t)(seen % 100)));
    }
    CHECK(seen == COLUMNS);
    CHECK(integer(value_by(shorgavel_file_value_lent, &wide, 299, ROOM).value, 0, 99));
    guarded_refuses(&wide, ROOM, 2);
    write_database();
}

/* With 32 bytes reserved, a page ends at 480, an overflow page has 476 bytes, and of 600 there are kept 124. */
static void reserved(void) {
    static const spilled s = {2, 0, 349, 3, 600, 124, {4}};
    write_opening(32);
    write_head(2, 13, 1);
    write_note(s.payload);
    lay(&s);
    write_pointer(2, 0, s.at);
    values_are_shown(&s, ROOM);
    row_is_shown(&s, ROOM);
    guarded_refuses(&s, ROOM, 5);
    write_database();
}

/* DAMAGED COPIES: a row is what single calls answer, with the same bytes in the buffer */

static int lies_inside(shorgavel_value v, uint8_t source) {
    size_t end = source == 1 ? ROOM : sizeof db;
    return v.at <= end && v.len <= end - v.at;
}

static void row_is_values(value_call *call, uint8_t reading, size_t cell) {
    const spilled place = {.page = 2, .cell = cell};
    shorgavel_value table[PLACES];
    shorgavel_opened page = opened(reading, 2);
    if (page.kind != 13) return;
    shorgavel_lent_row r = row_by(page, cell, table, PLACES, ROOM);
    uint8_t gathered[ROOM];
    memcpy(gathered, buffer, ROOM);
    int number = r.row.refused.number;
    CHECK(number != 18 && (r.source == 1 || !(number == 0 || number == 13 || number >= 23) || holds(0)));
    for (size_t i = 0; i < r.row.count; i++) {
        shorgavel_lent_value v = value_by(call, &place, i, ROOM);
        CHECK(accepted(v.refused) && same_value(v.value, table[i]) && v.source == r.source);
        CHECK(memcmp(buffer, gathered, ROOM) == 0 && lies_inside(v.value, v.source));
    }
    shorgavel_lent_value v = value_by(call, &place, r.row.columns, ROOM);
    CHECK(number != 0 ? same_refused(v.refused, r.row.refused) : refused(v.refused, 20, 0, 2, 0, 0));
    CHECK(memcmp(buffer, gathered, ROOM) == 0);
    if (shorgavel_row_in(db, length, page, cell, table, 0).refused.number != 18) row_is_plain(reading, 2, cell);
}

static void damaged(void) {
    /* The page's head and pointers, its cells, and the numbers of the next pages. */
    static const size_t parts[][2] = {{SIZE, 16}, {SIZE + 316, 196}, {2 * SIZE, 8}, {4 * SIZE, 8}, {5 * SIZE, 8}};
    uint8_t sound[sizeof db];
    memcpy(sound, db, sizeof db);
    for (int copy = 0; copy < 20000; copy++) {
        for (int damage = copy % 4; damage >= 0; damage--) {
            const size_t *part = parts[(copy + damage) % 5];
            db[part[0] + lot() % part[1]] = lot();
        }
        for (size_t cell = 0; cell < 5; cell++) {
            row_is_values(shorgavel_file_value_lent, SHORGAVEL_FILE, cell);
            row_is_values(shorgavel_guarded_value_lent, SHORGAVEL_GUARDED, cell);
        }
        memcpy(db, sound, sizeof db);
    }
}

int main(void) {
    write_database();
    notes_are_shown();
    whole_rows();
    made_up_pages();
    chains();
    cut_short();
    records();
    many_columns();
    reserved();
    damaged();
    puts(failed ? "failed" : "every call that is lent a buffer answers as expected");
    return failed;
}
