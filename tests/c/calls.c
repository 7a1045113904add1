/* Calls every function of include/shorgavel.h for a page and its cells that is lent no gather buffer, on a database of one page, and
 * checks every number that it answers; notes.c calls those that are lent one, shortest.c has cells with varints that are not in their
 * shortest form, and halves.c the page call on a half of a table.
 *
 * The page is a table leaf of two rows, worked by hand: cell 0 is an idle load, a type 9, which the old reading shows as 0.
 */
#include <stdio.h>
#include <string.h>

#include "check.h"
#include "shorgavel.h"

static uint8_t db[512];

static void put(size_t at, const char *bytes, size_t count) { memcpy(db + at, bytes, count); }

#define PUT(at, bytes) put((at), (bytes), sizeof(bytes) - 1)

static void write_database(void) {
    PUT(0, "SQLite format 3\0");
    PUT(16, "\x02\x00\x01\x01\x00\x40\x20\x20");
    PUT(59, "\x01");
    PUT(100, "\x0d\x00\x00\x00\x02\x01\xee\x00\x01\xf7\x01\xee");
    PUT(494, "\x07\x02\x03\x08\x04\x01\x00\x00\x00");
    PUT(503, "\x07\x01\x03\x09\x04\x01\x00\x00\x00");
}

/* THE CALLS */

static void header(void) {
    shorgavel_header_answer h = shorgavel_header(db, sizeof db, SHORGAVEL_FILE);
    CHECK(accepted(h.refused));
    CHECK(h.fields.page_size == 512 && h.fields.write_version == 1 && h.fields.read_version == 1);
    CHECK(h.fields.reserved_space == 0 && h.fields.max_payload_fraction == 64);
    CHECK(h.fields.min_payload_fraction == 32 && h.fields.leaf_payload_fraction == 32);
    CHECK(h.fields.file_change_counter == 0 && h.fields.db_size == 0 && h.fields.db_text_encoding == 1);
    CHECK(h.fields.user_version == 0 && h.fields.sqlite_version_number == 0);

    /* Each field has a place of its own: the header of a file whose bytes from 24 on count upwards. */
    uint8_t counting[512];
    memcpy(counting, db, sizeof db);
    for (size_t i = 24; i < 100; i++) counting[i] = (uint8_t)i;
    counting[20] = 8;
    counting[56] = counting[57] = counting[58] = 0;
    counting[59] = 2;
    h = shorgavel_header(counting, sizeof counting, SHORGAVEL_FILE);
    CHECK(accepted(h.refused) && h.fields.reserved_space == 8);
    CHECK(h.fields.file_change_counter == 0x18191a1b && h.fields.db_size == 0x1c1d1e1f);
    CHECK(h.fields.first_freelist_page_no == 0x20212223 && h.fields.total_freelist_pages == 0x24252627);
    CHECK(h.fields.schema_cookie == 0x28292a2b && h.fields.schema_format_no == 0x2c2d2e2f);
    CHECK(h.fields.default_page_cache_size == 0x30313233 && h.fields.no_largest_root_b_tree == 0x34353637);
    CHECK(h.fields.db_text_encoding == 2 && h.fields.user_version == 0x3c3d3e3f);
    CHECK(h.fields.incremental_vacuum_mode == 0x40414243 && h.fields.application_id == 0x44454647);
    CHECK(h.fields.version_valid_for_no == 0x5c5d5e5f && h.fields.sqlite_version_number == 0x60616263);
    CHECK(shorgavel_header(counting, sizeof counting, SHORGAVEL_OLD).fields.reserved_space == 0);

    h = shorgavel_header(db, 99, SHORGAVEL_OLD);
    CHECK(refused(h.refused, 2, 0, 0, 0, 0) && h.fields.page_size == 0);
    CHECK(refused(shorgavel_header(db, 0, SHORGAVEL_FILE).refused, 1, 0, 0, 0, 0));
}

/* As many pages as are whole, and none with no bytes. */
static void pages(void) {
    uint8_t file[3 * sizeof db + 511] = {0};
    memcpy(file, db, sizeof db);
    for (uint8_t r = SHORGAVEL_OLD; r <= SHORGAVEL_GUARDED; r++) {
        shorgavel_pages_answer p = shorgavel_pages(file, sizeof file, r);
        CHECK(accepted(p.refused) && p.count == 3);
        CHECK(shorgavel_pages(file, 3 * sizeof db, r).count == 3 && shorgavel_pages(file, 3 * sizeof db - 1, r).count == 2);
        CHECK(shorgavel_pages(db, sizeof db, r).count == 1 && shorgavel_pages(db, sizeof db - 1, r).count == 0);
        p = shorgavel_pages(db, 99, r);
        CHECK(refused(p.refused, 2, 0, 0, 0, 0) && p.count == 0);
        CHECK(refused(shorgavel_pages(db, 0, r).refused, 1, 0, 0, 0, 0));
    }
    file[16] = 0;
    shorgavel_pages_answer p = shorgavel_pages(file, sizeof file, SHORGAVEL_OLD);
    CHECK(accepted(p.refused) && p.count == 0);
    p = shorgavel_pages(file, sizeof file, SHORGAVEL_FILE);
    CHECK(refused(p.refused, 4, 0, 0, 0, 0) && p.count == 0);
}

/* The size at byte 28 counts where the counters at 24 and 92 are equal, and not in the old reading; a page is still to be there. */
static void stated(void) {
    uint8_t file[3 * sizeof db] = {0};
    memcpy(file, db, sizeof db);
    memcpy(file + 2 * sizeof db, db + 100, sizeof db - 100);
    for (uint8_t r = SHORGAVEL_OLD; r <= SHORGAVEL_GUARDED; r++) {
        uint32_t first = r == SHORGAVEL_OLD ? 0 : 1;
        file[31] = 2;
        shorgavel_pages_answer p = shorgavel_pages(file, sizeof file, r);
        CHECK(p.count == (r == SHORGAVEL_OLD ? 3 : 2) && p.present == p.count);
        CHECK(shorgavel_open(file, sizeof file, r, first + 2).refused.number == (r == SHORGAVEL_OLD ? 0 : 8));
        file[31] = 5;
        p = shorgavel_pages(file, sizeof file, r);
        CHECK(p.count == (r == SHORGAVEL_OLD ? 3 : 5) && p.present == 3);
        CHECK(shorgavel_open(file, sizeof file, r, first + 3).refused.number == 8);
        file[95] = 1;
        p = shorgavel_pages(file, sizeof file, r);
        CHECK(p.count == 3 && p.present == 3);
        file[31] = file[95] = 0;
        CHECK(shorgavel_pages(file, sizeof file, r).count == 3);
    }
}

static void page(void) {
    shorgavel_page_answer p = shorgavel_page(db, sizeof db, SHORGAVEL_FILE, 1);
    CHECK(accepted(p.refused));
    CHECK(p.head.kind == 13 && p.head.first_freeblock == 0 && p.head.cells == 2);
    CHECK(p.head.content_start == 494 && p.head.fragmented == 0 && p.head.rightmost == 0);
    CHECK(shorgavel_page(db, sizeof db, SHORGAVEL_OLD, 0).head.cells == 2);
    p = shorgavel_page(db, sizeof db, SHORGAVEL_FILE, 2);
    CHECK(refused(p.refused, 8, 0, 2, 0, 0) && p.head.cells == 0);
    CHECK(refused(shorgavel_page(db, sizeof db, SHORGAVEL_OLD, 1).refused, 8, 0, 1, 0, 0));

    shorgavel_cell_entry e = shorgavel_entry(db, sizeof db, SHORGAVEL_FILE, 1, 1);
    CHECK(e.kind == 13 && e.pointer == 494 && e.child == 0 && e.payload_size == 7);
    CHECK(e.row == 2 && e.header_size == 3 && e.columns == 2);
    CHECK(shorgavel_entry(db, sizeof db, SHORGAVEL_OLD, 0, 0).pointer == 503);
    CHECK(shorgavel_entry(db, sizeof db, SHORGAVEL_FILE, 1, 2).kind == 0);
}

/* A table is filled from its first place on, and left alone behind the last entry and on a refusal. */
static void entries(void) {
    shorgavel_cell_entry table[3];
    for (size_t i = 0; i < 3; i++) table[i] = (shorgavel_cell_entry){.kind = 255, .pointer = 7};

    shorgavel_page_answer p = shorgavel_entries(db, sizeof db, SHORGAVEL_FILE, 1, table, 1);
    CHECK(refused(p.refused, 19, 0, 1, 0, 0) && p.head.cells == 0 && table[0].kind == 255);

    p = shorgavel_entries(db, sizeof db, SHORGAVEL_FILE, 1, table, 3);
    CHECK(accepted(p.refused) && p.head.kind == 13 && p.head.cells == 2 && p.head.content_start == 494);
    CHECK(table[0].kind == 13 && table[0].pointer == 503 && table[0].row == 1 && table[0].columns == 2);
    CHECK(table[1].kind == 13 && table[1].pointer == 494 && table[1].row == 2 && table[1].payload_size == 7);
    CHECK(table[2].kind == 255 && table[2].pointer == 7);
}

/* A row's two values along its cursor: one by one, both at once, and none behind them. */
typedef shorgavel_filled values_call(const uint8_t *, size_t, shorgavel_along, shorgavel_value *, size_t);

static void two_values(values_call *fill, shorgavel_along first, int64_t z, int width, int wider) {
    shorgavel_value table[3] = {blank, blank, blank};
    shorgavel_filled f = fill(db, sizeof db, first, table, SHORGAVEL_WORDS(1));
    CHECK(f.count == 1 && integer(table[0], width, z) && is_blank(table[1]));
    f = fill(db, sizeof db, f.along, table, SHORGAVEL_WORDS(1));
    CHECK(f.count == 1 && integer(table[0], wider, 16777216) && is_blank(table[1]));
    shorgavel_along last = f.along;

    table[0] = blank;
    f = fill(db, sizeof db, last, table, SHORGAVEL_WORDS(3));
    CHECK(f.count == 0 && is_blank(table[0]) && along(f.along, last.at, last.stop, last.value, last.end));

    f = fill(db, sizeof db, first, table, SHORGAVEL_WORDS(3));
    CHECK(f.count == 2 && integer(table[0], width, z) && integer(table[1], wider, 16777216) && is_blank(table[2]));
    CHECK(along(f.along, last.at, last.stop, last.value, last.end));
    CHECK(fill(db, sizeof db, first, table, SHORGAVEL_WORDS(1) - 1).count == 0);
}

static void cells(void) {
    shorgavel_cell c = shorgavel_old_cell(db, sizeof db, 0, 0);
    CHECK(accepted(c.refused) && c.row == 1 && c.columns == 2 && c.shortest == 1);
    CHECK(along(c.along, 506, 508, 508, 512));
    two_values(shorgavel_old_values, c.along, 0, 8, 32);

    c = shorgavel_file_cell(db, sizeof db, 1, 0);
    CHECK(accepted(c.refused) && c.row == 1 && c.columns == 2 && c.shortest == 1);
    CHECK(along(c.along, 506, 508, 508, 512));
    two_values(shorgavel_file_values, c.along, 1, 0, 0);

    c = shorgavel_guarded_cell(db, sizeof db, 1, 0);
    CHECK(refused(c.refused, 21, 3, 1, 0, 0) && c.row == 0 && c.columns == 0 && c.shortest == 0);
    CHECK(along(c.along, 0, 0, 0, 0));

    c = shorgavel_old_cell(db, sizeof db, 0, 1);
    CHECK(accepted(c.refused) && c.row == 2 && c.columns == 2 && c.shortest == 1);
    two_values(shorgavel_old_values, c.along, 0, 8, 32);
    c = shorgavel_file_cell(db, sizeof db, 1, 1);
    CHECK(accepted(c.refused) && c.row == 2 && c.columns == 2 && c.shortest == 1);
    two_values(shorgavel_file_values, c.along, 0, 0, 0);
    c = shorgavel_guarded_cell(db, sizeof db, 1, 1);
    CHECK(accepted(c.refused) && c.row == 2 && c.columns == 2 && c.shortest == 1);
    two_values(shorgavel_file_values, c.along, 0, 0, 0);

    CHECK(refused(shorgavel_file_cell(db, sizeof db, 1, 2).refused, 20, 0, 1, 0, 0));
}

static int opened(shorgavel_opened o, int reading) {
    return o.reading == reading && o.kind == 13 && o.end == 512 && o.number == (reading == SHORGAVEL_OLD ? 0 : 1) &&
           o.at == 0 && o.size == 512 && o.from == 100 && o.cells == 2;
}

static shorgavel_opening open_page(uint8_t reading) {
    return shorgavel_open(db, sizeof db, reading, reading == SHORGAVEL_OLD ? 0 : 1);
}

/* The kinds of pages that are no table leaf. */
static const uint8_t others[] = {2, 5, 10};

/* The answer tells the reading; guarded opens table leaves alone, and other numbers are the file reading. */
static void opened_pages(void) {
    for (uint8_t r = SHORGAVEL_OLD; r <= SHORGAVEL_GUARDED; r++) {
        shorgavel_opening o = open_page(r);
        CHECK(accepted(o.refused) && opened(o.opened, r));
    }
    CHECK(opened(open_page(3).opened, SHORGAVEL_FILE) && opened(open_page(255).opened, SHORGAVEL_FILE));
    CHECK(refused(shorgavel_open(db, sizeof db, SHORGAVEL_FILE, 2).refused, 8, 0, 2, 0, 0));
    CHECK(refused(shorgavel_open(db, sizeof db, SHORGAVEL_GUARDED, 0).refused, 8, 0, 0, 0, 0));
    CHECK(refused(shorgavel_open(db, sizeof db, SHORGAVEL_GUARDED, 2).refused, 8, 0, 2, 0, 0));

    for (size_t i = 0; i < sizeof others; i++) {
        db[100] = others[i];
        shorgavel_opening guarded = open_page(SHORGAVEL_GUARDED);
        CHECK(refused(guarded.refused, 10, 0, 1, 0, 0) && guarded.opened.cells == 0 && guarded.opened.kind == 0);
        CHECK(open_page(SHORGAVEL_OLD).opened.kind == others[i] && open_page(SHORGAVEL_FILE).opened.kind == others[i]);
    }
    db[100] = 13;

    /* Elsewhere guarded's number is one of the others. */
    CHECK(shorgavel_header(db, sizeof db, SHORGAVEL_GUARDED).fields.page_size == 512);
    CHECK(shorgavel_page(db, sizeof db, SHORGAVEL_GUARDED, 1).head.cells == 2);
    CHECK(shorgavel_entry(db, sizeof db, SHORGAVEL_GUARDED, 1, 1).pointer == 494);
}

/* ROWS OF AN OPENED PAGE: what the calls on one cell and the values calls answer */

typedef shorgavel_cell cell_call(const uint8_t *, size_t, uint32_t, size_t);

typedef struct {
    uint8_t number;
    uint32_t page;
    cell_call *cell;
    values_call *fill;
} reading;

static const reading readings[] = {
    {SHORGAVEL_OLD, 0, shorgavel_old_cell, shorgavel_old_values},
    {SHORGAVEL_FILE, 1, shorgavel_file_cell, shorgavel_file_values},
    {SHORGAVEL_GUARDED, 1, shorgavel_guarded_cell, shorgavel_file_values},
};

static int same_head(const shorgavel_row *row, const shorgavel_cell *c) {
    return same_refused(row->refused, c->refused) && row->number == c->row && row->columns == c->columns;
}

/* With a table of so many words: the values that fit, nothing behind them, and the others from the cursor on. */
static void row_is_cell(const reading *r, shorgavel_opened page, size_t cell, size_t words) {
    shorgavel_value table[PLACES], expected[PLACES], rest[PLACES];
    make_blank(table);
    make_blank(expected);
    shorgavel_row row = shorgavel_row_in(db, sizeof db, page, cell, table, words);
    shorgavel_cell c = r->cell(db, sizeof db, r->page, cell);
    CHECK(same_head(&row, &c));
    if (c.refused.number != 0) {
        CHECK(row.count == 0 && along(row.along, 0, 0, 0, 0) && all_blank(table));
        return;
    }
    size_t places = words / SHORGAVEL_WORDS(1);
    CHECK(row.count == (c.columns < places ? c.columns : places));
    shorgavel_filled f = r->fill(db, sizeof db, c.along, expected, words);
    CHECK(row.count == f.count && same_along(row.along, f.along) && same_values(table, expected, PLACES));
    CHECK(places > 0 || same_along(row.along, c.along));

    shorgavel_filled all = r->fill(db, sizeof db, c.along, expected, SHORGAVEL_WORDS(PLACES));
    f = r->fill(db, sizeof db, row.along, rest, SHORGAVEL_WORDS(PLACES));
    CHECK(row.count + f.count == c.columns && same_along(f.along, all.along));
    CHECK(same_values(rest, expected + row.count, f.count));
}

/* Every cell and one that is not there, in the readings that open the page, with tables of every size. */
static void rows_are_cells(void) {
    for (size_t i = 0; i < 3; i++) {
        shorgavel_opening o = open_page(readings[i].number);
        if (o.refused.number != 0) continue;
        for (size_t cell = 0; cell < 3; cell++) {
            for (size_t words = 0; words <= SHORGAVEL_WORDS(PLACES); words++) {
                row_is_cell(&readings[i], o.opened, cell, words);
            }
        }
    }
}

static void rows(void) {
    CHECK(sizeof(shorgavel_refused) == 24 && sizeof(shorgavel_row) == 80);
    rows_are_cells();
    shorgavel_value table[PLACES];
    make_blank(table);
    shorgavel_row row = shorgavel_row_in(db, sizeof db, open_page(SHORGAVEL_OLD).opened, 0, table, SHORGAVEL_WORDS(2));
    CHECK(accepted(row.refused) && row.number == 1 && row.columns == 2 && row.count == 2);
    CHECK(along(row.along, 508, 508, 512, 512) && integer(table[0], 8, 0) && integer(table[1], 32, 16777216));
    row = shorgavel_row_in(db, sizeof db, open_page(SHORGAVEL_FILE).opened, 0, table, SHORGAVEL_WORDS(1));
    CHECK(accepted(row.refused) && row.number == 1 && row.columns == 2 && row.count == 1);
    CHECK(along(row.along, 507, 508, 508, 512) && integer(table[0], 0, 1) && integer(table[1], 32, 16777216));
    row = shorgavel_row_in(db, sizeof db, open_page(SHORGAVEL_GUARDED).opened, 1, table, SHORGAVEL_WORDS(PLACES));
    CHECK(accepted(row.refused) && row.number == 2 && row.columns == 2 && row.count == 2);
    CHECK(integer(table[0], 0, 0) && integer(table[1], 0, 16777216) && is_blank(table[2]));

    for (size_t i = 0; i < sizeof others; i++) {
        db[100] = others[i];
        rows_are_cells();
    }
    db[100] = 13;
}

/* On a refusal all else but its page is 0, and the table is left as it was. */
static int row_refused(const uint8_t *bytes, size_t length, shorgavel_opened page, size_t cell, int number, int mark) {
    shorgavel_value table[PLACES];
    make_blank(table);
    shorgavel_row row = shorgavel_row_in(bytes, length, page, cell, table, SHORGAVEL_WORDS(PLACES));
    return row.refused.number == number && row.refused.mark == mark && row.refused.page == page.number && row.number == 0 &&
           row.columns == 0 && row.count == 0 && along(row.along, 0, 0, 0, 0) && all_blank(table);
}

static void refused_rows(void) {
    static const uint8_t other[sizeof db];
    CHECK(row_refused(db, sizeof db, open_page(SHORGAVEL_GUARDED).opened, 0, 21, 3));
    for (uint8_t r = SHORGAVEL_OLD; r <= SHORGAVEL_GUARDED; r++) {
        shorgavel_opened page = open_page(r).opened;
        CHECK(row_refused(db, sizeof db, page, 2, 20, 0));
        CHECK(row_refused(db, sizeof db, page, SIZE_MAX, 20, 0));

        /* A page of other bytes: fewer, none, and such as have no cell where the pointer leads. */
        CHECK(row_refused(db, sizeof db - 1, page, 1, 8, 0));
        CHECK(row_refused(db, 0, page, 0, 8, 0));
        CHECK(row_refused(other, sizeof other, page, 0, 12, 0));

        /* Numbers that no page has. */
        shorgavel_opened none = page;
        none.cells = SIZE_MAX;
        CHECK(row_refused(db, sizeof db, none, 0, 8, 0));
        none = (shorgavel_opened){r, 255, UINT32_MAX, UINT32_MAX, SIZE_MAX, SIZE_MAX, SIZE_MAX, SIZE_MAX};
        CHECK(row_refused(db, sizeof db, none, 0, 8, 0));
    }

    /* A page that no call opened: guarded shows the cells of table leaves alone. */
    for (size_t i = 0; i < sizeof others; i++) {
        shorgavel_opened other = open_page(SHORGAVEL_FILE).opened;
        other.reading = SHORGAVEL_GUARDED;
        CHECK(!row_refused(db, sizeof db, other, 1, 10, 0));
        other.kind = others[i];
        CHECK(row_refused(db, sizeof db, other, 1, 10, 0) && row_refused(db, 0, other, 1, 10, 0));
    }
}

/* What a cursor that no call answered shows of 30 bytes: no text and no blob outside them. */
static size_t shown_inside(values_call *fill, const uint8_t bytes[30]) {
    shorgavel_value table[PLACES];
    shorgavel_along all = {0, 2147483647, 0, (size_t)1 << 63};
    shorgavel_filled f = fill(bytes, 30, all, table, SHORGAVEL_WORDS(PLACES));
    for (size_t i = 0; i < f.count; i++) {
        int has_bytes = table[i].kind == SHORGAVEL_TEXT || table[i].kind == SHORGAVEL_BLOB;
        CHECK(!has_bytes || (table[i].at <= 30 && table[i].len <= 30 - table[i].at));
    }
    return f.count;
}

static void made_up_cursors(void) {
    values_call *fills[] = {shorgavel_old_values, shorgavel_file_values};
    for (size_t r = 0; r < 2; r++) {
        /* A blob of 30 bytes is all there is, a text of 31 passes the end, and so does one of a billion bytes. */
        uint8_t bytes[30] = {72, 10};
        CHECK(shown_inside(fills[r], bytes) == 1);
        bytes[0] = 75;
        CHECK(shown_inside(fills[r], bytes) == 0);
        memcpy(bytes, "\x87\xff\xff\xff\x7f", 5);
        CHECK(shown_inside(fills[r], bytes) == 0);
        for (int copy = 0; copy < 4000; copy++) {
            for (size_t i = 0; i < sizeof bytes; i++) bytes[i] = lot();
            shown_inside(fills[r], bytes);
        }
    }
}

/* Damaged copies of the page, in its header and pointers, its cells and the record with every kind of value. */
static void damaged_rows(void) {
    static const size_t parts[][2] = {{100, 12}, {400, 33}, {494, 18}};
    uint8_t sound[sizeof db];
    memcpy(sound, db, sizeof db);
    for (int copy = 0; copy < 4000; copy++) {
        for (int damage = copy % 5; damage >= 0; damage--) {
            const size_t *part = parts[(copy + damage) % 3];
            db[part[0] + lot() % part[1]] = lot();
        }
        rows_are_cells();
        memcpy(db, sound, sizeof db);
    }
}

static void values(void) {
    shorgavel_shown s = shorgavel_old_value(db, sizeof db, 0, 0, 0);
    CHECK(accepted(s.refused) && integer(s.value, 8, 0));
    s = shorgavel_file_value(db, sizeof db, 1, 0, 0);
    CHECK(accepted(s.refused) && integer(s.value, 0, 1));
    s = shorgavel_guarded_value(db, sizeof db, 1, 0, 0);
    CHECK(refused(s.refused, 21, 3, 1, 0, 0) && nothing(s.value));
    s = shorgavel_guarded_value(db, sizeof db, 1, 1, 1);
    CHECK(accepted(s.refused) && integer(s.value, 0, 16777216));
    s = shorgavel_file_value(db, sizeof db, 1, 1, 2);
    CHECK(refused(s.refused, 20, 0, 1, 0, 0) && nothing(s.value));
}

/* A row with every kind of value: types 1, 2, 6, 7, 17, 16 and 0. Its cell stands at 400, its values from 410 on. */
static void write_kinds(void) {
    PUT(110, "\x01\x90");
    PUT(400, "\x1f\x02\x08\x01\x02\x06\x07\x11\x10\x00");
    PUT(410, "\xff\xff\xfe\x80\0\0\0\0\0\0\0\x3f\xf8\0\0\0\0\0\0Hi\0\x01");
}

static int of_kind(shorgavel_value v, size_t column, int has_width) {
    switch (column) {
    case 0: return integer(v, has_width ? 8 : 0, -1);
    case 1: return integer(v, has_width ? 16 : 0, -2);
    case 2: return integer(v, has_width ? 64 : 0, INT64_MIN);
    case 3: return value(v, SHORGAVEL_REAL, 0, 0, 0x3ff8000000000000, 0, 0);
    case 4: return value(v, SHORGAVEL_TEXT, 0, 0, 0, 429, 2);
    case 5: return value(v, SHORGAVEL_BLOB, 0, 0, 0, 431, 2);
    default: return nothing(v);
    }
}

static void kinds(void) {
    shorgavel_value in_old[8], in_file[8];
    shorgavel_along old = shorgavel_old_cell(db, sizeof db, 0, 1).along;
    shorgavel_along file = shorgavel_guarded_cell(db, sizeof db, 1, 1).along;
    CHECK(shorgavel_old_values(db, sizeof db, old, in_old, SHORGAVEL_WORDS(8)).count == 7);
    CHECK(shorgavel_file_values(db, sizeof db, file, in_file, SHORGAVEL_WORDS(8)).count == 7);
    for (size_t k = 0; k < 7; k++) {
        CHECK(of_kind(in_old[k], k, 1));
        CHECK(of_kind(in_file[k], k, 0));
        CHECK(of_kind(shorgavel_old_value(db, sizeof db, 0, 1, k).value, k, 1));
        CHECK(of_kind(shorgavel_file_value(db, sizeof db, 1, 1, k).value, k, 0));
        CHECK(of_kind(shorgavel_guarded_value(db, sizeof db, 1, 1, k).value, k, 0));
    }
    rows_are_cells();
}

/* A refusal with a cell and a column: the first type of cell 1 is reserved. */
static void reserved(void) {
    db[403] = 10;
    CHECK(refused(shorgavel_page(db, sizeof db, SHORGAVEL_FILE, 1).refused, 15, 0, 1, 1, 0));
    db[403] = 1;
    db[404] = 10;
    CHECK(refused(shorgavel_file_cell(db, sizeof db, 1, 1).refused, 15, 0, 1, 1, 1));
    CHECK(row_refused(db, sizeof db, open_page(SHORGAVEL_FILE).opened, 1, 15, 0));
    rows_are_cells();
}

int main(void) {
    write_database();
    header();
    pages();
    stated();
    page();
    entries();
    cells();
    opened_pages();
    rows();
    refused_rows();
    values();
    write_kinds();
    kinds();
    damaged_rows();
    made_up_cursors();
    reserved();
    puts(failed ? "failed" : "every call answers as expected");
    return failed;
}
