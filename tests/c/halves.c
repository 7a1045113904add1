/* Calls the page call on the halves of one table, for two databases, and checks every number that it answers and every place.
 *
 * Each database has four pages: page 1 has no row, pages 2 and 3 are leaves, and page 4 leads to them. The second one has larger
 * pages, and other rows. A row has one column, a 7.
 */
#include <string.h>

#include "check.h"
#include "shorgavel.h"

enum { TRUCKS = 2, PAGES = 4, LARGEST = 1024, CELL = 5, MOST = 16 };

typedef struct {
    size_t size;     /* of a page */
    uint8_t rows[2]; /* of pages 2 and 3 */
    uint8_t db[PAGES * LARGEST];
} truck;

static truck trucks[TRUCKS] = {{.size = 512, .rows = {3, 5}}, {.size = 1024, .rows = {1, 6}}};

static const shorgavel_cell_entry untouched = {
    .kind = 255, .pointer = 7, .child = 7, .payload_size = 7, .row = 7, .header_size = 7, .columns = 7};

/* THE DATABASES */

static size_t length_of(const truck *t) { return PAGES * t->size; }

static uint8_t *page_at(truck *t, uint32_t page) { return t->db + (page - 1) * t->size; }

static void put(uint8_t *at, const char *bytes, size_t count) { memcpy(at, bytes, count); }

static void put_two(uint8_t *at, size_t number) { at[0] = (uint8_t)(number >> 8), at[1] = (uint8_t)number; }

/* Cells from the page's end downwards: size, row number, header size, type and value. */
static void write_leaf(truck *t, uint32_t page, uint8_t rows) {
    uint8_t *at = page_at(t, page);
    put(at, "\x0d\0\0\0\0\0\0\0", 8);
    at[4] = rows;
    put_two(at + 5, t->size - CELL * rows);
    for (uint8_t i = 0; i < rows; i++) {
        size_t cell = t->size - CELL * (i + 1u);
        put_two(at + 8 + 2 * i, cell);
        put(at + cell, "\x03\0\x02\x01\x07", CELL);
        at[cell + 1] = (uint8_t)(10 * page + i);
    }
}

static void write_database(truck *t) {
    memset(t->db, 0, sizeof t->db);
    put(t->db, "SQLite format 3", 16);
    put_two(t->db + 16, t->size);
    put(t->db + 18, "\x01\x01\x00\x40\x20\x20", 6);
    t->db[59] = 1;
    put(t->db + 100, "\x0d\0\0\0\0\x02\0\0", 8);
    write_leaf(t, 2, t->rows[0]);
    write_leaf(t, 3, t->rows[1]);
    put(page_at(t, 4), "\x05\0\0\0\x01\0\0\0\0\0\0\x03", 12);
    put_two(page_at(t, 4) + 5, t->size - CELL);
    put_two(page_at(t, 4) + 12, t->size - CELL);
    put(page_at(t, 4) + t->size - CELL, "\0\0\0\x02\x1d", CELL);
}

/* TABLES */

static int same_entry(shorgavel_cell_entry a, shorgavel_cell_entry b) {
    return a.kind == b.kind && a.pointer == b.pointer && a.child == b.child && a.payload_size == b.payload_size &&
           a.row == b.row && a.header_size == b.header_size && a.columns == b.columns;
}

static int same_entries(const shorgavel_cell_entry *a, const shorgavel_cell_entry *b, size_t count) {
    for (size_t i = 0; i < count; i++) {
        if (!same_entry(a[i], b[i])) return 0;
    }
    return 1;
}

static int same_answer(shorgavel_page_answer a, shorgavel_page_answer b) {
    return same_refused(a.refused, b.refused) && a.head.kind == b.head.kind && a.head.cells == b.head.cells &&
           a.head.first_freeblock == b.head.first_freeblock && a.head.content_start == b.head.content_start &&
           a.head.fragmented == b.head.fragmented && a.head.rightmost == b.head.rightmost;
}

static void touch_none(shorgavel_cell_entry *table) {
    for (size_t i = 0; i < MOST; i++) table[i] = untouched;
}

/* The places from one to another are as they were. */
static int kept(const shorgavel_cell_entry *table, size_t from, size_t to) {
    for (size_t i = from; i < to; i++) {
        if (!same_entry(table[i], untouched)) return 0;
    }
    return 1;
}

/* ONE CALL */

/* A page of so many cells, on a half of a table of so many places. */
static int fills(truck *t, uint32_t page, size_t cells, uint8_t half, size_t places) {
    shorgavel_cell_entry table[MOST];
    touch_none(table);
    size_t from = half == SHORGAVEL_FIRST ? 0 : places / 2;
    shorgavel_page_answer p = shorgavel_half_entries(t->db, length_of(t), SHORGAVEL_FILE, page, half, table, places);
    if (cells > places / 2) return refused(p.refused, 19, 0, page, 0, 0) && p.head.cells == 0 && kept(table, 0, MOST);
    if (!accepted(p.refused) || p.head.cells != cells) return 0;
    for (size_t i = 0; i < cells; i++) {
        if (!same_entry(table[from + i], shorgavel_entry(t->db, length_of(t), SHORGAVEL_FILE, page, i))) return 0;
    }
    return kept(table, 0, from) && kept(table, from + cells, MOST);
}

static void a_page_goes_to_its_half(void) {
    for (size_t places = 0; places < MOST; places++) {
        for (int half = 0; half <= 255; half += half < 2 ? 1 : 253) {
            for (truck *t = trucks; t < trucks + TRUCKS; t++) {
                CHECK(fills(t, 1, 0, (uint8_t)half, places) && fills(t, 4, 1, (uint8_t)half, places));
                CHECK(fills(t, 2, t->rows[0], (uint8_t)half, places) && fills(t, 3, t->rows[1], (uint8_t)half, places));
            }
        }
    }
}

/* Any other refusal is told before the room of the half, and after it. */
static void other_refusals_are_told(void) {
    truck *t = &trucks[0];
    shorgavel_cell_entry table[MOST];
    touch_none(table);
    shorgavel_page_answer p = shorgavel_half_entries(t->db, length_of(t), SHORGAVEL_FILE, 9, SHORGAVEL_SECOND, table, 0);
    CHECK(refused(p.refused, 8, 0, 9, 0, 0));
    page_at(t, 2)[t->size - 2 * CELL + 3] = 10;
    p = shorgavel_half_entries(t->db, length_of(t), SHORGAVEL_FILE, 2, SHORGAVEL_SECOND, table, 5);
    CHECK(refused(p.refused, 19, 0, 2, 0, 0));
    p = shorgavel_half_entries(t->db, length_of(t), SHORGAVEL_FILE, 2, SHORGAVEL_SECOND, table, 6);
    CHECK(refused(p.refused, 15, 0, 2, 1, 0));
    CHECK(kept(table, 0, MOST));
    write_database(t);
}

/* MANY CALLS OF BOTH, each on its half, and on a table of its own that is as long: by shorgavel_entries, for that truck alone */

typedef struct {
    int shown, short_of_room, others;
} told;

static void count(told *all, shorgavel_refused r) {
    all->shown += r.number == 0;
    all->short_of_room += r.number == 19;
    all->others += r.number != 0 && r.number != 19;
}

static void ask(unsigned who, shorgavel_cell_entry *table, size_t places, shorgavel_cell_entry *alone, told *all) {
    truck *t = &trucks[who];
    uint8_t reading = lot() % 3;
    uint32_t page = lot() % 6;
    if (lot() % 4 == 0) page_at(t, 2 + lot() % 3)[lot() % 2 ? lot() % 14u : t->size - 1 - lot() % 30u] = lot();
    if (lot() % 16 == 0) write_database(t);
    shorgavel_page_answer p = shorgavel_half_entries(t->db, length_of(t), reading, page, (uint8_t)who, table, places);
    shorgavel_page_answer q = shorgavel_entries(t->db, length_of(t), reading, page, alone, places / 2);
    CHECK(same_answer(p, q));
    count(all, p.refused);
}

static void calls_of_both_by_lot(void) {
    told all = {0};
    for (int round = 0; round < 4000; round++) {
        size_t places = lot() % MOST;
        shorgavel_cell_entry table[MOST], alone[TRUCKS][MOST];
        touch_none(table);
        for (int who = 0; who < TRUCKS; who++) touch_none(alone[who]), write_database(&trucks[who]);
        for (int call = 0; call < 25; call++) {
            unsigned who = lot() % TRUCKS;
            ask(who, table, places, alone[who], &all);
            CHECK(same_entries(table, alone[0], places / 2));
            CHECK(same_entries(table + places / 2, alone[1], places / 2));
            CHECK(kept(table, places / 2 * 2, MOST));
        }
    }
    CHECK(all.shown > 10000 && all.short_of_room > 10000 && all.others > 10000);
    printf("%d calls of two trucks: %d pages, %d refused by 19, %d by others\n", all.shown + all.short_of_room + all.others,
           all.shown, all.short_of_room, all.others);
}

int main(void) {
    for (truck *t = trucks; t < trucks + TRUCKS; t++) write_database(t);
    a_page_goes_to_its_half();
    other_refusals_are_told();
    calls_of_both_by_lot();
    puts(failed ? "failed" : "the page calls of two trucks on one table answer as expected");
    return failed;
}
