/* Calls the two functions of include/shorgavel.h for a whole table on which the readings agree, and checks every number that they
 * answer and every word of the list.
 *
 * The table is that of tree.h, with leaves of two rows each. A row has one column, a 7; each test gives some of them another type.
 * Page 5 is a leaf with no row.
 */
#include "check.h"
#include "shorgavel.h"
#include "tree.h"

/* Where cell 0 and cell 1 of a leaf stand, of five bytes each: size, row number, header size, type and value. */
enum { CELL0 = 507, CELL1 = 502, PAYLOAD = 0, TYPE = 3, EMPTY = 5 };

static const int64_t rows[ROWS * ROW] = {4, 0, 1, 4, 1, 2, 3, 0, 7, 3, 1, 9};

static void write_leaf(uint32_t page, uint8_t first, uint8_t second) {
    put(page_at(page), "\x0d\0\0\0\x02\x01\xf6\0\x01\xfb\x01\xf6", 12);
    put(page_at(page) + CELL0, "\x03\0\x02\x01\x07", 5);
    put(page_at(page) + CELL1, "\x03\0\x02\x01\x07", 5);
    page_at(page)[CELL0 + 1] = first;
    page_at(page)[CELL1 + 1] = second;
}

static void write_database(void) {
    write_root();
    write_leaf(4, 1, 2);
    write_leaf(3, 7, 9);
    put(page_at(EMPTY), "\x0d\0\0\0\0\x02\0\0", 8);
}

/* A row of a payload of two bytes, with this type: of no bytes, so that the record fits. */
static void bare(uint32_t page, size_t cell, uint8_t type) {
    page_at(page)[cell + PAYLOAD] = 2;
    page_at(page)[cell + TYPE] = type;
}

/* Both calls refuse the table with this, and the list is as it was. */
static int both_refuse(uint32_t root, int number, int mark, uint32_t page, size_t cell, size_t column) {
    fresh();
    shorgavel_rows_answer counted = shorgavel_trusted_count(db, sizeof db, root);
    shorgavel_rows_answer listed = shorgavel_trusted_rows(db, sizeof db, root, list, WORDS);
    return refused(counted.refused, number, mark, page, cell, column) && same_refused(counted.refused, listed.refused) &&
           counted.count == 0 && listed.count == 0 && holds(list, 0);
}

/* Lists of any length: those that are too short are refused 19, with the root's page. */
static int is_given(uint32_t root, const int64_t *wanted, size_t count) {
    shorgavel_rows_answer counted = shorgavel_trusted_count(db, sizeof db, root);
    if (!accepted(counted.refused) || counted.count != count) return 0;
    for (size_t words = 0; words <= WORDS; words++) {
        fresh();
        shorgavel_rows_answer listed = shorgavel_trusted_rows(db, sizeof db, root, list, words);
        int fits = words >= ROW * count;
        if (fits && !(accepted(listed.refused) && listed.count == count && holds(wanted, ROW * count))) return 0;
        if (!fits && !(refused(listed.refused, 19, 0, root, 0, 0) && listed.count == 0 && holds(wanted, 0))) return 0;
    }
    return 1;
}

static void a_table_is_given(void) {
    CHECK(is_given(ROOT, rows, ROWS));
    /* A leaf is a table by itself; page 1 and page 5 have no row. */
    CHECK(is_given(4, rows, 2) && is_given(3, rows + 6, 2));
    CHECK(is_given(1, rows, 0) && is_given(EMPTY, rows, 0));
    /* A stored 0 is one in both readings, and a null is. */
    bare(4, CELL0, 8);
    bare(3, CELL1, 0);
    CHECK(is_given(ROOT, rows, ROWS));
    write_database();
}

static void the_first_row_that_parts_is_told(void) {
    bare(3, CELL1, 9);
    CHECK(both_refuse(ROOT, 21, 3, 3, 1, 0));
    /* The table of the other leaf has no such row. */
    CHECK(is_given(4, rows, 2));
    /* A row before it, in the order of the walk, is told in its place: it stands on a later page. */
    bare(4, CELL1, 13);
    CHECK(both_refuse(ROOT, 21, 4, 4, 1, 0));
    bare(4, CELL0, 9);
    CHECK(both_refuse(ROOT, 21, 3, 4, 0, 0));
    write_database();
    /* What file refuses is no mark: a reserved type, a value that passes the end, a header that does not fit. */
    bare(3, CELL0, 10);
    CHECK(both_refuse(ROOT, 15, 0, 3, 0, 0));
    page_at(4)[CELL1 + TYPE] = 2;
    CHECK(both_refuse(ROOT, 16, 0, 4, 1, 0));
    page_at(4)[CELL0 + 2] = 4;
    CHECK(both_refuse(ROOT, 14, 0, 4, 0, 0));
    write_database();
}

/* A payload of 4,096 bytes, by a size of two bytes in a cell of its own before the others. */
static void a_row_that_spills_is_refused_18(void) {
    page_at(3)[8] = 0x01, page_at(3)[9] = 0x80;
    put(page_at(3) + 0x180, "\xa0\0\x07\x02\x01\x07", 6);
    CHECK(both_refuse(ROOT, 18, 0, 3, 0, 0));
    CHECK(shorgavel_table_count(db, sizeof db, ROOT).count == ROWS);
    write_database();
}

/* A row number of nine bytes is a mark: -5, before row 2. */
static void a_negative_number_parts(void) {
    page_at(4)[8] = 0x01, page_at(4)[9] = 0x80;
    put(page_at(4) + 0x180, "\x03\xff\xff\xff\xff\xff\xff\xff\xff\xfb\x02\x01\x07", 13);
    CHECK(both_refuse(ROOT, 21, 1, 4, 0, 0));
    write_database();
}

/* A tree that is not sound, and a list that is too short, are told before a row. */
static void the_walk_goes_first(void) {
    bare(4, CELL0, 9);
    for (size_t words = 0; words < ROWS * ROW; words++) {
        fresh();
        shorgavel_rows_answer listed = shorgavel_trusted_rows(db, sizeof db, ROOT, list, words);
        CHECK(refused(listed.refused, 19, 0, ROOT, 0, 0) && listed.count == 0 && holds(list, 0));
    }
    fresh();
    CHECK(refused(shorgavel_trusted_rows(db, sizeof db, ROOT, list, ROWS * ROW).refused, 21, 3, 4, 0, 0));
    page_at(3)[CELL1 + 1] = 7;
    CHECK(both_refuse(ROOT, 27, 0, 3, 1, 0));
    page_at(2)[11] = 9;
    CHECK(both_refuse(ROOT, 8, 0, 9, 0, 0));
    db[0] = 's';
    CHECK(both_refuse(ROOT, 1, 0, 0, 0, 0));
    write_database();
    CHECK(both_refuse(0, 8, 0, 0, 0, 0) && both_refuse(UINT32_MAX, 8, 0, UINT32_MAX, 0, 0));
}

/* What the calls on each row say, in the order of the walk: the first that guarded refuses, or none. */
static shorgavel_refused by_rows(shorgavel_rows_answer walked, const int64_t *places) {
    for (size_t i = 0; i < walked.count; i++) {
        shorgavel_cell cell = shorgavel_guarded_cell(db, sizeof db, (uint32_t)places[ROW * i], (size_t)places[ROW * i + 1]);
        if (cell.refused.number != 0) return cell.refused;
    }
    return walked.refused;
}

static void damage_by_lot(void) {
    int given = 0;
    for (int copy = 0; copy < 20000; copy++) {
        for (int damage = copy % 3; damage >= 0; damage--) {
            size_t at = lot() % 4 ? 500u + lot() % 12u : lot() % 14u;
            page_at(2 + lot() % 3)[at] = lot();
        }
        int64_t places[WORDS];
        shorgavel_rows_answer walked = shorgavel_table_rows(db, sizeof db, ROOT, places, WORDS);
        shorgavel_refused wanted = by_rows(walked, places);
        fresh();
        shorgavel_rows_answer listed = shorgavel_trusted_rows(db, sizeof db, ROOT, list, WORDS);
        size_t count = wanted.number == 0 ? walked.count : 0;
        CHECK(same_refused(listed.refused, wanted) && listed.count == count && holds(places, ROW * count));
        given += listed.refused.number == 0;
        write_database();
    }
    CHECK(given > 100 && given < 19900);
}

int main(void) {
    write_database();
    a_table_is_given();
    the_first_row_that_parts_is_told();
    a_row_that_spills_is_refused_18();
    a_negative_number_parts();
    the_walk_goes_first();
    damage_by_lot();
    puts(failed ? "failed" : "the calls for a whole table that both readings show alike answer as expected");
    return failed;
}
