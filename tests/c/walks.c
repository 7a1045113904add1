/* Calls the two functions of include/shorgavel.h for all rows of a table, and checks every number that they answer and every word
 * of the list.
 *
 * The database has six pages of 512 bytes: page 2 is the root of a table, an interior page with the key 2, and leads to the leaves
 * 4 and 3; page 6 is a leaf index. Of the record of a row only its size is looked at.
 */
#include "check.h"
#include "shorgavel.h"
#include "tree.h"

static size_t length = sizeof db;

static const int64_t rows[ROWS * ROW] = {4, 0, -5, 4, 1, 2, 3, 0, 7, 3, 1, 9};

static void write_database(void) {
    write_root();
    put(page_at(4), "\x0d\0\0\0\x02\x01\xee\0\x01\xf3\x01\xee", 12);
    /* Row -5, a varint of nine bytes, and row 2. */
    put(page_at(4) + 499, "\x03\xff\xff\xff\xff\xff\xff\xff\xff\xfb\x02\x01\x07", 13);
    put(page_at(4) + 494, "\x03\x02\x02\x01\x07", 5);
    put(page_at(3), "\x0d\0\0\0\x02\x01\xf6\0\x01\xfb\x01\xf6", 12);
    put(page_at(3) + 507, "\x03\x07\x02\x01\x07", 5);
    put(page_at(3) + 502, "\x03\x09\x02\x01\x07", 5);
    put(page_at(6), "\x0a\0\0\0\0\x02\0\0", 8);
}

/* Both calls refuse the table with this number and place, and the list is as it was. */
static int both_refuse(uint32_t root, int number, uint32_t page, size_t cell) {
    fresh();
    shorgavel_rows_answer counted = shorgavel_table_count(db, length, root);
    shorgavel_rows_answer listed = shorgavel_table_rows(db, length, root, list, WORDS);
    return refused(counted.refused, number, 0, page, cell, 0) && same_refused(counted.refused, listed.refused) &&
           counted.count == 0 && listed.count == 0 && holds(list, 0);
}

static void a_table_is_listed(void) {
    CHECK(sizeof(shorgavel_place) == ROW * sizeof(int64_t));
    shorgavel_rows_answer counted = shorgavel_table_count(db, length, ROOT);
    CHECK(accepted(counted.refused) && counted.count == ROWS);
    for (size_t words = 0; words <= WORDS; words++) {
        fresh();
        shorgavel_rows_answer listed = shorgavel_table_rows(db, length, ROOT, list, words);
        if (words < ROWS * ROW) {
            CHECK(refused(listed.refused, 19, 0, ROOT, 0, 0) && listed.count == 0 && holds(rows, 0));
        } else {
            CHECK(accepted(listed.refused) && listed.count == ROWS && holds(rows, ROWS * ROW));
        }
    }
    /* A leaf is a table by itself, and so is page 1, which has no row. */
    fresh();
    CHECK(shorgavel_table_rows(db, length, 3, list, 6).count == 2 && holds(rows + 6, 6));
    fresh();
    shorgavel_rows_answer none = shorgavel_table_rows(db, length, 1, list, 0);
    CHECK(accepted(none.refused) && none.count == 0 && holds(rows, 0));
}

/* A byte of the database is another while the table is asked for. */
static int with(uint32_t page, size_t at, uint8_t byte, int number, uint32_t where, size_t cell) {
    uint8_t *place = page_at(page) + at, was = *place;
    *place = byte;
    int as_expected = both_refuse(ROOT, number, where, cell);
    *place = was;
    return as_expected;
}

static void damaged_trees(void) {
    CHECK(with(1, 0, 's', 1, 0, 0));
    CHECK(both_refuse(0, 8, 0, 0) && both_refuse(7, 8, 7, 0) && both_refuse(UINT32_MAX, 8, UINT32_MAX, 0));
    CHECK(both_refuse(5, 10, 5, 0) && both_refuse(6, 25, 6, 0));
    /* A child outside, one of an index, one that is no page of a tree, and the other leaf twice. */
    CHECK(with(2, 510, 9, 8, 9, 0) && with(2, 510, 6, 25, 6, 0) && with(2, 510, 5, 10, 5, 0) && with(2, 11, 4, 27, 4, 0));
    /* The page itself, until a key does not rise. */
    CHECK(with(2, 11, 2, 27, 2, 0));
    /* A row above its key, a key below a row before it, and two rows of one number. */
    CHECK(with(2, 511, 1, 27, 4, 1) && with(2, 511, 7, 27, 3, 0) && with(3, 503, 7, 27, 3, 1));
    /* Pointers that pass the page's end, a cell outside, and one that is cut. */
    CHECK(with(3, 3, 255, 11, 3, 0) && with(3, 10, 2, 12, 3, 1) && with(3, 11, 255, 13, 3, 1));
    /* With no cell the root leads to itself by its last child, and visits are used up. */
    page_at(2)[4] = 0;
    CHECK(with(2, 11, 2, 28, 2, 0));
    write_database();
}

/* What is listed is there: a cell of a table leaf, in rising order, with the number that the call on this cell answers. */
static int is_sound(size_t count) {
    for (size_t i = 0; i < count; i++) {
        const int64_t *row = list + ROW * i;
        shorgavel_opening o = shorgavel_open(db, length, SHORGAVEL_FILE, (uint32_t)row[0]);
        if (o.refused.number != 0 || o.opened.kind != 13 || row[1] >= (int64_t)o.opened.cells) return 0;
        if (i > 0 && row[2] <= row[2 - ROW]) return 0;
        shorgavel_cell cell = shorgavel_file_cell(db, length, (uint32_t)row[0], (size_t)row[1]);
        if (cell.refused.number == 0 && cell.row != row[2]) return 0;
    }
    return 1;
}

static void damage_by_lot(void) {
    int sound = 0;
    for (int copy = 0; copy < 20000; copy++) {
        for (int damage = copy % 3; damage >= 0; damage--) {
            size_t at = lot() % 2 ? lot() % 16u : 480u + lot() % 32u;
            page_at(2 + lot() % 3)[at] = lot();
        }
        shorgavel_rows_answer counted = shorgavel_table_count(db, length, ROOT);
        fresh();
        shorgavel_rows_answer listed = shorgavel_table_rows(db, length, ROOT, list, WORDS);
        int fits = counted.refused.number != 0 || counted.count * ROW <= WORDS;
        CHECK(!fits || (same_refused(counted.refused, listed.refused) && counted.count == listed.count));
        CHECK(is_sound(listed.count));
        sound += listed.refused.number == 0;
        write_database();
    }
    CHECK(sound > 100 && sound < 19900);
}

int main(void) {
    write_database();
    a_table_is_listed();
    damaged_trees();
    damage_by_lot();
    puts(failed ? "failed" : "the calls for all rows of a table answer as expected");
    return failed;
}
