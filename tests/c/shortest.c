/* Whether the varints of a cell are in their shortest form, by the calls on one cell: cells worked by hand, of all four kinds of
 * page, in the three readings.
 */
#include <stdint.h>
#include <stdio.h>
#include <string.h>

#include "check.h"
#include "shorgavel.h"

static uint8_t db[512];

/* A database of one page with one cell, which ends with the page. */
static void write_cell(uint8_t kind, const char *cell, size_t count) {
    size_t at = sizeof db - count, pointer = kind < 10 ? 112 : 108;
    memset(db, 0, sizeof db);
    memcpy(db, "SQLite format 3\0\x02\x00\x01\x01\x00\x40\x20\x20", 24);
    db[59] = 1;
    db[100] = kind;
    db[104] = 1;
    db[pointer] = (uint8_t)(at >> 8);
    db[pointer + 1] = (uint8_t)at;
    memcpy(db + at, cell, count);
}

/* What is told of it: 1 or 0, or where it is refused, the number with a minus. */
static int told(shorgavel_cell c) {
    if (c.refused.number == 0) return c.shortest;
    return c.shortest == 0 ? -c.refused.number : 1;
}

static int are(int old, int file, int guarded) {
    return told(shorgavel_old_cell(db, sizeof db, 0, 0)) == old && told(shorgavel_file_cell(db, sizeof db, 1, 0)) == file &&
           told(shorgavel_guarded_cell(db, sizeof db, 1, 0)) == guarded;
}

#define CELL(kind, bytes) write_cell((kind), (bytes), sizeof(bytes) - 1)

enum { INTERIOR_INDEX = 2, INTERIOR_TABLE = 5, LEAF_INDEX = 10, LEAF_TABLE = 13 };

static int64_t row(void) { return shorgavel_file_cell(db, sizeof db, 1, 0).row; }

/* Each varint by itself: payload size, row number, header size, type. */
static void table_leaves(void) {
    CELL(LEAF_TABLE, "\x03\x05\x02\x01\x07");
    CHECK(are(1, 1, 1) && row() == 5);
    CELL(LEAF_TABLE, "\x80\x05\x05\x02\x03\x00\x00\x07");
    CHECK(are(0, 0, 0) && row() == 5);
    CELL(LEAF_TABLE, "\x03\x80\x05\x02\x01\x07");
    CHECK(are(0, 0, 0) && row() == 5);
    CELL(LEAF_TABLE, "\x03\x80\x80\x80\x80\x05\x02\x01\x07");
    CHECK(are(0, 0, 0) && row() == 5);
    CELL(LEAF_TABLE, "\x04\x05\x03\x80\x01\x07");
    CHECK(are(0, 0, 0));
    /* Two types, of which the last alone is long. */
    CELL(LEAF_TABLE, "\x05\x05\x04\x08\x80\x01\x07");
    CHECK(are(0, 0, 0));

    /* A header size of 2 in two bytes: there is no type in the file, and for old the byte behind is one. */
    CELL(LEAF_TABLE, "\x02\x05\x80\x02\x08");
    CHECK(are(0, 0, -21));
    /* One type in the file; for old the value is one too, of eight bytes. */
    CELL(LEAF_TABLE, "\x04\x05\x80\x03\x01\x07");
    CHECK(are(-16, 0, -21));
}

/* Where a form of two bytes is the shortest, and of five, which is as many as old takes. */
static void ends_of_lengths(void) {
    CELL(LEAF_TABLE, "\x03\x7f\x02\x01\x07");
    CHECK(are(1, 1, 1) && row() == 127);
    CELL(LEAF_TABLE, "\x03\x80\x7f\x02\x01\x07");
    CHECK(are(0, 0, 0) && row() == 127);
    CELL(LEAF_TABLE, "\x03\x81\x00\x02\x01\x07");
    CHECK(are(1, 1, 1) && row() == 128);
    CELL(LEAF_TABLE, "\x03\x80\x81\x00\x02\x01\x07");
    CHECK(are(0, 0, 0) && row() == 128);
    CELL(LEAF_TABLE, "\x03\x81\x80\x80\x80\x00\x02\x01\x07");
    CHECK(are(1, 1, 1) && row() == (int64_t)1 << 28);
    CELL(LEAF_TABLE, "\x03\x80\xff\xff\xff\x7f\x02\x01\x07");
    CHECK(are(0, 0, 0) && row() == ((int64_t)1 << 28) - 1);
}

/* From 2^56 on nine bytes are the shortest form, and below they are not. Old does not read so many. */
static void nine_bytes(void) {
    CELL(LEAF_TABLE, "\x03\x80\xc0\x80\x80\x80\x80\x80\x80\x00\x02\x01\x07");
    CHECK(are(-13, 1, -21) && row() == (int64_t)1 << 56);
    CELL(LEAF_TABLE, "\x03\x80\xbf\xff\xff\xff\xff\xff\xff\xff\x02\x01\x07");
    CHECK(are(-13, 0, -21) && row() == ((int64_t)1 << 56) - 1);
    CELL(LEAF_TABLE, "\x03\xff\xff\xff\xff\xff\xff\xff\x7f\x02\x01\x07");
    CHECK(are(-13, 1, -21) && row() == ((int64_t)1 << 56) - 1);
    CELL(LEAF_TABLE, "\x03\xff\xff\xff\xff\xff\xff\xff\xff\xff\x02\x01\x07");
    CHECK(are(-13, 1, -21) && row() == -1);
    CELL(LEAF_TABLE, "\x03\x80\x80\x80\x80\x80\x80\x80\x80\x05\x02\x01\x07");
    CHECK(are(-13, 0, -21) && row() == 5);
    CELL(LEAF_TABLE, "\x80\x80\x80\x80\x80\x80\x80\x80\x03\x05\x02\x01\x07");
    CHECK(are(-13, 0, -21) && row() == 5);
}

/* The closing varint is old's alone; the four bytes of a child are no varint. */
static void other_kinds(void) {
    CELL(LEAF_INDEX, "\x03\x02\x01\x07\x05");
    CHECK(are(1, 1, -10));
    CELL(LEAF_INDEX, "\x03\x02\x01\x07\x80\x05");
    CHECK(are(0, 1, -10));
    CELL(LEAF_INDEX, "\x03\x02\x01\x07\x80");
    CHECK(are(-17, 1, -10));
    CELL(LEAF_INDEX, "\x80\x03\x02\x01\x07\x05");
    CHECK(are(0, 0, -10));
    CELL(INTERIOR_INDEX, "\x80\x80\x80\x80\x03\x02\x01\x07\x05");
    CHECK(are(1, 1, -10));
    CELL(INTERIOR_INDEX, "\x80\x80\x80\x80\x04\x03\x80\x01\x07\x05");
    CHECK(are(0, 0, -10));
    CELL(INTERIOR_INDEX, "\x80\x80\x80\x80\x03\x02\x01\x07\x80\x05");
    CHECK(are(0, 1, -10));
    CELL(INTERIOR_TABLE, "\x80\x80\x80\x80\x05");
    CHECK(are(1, 1, -10) && row() == 5);
    CELL(INTERIOR_TABLE, "\x80\x80\x80\x80\x80\x05");
    CHECK(are(0, 0, -10) && row() == 5);
}

/* What old skips is not taken: a type that has no end, and so is what stands behind the values, in both readings. */
static void skipped(void) {
    CELL(LEAF_TABLE, "\x02\x05\x02\x80");
    CHECK(are(1, -14, -14));
    CELL(LEAF_TABLE, "\x80\x02\x05\x02\x80");
    CHECK(are(0, -14, -14));
    CELL(LEAF_TABLE, "\x04\x05\x03\x08\x80");
    CHECK(are(1, -13, -13));
    CELL(LEAF_TABLE, "\x03\x05\x02\x01\x07\x80\x05");
    CHECK(are(1, 1, 1));
}

static void refused_cells(void) {
    CELL(LEAF_TABLE, "\x02\x05\x02\x0a");
    CHECK(are(-15, -15, -15));
    CELL(LEAF_TABLE, "\x02\x05\x02\x09");
    CHECK(are(1, 1, -21));
    CHECK(told(shorgavel_file_cell(db, sizeof db, 1, 1)) == -20 && told(shorgavel_old_cell(db, sizeof db, 0, 1)) == -20);
    CHECK(told(shorgavel_file_cell(db, sizeof db, 2, 0)) == -8 && told(shorgavel_file_cell(db, 0, 1, 0)) == -1);
    CHECK(sizeof(shorgavel_cell) == 80);
}

int main(void) {
    table_leaves();
    ends_of_lengths();
    nine_bytes();
    other_kinds();
    skipped();
    refused_cells();
    puts(failed ? "failed" : "the shortest forms are told as expected");
    return failed;
}
