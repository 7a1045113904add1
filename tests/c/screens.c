/* Calls shorgavel_screen on lists of addresses, and holds every word of its answers to the calls on one value.
 *
 * The database has six pages of 512 bytes: page 2 is the root of a table and leads to the leaves 4 and 3, whose rows have every kind
 * of value, a stored 1, an empty text, a reserved type and a payload that spills; page 6 is a leaf index.
 */
#include "check.h"
#include "shorgavel.h"
#include "tree.h"

enum { MOST = 60, SPARE = 4, ADDRESS = 3, ANSWER = 8, READINGS = 3, REASONS = 29 };

static size_t length = sizeof db;
static shorgavel_address addresses[MOST + 1];
static shorgavel_shown answers[MOST + SPARE];

/* THE DATABASE */

static void write_page(uint32_t page, uint8_t kind) { put(page_at(page), (char[]){(char)kind, 0, 0, 0, 0, 2, 0, 0}, 8); }

/* Behind the cells that the page has, from its end downwards. */
static void add(uint32_t page, const char *bytes, size_t count) {
    uint8_t *at = page_at(page);
    size_t start = 256u * at[5] + at[6] - count;
    put(at + start, bytes, count);
    at[5] = at[8 + 2 * at[4]] = (uint8_t)(start >> 8);
    at[6] = at[9 + 2 * at[4]] = (uint8_t)start;
    at[4]++;
}

#define ADD(page, bytes) add(page, bytes, sizeof(bytes) - 1)

static void write_database(void) {
    write_root();
    write_page(3, 13);
    write_page(4, 13);
    write_page(6, 10);
    for (uint32_t page = 3; page <= 4; page++) {
        /* A small number, one of two bytes, a text, a null and a real. */
        ADD(page, "\x13\x01\x06\x01\x02\x11\x00\x07\xff\x01\x02Hi\x3f\xf8\0\0\0\0\0\0");
        /* A stored 0, a blob, numbers of eight bytes and of four. */
        ADD(page, "\x13\x02\x05\x08\x10\x06\x04\x01\x02\x80\0\0\0\0\0\0\x01\x7f\xff\xff\xff");
        /* A stored 1, a 7; an empty text, a 7; a reserved type. */
        ADD(page, "\x04\x03\x03\x09\x01\x07");
        ADD(page, "\x04\x04\x03\x0d\x01\x07");
        ADD(page, "\x03\x05\x03\x08\x0a");
        /* Ten columns, each a number of one byte but for a text of two. */
        ADD(page, "\x16\x06\x0b\x01\x01\x01\x01\x11\x01\x01\x01\x01\x01\x01\x02\x03\x04Ho\x05\x06\x07\x08\x09");
        /* A payload of 4,096 bytes. */
        ADD(page, "\xa0\0\x07\x03\x01\x01\x08\x09");
        ADD(page, "\x04\x08\x03\x01\x01\x0a\x0b");
    }
    ADD(6, "\x05\x03\x01\x02\x07\x01\x02");
    ADD(6, "\x03\x02\x08\x05\x09");
}

/* WHAT IS EXPECTED */

static shorgavel_shown single(uint8_t reading, shorgavel_address a) {
    if (reading == SHORGAVEL_OLD) return shorgavel_old_value(db, length, a.page, a.cell, a.column);
    if (reading == SHORGAVEL_GUARDED) return shorgavel_guarded_value(db, length, a.page, a.cell, a.column);
    return shorgavel_file_value(db, length, a.page, a.cell, a.column);
}

/* All eight words of an answer: what is between the fields of one in a list is 0. */
static int is_answer(const shorgavel_shown *told, shorgavel_shown s) {
    uint64_t words[ANSWER] = {
        s.refused.number | (uint64_t)s.refused.mark << 8 | (uint64_t)s.refused.page << 32,
        s.refused.cell,
        s.refused.column,
        s.value.kind | (uint64_t)s.value.width << 8,
        (uint64_t)s.value.integer,
        s.value.bits,
        s.value.at,
        s.value.len,
    };
    return memcmp(told, words, sizeof words) == 0;
}

static void clear(void) { memset(answers, 0xee, sizeof answers); }

/* From this answer on they are as they were. */
static int kept(size_t from) {
    const uint8_t *bytes = (const uint8_t *)(answers + from);
    for (size_t i = 0; i < sizeof answers - from * sizeof *answers; i++) {
        if (bytes[i] != 0xee) return 0;
    }
    return 1;
}

static shorgavel_screen_answer ask(uint8_t reading, size_t address_words, size_t answer_words) {
    clear();
    return shorgavel_screen(db, length, reading, addresses, address_words, answers, answer_words);
}

/* Words that are no whole address and no whole answer do not count. */
static int answers_all(uint8_t reading, size_t count, size_t spare) {
    shorgavel_screen_answer s = ask(reading, ADDRESS * count + spare % ADDRESS, ANSWER * count + spare);
    if (!accepted(s.refused) || s.count != count || !kept(count)) return 0;
    for (size_t i = 0; i < count; i++) {
        if (!is_answer(&answers[i], single(reading, addresses[i]))) return 0;
    }
    return 1;
}

static int is_short(uint8_t reading, size_t count, size_t answer_words) {
    shorgavel_screen_answer s = ask(reading, ADDRESS * count, answer_words);
    return refused(s.refused, 19, 0, 0, 0, 0) && s.count == 0 && kept(0);
}

/* Field by field, so that the bytes beside the page's number stay what they were. */
static void address(size_t at, uint32_t page, size_t cell, size_t column) {
    addresses[at].page = page;
    addresses[at].cell = cell;
    addresses[at].column = column;
}

/* THE CASES */

static void lists_are_words(void) {
    CHECK(sizeof(shorgavel_address) == ADDRESS * sizeof(uint64_t) && sizeof(shorgavel_shown) == ANSWER * sizeof(int64_t));
    CHECK(SHORGAVEL_ADDRESS_WORDS(7) == 7 * ADDRESS && SHORGAVEL_ANSWER_WORDS(7) == 7 * ANSWER);
}

/* Ten rows of four columns, of which some are refused; and the same row by row from the last on. */
static void a_screenful(void) {
    for (uint8_t reading = 0; reading <= READINGS; reading++) {
        uint32_t page = reading == SHORGAVEL_OLD ? 2 : 3;
        for (size_t i = 0; i < 40; i++) address(i, page, i / 4, i % 4);
        CHECK(answers_all(reading, 40, 0));
        CHECK(value(answers[2].value, SHORGAVEL_TEXT, 0, 0, 0, 1024 + 512 - 21 + 11, 2));
        CHECK(refused(answers[4 * 9].refused, 20, 0, page, 0, 0));
        for (size_t i = 0; i < 40; i++) address(i, page, 9 - i / 4, 3 - i % 4);
        CHECK(answers_all(reading, 40, ANSWER * SPARE));
    }
}

/* Before anything is read: also where there are no bytes, which each answer else refuses by 1. */
static void too_few_answers(void) {
    for (uint8_t reading = 0; reading <= READINGS; reading++) {
        for (length = 0; length <= sizeof db; length += sizeof db) {
            for (size_t i = 0; i < 9; i++) address(i, 4, i, 0);
            for (size_t words = 0; words < ANSWER * 9; words++) CHECK(is_short(reading, 9, words));
            CHECK(answers_all(reading, 0, 0) && answers_all(reading, 9, 0));
            CHECK(length > 0 || refused(answers[8].refused, 1, 0, 0, 0, 0));
        }
        length = sizeof db;
    }
}

/* Nothing is wrong with the numbers of a page that is not there, however large, and of page 0. */
static void far_addresses(void) {
    static const uint32_t pages[] = {0, 1, 7, UINT32_MAX - 1, UINT32_MAX};
    static const size_t numbers[] = {0, 1, 65536, SIZE_MAX - 1, SIZE_MAX};
    size_t count = 0;
    for (size_t i = 0; i < 5; i++) {
        for (size_t k = 0; k < 10; k++) address(count++, pages[i], numbers[k / 2], numbers[4 - k / 2]);
    }
    for (size_t k = 0; k < 5; k++) address(count++, 3, numbers[k], numbers[4 - k]);
    for (uint8_t reading = 0; reading <= READINGS; reading++) CHECK(answers_all(reading, count, SPARE));
}

/* MANY LISTS, on databases that are damaged on the way */

typedef struct {
    int lists, asked, shown, refused, by[REASONS];
} told;

/* Mostly the next column, or the next row; else any page, cell and column. Page 3 is a leaf in each reading. */
static void next_address(size_t at) {
    uint8_t step = at == 0 ? 9 : lot() % 10;
    shorgavel_address a = at == 0 ? (shorgavel_address){0} : addresses[at - 1];
    if (step < 5) address(at, a.page, a.cell, (a.column + 1) % 7);
    else if (step < 7) address(at, a.page, (a.cell + 1) % 9, 0);
    else if (step == 7) address(at, a.page, a.cell, a.column);
    else if (step == 8) address(at, a.page, lot() % 9, lot() % 6);
    else address(at, lot() % 4 ? 3 : lot() % 8, lot() % 9, lot() % 4);
}

/* Every second list is asked of a whole database. */
static void damage(void) {
    write_database();
    length = sizeof db;
    if (lot() % 2 == 0) return;
    if (lot() % 8 == 0) length -= 256u * (lot() % 8u);
    for (int left = lot() % 6; left > 0; left--) {
        size_t at = lot() % 3 ? 414u + lot() % 98u : lot() % 26u;
        page_at(lot() % 16 ? 3 + lot() % 4 : 1)[at] = lot();
    }
}

static void count_answer(told *all, shorgavel_refused r) {
    all->asked++;
    all->shown += r.number == 0;
    all->refused += r.number != 0;
    if (r.number < REASONS) all->by[r.number] = 1;
}

static void lists_by_lot(void) {
    told all = {0};
    for (; all.lists < 5000; all.lists++) {
        size_t count = lot() % (MOST + 1u), spare = lot() % (ANSWER * SPARE + 1u);
        damage();
        memset(addresses, lot(), sizeof addresses);
        for (size_t i = 0; i < count; i++) next_address(i);
        for (uint8_t reading = 0; reading < READINGS; reading++) {
            CHECK(answers_all(reading, count, spare));
            for (size_t i = 0; i < count; i++) count_answer(&all, answers[i].refused);
            CHECK(count == 0 || is_short(reading, count, ANSWER * count - 1 - lot() % ANSWER));
        }
    }
    int reasons = 0;
    for (int number = 1; number < REASONS; number++) reasons += all.by[number];
    CHECK(all.asked > 200000 && all.shown > 50000 && all.refused > 50000 && reasons >= 12);
    printf("%d addresses in %d lists, in three readings: %d values, %d refused, by %d reasons\n", all.asked / READINGS, all.lists,
           all.shown, all.refused, reasons);
}

int main(void) {
    write_database();
    lists_are_words();
    a_screenful();
    too_few_answers();
    far_addresses();
    lists_by_lot();
    puts(failed ? "failed" : "a screenful at once answers what the calls on one value answer");
    return failed;
}
