/* halved: asks the page call on the halves of one table, for oracle/halved.py, which has the words of its input and output. */
#include <stdbool.h>
#include <stdio.h>
#include <stdlib.h>

#include "shorgavel.h"

enum { DATABASE = 1, TABLE = 2, ASK = 3, TRUCKS = 2, BEHIND = 4 };

/* What a place holds before the calls: no page has this kind. */
static const shorgavel_cell_entry FILL = {
    .kind = 250, .pointer = 251, .child = 252, .payload_size = 253, .row = -254, .header_size = 255, .columns = 256};

typedef struct {
    uint8_t *bytes;
    uint64_t length;
} database;

static void fail(const char *why) {
    fprintf(stderr, "halved: %s\n", why);
    exit(2);
}

static bool get(void *to, size_t count) { return count == 0 || fread(to, 1, count, stdin) == count; }

static void put_word(uint64_t word) {
    if (fwrite(&word, sizeof word, 1, stdout) != 1) fail("the answers cannot be written");
}

static void *room(size_t count, size_t size) {
    void *got = malloc(count > 0 ? count * size : 1);
    if (!got) fail("there is no memory");
    return got;
}

static void put_answer(shorgavel_page_answer p) {
    const shorgavel_refused *r = &p.refused;
    uint64_t words[] = {r->number,    r->mark,       r->page,  r->cell, r->column, p.head.kind, p.head.first_freeblock,
                        p.head.cells, p.head.content_start, p.head.fragmented, p.head.rightmost};
    for (size_t i = 0; i < sizeof words / sizeof *words; i++) put_word(words[i]);
}

static void put_entry(const shorgavel_cell_entry *e) {
    put_word(e->kind);
    put_word(e->pointer);
    put_word(e->child);
    put_word(e->payload_size);
    put_word((uint64_t)e->row);
    put_word(e->header_size);
    put_word(e->columns);
}

static void get_database(database *trucks) {
    uint64_t who, length;
    if (!get(&who, sizeof who) || !get(&length, sizeof length) || who >= TRUCKS) fail("a database is cut short");
    /* An allocation of its own, so that a read behind its end is one behind the allocation. */
    free(trucks[who].bytes);
    trucks[who] = (database){room(length, 1), length};
    if (!get(trucks[who].bytes, length)) fail("a database is cut short");
}

/* A table with places behind it that no call may touch; they are told with it. */
static shorgavel_cell_entry *get_table(shorgavel_cell_entry *table, uint64_t *places) {
    if (!get(places, sizeof *places)) fail("a table is cut short");
    free(table);
    table = room(*places + BEHIND, sizeof *table);
    for (size_t i = 0; i < *places + BEHIND; i++) table[i] = FILL;
    return table;
}

static void answer(const database *trucks, shorgavel_cell_entry *table, uint64_t places) {
    uint64_t asked[3];
    if (!get(asked, sizeof asked) || asked[0] >= TRUCKS || !table) fail("a question is cut short");
    const database *d = &trucks[asked[0]];
    put_answer(shorgavel_half_entries(d->bytes, d->length, (uint8_t)asked[1], (uint32_t)asked[2], (uint8_t)asked[0], table, places));
    for (size_t i = 0; i < places + BEHIND; i++) put_entry(&table[i]);
}

int main(void) {
    uint64_t what, places = 0;
    database trucks[TRUCKS] = {{room(0, 1), 0}, {room(0, 1), 0}};
    shorgavel_cell_entry *table = NULL;
    static char written[1 << 20];
    setvbuf(stdout, written, _IOFBF, sizeof written);
    while (get(&what, sizeof what)) {
        if (what == DATABASE)
            get_database(trucks);
        else if (what == TABLE)
            table = get_table(table, &places);
        else if (what == ASK)
            answer(trucks, table, places);
        else
            fail("no such word");
    }
    return fflush(stdout) == 0 ? 0 : 2;
}
