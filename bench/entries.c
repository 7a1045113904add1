/* entries old|file FILE PASSES: the page call on every page of a file, PASSES times, with room for the entries of all cells.
 *
 * It prints how many pages were accepted and how many entries they have; with no pass, it does everything but the work that
 * is counted. */
#include <stdio.h>
#include <stdlib.h>
#include <string.h>

#include "shorgavel.h"

/* No page has more cells. */
enum { ROOM = 65536 };

typedef struct {
    uint64_t pages;
    uint64_t entries;
} accepted;

static void fail(const char *why) {
    fprintf(stderr, "entries: %s\n", why);
    exit(2);
}

static uint8_t *load(const char *name, size_t *length) {
    FILE *file = fopen(name, "rb");
    if (!file || fseek(file, 0, SEEK_END) != 0) fail("the file cannot be opened");
    *length = (size_t)ftell(file);
    uint8_t *db = malloc(*length + 1);
    rewind(file);
    if (!db || fread(db, 1, *length, file) != *length) fail("the file cannot be read");
    fclose(file);
    return db;
}

static accepted pass(uint8_t reading, const uint8_t *db, size_t length, size_t pages, shorgavel_cell_entry *table) {
    uint32_t first = reading == SHORGAVEL_OLD ? 0 : 1;
    accepted a = {0, 0};
    for (size_t i = 0; i < pages; i++) {
        shorgavel_page_answer p = shorgavel_entries(db, length, reading, first + (uint32_t)i, table, ROOM);
        if (p.refused.number != 0) continue;
        a.pages++;
        a.entries += p.head.cells;
    }
    return a;
}

int main(int count, char **words) {
    if (count != 4) fail("the words are a reading, a file and a number of passes");
    uint8_t reading = strcmp(words[1], "old") == 0 ? SHORGAVEL_OLD : SHORGAVEL_FILE;
    size_t length;
    uint8_t *db = load(words[2], &length);
    shorgavel_pages_answer pages = shorgavel_pages(db, length, reading);
    if (pages.refused.number != 0) fail("the header is refused");
    shorgavel_cell_entry *table = calloc(ROOM, sizeof *table);
    if (!table) fail("there is no memory for the table");
    accepted a = {0, 0};
    for (int left = atoi(words[3]); left > 0; left--) a = pass(reading, db, length, pages.present, table);
    printf("%llu pages, %llu entries\n", (unsigned long long)a.pages, (unsigned long long)a.entries);
    free(table);
    free(db);
    return 0;
}
