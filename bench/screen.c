/* screen single|screen old|file|guarded FILE PASSES: screens of forty values, PASSES times, by a call for each value or by one
 * call for a screen.
 *
 * A screen has the first four columns of ten rows that follow one another on a page. It prints how many screens and values there
 * were and what they were shown; with no pass, it does everything but the work that is counted. */
#include <stdbool.h>
#include <stdlib.h>
#include <string.h>

#include "shorgavel.h"
#include "shown.h"

enum { TABLE_LEAF = 13, ROWS = 10, COLUMNS = 4, VALUES = ROWS * COLUMNS };

typedef shorgavel_shown (*single)(const uint8_t *, size_t, uint32_t, size_t, size_t);

static void fail(const char *why) {
    fprintf(stderr, "screen: %s\n", why);
    exit(2);
}

static uint8_t named(const char *name) {
    if (strcmp(name, "old") == 0) return SHORGAVEL_OLD;
    if (strcmp(name, "file") == 0) return SHORGAVEL_FILE;
    if (strcmp(name, "guarded") != 0) fail("the readings are old, file and guarded");
    return SHORGAVEL_GUARDED;
}

static uint8_t *load(const char *name, size_t *length) {
    FILE *file = fopen(name, "rb");
    if (!file || fseek(file, 0, SEEK_END) != 0) fail("the file cannot be opened");
    *length = (size_t)ftell(file);
    uint8_t *db = malloc(*length + 1);
    rewind(file);
    if (!db || fread(db, 1, *length, file) != *length) fail("the file cannot be read");
    fclose(file);
    return db;
}

/* The addresses of all screens: on each table leaf as many as have ten rows. */
static size_t address_all(const uint8_t *db, size_t length, uint8_t reading, shorgavel_address **list) {
    size_t pages = shorgavel_pages(db, length, reading).present, screens = 0;
    uint32_t first = reading == SHORGAVEL_OLD ? 0 : 1;
    *list = NULL;
    for (size_t i = 0; i < pages; i++) {
        shorgavel_opening o = shorgavel_open(db, length, reading, first + (uint32_t)i);
        if (o.refused.number != 0 || o.opened.kind != TABLE_LEAF) continue;
        for (size_t row = 0; row + ROWS <= o.opened.cells; row += ROWS, screens++) {
            *list = realloc(*list, (screens + 1) * VALUES * sizeof **list);
            if (!*list) fail("there is no memory for the addresses");
            shorgavel_address *at = *list + screens * VALUES;
            for (size_t k = 0; k < VALUES; k++) at[k] = (shorgavel_address){first + (uint32_t)i, row + k / COLUMNS, k % COLUMNS};
        }
    }
    return screens;
}

static inline void show(shown *s, const uint8_t *db, const shorgavel_shown *a) {
    if (a->refused.number != 0) return;
    s->values++;
    switch (a->value.kind) {
    case SHORGAVEL_INTEGER: show_integer(s, a->value.integer); break;
    case SHORGAVEL_REAL: show_real(s, a->value.bits); break;
    case SHORGAVEL_TEXT:
    case SHORGAVEL_BLOB: show_bytes(s, db + a->value.at, a->value.len); break;
    }
}

static void by_single(shown *s, const uint8_t *db, size_t length, uint8_t reading, const shorgavel_address *at) {
    single call = reading == SHORGAVEL_OLD    ? shorgavel_old_value
                  : reading == SHORGAVEL_FILE ? shorgavel_file_value
                                              : shorgavel_guarded_value;
    shorgavel_shown answers[VALUES];
    for (size_t k = 0; k < VALUES; k++) answers[k] = call(db, length, at[k].page, at[k].cell, at[k].column);
    for (size_t k = 0; k < VALUES; k++) show(s, db, &answers[k]);
}

static void by_screen(shown *s, const uint8_t *db, size_t length, uint8_t reading, const shorgavel_address *at) {
    shorgavel_shown answers[VALUES];
    shorgavel_screen(db, length, reading, at, SHORGAVEL_ADDRESS_WORDS(VALUES), answers, SHORGAVEL_ANSWER_WORDS(VALUES));
    for (size_t k = 0; k < VALUES; k++) show(s, db, &answers[k]);
}

int main(int count, char **words) {
    if (count != 5) fail("the words are single or screen, a reading, a file and a number of passes");
    bool singly = strcmp(words[1], "single") == 0;
    uint8_t reading = named(words[2]);
    size_t length;
    uint8_t *db = load(words[3], &length);
    shorgavel_address *addresses;
    size_t screens = address_all(db, length, reading, &addresses);
    shown s = {0};
    for (int left = atoi(words[4]); left > 0; left--) {
        s = (shown){0};
        for (size_t i = 0; i < screens; i++) {
            if (singly) by_single(&s, db, length, reading, addresses + i * VALUES);
            else by_screen(&s, db, length, reading, addresses + i * VALUES);
        }
    }
    s.rows = screens * ROWS;
    print_shown(s);
    free(addresses);
    free(db);
    return 0;
}
