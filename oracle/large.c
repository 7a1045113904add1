/* large FILE N..: what the old reading shows of the pages N of a database, in the form of oracle/README.md.
 *
 * The file is mapped, not read, so that one of a gigabyte with few written pages costs neither time nor memory.
 */
#include <fcntl.h>
#include <inttypes.h>
#include <stdio.h>
#include <stdlib.h>
#include <sys/mman.h>
#include <sys/stat.h>
#include <unistd.h>

#include "shorgavel.h"

enum { OVER_LIMIT = 22, MOST_ALONE = 64, MOST_CELLS = 65535 };

static const uint8_t *db;
static size_t length;

static void fail(const char *what) {
    fprintf(stderr, "large: %s\n", what);
    exit(2);
}

static void map(const char *name) {
    struct stat about;
    int file = open(name, O_RDONLY);
    if (file < 0 || fstat(file, &about) != 0 || about.st_size == 0) fail("the file is not there, or has no bytes");
    length = (size_t)about.st_size;
    void *at = mmap(NULL, length, PROT_READ, MAP_PRIVATE, file, 0);
    if (at == MAP_FAILED) fail("the file cannot be mapped");
    db = at;
}

/* LINES */

static void print_refused(shorgavel_refused r) {
    printf(" refused %d %u %zu %zu %d\n", r.number, (unsigned)r.page, r.cell, r.column, r.mark);
}

static void print_hex(const char *mark, size_t at, size_t count) {
    printf("%s", mark);
    for (size_t i = 0; i < count; i++) printf("%02x", db[at + i]);
}

static void print_value(shorgavel_value v) {
    putchar(' ');
    switch (v.kind) {
    case SHORGAVEL_NULL: printf("null"); break;
    case SHORGAVEL_INTEGER: printf("i%d:%" PRId64, v.width, v.integer); break;
    case SHORGAVEL_REAL: printf("f64:%016" PRIx64, v.bits); break;
    case SHORGAVEL_TEXT: print_hex("text:", v.at, v.len); break;
    case SHORGAVEL_BLOB: print_hex("blob:", v.at, v.len); break;
    default: printf("unknown"); break;
    }
}

/* The values along the cell's cursor. One too few or too many is told by a word that the original does not say. */
static void print_along(shorgavel_cell c) {
    shorgavel_value v;
    for (size_t i = 0; i < c.columns; i++) {
        shorgavel_filled f = shorgavel_old_values(db, length, c.along, &v, SHORGAVEL_WORDS(1));
        if (f.count == 0) printf(" missing");
        if (f.count != 0) print_value(v);
        c.along = f.along;
    }
    if (shorgavel_old_values(db, length, c.along, &v, SHORGAVEL_WORDS(1)).count != 0) printf(" more");
    putchar('\n');
}

/* THE HEADER */

/* Answers its refusal's number. */
static int print_header(void) {
    shorgavel_header_answer h = shorgavel_header(db, length, SHORGAVEL_OLD);
    const shorgavel_fields *f = &h.fields;
    if (h.refused.number != 0) {
        printf("header refused %d\n", h.refused.number);
        return h.refused.number;
    }
    const uint32_t shown[] = {
        f->page_size, f->write_version, f->read_version, f->max_payload_fraction, f->min_payload_fraction,
        f->leaf_payload_fraction, f->file_change_counter, f->db_size, f->first_freelist_page_no,
        f->total_freelist_pages, f->schema_cookie, f->schema_format_no, f->default_page_cache_size,
        f->no_largest_root_b_tree, f->db_text_encoding, f->user_version, f->incremental_vacuum_mode,
        f->application_id, f->version_valid_for_no, f->sqlite_version_number,
    };
    printf("header");
    for (size_t i = 0; i < sizeof shown / sizeof *shown; i++) printf(" %" PRIu32, shown[i]);
    putchar('\n');
    return 0;
}

/* CELLS OF A REFUSED PAGE */

static size_t two_bytes(size_t at) { return (size_t)db[at] << 8 | db[at + 1]; }

static void print_alone(uint32_t page, size_t cell) {
    shorgavel_cell c = shorgavel_old_cell(db, length, page, cell);
    printf("alone %" PRIu32 " %zu", page, cell);
    if (c.refused.number != 0) {
        /* The call on a value has to say the same. */
        shorgavel_shown s = shorgavel_old_value(db, length, page, cell, 0);
        if (s.refused.number != c.refused.number) printf(" value");
        print_refused(c.refused);
        return;
    }
    printf(" %" PRId64 " %zu", c.row, c.columns);
    for (size_t i = 0; i < c.columns; i++) {
        shorgavel_shown s = shorgavel_old_value(db, length, page, cell, i);
        if (s.refused.number != 0) printf(" missing");
        if (s.refused.number == 0) print_value(s.value);
    }
    if (shorgavel_old_value(db, length, page, cell, c.columns).refused.number == 0) printf(" more");
    putchar('\n');
}

/* Which cells are asked for is read from the bytes, as a refused page has no head to tell it. The original's driver does so
 * too: the first 64 that do not begin before the pointers' end. */
static void print_all_alone(uint32_t page) {
    size_t field = two_bytes(16), size = field == 1 ? 65536 : field;
    size_t at = size * page, from = page == 0 ? 100 : 0;
    if (at + size > length || from + 5 > size) return;
    uint8_t kind = db[at + from];
    if (kind != 2 && kind != 5 && kind != 10 && kind != 13) return;
    size_t first = from + (kind < 10 ? 12 : 8);
    size_t count = two_bytes(at + from + 3), end = first + 2 * count;
    if (end > size) return;
    for (size_t i = 0; i < count && i < MOST_ALONE; i++) {
        if (two_bytes(at + first + 2 * i) >= end) print_alone(page, i);
    }
}

/* PAGES */

static void print_cell(uint32_t page, size_t cell, const shorgavel_cell_entry *e) {
    shorgavel_cell c = shorgavel_old_cell(db, length, page, cell);
    printf("cell %zu %d %" PRIu32 " %" PRIu32, cell, e->kind, e->pointer, e->child);
    printf(" %" PRIu64 " %" PRId64 " %" PRIu64 " %zu", e->payload_size, e->row, e->header_size, e->columns);
    if (c.refused.number != 0 || c.row != e->row || c.columns != e->columns) printf(" the cell's call differs");
    print_along(c);
}

static void print_page(uint32_t page) {
    static shorgavel_cell_entry table[MOST_CELLS];
    shorgavel_page_answer p = shorgavel_page(db, length, SHORGAVEL_OLD, page);
    shorgavel_page_answer e = shorgavel_entries(db, length, SHORGAVEL_OLD, page, table, MOST_CELLS);
    const shorgavel_head *h = &p.head;
    printf("page %" PRIu32, page);
    if (e.refused.number != p.refused.number || e.head.cells != h->cells) printf(" the entries' call differs");
    if (p.refused.number != 0) {
        print_refused(p.refused);
        print_all_alone(page);
        return;
    }
    printf(" %d %" PRIu32 " %zu", h->kind, h->first_freeblock, h->cells);
    printf(" %" PRIu32 " %" PRIu32 " %" PRIu32 "\n", h->content_start, h->fragmented, h->rightmost);
    for (size_t i = 0; i < h->cells; i++) print_cell(page, i, &table[i]);
}

int main(int count, char **words) {
    if (count < 2) fail("give a file and the numbers of pages");
    map(words[1]);
    printf("db 0 %zu\n", length);
    int refused = print_header();
    /* Over the limit, the calls on pages and cells have to refuse as well, so they are made. */
    if (refused != 0 && refused != OVER_LIMIT) return 0;
    for (int i = 2; i < count; i++) print_page((uint32_t)strtoul(words[i], NULL, 10));
    return 0;
}
